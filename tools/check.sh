# Says of a script whether it is accepted, and of one that is refused, where, why and what to do.

# Prints the second cell of the row of a page's tables whose first cell is this word in backquotes.
second_cell() {
    local page=$1 word=$2 first second
    while IFS='|' read -r _ first second _; do
        first=${first# } second=${second# }
        if [ "${first% }" = "\`$word\`" ]; then
            echo "${second% }"
            return
        fi
    done <"$root/$page"
}

# Says what the pages have on a cause: when it comes, and what to do about it.
advise() {
    local page=$1 cause=$2
    {
        echo "  why: $(second_cell "$page" "${cause#code }")"
        echo "  what to do: $(second_cell docs/trouble.md "$cause")"
        echo "  see $page, Refusals, and docs/trouble.md"
    } >&2
}

# Prints a line of a script, as far as it is wanted. Anything may stand there, so only printable bytes reach the terminal.
line_of() { tail -n "+$2" "$1" | head -n 1 | head -c 200 | cat -v; }

# Tells of the answer `error script LINE CAUSE` to a script.
explain() {
    local name=$1 script=$2 line=$3 cause=$4 page=docs/script.md text
    echo "$name:$line: refused: $cause" >&2
    # (line 0 is the whole input)
    if [ "$line" != 0 ]; then
        text=$(line_of "$script" "$line")
        echo "    ${text:-(here the input ends)}" >&2
    fi
    [[ $cause == code\ * ]] && page=docs/assembler.md
    advise "$page" "$cause"
}

# Checks the standard input, which is called NAME in what is said. Returns the program's own status.
check_script() {
    local name=$1 status=0 line cause
    make_room
    # `pack` reads a script whole, and answers each refusal as `run` does. No input may have more bytes than these.
    attend head -c 1048577 >"$room/script" || {
        echo "error read"
        exit 4
    }
    answer pack <"$room/script" >"$room/answer" || status=$?
    [ "$status" != 5 ] || fail "no room for temporary files"
    if [ "$status" = 0 ]; then
        echo "$name: accepted"
        tell_if_too_large "$room/script"
    else
        cat "$room/answer"
        read -r _ _ line cause <"$room/answer"
        [ "$status" = 3 ] && explain "$name" "$room/script" "$line" "$cause"
    fi
    return "$status"
}

# The set of an accepted script may need more words than the device of `run` has, which is no fault of the script.
tell_if_too_large() {
    local status=0
    answer run <"$1" >/dev/null || status=$?
    [ "$status" = 9 ] && say "its set needs more words than a device has: \`run\` answers it by error small (docs/manual.md, Answers)"
}
