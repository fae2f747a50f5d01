# The program's answer from the kit's checked build, which proves nothing and stops at a fault.

# Answers the words and the standard input as the program does, and returns its status.
try_program() {
    need_rt
    make_room
    # rt waits two seconds for an input that is slow. The program takes no more bytes than these.
    attend head -c 1048577 >"$room/input" || {
        echo "error read"
        exit 4
    }
    say "building without proofs, which takes about a minute"
    local status=0
    attend rt_on_program try -- "$@" <"$room/input" 2>"$room/said" || status=$?
    # The statuses of rt itself are the same numbers as the program's, so its last line tells whether the program ended.
    if [[ $(tail -n 1 "$room/said") != run=ended* ]]; then
        cat "$room/said" >&2
        fail "the checked build gave no answer"
    fi
    tell_rest
    say "nothing of this answer was proved; without the word try it comes from the proved program"
    return "$status"
}

# Hands on what was said beside rt's own lines on the two runs that it makes.
tell_rest() {
    local line
    while IFS= read -r line; do
        case $line in
        'interpreter: '* | 'checked: '* | 'run='*) ;;
        *) printf '%s\n' "$line" >&2 ;;
        esac
    done <"$room/said"
}
