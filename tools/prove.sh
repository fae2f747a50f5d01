# Proves and builds the program, unless another call or the gate has just done it.

made=$root/crates/nv_cli/out/nv_cli # where rt leaves the program
log=$root/out/nvk.log               # what rt said, where the program was not built

# Leaves the program current, or ends. One call builds, and the others wait for it.
build() {
    local lock
    make_room
    # (the folder itself is locked, so that no file stays behind)
    exec {lock}<"$root/crates" || fail "cannot read $root/crates"
    wait_for "$lock" "another call is building the program"
    if ! is_current; then
        take_from_gate || prove_and_build
    fi
    exec {lock}<&-
    leave_room
}

# Waits for the lock on an open file, and says why it has to.
wait_for() {
    flock -n "$1" && return
    say "$2; waiting for it"
    attend flock "$1" </dev/null || fail "cannot lock"
}

# Proves until the sources have not changed meanwhile, so that it is known what the program was built of.
prove_and_build() {
    local sources
    need_rt
    while sources=$(source_sum) && prove_crates && compile; do
        if [ "$sources" = "$(source_sum)" ]; then
            install_program "$sources"
            return
        fi
        say "a source was changed meanwhile, so once more"
    done
    tell_failure
}

# Puts the program in its place, with its record. Signals wait meanwhile, so nothing stays half done.
install_program() {
    trap '' INT TERM HUP
    mkdir -p "$root/out" && cp "$made" "$program.new" && echo "$1 $(sum <"$program.new")" >"$record.new" &&
        mv "$program.new" "$program" && mv "$record.new" "$record" || {
        rm -f "$program.new" "$record.new"
        fail "cannot write to $root/out"
    }
    rm -f "$log"
}

# As many checks at a time as there are processors, and 3 GB of free memory for each.
checks_at_once() {
    local what kilobytes free=3000000 processors most
    while read -r what kilobytes _; do
        [ "$what" = MemAvailable: ] && free=$kilobytes
    done </proc/meminfo
    processors=$(nproc)
    most=$((free / 3000000))
    echo $((most < 1 ? 1 : most < processors ? most : processors))
}

# Proves the program's crates, side by side where none waits for the other, and tells of each that is done.
prove_crates() {
    local number at_once
    number=$(crates_of_program | wc -l)
    at_once=$(checks_at_once)
    say "proving the program's $number crates first, $at_once at a time; the first time that takes a quarter of an hour or more"
    SECONDS=0
    mkfifo "$room/said"
    # (rt all takes the crate of its folder, and those that this one uses)
    rt_on_program all check --jobs "$at_once" </dev/null >"$room/said" 2>&1 &
    child=$!
    tell_progress "$number" <"$room/said"
    wait "$child"
    local status=$?
    child=
    rm "$room/said"
    return "$status"
}

# Keeps what rt says, and tells of each crate that it has done with: it writes `== NAME` and then what it found.
tell_progress() {
    local number=$1 finished=0 line status
    : >"$room/log"
    while :; do
        status=0
        IFS= read -r -t 60 line || status=$?
        if [ "$status" = 0 ]; then
            printf '%s\n' "$line" >>"$room/log"
            [[ $line == "== "* && $line != "== summary" ]] || continue
            finished=$((finished + 1))
            say "crate $finished of $number: ${line#== }, $(time_so_far)"
        elif [ "$status" -gt 128 ]; then
            # (a minute without a word)
            say "crate $((finished + 1)) of $number, $(time_so_far)"
        else
            return
        fi
    done
}

time_so_far() { printf '%d:%02d so far\n' $((SECONDS / 60)) $((SECONDS % 60)); }

# Has rt build the proved program by LLVM, which it also runs once.
compile() {
    say "building the program, $(time_so_far)"
    RT_BACKEND='' attend rt_on_program run -- run <"$root/examples/add_once.nvk" >>"$room/log" 2>&1
}

# Keeps all that was said, and shows the last of it that is no routine.
tell_failure() {
    local line
    while IFS= read -r line; do
        case $line in
        'statements '* | 'library '* | 'logic'* | 'crate '* | 'by-macro'* | 'note: '* | *': proved' | *': ok') ;;
        *) printf '%s\n' "$line" ;;
        esac
    done <"$room/log" | tail -n 20 >&2
    mkdir -p "$root/out" && mv "$room/log" "$log" || fail "the program was not built"
    fail "the program was not built; $log has all that was said"
}

# Takes the program that `rt ci` has left, if it was built of the sources as they are. No rt may be at work on it meanwhile.
take_from_gate() {
    local at_work status=0 sources
    exec {at_work}<"$root/crates/nv_cli" || return
    wait_for "$at_work" "rt is at work on these crates"
    sources=$(source_sum)
    if is_of_gate; then
        say "taking the program that rt ci has proved and built"
        install_program "$sources"
    else
        status=1
    fi
    exec {at_work}<&-
    return "$status"
}

# Whether what rt has left is of the gate, and nothing was changed since that began. The gate writes no sums, but it begins
# with the out/ of every crate made anew: what was last changed before the first of them was made is what it has read. That
# is the time of a change of status, which no tool sets back; a mere touch sets it too, and the proof is then made again.
is_of_gate() {
    local began=0 changed=0
    # (only rt ci leaves the second of these, by Rattle's own compiler, and only rt run the third)
    [ -x "$made" ] && [ -e "$made.by-rattle" ] && [ ! -e "$made.stamp" ] || return
    read -r began changed < <(times_of_gate)
    [[ $began =~ ^[1-9][0-9]+$ && $changed =~ ^[1-9][0-9]+$ ]] && [ "$changed" -lt "$began" ]
}

# Prints when the first out/ was made, and when a source or a proof was last changed, in nanoseconds. Nothing is printed where
# a crate has no out/. The folders count too, since a file or a crate that is gone or came from elsewhere changes them.
times_of_gate() (
    set -o pipefail
    shopt -s globstar nullglob
    cd "$root" || exit
    outs=()
    files=(crates crates.txt)
    while IFS=: read -r name _; do
        outs+=("crates/$name/out")
        files+=("crates/$name"/{src,specs,proofs}/**)
    done < <(crates_of_program)
    began=$(stat -c %.9W -- "${outs[@]}" 2>/dev/null | sort -n | head -n 1) || exit
    changed=$(stat -c %.9Z -- "${files[@]}" | sort -n | tail -n 1) || exit
    echo "${began//./} ${changed//./}"
)
