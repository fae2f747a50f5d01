# What the other scripts of ./nvk share: messages, temporary folders, and commands that end with this one.

say() { echo "nvk: $*" >&2; }

# Ends where there is no program to run.
fail() {
    say "$@"
    exit 125
}

need_rt() { command -v rt >/dev/null || fail "the kit's command rt is not in PATH, and nothing is built without it"; }

room= # a folder for temporary files, where one was made
child= # the process that is waited for, where there is one

# Makes `room`, and has it removed however this shell ends.
make_room() {
    [ "$room" ] && return
    trap clear_room EXIT
    trap 'interrupted INT' INT
    trap 'interrupted TERM' TERM
    trap 'interrupted HUP' HUP
    room=$(mktemp -d) || fail "cannot make a temporary folder"
}

clear_room() {
    [ -z "$room" ] || rm -rf -- "$room"
    room=
}

# Ends what is waited for, removes what was begun, and then ends by the same signal, as whoever sent it expects.
interrupted() {
    trap '' INT TERM HUP
    if [ "$child" ]; then
        kill -TERM "$child" 2>/dev/null
        wait "$child"
    fi
    clear_room
    trap - EXIT "$1"
    kill -s "$1" $$
}

# Removes the folder before its shell ends or becomes the program.
leave_room() {
    clear_room
    trap - EXIT INT TERM HUP
}

# Runs a command and waits for it such that a signal is heeded at once: bash heeds none while a command in front runs.
attend() {
    "$@" <&0 &
    child=$!
    wait "$child"
    local status=$?
    child=
    return "$status"
}

# rt, in the folder of the program's crate; for attend, since it ends the shell that it is called in
rt_on_program() { cd "$root/crates/nv_cli" && exec rt "$@"; }
