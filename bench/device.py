#!/usr/bin/env python3
"""bench/device.py [FOLDER]: times a format, commits and a boot of a device in memory beside the same in plain C.

The program of bench/device is proved and built in FOLDER, over a copy of the crates, and what was proved there is used
again; without a word the folder is a temporary one. bench/README.md says how to read what is printed.
"""
import os
import shutil
import sys
import tempfile

from beside_c import build, instructions, nanoseconds, turns_of

USES = """object_sets kernel_model nv_base plain_text set_model fram_dev device_model task_set shadow_index device_format
commit_writer recovery""".split()
RUNS = 30
# about as many turns as are timed at once, of which a device passes the writes; and how many of them its log keeps
TURNS = 4300000
LOGGED = 20000
# how many rounds are timed up to their first turn
BEGINS = 20000
# more turns than a commit or a boot has
ALL = 100000
TAKES_TURNS = ("all", "one", "boot")
ROWS = [
    ("write", "writes alone", (1,), ("large",)),
    ("format", "format", (1, 2), ("large", "small")),
    ("all", "commit of all objects", (1, 2), ("large", "small")),
    ("one", "commit of one word", (1, 2), ("large", "small")),
    ("boot", "boot", (1, 2), ("large", "single", "small")),
]


def measure(programs, call, turns, left):
    """Of each program the nanoseconds of a turn."""
    rounds = max(1, LOGGED // turns)
    batches = TURNS // (turns * rounds)
    return nanoseconds(programs, [*call, batches, rounds, ALL], [*call, batches, rounds, left], RUNS)


def measure_begin(programs, call):
    """Of each program the nanoseconds of a round up to the end of its first turn."""
    return nanoseconds(programs, [*call, 1, BEGINS, 1], [*call, 1, 0, 1], RUNS)


def count_instructions(program, call, turns, left):
    """How many instructions a turn has."""
    rounds = max(1, LOGGED // turns)
    whole, first = (instructions(program, [*call, 1, rounds, most]) for most in (ALL, left))
    return (whole - first) / (rounds * (turns - left))


def show(programs, title, call):
    # a round is left after its first turn, or, where it has no turns of its own, before it
    left = 1 if call[0] in TAKES_TURNS else 0
    turns = turns_of(programs[0], [*call, 1, 1, ALL])
    each = measure(programs, call, turns, left)
    before = measure_begin(programs, call) if left else []
    row = f"{title + ',':23}format {call[1]}, {call[2] + ' set':10} {turns:6} {each[0]:7.2f} {each[1]:7.2f} {each[0] / each[1]:5.2f}"
    if shutil.which("valgrind"):
        row += "".join(f" {count_instructions(program, call, turns, left):6.1f}" for program in programs)
    print(row + "".join(f" {one:7.0f}" for one in before), flush=True)


def main():
    with tempfile.TemporaryDirectory() as room:
        folder = os.path.abspath(sys.argv[1]) if len(sys.argv) == 2 else room
        programs = build(folder, "device", USES, ["write", "1", "small", "0", "0", "0"])
        print("plain C and this program: nanoseconds of a turn, with the ratio; instructions of a turn, where valgrind is")
        print("installed; nanoseconds of a round up to the end of its first turn")
        for act, title, forms, sizes in ROWS:
            for form in forms:
                for size in sizes:
                    show(programs, title, [act, form, size])


main()
