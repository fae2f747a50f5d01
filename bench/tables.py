#!/usr/bin/env python3
"""bench/tables.py [FOLDER]: times turns of a running attempt, outside reads and verdicts beside the same in plain C.

The program of bench/tables is proved and built in FOLDER, over a copy of the crates, and what was proved there is used
again; without a word the folder is a temporary one. bench/README.md says how to read what is printed.
"""
import os
import shutil
import sys
import tempfile

from beside_c import build, instructions, nanoseconds, turns_of

USES = """object_sets kernel_model slot_model nv_base plain_text interval rv_isa rv_core set_model fram_dev device_model task_set
shadow_index task_queue table_machine ver_table task_model vol_copy validate committed_state""".split()
RUNS = 15
# (act, title, rounds in a batch, batches, rounds where instructions are counted)
ROWS = [
    ("turn", "a turn of an instruction", 50000, 10, 2000),
    ("read", "an outside read", 500000, 10, 8000),
    ("one", "a verdict, one object written", 200000, 5, 3200),
    ("two", "a verdict, two objects written", 200000, 5, 3200),
]


def count_instructions(program, act, objects, rounds):
    """How many instructions a turn or a round has."""
    long, short = [act, objects, 1, rounds], [act, objects, 1, 0]
    more = turns_of(program, long) - turns_of(program, short)
    return (instructions(program, long) - instructions(program, short)) / more


def show(programs, row, objects):
    act, title, rounds, batches, counted = row
    each = nanoseconds(programs, [act, objects, batches, rounds], [act, objects, batches, 0], RUNS)
    line = f"{title + ',':31} {objects:2} objects {each[0]:7.2f} {each[1]:7.2f} {each[0] / each[1]:5.2f}"
    if shutil.which("valgrind"):
        line += "".join(f" {count_instructions(program, act, objects, counted):7.1f}" for program in programs)
    print(line, flush=True)


def main():
    with tempfile.TemporaryDirectory() as room:
        folder = os.path.abspath(sys.argv[1]) if len(sys.argv) == 2 else room
        programs = build(folder, "tables", USES, ["read", "3", "0", "0"])
        print("plain C and this program: nanoseconds of a turn, a read or a verdict, with the ratio; instructions of each,")
        print("where valgrind is installed")
        for row in ROWS:
            for objects in (64, 3):
                show(programs, row, objects)


main()
