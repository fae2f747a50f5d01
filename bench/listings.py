#!/usr/bin/env python3
"""bench/listings.py [FOLDER]: times the making of up to 1,000,000 finishes, and their serial replay, by calls of the library.

The program of bench/listings is proved and built in FOLDER, over a copy of the crates, and what was proved there is used
again; without a word the folder is a temporary one. bench/README.md says how to read what is printed.
"""
import os
import subprocess
import sys
import tempfile

from beside_c import prove, spent

USES = "object_sets kernel_model plain_text nv_base rv_isa rv_core set_model task_set task_model".split()
RUNS = 7
COUNTS = (250000, 500000, 1000000)
ACTS = [
    ("replay", "replayed in the order of their numbers"),
    ("last", "replayed, the last chain first"),
]


def least(program, act, tasks, count):
    """The least processor time of a call, which has to come to so many finishes and to the last point."""
    times = []
    for _ in range(RUNS):
        begun = spent()
        ran = subprocess.run([program, act, str(tasks), str(count)], stdout=subprocess.PIPE)
        times.append(spent() - begun)
        if ran.returncode != 0 or ran.stdout.split() != [b"%d" % count] * 2:
            sys.exit(f"{act} of {count} finishes ended with {ran.returncode}: {ran.stdout}")
    return min(times)


def show(title, tasks, count, seconds):
    print(f"{title:40} {tasks:5} open tasks {count:8} {seconds * 1e3:8.1f} ms {seconds / count * 1e9:6.0f} ns each", flush=True)


def main():
    with tempfile.TemporaryDirectory() as room:
        folder = os.path.abspath(sys.argv[1]) if len(sys.argv) == 2 else room
        program = prove(folder, "listings", USES, ["replay", "10", "1000"])
        for tasks in (1, 1000):
            for count in COUNTS:
                made = least(program, "make", tasks, count)
                show("made", tasks, count, made)
                for act, title in ACTS:
                    show(title, tasks, count, least(program, act, tasks, count) - made)


main()
