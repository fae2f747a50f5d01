#!/usr/bin/env python3
"""bench/yardstick.py [FOLDER]: times the proved program beside a plain C machine on the same scripts.

FOLDER has nvk.c, the machine, and compare.py, which runs both in turn; without a word it is ../shared/yardstick
beside the repository, and where that is missing nothing is timed. bench/README.md says how to read what is printed.
"""
import os
import subprocess
import sys
import tempfile

ROOT = os.path.dirname(os.path.dirname(os.path.abspath(__file__)))


def main():
    beside = os.path.join(os.path.dirname(ROOT), "shared", "yardstick")
    folder = sys.argv[1] if len(sys.argv) == 2 else beside
    if not os.path.exists(os.path.join(folder, "compare.py")):
        print(f"no yardstick in {folder}: nothing is timed")
        return
    # the launcher's first run builds the program
    with open(os.path.join(ROOT, "examples", "add_once.nvk"), "rb") as script:
        subprocess.run([os.path.join(ROOT, "nvk"), "run"], stdin=script, stdout=subprocess.DEVNULL, check=True)
    with tempfile.TemporaryDirectory() as room:
        plain = os.path.join(room, "plain")
        subprocess.run(["cc", "-O2", "-o", plain, os.path.join(folder, "nvk.c")], check=True)
        compare = os.path.join(folder, "compare.py")
        subprocess.run([sys.executable, compare, plain, os.path.join(ROOT, "out", "nvk")], check=True)


main()
