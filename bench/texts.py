#!/usr/bin/env python3
"""bench/texts.py: times `asm`, `pack`, `dis` and the reading of scripts on inputs of growing size, process start included.

Each time is the least of several runs. Where an assembler of GNU for RISC-V is installed, it assembles the same text.
bench/README.md says how to read what is printed.
"""
import os
import shutil
import subprocess
import sys
import tempfile
import time

ROOT = os.path.dirname(os.path.dirname(os.path.abspath(__file__)))
PROGRAM = os.path.join(ROOT, "out", "nvk")
RUNS = 7
MOST = 1048576
GNU = ["riscv64-unknown-elf-as", "riscv64-linux-gnu-as", "riscv32-unknown-elf-as"]


def once(words, text):
    begun = time.perf_counter()
    ran = subprocess.run(words, input=text, stdout=subprocess.PIPE)
    return time.perf_counter() - begun, ran


def least(words, text, status=0):
    times = []
    for _ in range(RUNS):
        seconds, ran = once(words, text)
        if ran.returncode != status:
            sys.exit(f"{words} ended with {ran.returncode}: {ran.stdout[:80]}")
        times.append(seconds)
    return min(times), ran.stdout


def show(title, text, seconds):
    print(f"{title:44} {len(text):9} bytes {seconds * 1e3:9.2f} ms {len(text) / seconds / 1e6:8.1f} MB/s")


def grow(title, word, make):
    for size in (MOST // 4, MOST // 2, MOST):
        text = make(size)
        show(title, text, least([PROGRAM, word], text)[0])


def commented(size):
    """1,024 instructions, each behind a label and before a comment that fills the text."""
    lines = size // 1024
    return b"".join((b"l%d: addi a0, a0, 1 #" % n).ljust(lines - 1, b".") + b"\n" for n in range(1024))


def empty_lines(size):
    return b"\n" * size


def labels(size):
    """As many labels as there is room for, each alone on its line."""
    text = b"".join(b"l%d:\n" % n for n in range(size // 6))
    return text[: text.rfind(b"\n", 0, size) + 1]


HEAD = b"nvk 1\ncores 1\nmemory 65536\nrecords 256\nobject x 1 2\n"


def stepped(size):
    """A script most of which is one line of steps."""
    tail = b"\nrun\n"
    room = size - len(HEAD) - len(b"program p 1\nend\nsteps") - len(tail)
    return HEAD + b"program p 1\nend\nsteps" + b" 0" * (room // 2) + tail


def in_a_block(size):
    """A script most of which is a block of labels."""
    body = labels(size - 100)
    return HEAD + b"program p 1\n" + body + b"end\nrun\n"


def largest():
    """The longest set: 64 objects of 64 words, 16 programs of 1,024 words, 256 tasks."""
    name = b"n%02d_34567890123"
    values = b" 4294967295" * 64
    objects = b"".join(b"object " + name % n + b" 64 8" + values + b"\n" for n in range(64))
    code = b"sltiu zero, zero, -2048\n" * 1024
    programs = b"".join(b"program " + name % n + b" 1000000\n" + code + b"end\n" for n in range(16))
    tasks = b"".join(b"task " + name % 15 + b" 4294967295\n" for _ in range(256))
    return b"nvk 1\ncores 8\nmemory 65536\nrecords 256\n" + objects + programs + tasks + b"run\n"


def gnu(text):
    found = next((name for name in GNU if shutil.which(name)), None)
    if not found:
        print("no assembler of GNU for RISC-V is installed: asm stands alone")
        return
    with tempfile.TemporaryDirectory() as room:
        out = os.path.join(room, "out")
        show(found, text, least([found, "-march=rv32i", "-mabi=ilp32", "-o", out, "-"], text)[0])


def main():
    with open(os.path.join(ROOT, "examples", "add_once.nvk"), "rb") as script:
        # the launcher's first run builds the program
        subprocess.run([os.path.join(ROOT, "nvk"), "run"], stdin=script, stdout=subprocess.DEVNULL, check=True)
    grow("asm, 1,024 instructions with comments", "asm", commented)
    gnu(commented(MOST))
    grow("asm, empty lines", "asm", empty_lines)
    grow("asm, labels", "asm", labels)
    grow("pack, one line of steps", "pack", stepped)
    grow("pack, one block of labels", "pack", in_a_block)
    script = largest()
    seconds, packed = least([PROGRAM, "pack"], script)
    show("pack, the largest set", script, seconds)
    seconds, text = least([PROGRAM, "dis"], packed)
    show("dis, the largest set", packed, seconds)
    if text != script:
        sys.exit("dis of pack is not the script")


main()
