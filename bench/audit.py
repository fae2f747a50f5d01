#!/usr/bin/env python3
"""bench/audit.py [PROGRAM]: times `audit` and `serial` on listings of growing length, process start included.

PROGRAM is out/nvk where no other is named. Each time is the least of several runs, in processor time. A report that `serial`
may give is compared with what it gives. bench/README.md says how to read what is printed.
"""
import os
import random
import resource
import subprocess
import sys

ROOT = os.path.dirname(os.path.dirname(os.path.abspath(__file__)))
RUNS = 15
MOST_INPUT = 1048576
MOST_SERIAL = 10000
CHAINS = 1000
SHUFFLED = 7  # the seed of the shuffled order

# a task that adds 1 to x and starts the next one
CODE = b"""program add 100
  li a0, 0
  li a1, 512
  li a7, 1
  ecall
  lw t0, 512(zero)
  addi t0, t0, 1
  sw t0, 512(zero)
  li a7, 2
  ecall
  li a1, 0
  li a7, 3
  ecall
  li a0, 0
  li a7, 4
  ecall
end
"""


def script(tasks):
    """So many tasks are open at first, and after each finish."""
    head = b"nvk 2\ncores 1\nmemory 1024\nrecords 1024\nobject x 1 2\n"
    return head + CODE + b"task add 0\n" * tasks + b"run\n"


def report(tasks, points):
    """The report of as many finishes as there are points. Task T has finish T, so finishes and children come in one order."""
    count = len(points)
    lines = [b"finish %d task %d point %d exit 0 first %d\n" % (n, n, p, tasks + n) for n, p in enumerate(points, 1)]
    lines.append(b"end clock %d number %d next %d boots 0\n" % (max(points), count, tasks + count + 1))
    lines.append(b"object x %d\n" % count)
    lines += [b"open %d add 0\n" % task for task in range(count + 1, count + tasks + 1)]
    return b"".join(lines) + b"done\n"


def in_order(count):
    return list(range(1, count + 1))


def last_chain_first(count):
    """Of tasks that start one another in turn the last chain comes first: the order of the points has no front in common with
    that of the numbers."""
    order = sorted(range(count), key=lambda place: (-(place % CHAINS), place))
    return placed(order)


def shuffled(count):
    """Any chain comes next, each with its finishes in their order."""
    chains = [place % CHAINS for place in range(count)]
    random.Random(SHUFFLED).shuffle(chains)
    met = [0] * CHAINS
    order = []
    for chain in chains:
        order.append(met[chain] * CHAINS + chain)
        met[chain] += 1
    return placed(order)


def placed(order):
    """The point of each finish, where their serial order is this one."""
    points = [0] * len(order)
    for point, place in enumerate(order, 1):
        points[place] = point
    return points


def spent():
    used = resource.getrusage(resource.RUSAGE_CHILDREN)
    return used.ru_utime + used.ru_stime


def least(program, words, text, wanted=None):
    """The least time of a call, and its output."""
    times = []
    for _ in range(RUNS):
        begun = spent()
        ran = subprocess.run([program, *words], input=text, stdout=subprocess.PIPE)
        times.append(spent() - begun)
        if ran.returncode != 0 or wanted not in (None, ran.stdout):
            sys.exit(f"{words} ended with {ran.returncode}: {ran.stdout[:80]}")
    return min(times), ran.stdout


def show(title, count, text, seconds):
    print(f"{title:44} {count:6} finishes {len(text):8} bytes {seconds * 1e3:8.2f} ms {seconds / count * 1e9:6.0f} ns each", flush=True)


def most_finishes(tasks, size):
    """How many finishes have room in an input of this size, beside the script."""
    low, high = 0, size
    while low + 1 < high:
        count = (low + high) // 2
        low, high = (count, high) if len(script(tasks) + report(tasks, in_order(count))) <= size else (low, count)
    return low


def grow(program, title, tasks, points):
    for size in (MOST_INPUT // 4, MOST_INPUT // 2, MOST_INPUT):
        # (whole rounds, so that each chain has as many finishes)
        count = most_finishes(tasks, size) // tasks * tasks
        text = script(tasks) + report(tasks, points(count))
        show(title, count, text, least(program, ["audit"], text, b"agreed %d\n" % count)[0])


def main():
    program = os.path.abspath(sys.argv[1]) if len(sys.argv) > 1 else os.path.join(ROOT, "out", "nvk")
    for tasks in (1, CHAINS):
        for count in (MOST_SERIAL // 4, MOST_SERIAL // 2, MOST_SERIAL):
            text = script(tasks)
            title = f"serial, {tasks} open task{'s' if tasks > 1 else ''}"
            show(title, count, text, least(program, ["serial", str(count)], text, report(tasks, in_order(count)))[0])
    grow(program, "audit, 1 open task, in serial order", 1, in_order)
    grow(program, f"audit, {CHAINS} open tasks, in serial order", CHAINS, in_order)
    grow(program, f"audit, {CHAINS} open tasks, the last first", CHAINS, last_chain_first)
    grow(program, f"audit, {CHAINS} open tasks, shuffled", CHAINS, shuffled)


main()
