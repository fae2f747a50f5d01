"""Proves and builds a program of the bench over a copy of the crates, and times it beside the same in plain C."""
import os
import re
import resource
import shutil
import subprocess
import sys

ROOT = os.path.dirname(os.path.dirname(os.path.abspath(__file__)))


def copy(source, target, suffix=""):
    """Copies the parts of a crate, without the suffix of each file's name."""
    for part in ("src", "specs", "proofs"):
        shutil.rmtree(os.path.join(target, part), ignore_errors=True)
        for at, _, files in os.walk(os.path.join(source, part)):
            to = os.path.join(target, os.path.relpath(at, source))
            os.makedirs(to, exist_ok=True)
            for file in files:
                shutil.copyfile(os.path.join(at, file), os.path.join(to, file.removesuffix(suffix)))


def copy_crates(folder, name, uses):
    """The crates that a program uses, and its own, whose files are .txt here: the repository's checks read none of them."""
    with open(os.path.join(ROOT, "crates.txt")) as text:
        lines = [line.strip() for line in text if line.split(":")[0] in uses]
    for crate in uses:
        copy(os.path.join(ROOT, "crates", crate), os.path.join(folder, "crates", crate))
    copy(os.path.join(ROOT, "bench", name), os.path.join(folder, "crates", name + "_bench"), ".txt")
    with open(os.path.join(folder, "crates.txt"), "w") as text:
        text.write("\n".join(lines + [f"{name}_bench: {' '.join(uses)}"]) + "\n")
    shutil.copyfile(os.path.join(ROOT, "HANDLES"), os.path.join(folder, "HANDLES"))


def build(folder, name, uses, words):
    """Both programs, the plain one first; with these words the other one has little to do."""
    os.makedirs(folder, exist_ok=True)
    plain = os.path.join(folder, "plain")
    subprocess.run(["cc", "-O2", "-o", plain, os.path.join(ROOT, "bench", name + ".c")], check=True)
    return [plain, prove(folder, name, uses, words)]


def prove(folder, name, uses, words):
    """The program of the bench, proved and built; with these words it has little to do."""
    os.makedirs(folder, exist_ok=True)
    copy_crates(folder, name, uses)
    crate = os.path.join(folder, "crates", name + "_bench")
    print("proving and building the program, which takes long the first time", flush=True)
    by_llvm = {**os.environ, "RT_BACKEND": ""}
    with open(os.path.join(folder, "log"), "w") as log:
        ran = subprocess.run(["rt", "run", "--", *words], cwd=crate, env=by_llvm, stdin=subprocess.DEVNULL, stdout=log, stderr=log)
    if ran.returncode != 0:
        with open(os.path.join(folder, "log")) as log:
            sys.exit("the program was not built:\n" + log.read()[-3000:])
    return os.path.join(crate, "out", name + "_bench")


def spent():
    """The processor time of all programs that have ended, in seconds: a busy machine disturbs it little."""
    used = resource.getrusage(resource.RUSAGE_CHILDREN)
    return used.ru_utime + used.ru_stime


def times(programs, calls, runs):
    """By call and program the least processor time, all run in turn, and by call the turns that both programs tell."""
    least = [[float("inf")] * len(programs) for _ in calls]
    told = [set() for _ in calls]
    for _ in range(runs):
        for at, call in enumerate(calls):
            for number, program in enumerate(programs):
                begun = spent()
                ran = subprocess.run([program, *map(str, call)], stdout=subprocess.PIPE, check=True)
                least[at][number] = min(least[at][number], spent() - begun)
                told[at].add(ran.stdout)
    for call, said in zip(calls, told):
        if len(said) != 1:
            sys.exit(f"the programs differ at {call}: {said}")
    return least, [int(said.pop().split()[0]) for said in told]


def nanoseconds(programs, long, short, runs):
    """Of each program the nanoseconds of a turn that one call has more than another."""
    (longs, shorts), (more, fewer) = times(programs, [long, short], runs)
    return [(one - other) / (more - fewer) * 1e9 for one, other in zip(longs, shorts)]


def turns_of(program, call):
    """How many turns a call makes."""
    ran = subprocess.run([program, *map(str, call)], stdout=subprocess.PIPE, check=True)
    return int(ran.stdout.split()[0])


def instructions(program, words):
    """How many instructions a call takes."""
    counted = ["valgrind", "--tool=callgrind", "--callgrind-out-file=/dev/null", program, *map(str, words)]
    ran = subprocess.run(counted, stdout=subprocess.DEVNULL, stderr=subprocess.PIPE, text=True, check=True)
    return int(re.search(r"Collected : (\d+)", ran.stderr)[1])
