#!/usr/bin/env python3
"""Refuses each allocation of a call in turn, and looks at what the program answers and leaves.

    bench/allocations.py [PROGRAM]

PROGRAM is out/nvk where no other is named. With an allocation refused each call must end with 6, tell `error memory` alone, and
leave the device in its file as it was, of zeros where there was no file; or end as it does where none is refused, since what asked
for that memory does without. Ends with 1 where one does not."""
import os
import subprocess
import sys
import tempfile
from pathlib import Path

ROOT = Path(__file__).resolve().parent.parent
EXAMPLES = ROOT / "examples"
CHAIN = EXAMPLES / "chain"
ZEROS = bytes(262144)
MOST = 10000


class Bench:
    """A program, and a folder with what refuses its allocations."""

    def __init__(self, program, room):
        self.program, self.room = program, Path(room)
        self.device, self.mark = self.room / "device", self.room / "refused"
        self.refuser = self.room / "refuse.so"
        source = ROOT / "bench/refuse.c"
        subprocess.run(["cc", "-O2", "-shared", "-fPIC", "-fno-builtin", "-o", self.refuser, source], check=True)

    def ends(self, words, text, refused=0):
        """How a call ends: its status, its output and what it tells."""
        self.mark.unlink(missing_ok=True)
        env = dict(os.environ, LD_PRELOAD=str(self.refuser), REFUSE=str(refused), REFUSED=str(self.mark)) if refused else None
        done = subprocess.run([self.program, *words], input=text, capture_output=True, env=env, timeout=120)
        return done.returncode, done.stdout, done.stderr

    def lay(self, before):
        """Puts a device in place, or none."""
        self.device.unlink(missing_ok=True)
        if before is not None:
            self.device.write_bytes(before)

    def stands(self):
        return self.device.read_bytes() if self.device.exists() else None

    def refuse(self, name, words, text, before):
        """Refuses each allocation of a call; prints how many there are, and what is not as it has to be."""
        self.lay(before)
        whole = self.ends(words, text), self.stands()
        early = (6, b"", b"error memory\n"), before
        kept = ZEROS if before is None and "--image" in words else before
        refused = (6, b"error memory\n", b""), kept
        counts = {"early": 0, "refused": 0, "spared": 0, "wrong": 0}
        for number in range(1, MOST):
            self.lay(before)
            ended = self.ends(words, text, number), self.stands()
            if not self.mark.exists():
                break
            kinds = [kind for kind, right in (("early", early), ("refused", refused), ("spared", whole)) if ended == right]
            counts[(kinds or ["wrong"])[0]] += 1
            if not kinds:
                print(f"{name}: with allocation {number} refused it ends so: {ended[0]}")
        print(f"{name}: {sum(counts.values())} allocations:", ", ".join(f"{count} {kind}" for kind, count in counts.items()))
        return counts["wrong"]


def main():
    program = Path(sys.argv[1] if len(sys.argv) > 1 else ROOT / "out/nvk").resolve()
    with tempfile.TemporaryDirectory() as room:
        bench = Bench(program, room)
        image = ["--image", str(bench.device)]

        def leaves(word, script, before):
            bench.lay(before)
            bench.ends([*image, word], script.read_bytes())
            return bench.stands()

        add_once, forty = EXAMPLES / "add_once.nvk", EXAMPLES / "forty_failures.nvk"
        pipeline = EXAMPLES / "pipeline.nvk"
        first, second, third = sorted(CHAIN.glob("*.nvk"))
        begun = leaves("run", first, None)
        then = leaves("resume", second, begun)
        packed = bench.ends(["pack"], add_once.read_bytes())[1]
        rows = [
            ("run, add_once", ["run"], add_once.read_bytes(), None),
            ("run, forty_failures", ["run"], forty.read_bytes(), None),
            ("run on a device in a file, forty_failures", [*image, "run"], forty.read_bytes(), then),
            ("run with no file yet, add_once", [*image, "run"], add_once.read_bytes(), None),
            ("resume, chain/2_resume", [*image, "resume"], second.read_bytes(), begun),
            ("resume with a migration, chain/3_resume", [*image, "resume"], third.read_bytes(), then),
            ("asm", ["asm"], b"loop: addi a0, a0, -1\nbnez a0, loop\n", None),
            ("pack, add_once", ["pack"], add_once.read_bytes(), None),
            ("dis of it", ["dis"], packed, None),
            ("serial 9, pipeline", ["serial", "9"], pipeline.read_bytes(), None),
            ("audit, pipeline", ["audit"], pipeline.read_bytes() + pipeline.with_suffix(".report").read_bytes(), None),
        ]
        return 1 if sum(bench.refuse(*row) for row in rows) else 0


sys.exit(main())
