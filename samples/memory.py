#!/usr/bin/env python3
"""Refuses the program each of its allocations in turn, and sees how it ends: where memory runs out it ends with status
5 and has written nothing; else what it writes is right.

    python3 samples/memory.py PROGRAM

where PROGRAM is `dstm`, as `rt run` builds it at crates/dstm/out/dstm. It needs gcc, for memory.c. It writes each case
that differs, and for each command how its runs ended.
"""

import os
import subprocess
import sys
import tempfile
from collections import Counter
from pathlib import Path

WITHOUT_MEMORY = (5, "", "dstm: out of memory\n")

# A workload of each version: all operations, keys for which no node is free, a job that waits, one that is given up.
DECLARED = "workers {workers}\nbank 3 100\nlist 3\ntree 3\n"
VERSIONS = [
    "dstm 1\n" + DECLARED + "tx 0 transfer 0 1 30 ; transfer 0 1 80 ; total\ntx 0 insert list 5 ; insert list 7\n"
    "tx 0 insert tree 9 ; insert tree 8 ; insert tree 7 ; insert tree 6\ntx {last} remove list 5 ; member list 5\n"
    "tx {last} remove tree 9 ; member tree 8 ; balance 1\n",
    "dstm 2\n" + DECLARED + "tx 0 put 9 4 ; put 9 5 ; get 9\ntx 0 transfer 2 1 100 ; insert list 1\n"
    "tx {last} get 8 ; put 8 1\ntx {last} remove tree 9 ; total\n",
    "dstm 3\n" + DECLARED + "tx 0 await balance 1 150 ; transfer 1 0 150\ntx {last} transfer 0 1 60\n"
    "tx {last} await list 7 ; remove list 7 orelse insert list 7\ntx {last} await tree 4 ; total\n",
]

WAYS = [
    "--engine tl2",
    "--manager polite",
    "--manager karma --all-write",
    "--manager polka --release",
    "--manager greedy",
]


class Trial:
    """Runs the program with one allocation after the other refused."""

    def __init__(self, program, folder):
        self.program, self.refuser, self.told = program, folder / "memory.so", folder / "told"
        source = Path(__file__).with_name("memory.c")
        subprocess.run(["gcc", "-O2", "-shared", "-fPIC", str(source), "-o", str(self.refuser)], check=True)
        self.tried = 0
        self.differ = 0

    def call(self, words, text, refuse=0):
        """How a run ends in which this allocation is refused, and whether it came to that."""
        self.told.unlink(missing_ok=True)
        settings = {**os.environ, "LD_PRELOAD": self.refuser, "REFUSE": str(refuse), "TOLD": self.told}
        ran = subprocess.run([self.program, *words], input=text, capture_output=True, text=True, env=settings)
        return (ran.returncode, ran.stdout, ran.stderr), self.told.exists()

    def refuse_each(self, name, words, text, is_right):
        """Each run either ends without memory, or is right; and so is one that has all memory."""
        ends = Counter()
        refuse = 0
        is_refused = True
        while is_refused:
            end, is_refused = self.call(words, text, refuse := refuse + 1)
            if not is_right(end) and not (is_refused and end == WITHOUT_MEMORY):
                self.differ += 1
                print(f"{name}, allocation {refuse}: {end}")
            ends[end[0]] += is_refused
        self.tried += refuse - 1
        if not ends[WITHOUT_MEMORY[0]]:
            self.differ += 1
            print(f"{name}: no allocation is missed")
        print(f"{name}: " + ", ".join(f"status {status} {ends[status]} times" for status in sorted(ends)))

    def expect(self, name, words, text, status):
        """With all memory the command ends with this status; where it can do without some, it ends the same."""
        whole, _ = self.call(words, text)
        self.refuse_each(name, words, text, lambda end: end == whole and end[0] == status)

    def lawful(self, name, words, text):
        """What `run` reports is lawful."""
        self.refuse_each(name, words, text, lambda end: end[0] == 0 and end[2] == "" and self.is_lawful(text, end[1]))

    def is_lawful(self, workload, report):
        return self.call(["check"], f"{workload}---\n{report}")[0] == (0, "lawful\n", "")


def runs(t, version, alone, beside):
    for way in WAYS:
        words = ["run", *way.split()]
        t.expect(f"version {version}, run {way}", words, alone, 0)
        t.lawful(f"version {version}, run {way}, three workers", words, beside)
    t.expect(f"version {version}, run, a line that is refused", ["run"], f"{alone}tx 7 total\n", 2)


def checks(t, version, workload):
    report = t.call(["run"], workload)[0][1]
    for name, told, status in [
        ("", report, 0),
        (", another balance", report.replace("bank ", "bank 1"), 6),
        (", no end", report[: report.index("end ")], 2),
    ]:
        t.expect(f"version {version}, check{name}", ["check"], f"{workload}---\n{told}", status)


def main():
    if len(sys.argv) != 2:
        sys.exit(__doc__.strip())
    with tempfile.TemporaryDirectory() as folder:
        trial = Trial(sys.argv[1], Path(folder))
        for version, workload in enumerate(VERSIONS, 1):
            alone = workload.format(workers=1, last=0)
            runs(trial, version, alone, workload.format(workers=3, last=2))
            checks(trial, version, alone)
        trial.expect("gen", ["gen", "7", "20", "3"], "", 0)
        trial.expect("demo", ["demo", "7", "20", "3"], "", 0)
        trial.expect("no command", ["go"], "", 1)
    print(f"{trial.tried} tried, {trial.differ} differ")
    sys.exit(1 if trial.differ else 0)


if __name__ == "__main__":
    main()
