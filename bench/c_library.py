#!/usr/bin/env python3
"""Measures transactions of the library for programs in C beside a mutex and beside gcc's transactional memory, by each
method of its library, on 1, 2 and 4 threads; see README.md. `c/make.py --bench` calls it."""
import argparse
import os
import re
import shutil
import subprocess
import tempfile
from pathlib import Path

from scale import THREADS, times_of

HERE = Path(__file__).resolve().parent
KINDS = {"move": "two cells are read and set", "read": "four cells are read"}
ENGINES = ("tl2", "polka")
# What gcc's library takes where nobody says so is serialirr while a program has one thread, and ml_wt from the second one on.
METHODS = ("serialirr", "gl_wt", "ml_wt")
CELLS = 256
# Between runs of so many transactions lie those whose instructions are counted.
FEW, MANY = 1000, 3000


def build(folder, library):
    words = ["gcc", "-std=gnu11", "-O2", "-fgnu-tm", f"-I{HERE.parent}/c/include", HERE / "c_library.c", library, "-lpthread"]
    subprocess.run([*words, "-o", folder / "c_library"], check=True)
    return folder / "c_library"


def words_of(name):
    """Which transactions a program of this name makes, and what the environment says to it."""
    return ("itm", {"ITM_DEFAULT_METHOD": name}) if name in METHODS else (name, {})


def run(words, settings):
    done = subprocess.run(list(map(str, words)), capture_output=True, text=True, env={**os.environ, **settings})
    if done.returncode or "Unknown" in done.stderr:
        raise RuntimeError(f"{' '.join(map(str, words))}: {(done.stdout + done.stderr).strip()}")
    return done


def times(program, name, kind, threads, each):
    """The nanoseconds of a transaction, on the clock and of the processors."""
    what, settings = words_of(name)
    told = run([program, what, kind, threads, each, CELLS], settings).stdout
    return tuple(map(float, re.findall(r"([\d.]+) ns", told)))


def instructions(program, name, kind):
    """How many a transaction takes on one thread, the program's own part with it."""
    what, settings = words_of(name)

    def count(each):
        words = ["valgrind", "--tool=callgrind", "--callgrind-out-file=/dev/null", program, what, kind, 1, each, CELLS]
        return int(re.search(r"Collected : (\d+)", run(words, settings).stderr)[1])

    return (count(MANY) - count(FEW)) / (MANY - FEW)


def least_of(program, given, names, kinds):
    """Of each name, kind and number of threads the least time on the clock, and the least of the processors'."""
    runs = {}
    for kind in kinds:
        for threads in THREADS:
            for name in names:
                if name != "plain" or threads == "1":
                    made = lambda at=(name, kind, threads): times(program, *at, given.each)
                    runs[name, kind, threads] = made
    told, rounds = times_of(runs, given.rounds, given.seconds)
    return {at: tuple(min(them) for them in zip(*it)) for at, it in told.items()}, rounds


def main():
    reader = argparse.ArgumentParser(description=__doc__)
    reader.add_argument("--library", type=Path, default=HERE.parent / "c/out/libdstm.a", metavar="FILE")
    reader.add_argument("--kinds", default=",".join(KINDS))
    reader.add_argument("--engines", default=",".join(ENGINES), help="of tl2, polite, karma, polka and greedy")
    reader.add_argument("--each", type=int, default=50000, help="transactions of a thread")
    reader.add_argument("--rounds", type=int, default=9)
    reader.add_argument("--seconds", type=float, default=float("inf"), help="begin no round after so many")
    given = reader.parse_args()
    kinds, names = given.kinds.split(","), ["plain", "mutex", *METHODS, *given.engines.split(",")]
    with tempfile.TemporaryDirectory(prefix="dstm-bench-") as made:
        program = build(Path(made), given.library)
        least, rounds = least_of(program, given, names, kinds)
        counts = {}
        if shutil.which("valgrind"):
            counts = {(name, kind): f"{instructions(program, name, kind):.0f}" for name in names for kind in kinds}
        else:
            print("# there is no valgrind, so instructions are not counted")
    print(f"load average {os.getloadavg()[0]:.1f}, {os.cpu_count()} processors, least of {rounds} rounds")
    print("a transaction's instructions on one thread, and its nanoseconds: on the clock, and in brackets of the processors")
    print("\n| transaction | by | instructions | " + " | ".join(f"{it} thread{'s' * (it != '1')}" for it in THREADS) + " |")
    print("|---|---|---|" + "---|" * len(THREADS))
    for kind in kinds:
        for name in names:
            cells = [counts.get((name, kind), "-")]
            for threads in THREADS:
                it = least.get((name, kind, threads))
                cells.append(f"{it[0]:.0f} ({it[1]:.0f})" if it else "-")
            called = f"gcc, {name}" if name in METHODS else name
            print(f"| {kind} | {called} | " + " | ".join(cells) + " |")


if __name__ == "__main__":
    main()
