#!/usr/bin/env python3
"""Measures reservations on maps of the library for programs in C beside a mutex and beside gcc's transactional memory, on 1, 2
and 4 threads; see README.md. `c/make.py --bench` calls it."""
import argparse
import os
import re
import tempfile
from pathlib import Path

from c_library import run
from scale import THREADS, times_of

HERE = Path(__file__).resolve().parent
NAMES = {"mutex": "a mutex", "itm": "gcc, ml_wt", "tl2": "the library's maps, tl2"}


def build(folder, library):
    words = ["gcc", "-std=gnu11", "-O2", "-fgnu-tm", f"-I{HERE.parent}/c/include", HERE / "reserve.c", library, "-lpthread"]
    run([*words, "-o", folder / "reserve"], {})
    return folder / "reserve"


def told_by(program, name, threads, each, ends):
    """The nanoseconds of a transaction, on the clock and of the processors. What the maps come to is put down."""
    told = run([program, name, threads, each], {"ITM_DEFAULT_METHOD": "ml_wt"}).stdout
    ends.add(told.split()[-1])
    return tuple(map(float, re.findall(r"([\d.]+) ns", told)))


def main():
    reader = argparse.ArgumentParser(description=__doc__)
    reader.add_argument("--library", type=Path, default=HERE.parent / "c/out/libdstm.a", metavar="FILE")
    reader.add_argument("--each", type=int, default=100000, help="transactions of all threads together")
    reader.add_argument("--rounds", type=int, default=9)
    reader.add_argument("--seconds", type=float, default=float("inf"), help="begin no round after so many")
    given, ends = reader.parse_args(), set()
    with tempfile.TemporaryDirectory(prefix="dstm-bench-") as made:
        program = build(Path(made), given.library)
        runs = {}
        for name in NAMES:
            for threads in THREADS:
                runs[name, threads] = lambda at=(name, threads): told_by(program, *at, given.each, ends)
        told, rounds = times_of(runs, given.rounds, given.seconds)
    if len(ends) != 1:
        raise SystemExit(f"the maps come to {sorted(ends)}, and not to the same")
    least = {at: tuple(min(them) for them in zip(*it)) for at, it in told.items()}
    print(f"load average {os.getloadavg()[0]:.1f}, {os.cpu_count()} processors, least of {rounds} rounds")
    print("a reservation's nanoseconds: on the clock, and in brackets of the processors; all runs come to the same")
    print("\n| by | " + " | ".join(f"{it} thread{'s' * (it != '1')}" for it in THREADS) + " |\n|---|" + "---|" * len(THREADS))
    for name, called in NAMES.items():
        cells = [f"{it[0]:.0f} ({it[1]:.0f})" if (it := least.get((name, threads))) else "-" for threads in THREADS]
        print(f"| {called} | " + " | ".join(cells) + " |")


if __name__ == "__main__":
    main()
