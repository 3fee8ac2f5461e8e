#!/usr/bin/env python3
"""Measures threads that wait by the library for programs in C, with each of its bells and with none, beside a mutex and
condition variables, on the machine as it is and beside busy processes; see README.md."""
import argparse
import os
import subprocess
import tempfile
from pathlib import Path
from statistics import median

from waiting import busy

HERE = Path(__file__).resolve().parent
BELLS = {"futex": (), "condition variable": ("-DDSTM_BELL_CONDVAR",), "no bell": ("-DDSTM_NO_BELL",)}
# What is run, in which unit its two numbers are, and how much more than a count it is told.
KINDS = {
    "idle": ("processor time of one that waits 5 s", "ms", 5000, ()),
    "wake": ("wake-up, median and that of 99 of 100", "us", 1000, (500,)),
    "two": ("a hand-over between two, clock and processors", "us", 5000, (2,)),
    "four": ("a hand-over among four, the same", "us", 1000, (4,)),
    "queue": ("a number through a queue, two by two, the same", "us", 3000, ()),
}
PROGRAMS = {"two": "turns", "four": "turns"}


def build(folder, library):
    made = {}
    for bell, how in BELLS.items():
        made[bell] = folder / bell.replace(" ", "_")
        words = ["gcc", "-std=gnu11", "-O2", *how, f"-I{HERE.parent}/c/include", HERE / "c_waiting.c", library, "-lpthread"]
        subprocess.run([*words, "-o", made[bell]], check=True)
    return made


def run(program, kind, by, limit):
    """The two numbers of a run, or nothing where it has not ended."""
    _, unit, count, more = KINDS[kind]
    words = [program, PROGRAMS.get(kind, kind), by, count, *more]
    try:
        done = subprocess.run(list(map(str, words)), capture_output=True, text=True, timeout=limit, check=True)
    except subprocess.TimeoutExpired:
        return None
    by_thousand = 1000 if PROGRAMS.get(kind, kind) in ("turns", "queue") else 1
    return tuple(float(it) / by_thousand for it in done.stdout.split())


def told_of(kind, runs):
    ended = [it for it in runs if it]
    if not ended:
        return "none ended"
    first, second = (median(it) for it in zip(*ended))
    less = "" if len(ended) == len(runs) else f", {len(runs) - len(ended)} not ended"
    return (f"{first:.1f}" if kind == "idle" else f"{first:.1f}, {second:.1f}") + less


def measure(given, made):
    """The median of each kind, by each."""
    cases = [(f"{engine}, {bell}", made[bell], engine) for engine in given.engines.split(",") for bell in made]
    cases.append(("mutex", made["futex"], "mutex"))
    runs = {(kind, name): [] for kind in KINDS for name, _, _ in cases}
    for _ in range(given.rounds):
        for kind in KINDS:
            for name, program, by in cases:
                runs[kind, name].append(run(program, kind, by, given.limit))
    return [name for name, _, _ in cases], {at: told_of(at[0], it) for at, it in runs.items()}


def table(title, names, told):
    print(f"\n{title}; load average {os.getloadavg()[0]:.1f}\n")
    print("| by | " + " | ".join(f"{said}, {unit}" for said, unit, _, _ in KINDS.values()) + " |")
    print("|---" * (len(KINDS) + 1) + "|")
    for name in names:
        print(f"| {name} | " + " | ".join(told[kind, name] for kind in KINDS) + " |", flush=True)


def main():
    reader = argparse.ArgumentParser(description=__doc__)
    reader.add_argument("--library", type=Path, default=HERE.parent / "c/out/libdstm.a", metavar="FILE")
    reader.add_argument("--engines", default="tl2,polka", help="of tl2, polite, karma, polka and greedy")
    reader.add_argument("--rounds", type=int, default=5)
    reader.add_argument("--busy", type=int, default=4, help="processes that are busy beside it, in the second table")
    reader.add_argument("--limit", type=float, default=30, help="a run that has not ended after so many seconds is stopped")
    given = reader.parse_args()
    print(f"{os.cpu_count()} processors, the median of {given.rounds} runs")
    with tempfile.TemporaryDirectory(prefix="dstm-bench-") as folder:
        made = build(Path(folder), given.library)
        table("the machine as it is", *measure(given, made))
        if given.busy:
            with busy(given.busy, 0):
                names, told = measure(given, made)
            table(f"beside {given.busy} busy processes", names, told)


if __name__ == "__main__":
    main()
