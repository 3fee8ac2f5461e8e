#!/usr/bin/env python3
"""Measures what the engine's calls take on one thread, beside their atomic steps alone; see README.md."""
import argparse
import os
import random
import subprocess
import tempfile
from pathlib import Path

HERE = Path(__file__).resolve().parent
FLAGS = ["-std=c++17", "-O2", "-march=x86-64-v2"]  # bench is compiled for x86-64-v2


def times_of(program, manager):
    """Runs a program, and answers what it tells of each size of a table."""
    said = subprocess.run([*program, manager], check=True, capture_output=True, text=True).stdout
    names, *rows = [line.split() for line in said.splitlines()]
    return {int(row[0]): dict(zip(names, map(float, row))) for row in rows}


def least_of(programs, manager, rounds):
    """Of each program the least of each time. Each round runs all of them, in an order that is drawn."""
    rng = random.Random(1)
    least = {name: {} for name in programs}
    for _ in range(rounds):
        for name in rng.sample(list(programs), len(programs)):
            for size, times in times_of(programs[name], manager).items():
                known = least[name].setdefault(size, times)
                least[name][size] = {it: min(known[it], time) for it, time in times.items()}
    return least


def costs_of(times):
    """What an open costs, by what an attempt with opens takes more than one without; a begin and a commit; a begin and a Quit."""
    read, write = ((times[use] - times["commit"]) / times["opened"] for use in ("read", "write"))
    return read, write, times["commit"], times["quit"]


def tell(manager, least):
    """The nanoseconds of each program, and in brackets how many times those of the others the first one took."""
    for size in next(iter(least.values())):
        cells = []
        for nanos, *others in zip(*(costs_of(times[size]) for times in least.values())):
            cells.append(", ".join([f"{nanos:.1f}", *(f"{other:.1f} ({nanos / other:.2f})" for other in others)]))
        print(f"| {manager} | {size:,} | " + " | ".join(cells) + " |", flush=True)


def main():
    reader = argparse.ArgumentParser(description=__doc__)
    reader.add_argument("--program", default=str(HERE.parent / "crates/bench/out/bench"))
    reader.add_argument("--managers", default="polite,karma,polka,greedy")
    reader.add_argument("--rounds", type=int, default=20)
    reader.add_argument("--processor", type=int, default=0, help="the one that the programs run on")
    reader.add_argument("--also", action="append", default=[], metavar="NAME=PATH", help="another program")
    given = reader.parse_args()
    os.sched_setaffinity(0, {given.processor})
    with tempfile.TemporaryDirectory(prefix="dstm-bench-") as folder:
        steps = f"{folder}/steps"
        subprocess.run(["g++", *FLAGS, HERE / "steps.cc", "-o", steps], check=True)
        programs = {"engine": [given.program, "engine"], "steps": [steps]}
        programs.update({name: [path] for name, path in (other.split("=", 1) for other in given.also)})
        print(f"load average {os.getloadavg()[0]:.1f}, least of {given.rounds} runs, in ns: " + ", ".join(programs))
        print("| manager | objects | open for reading | for writing | begin and commit | begin and Quit |")
        print("|---|---|---|---|---|---|")
        for manager in given.managers.split(","):
            tell(manager, least_of(programs, manager, given.rounds))


if __name__ == "__main__":
    main()
