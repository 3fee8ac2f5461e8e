#!/usr/bin/env python3
"""Measures long transactions and transactions over cells on 1, 2 and 4 threads by both engines, beside a mutex and beside
transactions of the compiler; see README.md."""
import argparse
import json
import os
import random
import subprocess
import tempfile
import time
from pathlib import Path
from statistics import median

HERE = Path(__file__).resolve().parent
FLAGS = ["g++", "-std=c++17", "-O2", "-march=x86-64-v2"]  # bench is compiled for x86-64-v2
LOADS = "readers256,readers4096,tree90,tree98,tree100,lists,reserve,own"
CELLS = {"disjoint": 60000, "one": 60000, "bank": 60000, "reads": 40000}  # with the transactions of each
BY = {"dstm": "polka", "tl2": "tl2"}
THREADS = ("1", "2", "4")
COMPUTING = {"chain": "each number from the one before it", "apart": "each number by itself"}
PEERS = {"serial": [], "mutex": ["-DMUTEX", "-pthread"], "transactions": ["-DTRANSACTIONS", "-fgnu-tm", "-pthread"]}
PROTOTYPES = {"proto": ("scale_proto.cc", ["-DPAUSE", "-DRYE=64", "-DEPOCH"], ["--zero", "copy"]),
              "proto_tl2": ("scale_proto_tl2.cc", [], [])}


def build(folder, prototypes):
    """Compiles the peers, and the prototypes whose sources stand in one of these folders."""
    subprocess.run(["gcc", "-std=gnu11", "-O2", "-pthread", HERE / "peers/compute.c", "-o", folder / "compute"], check=True)
    for name, flags in PEERS.items():
        subprocess.run([*FLAGS, *flags, HERE / "scale_peer.cc", "-o", folder / name], check=True)
    found = [name for name, it in PROTOTYPES.items() if any((Path(at) / it[0]).is_file() for at in prototypes)]
    for name in found:
        file, flags, _ = PROTOTYPES[name]
        source = next(Path(at) / file for at in prototypes if (Path(at) / file).is_file())
        places = [word for at in prototypes for word in ("-I", at)]
        subprocess.run([*FLAGS, *flags, "-pthread", *places, source, "-o", folder / name], check=True)
    return found


def numbers(words, settings=None, source=None):
    """What a program tells: names and numbers in turn, or one number."""
    with open(source or os.devnull) as text:
        environment = {**os.environ, **(settings or {})}
        done = subprocess.run(words, stdin=text, capture_output=True, text=True, env=environment)
    if done.returncode:
        raise RuntimeError(f"{' '.join(map(str, words))}: {done.stderr.strip()}")
    fields = done.stdout.split()
    try:
        return float(fields[0]) if len(fields) == 1 else dict(zip(fields[::2], map(int, fields[1::2])))
    except ValueError:
        raise RuntimeError(f"{' '.join(map(str, words))} tells: {done.stdout.splitlines()[0]}") from None


def store_programs(given, folder, prototypes, load, threads):
    """Of each program what tells its milliseconds."""
    def engine(name):
        told = numbers([given.bench, "scale", BY[name], load, threads])
        if told["left"]:
            raise RuntimeError(f"{name} left {told['left']} transactions of {load}")
        return told["run"] / 1e6

    def prototype(name):
        file = folder / f"{load}.{threads}"
        if not file.exists():
            with open(file, "wb") as text:
                subprocess.run([folder / "serial", load, threads, "write"], stdout=text, check=True)
        return numbers([folder / name, *PROTOTYPES[name][2]], source=file)["run"] / 1e6

    yield "dstm", lambda: engine("dstm")
    yield "tl2", lambda: engine("tl2")
    for name in prototypes:
        yield name, lambda name=name: prototype(name)
    yield from peers(folder, load, threads, "run", 1e6)


def cell_programs(given, folder, kind, threads):
    """The same in nanoseconds for each transaction."""
    for name in ("dstm", "tl2"):
        yield name, lambda name=name: numbers([given.bench, "cells", BY[name], kind, threads])
    yield from peers(folder, kind, threads, "span", CELLS[kind])


def peers(folder, load, threads, measure, unit):
    for name in ("serial", "mutex") if threads == "1" else ("mutex",):
        yield name, lambda name=name: numbers([folder / name, load, threads])[measure] / unit
    for method in ("ml_wt", "gl_wt"):
        settings = {"ITM_DEFAULT_METHOD": method}
        words = [folder / "transactions", load, threads]
        yield method, lambda words=words, settings=settings: numbers(words, settings)[measure] / unit


def computing(folder):
    """What tells how long threads take that only compute."""
    for kind in COMPUTING:
        for threads in THREADS:
            words = [folder / "compute", kind, threads]
            yield (kind, threads, "compute"), lambda words=words: numbers(words)["span"]


def times_of(runs, rounds, seconds):
    """The times of each run, and how many rounds there were. Each round makes all, in an order that is drawn; none begins after
    so many seconds."""
    rng, times, begun = random.Random(1), {}, time.monotonic()
    for done in range(rounds):
        if time.monotonic() - begun > seconds:
            return times, done
        for at in rng.sample(list(runs), len(runs)):
            try:
                took = runs[at]()
                times.setdefault(at, []).append(took)
            except RuntimeError as error:
                print(f"# {error}", flush=True)
    return times, rounds


def tell_gains(least):
    """How many times as fast as one thread those are that only compute."""
    for kind, what in COMPUTING.items():
        alone = least.get((kind, "1", "compute"))
        others = [(threads, least.get((kind, threads, "compute"))) for threads in THREADS[1:]]
        gains = [f"{alone / took:.2f} times on {threads}" for threads, took in others if alone and took]
        if gains:
            print(f"threads that only compute, {what}: " + ", ".join(gains))


def table(title, kinds, names, least):
    print(f"\n| {title} | threads | " + " | ".join(names) + " |\n|---|---|" + "---|" * len(names))
    for kind in kinds:
        for threads in THREADS:
            cells = []
            for name in names:
                it, alone = least.get((kind, threads, name)), least.get((kind, "1", name))
                cells.append("-" if it is None else f"{it:.1f}" + (f" ({alone / it:.2f})" if alone else ""))
            print(f"| {kind} | {threads} | " + " | ".join(cells) + " |")


def reader_of(doc):
    """Returns the reader of the words that each program takes which measures `bench`."""
    reader = argparse.ArgumentParser(description=doc)
    reader.add_argument("--bench", default=HERE.parent / "crates/bench/out/bench", metavar="PATH")
    reader.add_argument("--rounds", type=int, default=9)
    reader.add_argument("--seconds", type=float, default=float("inf"), help="begin no round after so many")
    return reader


def main():
    reader = reader_of(__doc__)
    reader.add_argument("--loads", default=LOADS)
    reader.add_argument("--kinds", default=",".join(CELLS), help="the loads over cells")
    reader.add_argument("--median", action="store_true", help="tell medians in place of the least")
    reader.add_argument("--raw", metavar="FILE", help="where all times are to be written")
    reader.add_argument("--prototypes", action="append", default=[], metavar="FOLDER",
                        help="where sources of prototypes stand, or what they include; else there are no columns for them")
    given = reader.parse_args()
    loads, kinds = ([kind for kind in words.split(",") if kind] for words in (given.loads, given.kinds))
    with tempfile.TemporaryDirectory(prefix="dstm-bench-") as made:
        folder, runs = Path(made), {}
        found = build(folder, given.prototypes)
        for threads in THREADS:
            for load in loads:
                runs.update({(load, threads, name): it for name, it in store_programs(given, folder, found, load, threads)})
            for kind in kinds:
                runs.update({(kind, threads, name): it for name, it in cell_programs(given, folder, kind, threads)})
        runs.update(computing(folder))
        times, rounds = times_of(runs, given.rounds, given.seconds)
    least = {at: (median if given.median else min)(them) for at, them in times.items()}
    told = "median" if given.median else "least"
    print(f"load average {os.getloadavg()[0]:.1f}, {os.cpu_count()} processors, {told} of {rounds} rounds")
    if given.raw:
        Path(given.raw).write_text(json.dumps([[*at, *them] for at, them in times.items()]))
    tell_gains(least)
    print("milliseconds of the threads, and in brackets how many times as fast as one thread")
    names = ("dstm", "proto", "tl2", "proto_tl2", "serial", "mutex", "ml_wt", "gl_wt")
    table("load", loads, [name for name in names if name in found or name not in PROTOTYPES], least)
    print("\nnanoseconds of the threads for each transaction, and in brackets the same")
    table("cells", kinds, ("dstm", "tl2", "mutex", "ml_wt", "gl_wt"), least)


if __name__ == "__main__":
    main()
