#!/usr/bin/env python3
"""Measures maps of cells on 1, 2 and 4 threads by both engines, beside a tree under a mutex and in transactions of the
compiler; see README.md."""
import os
import tempfile
from pathlib import Path

from scale import THREADS, build, numbers, peers, reader_of, table, times_of

KINDS = ("ordered", "hash")
# Under Polite no rank rises with an open, which so takes an add less than under Karma and Polka.
BY = {"dstm": "polite", "tl2": "tl2"}
TRANSACTIONS = 960000  # of each program, on all threads together


def programs(given, folder, looks, threads):
    """Of each program what tells its nanoseconds for each transaction."""
    for kind in KINDS:
        for engine, by in BY.items():
            words = [given.bench, "map", by, kind, looks, threads]
            yield f"{kind}, {engine}", lambda words=words: numbers(words)
    yield from peers(folder, f"map{looks}", threads, "span", TRANSACTIONS)


def main():
    reader = reader_of(__doc__)
    reader.add_argument("--looks", default="90,98,100", help="how many transactions of a hundred look a key up")
    given = reader.parse_args()
    loads, runs = given.looks.split(","), {}
    with tempfile.TemporaryDirectory(prefix="dstm-bench-") as made:
        folder = Path(made)
        build(folder, [])
        for looks in loads:
            for threads in THREADS:
                runs.update({(looks, threads, name): it for name, it in programs(given, folder, looks, threads)})
        times, rounds = times_of(runs, given.rounds, given.seconds)
    least = {at: min(them) for at, them in times.items()}
    print(f"load average {os.getloadavg()[0]:.1f}, {os.cpu_count()} processors, least of {rounds} rounds")
    print("nanoseconds of the threads for each transaction, and in brackets how many times as fast as one thread")
    names = [f"{kind}, {engine}" for kind in KINDS for engine in BY]
    table("look-ups", loads, (*names, "serial", "mutex", "ml_wt", "gl_wt"), least)


if __name__ == "__main__":
    main()
