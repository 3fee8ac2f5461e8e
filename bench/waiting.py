#!/usr/bin/env python3
"""Runs the queue and the philosophers of example_waiting many times by each engine and manager, on an idle machine or beside
busy processes, and tells how they ended; beside them a queue under a mutex and condition variables, and one by GHC's stm; see
README.md."""
import argparse
import os
import shutil
import subprocess
import sys
import tempfile
import time
from collections import Counter
from contextlib import contextmanager
from pathlib import Path
from statistics import median

HERE = Path(__file__).resolve().parent
ENGINES = "tl2,polite,karma,polka,greedy"
WANTED = {"queue": lambda rounds: f"the numbers passed add up to {rounds * (rounds + 1)}",
          "philosophers": lambda rounds: f"{5 * rounds} meals, 0 forks are held"}
# A run beside busy processes is in time where it took at most so many times what it takes on the idle machine.
TIMES = 20


def build(folder):
    """Compiles the queues of the peers, and answers what runs each."""
    made = {}
    if shutil.which("gcc"):
        subprocess.run(["gcc", "-std=gnu11", "-O2", "-pthread", HERE / "peers/queue.c", "-o", folder / "queue"], check=True)
        made["mutex"] = [folder / "queue"], []
    if shutil.which("ghc"):
        words = ["ghc", "-v0", "-O2", "-threaded", "-rtsopts", "-outputdir", folder / "hs", HERE / "peers/Queue.hs"]
        subprocess.run([*words, "-o", folder / "stm"], check=True)
        made["GHC stm"] = [folder / "stm"], ["+RTS", "-N4", "-RTS"]
    for name, tool in (("mutex", "gcc"), ("GHC stm", "ghc")):
        if name not in made:
            print(f"# there is no {tool}, so the queue by {name} is left out")
    return made


def on(processors):
    """What keeps a program on so many processors."""
    return {"preexec_fn": lambda: os.sched_setaffinity(0, set(range(processors)))} if processors else {}


@contextmanager
def busy(count, processors):
    """So many processes that never give way, on the same processors."""
    them = [subprocess.Popen([sys.executable, "-c", "while True: pass"], **on(processors)) for _ in range(count)]
    try:
        yield
    finally:
        for it in them:
            it.kill()
            it.wait()


def run(words, wanted, processors, limit):
    """How a run ended, and its milliseconds."""
    begun = time.monotonic()
    try:
        done = subprocess.run(list(map(str, words)), capture_output=True, text=True, timeout=limit, **on(processors))
    except subprocess.TimeoutExpired:
        return f"not ended in {limit:.0f} s", 1e3 * limit
    took, told = 1e3 * (time.monotonic() - begun), (done.stdout or done.stderr).strip()
    return "Ok" if told == wanted and not done.returncode else told or f"status {done.returncode}", took


def cases_of(given, peers):
    """Which program is run by whom, and how."""
    for name in given.programs.split(","):
        for engine in given.engines.split(","):
            yield (name, engine), [given.program, name, engine, given.rounds]
        if name == "queue":
            for peer, (first, last) in peers.items():
                yield (name, peer), [*first, given.rounds, *last]


def ends_of(given, cases, runs, processors, begun):
    """How each run of each case ended, and its milliseconds. Each round makes one run of all."""
    ends = {case: [] for case, _ in cases}
    for _ in range(runs):
        if time.monotonic() - begun > given.seconds:
            break
        for case, words in cases:
            ends[case].append(run(words, WANTED[case[0]](given.rounds), processors, given.limit))
    return ends


def told_of(ends):
    """How many runs there were, how many ended Ok, how the others ended, and the median and the most of the milliseconds."""
    how, times = Counter(end for end, _ in ends), [took for _, took in ends] or [0]
    others = ", ".join(f"{count} {end}" for end, count in how.items() if end != "Ok") or "-"
    return [f"{len(ends)}", f"{how['Ok']}", others, f"{median(times):.0f}", f"{max(times):.0f}"]


def measure(given, cases, begun):
    """The rows of one table."""
    for processors in given.processors:
        place = [str(processors or os.cpu_count())]
        idle = ends_of(given, cases, given.idle_runs if given.busy else given.runs, processors, begun)
        if not given.busy:
            yield from ([*case, *place, *told_of(ends)] for case, ends in idle.items())
            continue
        with busy(given.busy, processors):
            loaded = ends_of(given, cases, given.runs, processors, begun)
        for case, ends in loaded.items():
            alone = median(took for _, took in idle[case]) if idle[case] else 0
            soon = sum(end == "Ok" and took <= TIMES * alone for end, took in ends)
            yield [*case, *place, f"{alone:.0f}", *told_of(ends)[:2], f"{soon}", *told_of(ends)[2:]]


def main():
    reader = argparse.ArgumentParser(description=__doc__)
    reader.add_argument("--program", default=HERE.parent / "crates/example_waiting/out/example_waiting", metavar="PATH")
    reader.add_argument("--programs", default=",".join(WANTED), help="which of the two")
    reader.add_argument("--engines", default=ENGINES)
    reader.add_argument("--runs", type=int, default=100)
    reader.add_argument("--rounds", type=int, default=5000, help="numbers of a producer, meals of a philosopher")
    reader.add_argument("--busy", type=int, default=0, help="processes that are busy beside it, on the same processors")
    reader.add_argument("--processors", type=lambda said: [int(it) for it in said.split(",")], default=[0], metavar="1,2,4",
                        help="on how many of them, one number after the other (0: on all)")
    reader.add_argument("--idle-runs", type=int, default=5, help="runs without busy processes, where there are some")
    reader.add_argument("--limit", type=float, default=30, help="a run that has not ended after so many seconds is stopped")
    reader.add_argument("--seconds", type=float, default=float("inf"), help="begin no round after so many")
    given = reader.parse_args()
    begun = time.monotonic()
    with tempfile.TemporaryDirectory(prefix="dstm-bench-") as folder:
        cases = list(cases_of(given, build(Path(folder))))
        rows = list(measure(given, cases, begun))
    print(f"load average {os.getloadavg()[0]:.1f}, {os.cpu_count()} processors, {given.rounds} rounds")
    names = ["program", "by", "processors", "runs", "Ok", "other ends", "median, ms", "most, ms"]
    if given.busy:
        print(f"beside {given.busy} busy processes; in time is a run that took at most {TIMES} times the idle median")
        names = [*names[:3], "idle median, ms", *names[3:5], "in time", *names[5:]]
    print("| " + " | ".join(names) + " |\n" + "|---" * len(names) + "|")
    for row in rows:
        print("| " + " | ".join(row) + " |")


if __name__ == "__main__":
    main()
