#!/usr/bin/env python3
"""Measures long transactions beside three threads that make short ones without a pause, by both engines, beside gcc's
transactional memory, a mutex and GHC's stm; see README.md."""
import argparse
import os
import shutil
import subprocess
import tempfile
import time
from pathlib import Path
from statistics import median

HERE = Path(__file__).resolve().parent
ENGINES = "tl2,polite,karma,polka,greedy"
LOOKS = "cells view,cells atomically,map view,map atomically"
COUNTS = "1000,10000,50000"
METHODS = ("ml_wt", "gl_wt")
TITLES = ("by", "looks", "cells or keys", "scans", "ended", "attempts", "ms, median", "most", "changes beside", "of those alone",
          "spent")


def build(folder):
    """Compiles the peers, and answers of each what runs it and what the environment says to it."""
    flags, source = ["gcc", "-std=gnu11", "-O2", "-march=x86-64-v2", "-pthread"], HERE / "peers/starve.c"
    subprocess.run([*flags, "-DMUTEX", source, "-o", folder / "mutex"], check=True)
    subprocess.run([*flags, "-fgnu-tm", source, "-o", folder / "transactions"], check=True)
    made = {f"gcc {method}": ([folder / "transactions"], [], {"ITM_DEFAULT_METHOD": method}) for method in METHODS}
    made["mutex"] = ([folder / "mutex"], [], {})
    if shutil.which("ghc"):
        words = ["ghc", "-v0", "-O2", "-threaded", "-rtsopts", "-outputdir", folder / "hs", HERE / "peers/Starve.hs"]
        subprocess.run([*words, "-o", folder / "stm"], check=True)
        made["GHC stm"] = ([folder / "stm"], ["+RTS", "-N4", "-A16m", "-RTS"], {})
    else:
        print("# there is no ghc, so its stm is left out")
    return made


def cases_of(given, folder):
    """Who looks at what, how, at how many cells or keys, how often, and how that is run."""
    peers = build(folder)
    for look in given.looks.split(","):
        for count in given.counts.split(","):
            for engine in given.engines.split(","):
                scans = given.scans if engine == "tl2" else given.dstm_scans
                yield (engine, look, count, scans), [given.bench, "starve", engine, *look.split(), count, scans], {}
            if look == "cells atomically":
                for name, (first, last, settings) in peers.items():
                    yield (name, look, count, given.scans), [*first, count, given.scans, *last], settings


def run(words, settings, limit):
    """What a run tells, or None if it had not ended by then."""
    environment = {**os.environ, **settings}
    try:
        done = subprocess.run(list(map(str, words)), capture_output=True, text=True, env=environment, timeout=limit)
    except subprocess.TimeoutExpired:
        return None
    if done.returncode:
        raise RuntimeError(f"{' '.join(map(str, words))}: {(done.stdout + done.stderr).strip()}")
    fields = done.stdout.split()
    return dict(zip(fields[::2], map(int, fields[1::2])))


def row(case, runs):
    """A line of the table: times, attempts and changes are medians of the runs that ended."""
    name, look, count, scans = case
    ended = [it for it in runs if it and it["scans"] == scans]
    told = [name, look, f"{int(count):,}", f"{scans}", f"{len(ended)} of {len(runs)}"]
    if not ended:
        return told + ["-"] * 6
    middle = lambda of: median(map(of, ended))
    # What the others make alone in as much of their time.
    alone = lambda it: it["alone"] * it["busy"] / max(it["alone_busy"], 1)
    attempts = middle(lambda it: it["attempts"])
    times = [it["nanos"] / 1e6 for it in ended]
    told += [f"{attempts:,.0f}" if attempts else "-", f"{median(times):.2f}", f"{max(times):.2f}"]
    told += [f"{middle(lambda it: it['changes']):,.0f}", f"{middle(lambda it: it['changes'] / max(alone(it), 1)):.2f}"]
    return told + [f"{sum(it['spent'] > 0 for it in ended)}"]


def main():
    reader = argparse.ArgumentParser(description=__doc__)
    reader.add_argument("--bench", default=HERE.parent / "crates/bench/out/bench", metavar="PATH")
    reader.add_argument("--engines", default=ENGINES)
    reader.add_argument("--looks", default=LOOKS, help="at what, and how")
    reader.add_argument("--counts", default=COUNTS, help="how many cells, or keys of a map")
    reader.add_argument("--scans", type=int, default=20, help="long transactions of a run")
    reader.add_argument("--dstm-scans", type=int, default=5, help="the same by DSTM, whose threads have 65,536 attempts")
    reader.add_argument("--runs", type=int, default=5)
    reader.add_argument("--limit", type=float, default=10, help="a run that has not ended after so many seconds is stopped")
    reader.add_argument("--seconds", type=float, default=float("inf"), help="begin no round after so many")
    given = reader.parse_args()
    begun, told = time.monotonic(), {}
    with tempfile.TemporaryDirectory(prefix="dstm-bench-") as folder:
        cases = list(cases_of(given, Path(folder)))
        for _ in range(given.runs):
            if time.monotonic() - begun > given.seconds:
                break
            for case, words, settings in cases:
                told.setdefault(case, []).append(run(words, settings, given.limit))
    print(f"load average {os.getloadavg()[0]:.1f}, {os.cpu_count()} processors, {given.limit:.0f} s a run at most")
    print("| " + " | ".join(TITLES) + " |\n" + "|---" * len(TITLES) + "|")
    for case, runs in told.items():
        print("| " + " | ".join(row(case, runs)) + " |")


if __name__ == "__main__":
    main()
