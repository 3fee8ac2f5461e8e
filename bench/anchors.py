#!/usr/bin/env python3
"""Measures maps of cells beside what a program could take in their place: maps under locks, containers of TBB, libcds,
Concurrency Kit, libcuckoo, liburcu and Java, and maps in transactions of gcc and of GHC's stm, as far as they are installed; see
README.md."""
import os
import shutil
import subprocess
import tempfile
from pathlib import Path

from scale import THREADS, numbers, reader_of, times_of

HERE = Path(__file__).resolve().parent
PEERS = HERE / "peers"
LOOKS = "90,100,move"
CC = ["-O2", "-march=x86-64-v2", "-pthread"]
CXX = ["g++", "-std=c++17", *CC, PEERS / "maps.cc"]
C = ["gcc", "-std=gnu11", *CC]

# What is compiled, by the name of the program: what it stands for, the command, and what it is linked with.
PROGRAMS = {
    "standard": ("the standard library of C++", [*CXX, "-DSTANDARD"], []),
    "tbb": ("TBB", [*CXX, "-DTBB"], ["-ltbb"]),
    "cds": ("libcds", [*CXX, "-DCDS"], ["-lcds"]),
    "ck": ("Concurrency Kit", [*CXX, "-DCK"], ["-lck"]),
    "cuckoo": ("libcuckoo", [*CXX, "-DCUCKOO"], []),
    "memb": ("liburcu (memb)", [*C, PEERS / "maps_urcu.c"], ["-lurcu-memb", "-lurcu-cds", "-lurcu-common"]),
    "qsbr": ("liburcu (qsbr)", [*C, "-DQSBR", PEERS / "maps_urcu.c"], ["-lurcu-qsbr", "-lurcu-cds", "-lurcu-common"]),
    "gcc": ("gcc's transactional memory", [*C, "-fgnu-tm", PEERS / "maps_gcc.c"], []),
}
YES, NO, BY_HAND = "yes", "no", "by two locks"
OURS = {f"{kind}, {engine}": (kind, engine) for kind in ("hash", "ordered") for engine in ("tl2", "polite")}

# The rows of the table: whether a move is atomic, which program makes it, and the first word that the program is told.
ROWS = {
    "std::map, mutex": (YES, "standard", ["mutex_tree"]),
    "std::unordered_map, mutex": (YES, "standard", ["mutex_hash"]),
    "std::map, shared mutex": (YES, "standard", ["shared_tree"]),
    "std::unordered_map, shared mutex": (YES, "standard", ["shared_hash"]),
    "64 stripes of std::unordered_map": (BY_HAND, "standard", ["striped_hash"]),
    "gcc ml_wt, chained arrays": (YES, "gcc", []),
    "gcc gl_wt, chained arrays": (YES, "gcc", []),
    "GHC stm, array of TVars": (YES, "stm", ["table"]),
    "GHC stm, TVar of Data.Map": (YES, "stm", ["tree"]),
    "Java TreeMap, read-write lock": (YES, "java", ["locked_tree"]),
    "Java HashMap, read-write lock": (YES, "java", ["locked_hash"]),
    "TBB concurrent_hash_map": (NO, "tbb", ["tbb_hash"]),
    "TBB concurrent_map": (NO, "tbb", ["tbb_map"]),
    "libcds MichaelHashMap": (NO, "cds", ["cds_michael"]),
    "libcds FeldmanHashMap": (NO, "cds", ["cds_feldman"]),
    "libcds SplitListMap": (NO, "cds", ["cds_split"]),
    "libcds SkipListMap": (NO, "cds", ["cds_skip"]),
    "Concurrency Kit ck_ht, mutex among writers": (NO, "ck", ["ck_ht"]),
    "libcuckoo cuckoohash_map": (NO, "cuckoo", ["cuckoo"]),
    "liburcu lfht, memb": (NO, "memb", []),
    "liburcu lfht, qsbr": (NO, "qsbr", []),
    "Java ConcurrentHashMap": (NO, "java", ["concurrent_hash"]),
    "Java ConcurrentSkipListMap": (NO, "java", ["concurrent_skip"]),
}
METHODS = {"gcc ml_wt, chained arrays": "ml_wt", "gcc gl_wt, chained arrays": "gl_wt"}
# TBB's ordered map takes no key out beside other threads.
LOOKS_ALONE = {"TBB concurrent_map"}


def compiled(words):
    return subprocess.run(list(map(str, words)), capture_output=True, text=True).returncode == 0


def build(folder, wanted):
    """Compiles what is wanted, and answers what runs each program, and of each that there is not what it stands for."""
    made, missing = {}, []
    for name, (what, words, links) in PROGRAMS.items():
        if name not in wanted:
            continue
        if compiled([*words, "-o", folder / name, *links]):
            made[name] = [folder / name]
        else:
            missing.append(what)
    if "java" in wanted:
        if shutil.which("javac") and shutil.which("java") and compiled(["javac", "-d", folder, PEERS / "Maps.java"]):
            made["java"] = ["java", "-Xmx1g", "-cp", folder, "Maps"]
        else:
            missing.append("Java")
    if "stm" in wanted:
        words = ["ghc", "-v0", "-O2", "-threaded", "-rtsopts", "-outputdir", folder / "hs", PEERS / "Maps.hs"]
        if shutil.which("ghc") and compiled([*words, "-o", folder / "stm"]):
            made["stm"] = [folder / "stm"]
        else:
            missing.append("GHC with stm and containers")
    return made, missing


def runs_of(given, made, rows, looks):
    """Of each map, load and number of threads what tells the nanoseconds of a transaction."""
    for look in looks:
        for threads in THREADS:
            for name, (kind, engine) in OURS.items():
                words = [given.bench, "map", engine, kind, look, threads]
                yield (name, look, threads), lambda words=words: numbers(words)
            for name, (_, program, first) in rows.items():
                if program not in made or (name in LOOKS_ALONE and look != "100"):
                    continue
                last = ["+RTS", f"-N{threads}", "-A16m", "-RTS"] if program == "stm" else []
                words = [*made[program], *first, look, threads, *last]
                settings = {"ITM_DEFAULT_METHOD": METHODS[name]} if name in METHODS else {}
                yield (name, look, threads), lambda words=words, settings=settings: numbers(list(map(str, words)), settings)


def main():
    reader = reader_of(__doc__)
    reader.add_argument("--looks", default=LOOKS, help="how many transactions of a hundred look a key up, or move")
    reader.add_argument("--only", help="the programs beside which it is measured, as " + ",".join([*PROGRAMS, "java", "stm"]))
    given = reader.parse_args()
    looks = given.looks.split(",")
    wanted = given.only.split(",") if given.only else [*PROGRAMS, "java", "stm"]
    rows = {name: row for name, row in ROWS.items() if row[1] in wanted}
    with tempfile.TemporaryDirectory(prefix="dstm-bench-") as folder:
        made, missing = build(Path(folder), wanted)
        runs = dict(runs_of(given, made, rows, looks))
        times, rounds = times_of(runs, given.rounds, given.seconds)
    least = {at: min(them) for at, them in times.items()}
    print(f"load average {os.getloadavg()[0]:.1f}, {os.cpu_count()} processors, least of {rounds} rounds")
    if missing:
        print("left out, since it is not installed: " + ", ".join(missing))
    print("nanoseconds of a transaction: on 1, 2 and 4 threads\n")
    titles = ["move" if look == "move" else f"{look} look-ups" for look in looks]
    print("| map | a move is atomic | " + " | ".join(titles) + " |\n|---|---|" + "---|" * len(looks))
    for name, row in {**dict.fromkeys(OURS, (YES,)), **rows}.items():
        told = lambda look, threads: f"{least[name, look, threads]:.0f}" if (name, look, threads) in least else "-"
        cells = [", ".join(told(look, threads) for threads in THREADS) for look in looks]
        if any(cell.strip("-, ") for cell in cells):
            print(f"| {name} | {row[0]} | " + " | ".join(cells) + " |")


if __name__ == "__main__":
    main()
