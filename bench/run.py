#!/usr/bin/env python3
"""Measures `dstm run` by both engines beside a serial program and beside transactions of the compiler; see README.md."""
import argparse
import os
import random
import subprocess
import sys
import tempfile
import time
from pathlib import Path

import workloads

HERE = Path(__file__).resolve().parent
FLAGS = ["-O2", "-march=x86-64-v2"]  # dstm is compiled for x86-64-v2
SLACK = 4096  # how much more than was asked for a block may have

# Of each prototype how it is compiled, and how it is started: it makes tables as its engine does.
PROTOTYPES = {"proto": (["-DPAUSE", "-DRYE=64", "-DEPOCH"], ["--zero", "copy"]), "proto_tl2": ([], [])}


def build(folder, prototypes):
    """Compiles the programs, those of the folder of prototypes too."""
    cpp = ["g++", "-std=c++17", *FLAGS, str(HERE / "peer.cc")]
    subprocess.run([*cpp, "-o", folder / "serial"], check=True)
    subprocess.run([*cpp, "-DMUTEX", "-pthread", "-o", folder / "mutex"], check=True)
    subprocess.run([*cpp, "-DTRANSACTIONS", "-fgnu-tm", "-pthread", "-o", folder / "transactions"], check=True)
    shared = ["gcc", "-O2", "-shared", "-fPIC", str(HERE / "phases.c"), "-o", folder / "phases.so", "-ldl"]
    subprocess.run(shared, check=True)
    for name in prototypes_in(prototypes):
        source = ["-I", prototypes, Path(prototypes) / f"{name}.cc"]
        flags = PROTOTYPES[name][0]
        subprocess.run(["g++", "-std=c++17", *FLAGS, *flags, "-pthread", *source, "-o", folder / name], check=True)


def prototypes_in(folder):
    """The prototypes whose sources stand in a folder, if there is one."""
    return [name for name in PROTOTYPES if folder and (Path(folder) / f"{name}.cc").is_file()]


MEASURES = ("process", "process, cpu", "run", "run, cpu")
ENGINES = ("dstm", "tl2")


class Program:
    """One that is measured, and the least that was seen of each measure, in milliseconds."""

    def __init__(self, name, words, tells, settings=None):
        self.name, self.words, self.tells, self.settings = name, words, tells, settings or {}
        self.forget()

    def forget(self):
        self.least = dict.fromkeys(MEASURES, float("inf"))

    def start(self, words, settings, text, err=subprocess.DEVNULL):
        """Runs it once, and answers how long that took on the clock, and on all processors."""
        with open(text) as source:
            before = time.perf_counter()
            settings = {**os.environ, **self.settings, **settings}
            child = subprocess.Popen(words, stdin=source, stdout=subprocess.DEVNULL, stderr=err, env=settings)
            _, status, used = os.wait4(child.pid, 0)
            wall = time.perf_counter() - before
        child.returncode = status
        if status:
            sys.exit(f"{self.name} ended with status {status} on {text}")
        return wall * 1000, (used.ru_utime + used.ru_stime) * 1000

    def note(self, measure, value):
        self.least[measure] = min(self.least[measure], value)

    def measure(self, load):
        wall, cpu = self.start(self.words, {}, load.path)
        self.note("process", wall)
        self.note("process, cpu", cpu)
        wall, cpu = self.tells(self, load)
        self.note("run", wall)
        self.note("run, cpu", cpu)


def told_by_itself(program, load):
    """A peer tells how long its jobs took."""
    with tempfile.TemporaryFile("w+") as told:
        program.start([*program.words, "--times"], {}, load.path, told)
        told.seek(0)
        fields = told.read().split()
    at = fields.index("run") + 1
    return int(fields[at]) / 1000, int(fields[at + 1]) / 1000


def told_by_prototype(program, load):
    """A prototype tells names and numbers, among them how long its jobs took with their tables. Where it does not tell
    what that took of the processors, it is the process less reading and printing."""
    with tempfile.TemporaryFile("w+") as told:
        _, cpu = program.start(program.words, {}, load.path, told)
        told.seek(0)
        fields = told.read().split()
    times = {name: int(value) / 1000 for name, value in zip(fields[::2], fields[1::2])}
    return times["run"], times.get("runcpu", cpu - times["parse"] - times["print"])


def told_by_phases(program, load):
    """What phases.so tells of dstm: its crew begins as the text that was read is given back, and ends as the first block is
    that it has taken and given back."""
    told = load.folder / "phases"
    program.start(program.words, {"LD_PRELOAD": str(load.folder / "phases.so"), "PHASES": str(told)}, load.path)
    lines = [line.split() for line in told.read_text().splitlines()]
    events = [(name, *map(int, numbers)) for name, *numbers in lines]
    read = max(at for at, event in enumerate(events) if event[0] == "read")
    begin = next(at for at in range(read, len(events)) if events[at][0] == "free")
    crew = events[begin:]
    given = [event for event in crew if event[0] == "free"]
    first = next(size for name, _, _, size in crew if name == "malloc" and any(is_block(it[3], size) for it in given))
    end = next(event for event in reversed(given) if is_block(event[3], first))
    return tuple((end[at] - crew[0][at]) / 1000 for at in (1, 2))


def is_block(size, asked):
    """Whether a block that is given back is one of a size that was asked for."""
    return asked <= size < asked + SLACK


class Load:
    """A workload, as a file."""

    def __init__(self, folder, dstm, kind, count, workers):
        self.folder, self.kind, self.workers = folder, kind, workers
        self.path = folder / f"{kind}.{workers}"
        if kind == "gen":
            text = subprocess.run([dstm, "gen", "7", str(count), str(workers)], check=True, capture_output=True).stdout
            self.path.write_bytes(text)
        else:
            self.path.write_text(workloads.text_of(kind, count, workers))
        banks = (line.split()[1:3] for line in self.path.read_text().splitlines() if line.startswith("bank "))
        self.money = sum(int(accounts) * int(balance) for accounts, balance in banks)


def report_of(words, load):
    with open(load.path) as source:
        return subprocess.run(words, stdin=source, check=True, capture_output=True).stdout


def check(dstm, load):
    """Lets dstm check its own reports, and the serial one, which has to be lawful too. Of transactions of the compiler it
    looks at the final state alone."""
    for words in (*([dstm, "run", "--engine", engine] for engine in ENGINES), [load.folder / "serial"]):
        both = load.path.read_bytes() + b"---\n" + report_of(words, load)
        verdict = subprocess.run([dstm, "check"], input=both, capture_output=True).stdout
        if verdict != b"lawful\n":
            sys.exit(f"the report of {' '.join(map(str, words))} on {load.path} is not lawful")
    for line in report_of([load.folder / "transactions"], load).decode().splitlines():
        word, *values = line.split()
        numbers = [int(value.split(":")[0]) for value in values] if word in ("bank", "list", "tree") else []
        if word == "bank" and sum(numbers) != load.money:
            sys.exit(f"transactions have made or lost money on {load.path}")
        if word in ("list", "tree") and any(low >= high for low, high in zip(numbers, numbers[1:])):
            sys.exit(f"transactions have left keys out of order on {load.path}")


def measure(programs, load, rounds):
    rng = random.Random(1)
    for program in programs:
        program.forget()
    for _ in range(rounds):
        order = programs[:]
        rng.shuffle(order)
        for program in order:
            program.measure(load)


def tell(programs, load):
    """Of each measure the milliseconds of each program, and how many times those of the others the first one took."""
    own = programs[0].least
    for measure in MEASURES:
        cells = [f"{own[measure]:.1f}"]
        for program in programs[1:]:
            value = program.least[measure]
            cells.append(f"{value:.1f} ({own[measure] / max(value, 0.1):.2f})")
        print(f"| {load.kind} | {load.workers} | {measure} | " + " | ".join(cells) + " |", flush=True)


def programs_of(given, folder):
    tl2 = [given.dstm, "run", "--engine", "tl2"]
    programs = [Program("dstm", [given.dstm, "run"], told_by_phases), Program("tl2", tl2, told_by_phases)]
    for name in prototypes_in(given.prototypes):
        programs.append(Program(name, [folder / name, *PROTOTYPES[name][1]], told_by_prototype))
    for other in given.also:
        name, path = other.split("=", 1)
        programs.append(Program(name, [path, "run"], told_by_phases))
    for other in given.peer:
        name, words = other.split("=", 1)
        programs.append(Program(name, words.split(), told_by_itself))
    programs.append(Program("serial", [folder / "serial"], told_by_itself))
    programs.append(Program("mutex", [folder / "mutex"], told_by_itself))
    for method in ("ml_wt", "gl_wt"):
        programs.append(Program(method, [folder / "transactions"], told_by_itself, {"ITM_DEFAULT_METHOD": method}))
    return programs


def run(given, folder):
    build(folder, given.prototypes)
    programs = programs_of(given, folder)
    print(f"load average {os.getloadavg()[0]:.1f}, {os.cpu_count()} processors, least of {given.rounds} runs, in ms")
    print("| load | workers | measure | " + " | ".join(program.name for program in programs) + " |")
    print("|---|---|---|" + "---|" * len(programs))
    for kind in given.loads.split(","):
        for workers in map(int, given.workers.split(",")):
            load = Load(folder, given.dstm, kind, given.count, workers)
            check(given.dstm, load)
            measure(programs, load, given.rounds)
            tell(programs, load)


def main():
    reader = argparse.ArgumentParser(description=__doc__)
    reader.add_argument("--dstm", default=str(HERE.parent / "crates/dstm/out/dstm"))
    reader.add_argument("--loads", default="gen,hot,cold,tree,full,long,audit,walk")
    reader.add_argument("--workers", default="1,2,4,8,32")
    reader.add_argument("--count", type=int, default=20000)
    reader.add_argument("--rounds", type=int, default=9)
    reader.add_argument("--also", action="append", default=[], metavar="NAME=PATH", help="another build of dstm")
    reader.add_argument("--peer", action="append", default=[], metavar="NAME=COMMAND", help="another program")
    reader.add_argument("--prototypes", default=os.environ.get("DSTM_PROTOTYPES"), metavar="FOLDER",
                        help="where sources of prototypes stand; else there are no columns for them")
    given = reader.parse_args()
    with tempfile.TemporaryDirectory(prefix="dstm-bench-") as folder:
        run(given, Path(folder))


if __name__ == "__main__":
    main()
