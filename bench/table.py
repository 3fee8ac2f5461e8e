#!/usr/bin/env python3
"""Puts what run.py has printed into README.md, in the place of the table that stands there.

    python3 bench/run.py > FILE; python3 bench/table.py FILE
"""
import sys
from pathlib import Path

from picture import read

README = Path(__file__).resolve().parent / "README.md"
WHOLE = ("dstm", "tl2", "serial", "ml_wt")
RUN = ("dstm", "proto", "tl2", "proto_tl2", "serial", "mutex", "ml_wt", "gl_wt")
# Which run phase is compared with which, and the most that is aimed at.
RATIOS = (("dstm", "proto", 1.3), ("tl2", "proto_tl2", 1.3), ("dstm", "ml_wt", None), ("tl2", "ml_wt", 1.0))


def shown(names, figures):
    """Of these programs those that were measured."""
    return [name for name in names if all(name in figure for figure in figures.values())]


def ratio_of(name, other, most, clock, processors):
    """How many times that of the other the first one took: on the clock, and in brackets on all processors, or `-` where
    the other has told next to no processor time. What is above the most that is aimed at by both stands in bold."""
    is_told = processors[other] > clock[other] / 10
    both = [figure[name] / max(figure[other], 0.1) for figure in (clock, processors)][: 1 + is_told]
    text = f"{both[0]:.2f} ({f'{both[1]:.2f}' if is_told else '-'})"
    return f"**{text}**" if most and min(both) > most + 0.005 else text


def table(path):
    whole, clock, processors = (read(path, measure) for measure in ("process, cpu", "run", "run, cpu"))
    first, next_, ratios = shown(WHOLE, whole), shown(RUN, clock), []
    ratios = [ratio for ratio in RATIOS if {ratio[0], ratio[1]} <= set(next_)]
    titles = ["load", "workers", *first, *next_, *(f"{name} / {other}" for name, other, _ in ratios)]
    yield "| " + " | ".join(titles) + " |"
    yield "|" + "---|" * len(titles)
    for at in clock:
        cells = [*at, *(f"{whole[at][name]:.0f}" for name in first), *(f"{clock[at][name]:.1f}" for name in next_)]
        cells += [ratio_of(*ratio, clock[at], processors[at]) for ratio in ratios]
        yield "| " + " | ".join(cells) + " |"


def put(path):
    """The table of README.md is the lines from the one that begins with load and workers to the last one of a table."""
    lines = README.read_text().splitlines()
    begin = next(at for at, line in enumerate(lines) if line.startswith("| load | workers | dstm |"))
    end = next(at for at in range(begin, len(lines)) if not lines[at].startswith("|"))
    README.write_text("\n".join([*lines[:begin], *table(path), *lines[end:]]) + "\n")


def main():
    if len(sys.argv) != 2:
        sys.exit(__doc__.strip())
    put(sys.argv[1])


if __name__ == "__main__":
    main()
