#!/usr/bin/env python3
"""Draws what run.py has printed as an SVG: how many times the run phase of each program took that of ml_wt, on the clock.

    python3 bench/run.py > FILE; python3 bench/picture.py FILE > bench/run.svg
"""
import sys

COLORS = {"dstm": "#1b6ca8", "proto": "#9cc3e0", "tl2": "#e07b39", "proto_tl2": "#f2c4a0", "mutex": "#9aa5b1",
          "gl_wt": "#c9ced6"}
BAR, GAP, HEIGHT, MOST, LEFT, TOP = 7, 14, 220, 6.0, 44, 40
ROW = 4  # so many loads stand in a row


def read(path, measure="run"):
    """Of each load and count of workers the milliseconds of each program, by a measure."""
    names, figures = [], {}
    with open(path) as lines:
        for line in lines:
            cells = [cell.strip() for cell in line.strip().strip("|").split("|")]
            if cells[:3] == ["load", "workers", "measure"]:
                names = cells[3:]
            elif len(cells) == 3 + len(names) and cells[2] == measure:
                figures[cells[0], cells[1]] = dict(zip(names, (float(cell.split()[0]) for cell in cells[3:])))
    return figures


def height_of(ratio):
    return min(ratio, MOST) / MOST * HEIGHT


def bars(at, top, figure, shown):
    """The bars of one load and count of workers, from this place on and below this height."""
    for place, name in enumerate(shown):
        ratio = figure[name] / figure["ml_wt"]
        high = height_of(ratio)
        box = f'x="{at + place * BAR}" y="{top + HEIGHT - high:.1f}" width="{BAR - 1}" height="{high:.1f}"'
        yield f'<rect {box} fill="{COLORS[name]}"><title>{name}: {ratio:.2f}</title></rect>'


def text(x, y, words, anchor="middle"):
    return f'<text x="{x}" y="{y}" text-anchor="{anchor}" font-size="11" font-family="sans-serif">{words}</text>'


def panel(figures, shown, loads, top):
    """The bars of these loads, below this height."""
    group, at, out = len(shown) * BAR + GAP, LEFT + GAP, []
    for load in loads:
        begin = at
        for (other, workers), figure in figures.items():
            if other == load:
                out.extend(bars(at, top, figure, shown))
                out.append(text(at + len(shown) * BAR / 2, top + HEIGHT + 14, workers))
                at += group
        out.append(text((begin + at - GAP) / 2, top + HEIGHT + 32, load))
        at += GAP
    for ratio in range(int(MOST) + 1):
        y = top + HEIGHT - height_of(ratio)
        color = "#444" if ratio == 1 else "#ddd"
        out.insert(0, f'<line x1="{LEFT}" x2="{at - GAP}" y1="{y:.1f}" y2="{y:.1f}" stroke="{color}"/>')
        out.append(text(LEFT - 6, f"{y + 4:.1f}", ratio, "end"))
    return at, out


def picture(figures):
    loads = list(dict.fromkeys(load for load, _ in figures))
    shown = [name for name in COLORS if all(name in figure for figure in figures.values())]
    width, out = 0, []
    for row, first in enumerate(range(0, len(loads), ROW)):
        end, drawn = panel(figures, shown, loads[first : first + ROW], TOP + row * (HEIGHT + 64))
        width, out = max(width, end), [*out, *drawn]
    for place, name in enumerate(shown):
        out.append(f'<rect x="{LEFT + place * 70}" y="12" width="10" height="10" fill="{COLORS[name]}"/>')
        out.append(text(LEFT + place * 70 + 14, 21, name, "start"))
    out.append(text(LEFT + len(shown) * 70 + 10, 21, "run phase on the clock, ml_wt = 1; below: workers", "start"))
    height = TOP + (row + 1) * (HEIGHT + 64)
    head = f'<svg xmlns="http://www.w3.org/2000/svg" width="{max(width, LEFT + 900)}" height="{height}">'
    return "\n".join([head, '<rect width="100%" height="100%" fill="white"/>', *out, "</svg>"])


def main():
    if len(sys.argv) != 2:
        sys.exit(__doc__.strip())
    print(picture(read(sys.argv[1])))


if __name__ == "__main__":
    main()
