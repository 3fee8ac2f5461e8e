#!/usr/bin/env python3
"""Draws what scale.py has printed of the loads as an SVG: the speed-up of each program against threads, a panel for each load.

    python3 bench/scale.py > FILE; python3 bench/speedup.py FILE > bench/scale.svg
"""
import sys

from picture import COLORS, text

PANEL, HEIGHT, GAP, LEFT, TOP, MOST, ROW = 190, 170, 36, 40, 44, 4.0, 4
PLACES = {"1": 0.0, "2": 0.5, "4": 1.0}  # where a number of threads stands
SHADES = {**COLORS, "ml_wt": "#5b6570"}


def read(path):
    """Of each load and program the speed-ups by the number of threads."""
    names, figures = [], {}
    with open(path) as lines:
        for line in lines:
            cells = [cell.strip() for cell in line.strip().strip("|").split("|")]
            if cells[:2] == ["load", "threads"]:
                names = cells[2:]
            elif names and len(cells) == 2 + len(names) and cells[1] in PLACES:
                for name, cell in zip(names, cells[2:]):
                    if "(" in cell:
                        speed = float(cell.split("(")[1].rstrip(")"))
                        figures.setdefault(cells[0], {}).setdefault(name, {})[cells[1]] = speed
            elif names and not line.startswith("|"):
                break
    return figures


def panel(load, programs, left, top):
    def place(threads, speed):
        return f"{left + PLACES[threads] * PANEL:.1f},{top + HEIGHT - min(speed, MOST) / MOST * HEIGHT:.1f}"

    for speed in range(int(MOST) + 1):
        y = top + HEIGHT - speed / MOST * HEIGHT
        color = "#444" if speed == 1 else "#ddd"
        yield f'<line x1="{left}" x2="{left + PANEL}" y1="{y:.1f}" y2="{y:.1f}" stroke="{color}"/>'
        yield text(left - 8, f"{y + 4:.1f}", speed, "end")
    for threads, at in PLACES.items():
        yield text(left + at * PANEL, top + HEIGHT + 14, threads)
    yield text(left + PANEL / 2, top - 6, load)
    for name, color in SHADES.items():
        speeds = programs.get(name, {})
        if "4" in speeds:
            points = " ".join(place(threads, speed) for threads, speed in speeds.items())
            width = 3 if name in ("dstm", "tl2") else 1.5
            told = ", ".join(f"{speed:.2f}" for speed in speeds.values())
            yield (f'<polyline points="{points}" fill="none" stroke="{color}" stroke-width="{width}">'
                   f"<title>{name}: {told}</title></polyline>")


def picture(figures):
    out, rows = [], (len(figures) + ROW - 1) // ROW
    for at, (load, programs) in enumerate(figures.items()):
        out += panel(load, programs, LEFT + at % ROW * (PANEL + GAP), TOP + at // ROW * (HEIGHT + 52))
    for at, (name, color) in enumerate(SHADES.items()):
        out.append(f'<rect x="{LEFT + at * 80}" y="10" width="10" height="10" fill="{color}"/>')
        out.append(text(LEFT + at * 80 + 14, 19, name, "start"))
    out.append(text(LEFT + len(SHADES) * 80 + 10, 19, "how many times as fast as one thread; below: threads", "start"))
    width, height = LEFT + ROW * (PANEL + GAP), TOP + rows * (HEIGHT + 52)
    head = f'<svg xmlns="http://www.w3.org/2000/svg" width="{width}" height="{height}">'
    return "\n".join([head, '<rect width="100%" height="100%" fill="white"/>', *out, "</svg>"])


def main():
    if len(sys.argv) != 2:
        sys.exit(__doc__.strip())
    print(picture(read(sys.argv[1])))


if __name__ == "__main__":
    main()
