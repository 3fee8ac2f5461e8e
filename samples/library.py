#!/usr/bin/env python3
"""Compares the programs on the pages with the sources that they are cut from, so that page and source cannot part.

    python3 samples/library.py

A block of code on a page has a comment before it that names its source:

    <!-- crates/example_counter/src/main.rt -->

Its lines then stand in this file one behind the other, but for a common indentation (and, in Rust, for the `//!` before
a page that is tested). A line of it that is only `..` or `// ..` stands for any lines of the file. A block of a line or
two that is of no program has `<!-- of no program -->`, and a text or a picture that is made of characters `<!-- a text -->`
or `<!-- a picture -->`. It writes each block that differs and each that names no source; pictures by mermaid are no code.
"""

import re
import sys
from pathlib import Path
from textwrap import dedent

TOP = Path(__file__).resolve().parent.parent
PAGES = ["README.md", "docs/*.md", "c/README.md", "bench/*.md", "edits/README.md"]
OF_NO_PROGRAM = "of no program"
NO_CODE = ("a text", "a picture")


def blocks_of(page):
    """Returns the line of each block of code, the source that is named before it, and its lines."""
    lines, at, named, found = page.split("\n"), 0, None, []
    while at < len(lines):
        line = lines[at]
        comment = re.fullmatch(r"<!-- (.*) -->", line)
        if line.startswith("```"):
            end = lines.index("```", at + 1)
            if line != "```mermaid":
                found.append((at + 1, named, lines[at + 1 : end]))
            at = end
        if line:
            named = comment and comment[1]
        at += 1
    return found


def pieces_of(lines):
    """Returns the lines between those that stand for any lines."""
    pieces = [[]]
    for line in lines:
        if line.strip() in ("..", "// .."):
            pieces.append([])
        else:
            pieces[-1].append(line)
    return [dedent("\n".join(piece)).strip("\n").split("\n") for piece in pieces if "".join(piece).strip()]


def place_of(piece, source, begin):
    """Returns the first place from `begin` on at which the lines of the source are those of the piece, or None."""
    for at in range(begin, len(source) - len(piece) + 1):
        # (the first lines tell soon whether it is worth while to compare all)
        if source[at].strip() == piece[0].strip():
            if dedent("\n".join(source[at : at + len(piece)])).split("\n") == piece:
                return at
    return None


def nearest(piece, source):
    """Returns the first line of the piece that the source does not have where the piece begins."""
    best = 0
    for at in range(len(source)):
        same = 0
        while same < len(piece) and at + same < len(source) and source[at + same].strip() == piece[same].strip():
            same += 1
        best = max(best, same)
    return piece[min(best, len(piece) - 1)]


def difference(lines, path):
    """Returns what the source has otherwise than these lines of a page, or nothing."""
    if not path.is_file():
        return "there is no such file"
    source = path.read_text(encoding="utf-8").split("\n")
    if path.suffix == ".rs":
        source = [re.sub(r"^//! ?", "", line) for line in source]
    begin = 0
    for piece in pieces_of(lines):
        at = place_of(piece, source, begin)
        if at is None:
            return f"it has not, or not in this place: {nearest(piece, source).strip()}"
        begin = at + len(piece)
    return ""


def main():
    compared, differ, without = 0, 0, 0
    for page in [page for pages in PAGES for page in sorted(TOP.glob(pages))]:
        for line, named, lines in blocks_of(page.read_text(encoding="utf-8")):
            page_line = f"{page.relative_to(TOP)}:{line}"
            if not named or (named == OF_NO_PROGRAM and len(lines) > 2):
                without += 1
                print(f"{page_line}: names no source")
            elif named not in (OF_NO_PROGRAM, *NO_CODE):
                compared += 1
                told = difference(lines, TOP / named)
                if told:
                    differ += 1
                    print(f"{page_line}: {named}: {told}")
    print(f"{compared} compared, {differ} differ" + f", {without} name no source" * bool(without))
    return differ + without > 0


if __name__ == "__main__":
    sys.exit(main())
