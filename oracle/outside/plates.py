"""Proof rings drawn from the request's words: the square of cells of every version at every pose, and its marks.

A square has side + 6 cells a side, side = 17 + 4 x version. Positions go round its outermost cells clockwise from the upper
left one. A position's outer cell carries its mark, light 255 or dark 0. At a reference position, every third from 0 on, the cell
one step inward carries it too, but only where that cell is of this position: a cell belongs to the edge on which it lies farthest
out, top and bottom have the corners, and its position is that of the outermost cell there with the same coordinate along the edge.
All else is 255. This is corner 0, forwards. The reversed ring has columns and rows swapped, and corner r then turns the square r
quarter turns clockwise.

    plates.py SOURCES OUT    for each version, forwards then reversed, each corner: the cells, row by row, one byte each, then a
                             byte of each mark round the square, 1 where it is light

The sequence table is read from border_seq.rs of the folder SOURCES, the Rust sources as oracle/make_oracle.py finds them. No
code of the Rust or of the finder is used."""
import os
import re
import sys


def sequences(sources):
    """The marks of each version, 1 for light: bit p mod 8 of byte p div 8 of its row."""
    name = ("lcr-core", "src", "border_seq.rs")
    for path in (os.path.join(sources, "src--crates--" + "--".join(name) + ".txt"),
                 os.path.join(sources, "crates", *name), os.path.join(sources, *name)):
        if os.path.exists(path):
            break
    else:
        sys.exit(f"plates: no border_seq.rs under {sources}")
    text = open(path, encoding="utf-8").read()
    table = text[text.index("SEQUENCES"):]
    rows = [bytes.fromhex("".join(re.findall(r"0x([0-9a-f]{2})\b", row))) for row in re.findall(r"&\[(\s[^\]]*)\]", table)]
    assert [len(row) for row in rows] == [2 * version + 11 for version in range(1, 65)]
    return [[row[p // 8] >> p % 8 & 1 for p in range(8 * len(row))] for row in rows]


def round_of(s):
    """The outermost cells of a square of s cells a side, clockwise from the upper left one."""
    e = s - 1
    return ([(x, 0) for x in range(e)] + [(e, y) for y in range(e)]
            + [(x, e) for x in range(e, 0, -1)] + [(0, y) for y in range(e, 0, -1)])


def outermost(x, y, s):
    """The outermost cell of the edge that a ring's cell belongs to, with the same coordinate along it."""
    e = s - 1
    across, down = min(x, e - x), min(y, e - y)  # cells between this one and the nearest edge
    if down <= across:
        return (x, 0 if y < s // 2 else e)
    return (0 if x < s // 2 else e, y)


def square(marks, s):
    """The square of cells at corner 0, forwards."""
    cells = [[255] * s for _ in range(s)]
    for p, (x, y) in enumerate(round_of(s)):
        grey = 255 if marks[p] else 0
        cells[y][x] = grey
        inner = min(max(x, 1), s - 2), min(max(y, 1), s - 2)
        if p % 3 == 0 and outermost(*inner, s) == (x, y):
            cells[inner[1]][inner[0]] = grey
    return cells


def main():
    sources, out = sys.argv[1:]
    with open(out, "wb") as to:
        for version, marks in enumerate(sequences(sources), 1):
            s = 17 + 4 * version + 6
            n, quarter = len(marks), s - 1
            assert n == 4 * quarter == 16 * version + 88
            forwards = square(marks, s)
            for reverse in (False, True):
                cells = [list(column) for column in zip(*forwards)] if reverse else forwards
                for corner in range(4):
                    # the mark of position p is now at corner x quarter + p round the square, or at corner x quarter - p
                    moved = [0] * n
                    for p, mark in enumerate(marks):
                        moved[(corner * quarter + (-p if reverse else p)) % n] = mark
                    assert [cells[y][x] == 255 for x, y in round_of(s)] == [mark == 1 for mark in moved]
                    to.write(b"".join(map(bytes, cells)) + bytes(moved))
                    cells = [list(column) for column in zip(*cells[::-1])]  # a quarter turn clockwise


main()
