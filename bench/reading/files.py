#!/usr/bin/env python3
"""Writes a file of so many monomers, or of so many frames, for timing its reading.

single N    N monomers on the cells of a lattice of spacing 2, a line each
chain N     the same, with 32 of them in each line
frames N    N frames of one monomer, in a box of 2^24 sites
ranges N    2^17 monomers in chain lines, behind N entries each of which gives all of them a label
changes N   two monomers, and N bonds that are added and taken away again behind the frame
overlap N   N monomers in one line, a path through the cells, whose last one comes back to an earlier one
bond N      the same path, whose last monomer overlaps none and is too far from one that it is bonded to
"""

import sys


def header(monomers, side):
    axes = "xyz"
    return (
        f"!number_of_monomers={monomers}\n"
        + "".join(f"!box_{a}={side}\n" for a in axes)
        + "".join(f"!periodic_{a}=1\n" for a in axes)
        + "!set_of_bondvectors\n2 0 0:65\n-2 0 0:66\n"
    )


def monomers(count, a_line):
    cells = 32
    while cells**3 < count:
        cells *= 2
    lines = [header(count, 2 * cells), "!mcs=0\n"]
    string = " " + "A" * (a_line - 1) if a_line > 1 else ""
    for k in range(0, count, a_line):
        x, y, z = k % cells, k // cells % cells, k // cells**2
        lines.append(f"{2 * x} {2 * y} {2 * z}{string}\n")
    return "".join(lines)


def path(count, cells):
    """The vectors of a path that takes each cell once: along x and back, row by row, plane by plane."""
    x_up = y_up = True
    vectors = []
    x, y = 0, 0
    while len(vectors) < count - 1:
        if x < cells - 1 if x_up else x > 0:
            x += 1 if x_up else -1
            vectors.append("A" if x_up else "B")
            continue
        x_up = not x_up
        if y < cells - 1 if y_up else y > 0:
            y += 1 if y_up else -1
            vectors.append("C" if y_up else "D")
            continue
        y_up = not y_up
        vectors.append("E")
    return vectors


def refused(count, form):
    cells = 32
    while cells**3 < count:
        cells *= 2
    vectors = path(count, cells)
    text = header(count, 2 * cells)
    text += "0 2 0:67\n0 -2 0:68\n0 0 2:69\n0 0 -2:70\n"
    if form == "overlap":
        # From the last but one back to where the one before it stands.
        vectors[-1] = {"A": "B", "B": "A", "C": "D", "D": "C", "E": "F"}[vectors[-2]]
    else:
        text += f"!bonds\n2 {count}\n"
    return text + "!mcs=0\n0 0 0 " + "".join(vectors) + "\n"


def frames(count):
    return header(1, 256) + "".join(f"!mcs={k}\n{k} 3 3\n" for k in range(count))


def ranges(count):
    text = monomers(1 << 17, 32)
    entries = "!attributes\n" + "".join(f"1-131072:{k}\n" for k in range(count))
    return text.replace("!mcs=0\n", entries + "!mcs=0\n")


def changes(count):
    return monomers(2, 1) + "!add_bonds\n1 2\n!remove_bonds\n1 2\n" * count


def main():
    form, count = sys.argv[1], int(sys.argv[2])
    if form == "frames":
        sys.stdout.write(frames(count))
    elif form in ("ranges", "changes"):
        sys.stdout.write(ranges(count) if form == "ranges" else changes(count))
    elif form in ("overlap", "bond"):
        sys.stdout.write(refused(count, form))
    else:
        sys.stdout.write(monomers(count, 32 if form == "chain" else 1))


main()
