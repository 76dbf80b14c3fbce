#!/usr/bin/env python3
"""Writes the plans that bench/run measures on into a folder: plans.py FOLDER

A plan is made of lines of track from west to east. A line is a list: "E" and "W" stand for signals of that direction,
and a number for so many pairs of switches, the two of a pair connected at both legs. A train passes a pair by either
leg, so a line of p pairs has 2^p paths from end to end.
"""
import os
import struct
import sys

BLANK = 65535
WEST, EAST, BRANCH = 0, 1, 2


def word(n):
    return struct.pack("<H", n)


def plan(*lines):
    letters = [item for line in lines for item in line if isinstance(item, str)]
    pairs = sum(item for line in lines for item in line if isinstance(item, int))
    far = {}

    def connect(a, b):
        if a is not None:
            far[a], far[b] = b, a

    def stored(component, side):
        port = far.get((component, side))
        return word(BLANK if port is None else 4 * port[0] + port[1])

    signal, switch = 0, len(letters)
    for line in lines:
        end = None  # the east port of what stands so far
        for item in line:
            if isinstance(item, str):
                connect(end, (signal, WEST))
                end = (signal, EAST)
                signal += 1
                continue
            for _ in range(item):
                connect(end, (switch, WEST))
                connect((switch, EAST), (switch + 1, WEST))
                connect((switch, BRANCH), (switch + 1, BRANCH))
                end = (switch + 1, EAST)
                switch += 2

    out = word(len(letters))
    for c, letter in enumerate(letters):
        out += stored(c, WEST) + stored(c, EAST) + letter.encode()
    out += word(2 * pairs)
    for k in range(2 * pairs):
        c = len(letters) + k
        out += stored(c, WEST) + stored(c, EAST) + stored(c, BRANCH) + (b"E" if k % 2 == 0 else b"W") + word(k)
    out += word(0) + word(2 * pairs) + word(1) * (2 * pairs)
    return out


def main():
    if len(sys.argv) != 2:
        sys.exit("usage: plans.py FOLDER")
    plans = {f"ladder{p}": plan(["E", p, "E"]) for p in (16, 32, 64, 128, 250)}
    # no route at all; one route, found only once all paths from the first signal are done with; 32 routes, each
    # followed by dead ends; a signal of the other direction at the end of the dead ends, with a signal behind it
    plans["no_way_out"] = plan(["E", 250, "W"])
    plans["behind"] = plan(["E", 250, "W"], ["E", "E"])
    plans["beyond"] = plan(["E", 5, "E", 240, "W"])
    plans["spur"] = plan(["E", 250, "W", "E"])
    for name, text in plans.items():
        with open(os.path.join(sys.argv[1], name + ".plan"), "wb") as f:
            f.write(text)


if __name__ == "__main__":
    main()
