#!/usr/bin/env python3
"""Reads the lines of a program from a pipe and tells how long the first and the last 1,000 of its rows took, and all.

pace.py PROGRAM PLANFILE prints: rows, bytes, and microseconds a row for the first 1,000, the last 1,000 and all rows,
each the best of some runs. Rows come in blocks: time runs from the first block, and that of 1,000 rows is that of the
blocks that hold them.
"""
import subprocess
import sys
import time

SOME = 1000
RUNS = 5


def marks_of(program, plan):
    """How many lines had come at which time, and the bytes of all."""
    marks, lines, size = [], 0, 0
    with open(plan, "rb") as f:
        child = subprocess.Popen([program], stdin=f, stdout=subprocess.PIPE)
    while True:
        block = child.stdout.read1(1 << 20)
        if not block:
            break
        lines += block.count(b"\n")
        size += len(block)
        marks.append((lines, time.perf_counter()))
    if child.wait() != 0:
        sys.exit("pace.py: the program failed")
    return marks, size


def pace(a, b):
    return 1e6 * (b[1] - a[1]) / max(1, b[0] - a[0])


def main():
    program, plan = sys.argv[1:]
    paces = []
    for _ in range(RUNS):
        marks, size = marks_of(program, plan)
        start, end = marks[0], marks[-1]
        first = next((m for m in marks if m[0] >= start[0] + SOME), end)
        last = next((m for m in reversed(marks) if m[0] <= end[0] - SOME), start)
        paces.append((pace(start, first), pace(last, end), pace(start, end)))
    rows = end[0] - 1  # the last line is no row
    print(rows, size, *(f"{min(p):.2f}" for p in zip(*paces)))


main()
