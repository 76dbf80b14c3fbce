#!/usr/bin/env python3
"""Prints the tables of docs/PLANTED.md on the must-fail edits, from what a run of the gate said of each.

usage: rt ci | tee LOG; tools/planted.py LOG

A run says it of the edits that it tried; those that it knew from an earlier run it names too.
"""

import os
import re
import sys

SAID = re.compile(r"^rt: must-fail (\w+)/(\S+)\.edit: refused, as it must be: (.*)")


def change(path):
    """The file that an edit changes, and what it puts for what."""
    file, pairs = "", []
    with open(path, encoding="utf-8") as f:
        for line in f.read().split("\n"):
            word, _, text = line.partition(": ")
            if word == "file":
                file = text
            elif word == "old":
                pairs.append([text.strip(), ""])
            elif word == "new" or line == "new:":
                pairs[-1][1] = text.strip()
    cell = "; ".join(f"`{old}` → {f'`{new}`' if new else 'nothing'}" for old, new in pairs)
    return file.removeprefix("src/"), cell.replace("|", "\\|")


def refusal(said):
    """The function whose proof fails, or the file, and the goal that stays open."""
    goal = re.search(r"`((?:returns|loop|invariant|index|bounds|overflow|listed|prove|nonzero|decreases)[^`]*|[\w+-]*-requires[^`]*)`", said)
    place = re.match(r"\./proofs/(.*)/\w+\.antt:", said)
    if place:
        where = "`" + place.group(1).replace("+", "").replace("/", "::") + "`"
    else:
        where = re.match(r"(?:note: )?(?:src/)?([^:]*)", said).group(1)
    return where + (f", `{goal.group(1)}`" if goal else "")


def main(log):
    rows = {}
    with open(log, encoding="utf-8") as f:
        for line in f:
            m = SAID.match(line)
            if m:
                rows.setdefault(m.group(1), {})[m.group(2)] = refusal(m.group(3))
    with open("crates.txt", encoding="utf-8") as f:
        crates = [line.split(":")[0].split()[0] for line in f if ":" in line]
    for crate in crates:
        if crate not in rows:
            continue
        print(f"### {crate}\n\n| edit | file | change | refused at |\n|---|---|---|---|")
        for name, where in sorted(rows[crate].items()):
            file, cell = change(os.path.join("crates", crate, "must-fail", name + ".edit"))
            print(f"| {name} | {file} | {cell} | {where} |")
        print()


if __name__ == "__main__":
    main(sys.argv[1])
