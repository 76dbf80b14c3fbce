#!/usr/bin/env python3
"""Turns the goal names in proofs/F/ to the spelling of today's check: a name of src/ keeps its own, and the words of one
part of a name are joined by `_`.

usage: tools/turn_goals.py CRATE..
"""

import glob
import re
import sys

TURNS = [
    (r"\bin-default\b", "in_default"),
    (r"\bin-err(?=[-\s,.:(){}]|$)", "in_err"),
    (r"\bin-ok(?=[-\s,.:(){}]|$)", "in_ok"),
    (r"\boverflow-(add|sub|mul|cast|shl|shr|neg|step)\b", r"overflow_\1"),
    (r"\bnonzero-(div|rem)\b", r"nonzero_\1"),
    (r"\bslice-bounds-", "slice_bounds-"),
    (r"\boffset-bounds-", "offset_bounds-"),
    (r"\binvariant-of-", "invariant_of-"),
    (r"(?<=c\.)as-slice\b", "as_slice"),
]


def source_names(crate):
    """The names of src/ that have two words or more, the longest first."""
    names = set()
    for path in glob.glob(f"crates/{crate}/src/**/*.rt", recursive=True):
        with open(path, encoding="utf-8") as f:
            for line in f:
                code = line.split("//")[0]
                if not re.match(r"\s*(ghost|ensures|requires)\b", code):
                    names.update(re.findall(r"\b[a-z][a-z0-9]*(?:_[a-z0-9]+)+\b", code))
    return sorted(names, key=len, reverse=True)


def main():
    for crate in sys.argv[1:]:
        names = [(r"(?<![\w])" + n.replace("_", "-") + r"(?![\w])", n) for n in source_names(crate)]
        for path in glob.glob(f"crates/{crate}/proofs/*/**/*.antt", recursive=True):
            with open(path, encoding="utf-8") as f:
                text = f.read()
            turned = text
            for old, new in TURNS + names:
                turned = re.sub(old, new, turned)
            if turned != text:
                with open(path, "w", encoding="utf-8") as f:
                    f.write(turned)
                print(path)


if __name__ == "__main__":
    main()
