#!/usr/bin/env python3
"""Counts places in the source that are written in an older form, one group a point of docs/DESIGN-PASS.md.

    tools/forms.py [-l] [FOLDER]      FOLDER is a checkout (default: this one); -l lists the places
"""
import collections
import glob
import os
import re
import sys

listed = "-l" in sys.argv
folders = [a for a in sys.argv[1:] if a != "-l"]
os.chdir(folders[0] if folders else os.path.join(os.path.dirname(os.path.abspath(__file__)), ".."))
files = {f: open(f).read() for f in sorted(glob.glob("crates/*/src/**/*.rt", recursive=True))}
answers = [f for f in glob.glob("crates/*/proofs/**/*.antt", recursive=True)]


def lines(pattern):
    found = []
    for f, text in files.items():
        for n, line in enumerate(text.split("\n"), 1):
            if not line.lstrip().startswith(("//", "ghost", "requires", "ensures")) and re.search(pattern, line):
                found.append((f, n, line.strip()))
    return found


def index_loops():
    """Loops over a range whose variable is an index (`i`, or in brackets below), and loops that count by `while`."""
    found = []
    for f, text in files.items():
        rows = text.split("\n")
        for n, line in enumerate(rows):
            m = re.match(r"\s*for (\w+) in .*\.\.", line)
            body = "\n".join(rows[n + 1 : n + 8])
            if m and (m.group(1) in "ijk" or re.search(r"\[[^\]\n]*\b" + m.group(1) + r"\b[^\[\n]*\]", body)):
                found.append((f, n + 1, line.strip()))
            if re.match(r"\s*while (?!let)", line):
                found.append((f, n + 1, line.strip()))
    return found


def functions():
    head = re.compile(r"^ *(?:pub(?:\(crate\))? )?(?:extern \"C\" )?fn (\w+)(?:<[^(]*>)?\(((?:[^()]|\([^()]*\))*)\)(?: -> ([^\n{]+))?", re.M)
    for f, text in files.items():
        for m in head.finditer(text):
            yield f, text.count("\n", 0, m.start()) + 1, m.group(1), m.group(2), (m.group(3) or "").strip()


def shared_names():
    """Functions that free code of two crates defines under one name, and constants."""
    where = collections.defaultdict(set)
    for f, n, name, args, _ in functions():
        if "self" not in args and name not in ("main", "run", "new", "fmt", "from", "try_from"):
            where[name].add((f, n))
    for f, text in files.items():
        for m in re.finditer(r"^(?:pub )?const (\w+)", text, re.M):
            where[m.group(1)].add((f, text.count("\n", 0, m.start()) + 1))
    return [(f, n, name) for name, at in sorted(where.items()) if len({f.split("/")[1] for f, _ in at}) > 1 for f, n in sorted(at)]


def repeated_clauses():
    count = collections.defaultdict(list)
    for f, text in files.items():
        for n, line in enumerate(text.split("\n"), 1):
            s = re.sub(r"^(requires|ensures) (?:\w+ )?\{", r"\1 {", line.strip())
            if s.startswith(("requires {", "ensures {")):
                count[s].append((f, n))
    return [(f, n, s[:90]) for s, at in count.items() if len(at) > 2 for f, n in at]


def named(pattern):
    return [(f, n, name) for f, n, name, _, _ in functions() if re.fullmatch(pattern, name)]


points = [
    ("1. numbers for kinds: `% 4` of an entry or a code", lines(r"% 4\b")),
    ("1. a fault that is told as an Option", lines(r"-> Option<\w*Fault>")),
    ("1. a bool beside a value that the call changes", [(f, n, name) for f, n, name, a, r in functions() if r == "bool" and "&mut" in a and not name.startswith("is_")]),
    ("1. a number that stands for none", lines(r"const (NO_ENTRY|BLANK)\b")),
    ("1. numbers for refusals and layers in a struct", lines(r"^\s*pub (number|layer): u\d")),
    ("2. functions and constants of one name in two crates", shared_names()),
    ("3. loops that count an index", index_loops()),
    ("3. searches and sums as loops", lines(r"^\s*return (true|Some\((i|entry|component)\));|\+= 1;$|\+= .*count")),
    ("4. conversion, equality and printing by hand", named(r"tell|is_same|leads_to|direction|direction_at|is_letter|layer_number|side_number|port_code|port_of|accepted|refused|side_name|\w+_words|is_told|print_fault|is_kind|is_blank")),
    ("4. the parts of what a fault tells taken for print", lines(r"let (number|place) = told\.")),
    ("5. a clause that stands in three functions or more", repeated_clauses()),
    ("6. a length beside a buffer", lines(r"^\s*(pub(\(crate\))? )?(len|count|used): usize,$|\[\(usize, \[u8")),
    ("7. a match on which step to run", lines(r"\bmatch (order|closing)\b")),
    ("8. answers in proof files", [(f, n, m.group(1)) for f in answers if f.endswith("Answers.antt") for n, line in enumerate(open(f).read().split("\n"), 1) for m in [re.match(r"pub (\S+) : goal\.", line)] if m]),
]
for title, found in points:
    print(f"{len(found):4}  {title}")
    if listed and not title.startswith("8"):
        for f, n, text in found:
            print(f"        {f}:{n}: {text}")
