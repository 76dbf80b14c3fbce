#!/usr/bin/env python3
"""Brings the definitions and lemmas of specs/ and proofs/ to snake case: a-word becomes a_word.

usage: tools/respell.py [--look]      at the top of the repository, once, after the toolchain's own port script

A name is respelled in each file that defines it or imports it from a crate of this repository; a name of the
standard library, a name that the check makes (behind a dot) and all of src/ but its clauses stay as they are.
With --look nothing is written. Either way each new name that falls together with a name that the file already has
is printed.
"""

import os
import re
import sys

# what these definitions state is a fact, so they are spelled as types
FACTS = {"Read-written": "ReadWritten", "Written-read": "WrittenRead"}
# fields of records, which are respelled behind a dot too
FIELDS = set(
    "few-sections signal-letters switch-letters count-in record-in signal-count switch-count straight-count "
    "section-count member-count none-empty new-wait none-left-out".split()
)
# new names that would fall together with another one
OTHERS = {"bit-and": "bit-bit_and", "bit-xor": "bit-bit_xor"}

WORD = re.compile(r"[^\s(){}\[\],;.«»\"|`⌜⌝]+")
DEFINED = re.compile(r"^[ \t]*(?:(?:abbrev|unfoldable|pub|record|data|deriving)[ \t]+)*([^\s(){}\[\],;.:«»]+)[ \t]*:", re.M)
LET = re.compile(r"(?:\blet |[({])([^\s(){}\[\],;.:«»=]+) (?=[:=])")
USE = re.compile(r"\buse\s+([^\s{};]+?)\.\{([^}]*)\}")


def new_name(name):
    if name in OTHERS.values():
        return name
    if name in OTHERS:
        return OTHERS[name]
    if name in FACTS:
        return FACTS[name]
    return re.sub(r"(?<=[\w'])-(?=\w)", "_", name)


def texts():
    for folder, dirs, files in os.walk("crates"):
        dirs[:] = sorted(d for d in dirs if d != "out")
        for f in sorted(files):
            if f.endswith((".antt", ".rt")):
                yield os.path.join(folder, f)


def made_by_the_check(path):
    """A file that answers goals: its names at the margin are the check's."""
    return os.path.basename(path) in ("Answers.antt", "Invariants.antt", "Choices.antt", "Proof.antt")


def defined(path, text):
    if path.endswith(".rt"):
        return set()
    names = set()
    for m in DEFINED.finditer(text):
        line = text[m.start():].split("\n", 1)[0]
        if made_by_the_check(path) and re.match(r"[^:]*:\s*goal\.", line):
            continue
        names.add(m.group(1))
    return names | set(LET.findall(text))


def own_imports(text, crates):
    names = set()
    for path, items in USE.findall(text):
        parts = path.split(".")
        if parts[0] == "Rattle" and len(parts) > 1 and parts[1] in crates and not {"declared", "Goals"} & set(parts):
            for item in items.split(","):
                names.update(w for w in item.replace(" as ", " ").split())
    return names


def main():
    look = "--look" in sys.argv[1:]
    crates = {d for d in os.listdir("crates") if os.path.isdir(os.path.join("crates", d, "src"))}
    changed = 0
    for path in texts():
        with open(path, encoding="utf-8") as f:
            text = f.read()
        own = {n for n in defined(path, text) | own_imports(text, crates) if new_name(n) != n}
        words = set(WORD.findall(text))
        for n in sorted(own):
            if new_name(n) in words:
                print(f"falls together: {path}: {n} and {new_name(n)}")

        def turn(m):
            behind = text[m.start() - 1] if m.start() else ""
            name = m.group(0)
            field = name in FIELDS and (behind == "." or re.match(r"\s*=", text[m.end():]))
            return new_name(name) if field or (name in own and behind != ".") else name

        turned = WORD.sub(turn, text)
        if turned != text:
            changed += 1
            if not look:
                with open(path, "w", encoding="utf-8") as f:
                    f.write(turned)
    print(f"{changed} files respelled")


if __name__ == "__main__":
    main()
