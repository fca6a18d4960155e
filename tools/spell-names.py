#!/usr/bin/env python3
"""Spells this repository's own definitions and lemmas in snake case, by tools/spelling.tsv.

usage: python3 tools/spell-names.py [ROOT]     once, after /opt/rattle/port/port.py, over ROOT (default: the checkout of this script)

A row of the table is an old name, a tab and the new one. Definitions and lemmas turn in specs/ and proofs/, and in the clauses, ghost
blocks and `ghost use` items of src/; functions, types, modules, strings and inputs keep their names. It stops where a new name stands
already in a file that has the old one, since the two would fall together. A second run writes nothing more.
"""
import os
import re
import subprocess
import sys

HERE = os.path.dirname(os.path.realpath(__file__))
TABLE = os.path.join(HERE, "spelling.tsv")
SNAKE = "/opt/rattle/port/notes/2026-11-18-names-are-in-snake-case/snake.py"
WORD = re.compile(r'[^\s(){}.;,@"«»]+')


def table():
    with open(TABLE, encoding="utf-8") as f:
        return dict(line.rstrip("\n").split("\t") for line in f if line.strip())


def texts(root):
    for folder, dirs, files in os.walk(os.path.join(root, "crates")):
        dirs[:] = sorted(d for d in dirs if d not in ("out", "target"))
        for name in sorted(files):
            if name.endswith(".antt"):
                yield os.path.join(folder, name)


def fallen_together(root, rows):
    for path in texts(root):
        with open(path, encoding="utf-8") as f:
            words = set(WORD.findall(re.sub(r"(?m)(^|\s)--.*$", "", f.read())))
        for old, new in rows.items():
            if old in words and new in words:
                yield f"{path}: {old} would meet {new}"


def main(argv):
    root = os.path.realpath(argv[0] if argv else os.path.join(HERE, ".."))
    met = list(fallen_together(root, table()))
    if met:
        print("\n".join(met), file=sys.stderr)
        return 1
    # names of Rust that are spelled like a row stay as they are
    return subprocess.run([sys.executable, SNAKE, "--table", TABLE, "--only", "antt,rt", os.path.join(root, "crates")]).returncode


if __name__ == "__main__":
    raise SystemExit(main(sys.argv[1:]))
