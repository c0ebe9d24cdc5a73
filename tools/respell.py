#!/usr/bin/env python3
"""Spells this repository's definitions and lemmas as the installed Rattle does: words in snake case, a dash only between two names.

usage: respell.py, at the top of the repository, once, right after the kit's port.py

respelled.tsv beside this file has a row for each name: old, a tab, new. The kit's own script turns whole words in clauses, definitions,
lemmas, comments' code spans and documents; what this script adds are the must-fail edits, which that one does not read.
A name that met another got '_lem', or a plural.
"""

import pathlib
import re
import subprocess
import sys

HERE = pathlib.Path(__file__).resolve().parent
TABLE = HERE / "respelled.tsv"
SNAKE = "port/notes/2026-11-18-names-are-in-snake-case/snake.py"
WORD = re.compile(r'[^\s(){}.;,@"«»`]+')


def main():
    kit = pathlib.Path(subprocess.run(["rt", "doc"], capture_output=True, text=True, check=True).stdout.strip()).parent
    table = dict(line.split("\t") for line in TABLE.read_text().splitlines())
    pages = [str(p) for p in [pathlib.Path("README.md"), *sorted(pathlib.Path("docs").glob("*.md"))]]
    words = [sys.executable, str(kit / SNAKE), "--table", str(TABLE), "--only", "antt,rt,md", "crates", *pages]
    subprocess.run(words, check=True)
    for edit in sorted(pathlib.Path("crates").glob("*/must-fail/*.edit")):
        lines = edit.read_text().splitlines(keepends=True)
        turned = [WORD.sub(lambda m: table.get(m[0], m[0]), l) if l.startswith(("old: ", "new: ")) else l for l in lines]
        edit.write_text("".join(turned))


main()
