#!/usr/bin/env python3
"""Spells this repository's own definitions and lemmas in today's Rattle's way, by respelled.tsv beside this file.

usage: python3 tools/respell.py        at the top of the repository, once, after the kit's port.py

Each row is an old name, a tab and a new one: words in snake case, types in upper camel case. Names of src/ stay, and so do,
in a function's answers and invariants, the names that Rattle makes (the first behind goal, c, w, l and g).
"""

import glob
import os
import re
import subprocess
import sys

HERE = os.path.dirname(os.path.realpath(__file__))
SNAKE = "/opt/rattle/port/notes/2026-11-18-names-are-in-snake-case/snake.py"
TABLE = ["--table", os.path.join(HERE, "respelled.tsv"), "--only", "antt,rt"]
OF_A_FUNCTION = re.compile(r"/proofs/.+/\w+\.antt$")


def turn(words, paths):
    command = [sys.executable, SNAKE, *TABLE, *words, *paths]
    return subprocess.run(command, env=os.environ | {"PYTHONDONTWRITEBYTECODE": "1"}).returncode


def main():
    paths = sorted(glob.glob("crates/**/*.antt", recursive=True) + glob.glob("crates/**/*.rt", recursive=True))
    made = [p for p in paths if OF_A_FUNCTION.search(p)]
    return turn(["--skip-behind", "goal,c,w,l,g"], made) or turn([], [p for p in paths if p not in made])


if __name__ == "__main__":
    raise SystemExit(main())
