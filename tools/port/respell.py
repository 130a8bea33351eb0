#!/usr/bin/env python3
"""Respells this repository's own names of specs/ and proofs/: words in snake case, types in camel case.

usage: python3 tools/port/respell.py [TOP]

names.tsv beside this script has a row for each name: old, a tab, new. Whole words alone turn, in the .rt and .antt
files below TOP/crates (TOP: this repository, unless given), never inside a string, a byte string or a character.
Then each crate is laid out by 'rt fmt'. A second run changes nothing.
"""

import os
import re
import subprocess
import sys

HERE = os.path.dirname(os.path.abspath(__file__))
WORD = r"[A-Za-z_][\w'′]*(?:-[\w'′]+)*"
STRING = r'"(?:\\.|[^"\\])*"'
CHARACTER = r"'(?:\\.|[^'\\])'"
PIECE = re.compile(f"({STRING}|(?<![\\w'])b?{CHARACTER})|(?<![\\w'′-])({WORD})", re.S)


def rows():
    with open(os.path.join(HERE, "names.tsv"), encoding="utf-8") as f:
        return dict(line.rstrip("\n").split("\t") for line in f)


def respelled(text, names):
    return PIECE.sub(lambda m: m.group(1) or names.get(m.group(2), m.group(2)), text)


def main(argv):
    top = os.path.abspath(argv[0] if argv else os.path.join(HERE, "..", ".."))
    names = rows()
    changed = 0
    for folder, dirs, files in os.walk(os.path.join(top, "crates")):
        dirs[:] = sorted(d for d in dirs if d != "out")
        for name in sorted(files):
            if not name.endswith((".rt", ".antt")):
                continue
            path = os.path.join(folder, name)
            with open(path, encoding="utf-8", newline="") as f:
                old = f.read()
            new = respelled(old, names)
            if new != old:
                changed += 1
                with open(path, "w", encoding="utf-8", newline="") as f:
                    f.write(new)
    for crate in sorted(os.listdir(os.path.join(top, "crates"))):
        where = os.path.join(top, "crates", crate)
        if os.path.isdir(os.path.join(where, "src")):
            subprocess.run(["rt", "fmt"], cwd=where, stdout=subprocess.DEVNULL, stderr=subprocess.DEVNULL)
    print(f"respell: {len(names)} names, {changed} files")


if __name__ == "__main__":
    main(sys.argv[1:])
