#!/usr/bin/env python3
"""Brings the repository's own definitions and lemmas to snake case.

usage: python3 tools/respell/respell.py    at the top of the repository, once

names.txt beside it has the old and the new spelling of each name; a line of three words is for one
file alone. Names in src/ that are no part of a clause keep their spelling: they have none of the old
forms.
"""
import glob
import os
import re

HERE = os.path.dirname(os.path.realpath(__file__))
WORD = re.compile(r"""[^\s(){}\[\].,;:λ"`|]+""")


def names():
    everywhere, alone = {}, {}
    for line in open(os.path.join(HERE, "names.txt"), encoding="utf-8"):
        words = line.split()
        if not words or words[0] == "#":
            continue
        if len(words) == 2:
            everywhere[words[0]] = words[1]
        else:
            alone.setdefault(words[0], {})[words[1]] = words[2]
    return everywhere, alone


def turned(text, table, dashed):
    """The text with each name of the table respelled; names with a dash only where dashed holds."""

    def one(m):
        w = m.group(0)
        if "-" in w and not dashed:
            return w
        return table.get(w, w)

    return WORD.sub(one, text)


def line_turned(line, table, comment):
    at = line.find(comment)
    if at < 0:
        return turned(line, table, True)
    said = re.sub(r"`[^`]*`", lambda m: turned(m.group(0), table, True), line[at:])
    return turned(line[:at], table, True) + turned(said, table, False)


def main():
    everywhere, alone = names()
    paths = glob.glob("crates/*/specs/**/*.antt", recursive=True)
    paths += glob.glob("crates/*/proofs/**/*.antt", recursive=True)
    paths += glob.glob("crates/*/src/**/*.rt", recursive=True)
    paths += glob.glob("crates/*/must-fail/*.edit")
    changed = 0
    for p in sorted(paths):
        text = open(p, encoding="utf-8").read()
        table = everywhere | alone.get(p, {})
        comment = "--" if p.endswith(".antt") else "//"
        new = "".join(line_turned(l, table, comment) for l in text.splitlines(keepends=True))
        if new != text:
            open(p, "w", encoding="utf-8").write(new)
            changed += 1
    print(f"respell: {changed} files changed")


main()
