#!/usr/bin/env python3
"""Respells the repository's own names by the table beside this script: words in snake case, types in camel case.

usage: respell.py [FOLDER]     FOLDER is the top of a checkout, by default the one that holds this script

It turns whole words of .antt files, and of .rt files and must-fail edits, where a name with a dash can only be one of
a clause. Comments and strings stay. A second run changes nothing.
"""
import os
import re
import sys

HERE = os.path.dirname(os.path.abspath(__file__))
WORD = re.compile(r'"(?:[^"\\\n]|\\.)*"|//[^\n]*|(?<![^\s(){}.;,@])--(?:\s[^\n]*)?|[^\s(){}.;,@"«»]+')


def table():
    with open(os.path.join(HERE, "respell.tsv"), encoding="utf-8") as f:
        return dict(line.rstrip("\n").split("\t") for line in f if line.strip())


def respelled(text, names, antt):
    def turn(m):
        word = m.group(0)
        if word.startswith('"') or (word.startswith("//") and not antt) or (word.startswith("--") and antt):
            return word
        return names.get(word, word)

    return WORD.sub(turn, text)


def main():
    top = sys.argv[1] if len(sys.argv) > 1 else os.path.dirname(HERE)
    names = table()
    changed = 0
    for folder, folders, files in os.walk(os.path.join(top, "crates")):
        folders[:] = [f for f in folders if f not in ("out", "target")]
        for name in files:
            if not name.endswith((".antt", ".rt", ".edit")):
                continue
            path = os.path.join(folder, name)
            with open(path, encoding="utf-8") as f:
                old = f.read()
            new = respelled(old, names, name.endswith(".antt"))
            if new != old:
                with open(path, "w", encoding="utf-8") as f:
                    f.write(new)
                changed += 1
    print(f"respell: {changed} files")


main()
