#!/usr/bin/env python3
"""Lists the places in crates/*/src that docs/DESIGN-PASS.md counts: places.py [POINT]. A place is one to look at, and
no fault yet.

Twins are functions whose bodies are the same once each name of a type, a constant or a number is read as one, and
types and constants that are declared under one name in several crates.
"""
import collections
import glob
import os
import re
import sys

os.chdir(os.path.join(os.path.dirname(os.path.abspath(__file__)), ".."))
SOURCES = sorted(glob.glob("crates/*/src/**/*.rt", recursive=True))
LINES = [(f, n, line.rstrip("\n")) for f in SOURCES for n, line in enumerate(open(f, encoding="utf-8"), 1)]


def code(line):
    return line.split("//")[0]


def show(what, rows):
    print(f"== {what}: {len(rows)}")
    for row in rows:
        print("   " + row)


def lines(pattern, unless=None):
    return [
        f"{f}:{n}: {line.strip()}"
        for f, n, line in LINES
        if re.search(pattern, code(line)) and not (unless and re.search(unless, line))
    ]


def functions():
    """Each function that has a body: its file, line, name and body."""
    for f in SOURCES:
        text = open(f, encoding="utf-8").read()
        for m in re.finditer(r"^( *)(?:pub(?:\(crate\))? )?(?:final )?fn ([a-z_0-9]+)", text, re.M):
            indent = m.group(1)
            end = re.compile(rf"^{indent}}}$|^{indent}{{}}$", re.M).search(text, m.end())
            head = re.compile(rf"(?:^{indent}{{$)|(?:{{$)", re.M).search(text, m.end())
            stop = re.compile(r";$", re.M).search(text, m.end())
            if not end or not head or (stop and stop.start() < head.start()):
                continue
            yield f, text.count("\n", 0, m.start()) + 1, m.group(2), text[head.end() : end.start()]


def alike(body):
    body = re.sub(r"//[^\n]*", "", body)
    body = re.sub(r"\b[A-Z][A-Za-z_0-9]*\b|\b[0-9]+\b", "T", body)
    return re.sub(r"\s+", " ", body).strip()


def twin_functions():
    groups = collections.defaultdict(list)
    for f, n, name, body in functions():
        text = alike(body)
        if len(text) > 12:
            groups[text].append(f"{f}:{n}: fn {name}")
    return [f"{row}  [{k + 1}]" for k, rows in enumerate(g for g in groups.values() if len(g) > 1) for row in rows]


def twin_declarations():
    found = collections.defaultdict(list)
    for f, n, line in LINES:
        m = re.match(r"(?:pub(?:\(crate\))? )?(struct|enum|trait|const) ([A-Z][A-Za-z_0-9]+)", line)
        if m:
            found[m.group(2)].append(f"{f}:{n}: {line.strip()}")
    return [row for rows in found.values() if len(rows) > 1 for row in rows]


def proofs(pattern):
    names = sorted(glob.glob("crates/*/proofs/**/*.antt", recursive=True)) + sorted(glob.glob("crates/*/specs/*.antt"))
    return [f"{f}: {m}" for f in names for m in re.findall(pattern, open(f, encoding="utf-8").read(), re.M)]


def one():
    show("1 enums of our own", lines(r"\benum [A-Z]"))
    show("1 flags", lines(r"\b[a-z_]+: bool\b"))
    show("1 numbers answered for kinds", lines(r"fn [a-z_]+.*-> u8"))
    show("1 pairs as errors", lines(r"Result<.*\(Alloc|Err\(\("))
    taken = r"^ *(None|Some\([a-z_]+\)|Ok\([a-z_ ]+\)|Err\([a-z_(), ]+\)) => (None|Some\(|Ok\(|Err\(|return)"
    show("1 Option and Result taken apart by hand", lines(taken + r"|let (Some|Ok)\(.*else"))


def two():
    show("2 functions alike but for a type or a constant", twin_functions())
    show("2 types and constants declared twice", twin_declarations())


def three():
    show("3 loops that count an index", lines(r"^ *for \w+ in [^{]*\.\.|^ *while [a-z]+(\.len\(\))? <|^ *while [a-z]+ > 0"))
    show("3 other loops", lines(r"^ *(for|while|loop)\b", r"^ *for \w+ in [^{]*\.\.|^ *while [a-z]+(\.len\(\))? <|^ *while [a-z]+ > 0"))


def four():
    show("4 comparisons of what a newtype holds", lines(r"\.0 (==|!=|<|<=|>|>=) "))
    show("4 fields copied one by one", lines(r"^ *([a-z]+): [a-z]+\.\1,$"))
    show("4 casts", lines(r" as (u8|u16|u32|u64|usize)\b"))
    show("4 conversions and printing", lines(r"^impl.* (From|TryFrom|Display|PartialEq|Ord|Clone|fmt::Display)\b|fn number"))


def five():
    show("5 soundness as a premise", lines(r"\b(sound|Sound|BankSound|QuotaSound|ListSound)\b"))
    show("5 parameters that go together", lines(r"key: ClaimKey, party: Party|^ *minute: u32,|marks: &|queue: &|back: &"))


def six():
    show("6 arrays of a fixed size", lines(r"\[[^;\[\]]+; [A-Z_0-9]+\]"))
    show("6 lengths beside", lines(r"^ *(pub(\(crate\))? )?(count|len|tail|reached): usize"))
    show("6 vectors held", lines(r"^ *(pub(\(crate\))? )?[a-z_]+: Vec<"))


def seven():
    show("7 switches and counting by a trait", lines(r"(event|verb|read): (Event|Verb|bool)|trait Counting|dyn |\bFn(Mut|Once)?\("))


def eight():
    show("8 answers", proofs(r"^pub ([^ ]+) : goal"))
    show("8 files of invariants", sorted(glob.glob("crates/*/proofs/**/Invariants.antt", recursive=True)))
    own = [row for row in proofs(r"^ *(?:pub )?([^ .:]+) : (?!goal)") if "/Answers" not in row and "/Invariants" not in row]
    show("8 lemmas and definitions", own)


POINTS = {"1": one, "2": two, "3": three, "4": four, "5": five, "6": six, "7": seven, "8": eight}
for name, point in POINTS.items():
    if len(sys.argv) < 2 or sys.argv[1] == name:
        point()
