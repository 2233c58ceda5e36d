#!/usr/bin/env python3
"""Counts the places of the design pass (docs/DESIGN-PASS.md) in the sources.

    tools/places.py            the counts, a line for each kind of place
    tools/places.py list       and every place with its file and line
"""
import glob
import os
import re
import sys

os.chdir(os.path.join(os.path.dirname(os.path.abspath(__file__)), ".."))
FILES = {path: open(path, encoding="utf-8").read() for path in sorted(glob.glob("crates/*/src/*.rt"))}


def lines(pattern):
    """Every line that the pattern is found in, comments left out."""
    return [(path, at + 1, line.strip()) for path, text in FILES.items() for at, line in enumerate(text.split("\n"))
            if re.search(pattern, line) and not line.lstrip().startswith("//")]


def functions():
    """Each function: its file, line, name, head (to the body) and body."""
    for path, text in FILES.items():
        for found in re.finditer(r"(?m)^( *)(?:pub(?:\(crate\))? )?(?:extern \"C\" )?fn (\w+)(.*?\n\1)\{\n(.*?)\n\1\}$", text, re.S):
            yield path, text.count("\n", 0, found.start()) + 1, found[2], found[3], found[4]
        for found in re.finditer(r"(?m)^( *)(?:pub(?:\(crate\))? )?fn (\w+)([^\n]*?) \{\n(.*?)\n\1\}$", text, re.S):
            yield path, text.count("\n", 0, found.start()) + 1, found[2], found[3], found[4]


def enums():
    """Enums of two variants of which one says that there is no value, or why."""
    for path, text in FILES.items():
        for found in re.finditer(r"(?m)^(?:pub )?enum (\w+) \{\n(.*?)\n\}$", text, re.S):
            names = re.findall(r"(?m)^    (\w+)", found[2])
            if len(names) == 2 and set(names) & {"Refused", "Failed", "NoMore", "None", "Missing", "Wrong"}:
                yield path, text.count("\n", 0, found.start()) + 1, found[1]


def shape(body):
    """The body with its names and numbers by the order in which they come."""
    seen, out = {}, []
    for token in re.findall(r"\w+|\S", re.sub(r"//.*", "", body)):
        if re.match(r"\d", token):
            token = "0"
        elif re.match(r"\w", token) and token not in {"let", "mut", "if", "else", "match", "return", "while", "for", "in", "as", "loop", "true", "false"}:
            token = "n%d" % seen.setdefault(token, len(seen))
        out.append(token)
    return " ".join(out)


def twins():
    """Functions whose bodies, of at least 60 tokens, have one shape."""
    by = {}
    for path, at, name, _, body in functions():
        text = shape(body)
        if len(text.split()) >= 60:
            by.setdefault(text, []).append((path, at, name))
    for alike in by.values():
        if len(alike) > 1:
            yield alike[0][0], alike[0][1], " = ".join("%s::%s" % (path.split("/")[1], name) for path, _, name in alike)


def counted_loops():
    for path, at, name, _, body in functions():
        for found in re.finditer(r"(?m)^( *)while (\w+) (?:<|<=|!=) .*\{$", body):
            if re.search(r"\b%s \+= 1;" % found[2], body[found.end():]):
                yield path, at + body.count("\n", 0, found.start()), name


def repeated_facts():
    """Facts that stand in the conditions of three functions or more."""
    by = {}
    for path, at, name, head, _ in functions():
        for clause in re.findall(r"requires(?: \w+)? \{ (.*) \}", head):
            for fact in re.split(r" × ", clause):
                by.setdefault(fact.strip("() "), set()).add((path, at, name))
    return [(sorted(who)[0][0], sorted(who)[0][1], "%s (in %d functions)" % (fact, len(who))) for fact, who in sorted(by.items()) if len(who) >= 3]


def together(*names):
    """Functions with all these parameters."""
    for path, at, name, head, _ in functions():
        if all(re.search(r"\b%s:" % it, head.split("requires")[0].split("ensures")[0]) for it in names):
            yield path, at, name


KINDS = [
    ("1 enums of the shape of Option or Result", enums()),
    ("1 a flag or a refusal beside a value: fields", lines(r"^\s*(pub )?\w+: (bool|Verdict|Answer|Result<\(\), Refusal>),$")),
    ("1 refusals handed on by hand", lines(r"match verdict|if let (Verdict::Done|Ok\(\(\)\)) =|let refused = |Err\((\w+)\) => Err\(\2\)")),
    ("2 functions with bodies of one shape", twins()),
    ("3 loops that count an index by hand", counted_loops()),
    ("4 equality by hand", lines(r"fn (same_|equal)\w*\(")),
    ("4 copies field by field", lines(r"place: Place\(\w+\.place(\.0)?\)|let (value|slots|seconds) = \w+\.\1;")),
    ("4 the zero vector by its words", lines(r"Vector \{ high: 0, low: 0 \}")),
    ("5 facts in the conditions of three functions or more", repeated_facts()),
    ("5 degree, n, m and table together", together("degree", "n", "m", "table")),
    ("5 n, m and a table together", together("n", "m", "table")),
    ("6 arrays beside their count", together("at", "turn")),
    ("6 a text beside the place for its next byte", together("text", "at")),
    ("7 tables of functions, steps by number", lines(r"\bfn\(|match step|step ==")),
]

if __name__ == "__main__":
    for kind, found in KINDS:
        found = list(found)
        print("%3d  %s" % (len(found), kind))
        if sys.argv[1:] == ["list"]:
            for path, at, what in found:
                print("         %s:%d  %s" % (path, at, what))
