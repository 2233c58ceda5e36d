#!/usr/bin/env python3
"""Brings the repository's own definitions and lemmas to one spelling: words in snake case.

usage: tools/respell.py [ROOT]     once, at the top, right after the kit's own script and before any edit by hand

It turns names in lower camel case (rowStart) wherever they stand in .antt files, in .rt files outside strings, in must-fail edits and in
the pages' code words; and names with dashes that a file of specs/ or proofs/ declares (front-is). Types, modules, functions of src/,
strings and what the checker itself names (loop-k-init, returns-2) keep their spelling. A lemma that would fall together with a
definition of its words ends in _lem. It prints what it turned.
"""
import os
import re
import sys

ROOT = sys.argv[1] if len(sys.argv) > 1 else "."
HEAD = re.compile(r"^\s*(?:(?:pattern|unfoldable|abbrev|pub|data|record|ruleset|axiom)\s+)*([^\s(){}:,=]+)(?:\s*\{[^}]*\})?\s*:\s")
# lemmas of these files that have a definition's words already, before the definition's name is turned
FIRST = {
    "given/proofs/SlotLaw.antt": "slots_at",
    "walking/proofs/TwoLaw.antt": "slots_at",
    "walking/proofs/ThreeLaw.antt": "slots_at",
    "search_calls/proofs/OneLaw.antt": "slots_at",
    "cubics/proofs/AlikeLaw.antt": "two_from",
}
CAMEL = re.compile(r"(?<![\w'])[a-z][a-z0-9]*(?:[A-Z0-9][A-Za-z0-9₀-₉]*)+'*(?![\w'])")
TOKEN = re.compile(r"[^\s(){}\[\],;.@⌜⌝\"`:]+")
# made by the checker, or answers that bear its names
MADE = re.compile(r"tie\.|lts\.|reads\.|statement\b|goal\.")


def snake(name):
    name = re.sub(r"(?<=[a-z0-9])([A-Z]+)", lambda m: "_" + m.group(1).lower(), name)
    return name.replace("-", "_")


def walk(*endings):
    for folder, dirs, files in os.walk(os.path.join(ROOT, "crates")):
        dirs[:] = sorted(d for d in dirs if d not in ("out", "target"))
        for f in sorted(files):
            if f.endswith(endings):
                yield os.path.join(folder, f)


def read(p):
    with open(p, encoding="utf-8") as f:
        return f.read()


def names():
    """Own names to turn: those in camel case, and those with dashes that no library has."""
    camel, dashed, plain, library, own_crates = set(), set(), set(), set(), set(os.listdir(os.path.join(ROOT, "crates")))
    for p in walk(".antt", ".rt"):
        text = read(p)
        for path, many in re.findall(r"use ([\w.+'-]+?)\.\{([^}]*)\}", text):
            words = path.split(".")
            if words[0] == "Rattle" and len(words) > 1 and words[1] in own_crates:
                continue
            library.update(w.strip().split(" as ")[0] for w in many.split(","))
        if p.endswith(".antt"):
            for line in text.split("\n"):
                if line[:1] in ("", "-") or line.lstrip().startswith(("use ", "pub use ", "mod ", "pub mod ", "unfolding ", "let ")):
                    continue
                m = HEAD.match(line)
                if not m:
                    continue
                name = m.group(1)
                if MADE.search(line.split(":", 1)[1]):
                    continue
                (dashed if "-" in name.strip("-") and name[0] not in "+-" else plain).add(name)
            camel.update(re.findall(CAMEL, text))
        else:
            camel.update(w for clause in re.findall(r"\{([^{}]*)\}", text) for w in re.findall(CAMEL, clause))
    camel = {n for n in camel if re.search("[A-Z]", n)} - library
    dashed -= library
    return camel, dashed, plain, library


def main():
    camel, dashed, plain, library = names()
    to = {n: snake(n) for n in camel}
    taken = set(to.values()) | plain
    for n in sorted(dashed):
        s = snake(n) if n[0].islower() else n
        if n[0].isupper():
            continue
        to[n] = s + "_lem" if s in taken or s in library else s
    twice = {}
    for n, s in to.items():
        twice.setdefault(s, []).append(n)
    for s, ns in sorted(twice.items()):
        if len(ns) > 1:
            print("twice:", s, ns)
    print(f"{len(to)} names: {len(camel)} in camel case, {len(to) - len(camel)} with dashes")

    def turn(text, keep_strings):
        def one(m):
            w = m.group(0)
            if w in to:
                return to[w]
            base = w.rstrip("'")
            return to[base] + w[len(base):] if base in to and base != w else w

        if not keep_strings:
            return TOKEN.sub(one, text)
        parts = re.split(r'("(?:[^"\\\n]|\\.)*")', text)
        return "".join(p if i % 2 else TOKEN.sub(one, p) for i, p in enumerate(parts))

    n = 0
    for p in walk(".antt", ".rt", ".edit"):
        old = first = read(p)
        for end, word in FIRST.items():
            if p.endswith("/" + end):
                first = re.sub(rf"(?<![\w'-]){word}(?![\w'-])", word + "_lem", old)
        new = turn(first, p.endswith((".rt", ".edit")))
        if new != old:
            n += 1
            with open(p, "w", encoding="utf-8") as f:
                f.write(new)
    pages = [os.path.join(ROOT, "README.md"), os.path.join(ROOT, "bench", "README.md")]
    pages += [os.path.join(ROOT, "docs", f) for f in sorted(os.listdir(os.path.join(ROOT, "docs"))) if f.endswith(".md") and not f.startswith("PORT")]
    for p in pages:
        old = read(p)
        new = re.sub(r"`[^`\n]+`", lambda m: turn(m.group(0), False), old)
        if new != old:
            n += 1
            with open(p, "w", encoding="utf-8") as f:
                f.write(new)
    print(f"{n} files changed")


main()
