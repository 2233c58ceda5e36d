#!/usr/bin/env python3
"""Turns a proof file that walks the code (Proof.antt) into Invariants.antt and Answers.antt.

usage: tools/answers.py NAMES CRATE [FUNCTION ..]     at the top; NAMES is the folder that 'rt names NAMES' wrote

The older file goes to NAMES/old. An answer that was a bare search is left to the check. Every other is kept under the goal's new name, with its paths turned: a step has one
field of c under a new name, so the chains of .before go. What it cannot turn it prints as 'left:'. It proves nothing: rt check decides.
"""
import json
import os
import re
import shutil
import sys

NAMES, CRATE = sys.argv[1], sys.argv[2]
ONLY = set(sys.argv[3:])
ROOT = os.path.join("crates", CRATE)
WORD = r"[^\s(){}\[\],;.@⌜⌝\"`]+"


def norm(s):
    return re.sub(r"_lem$", "", s.replace("-", "_"))


def blocks(text):
    """The file's leading comments, its use lines, and its declarations: (name, signature, rest)."""
    uses, decls, comments = [], [], []
    lines = text.split("\n")
    i = 0
    note = []
    while i < len(lines):
        l = lines[i]
        if l.startswith("--"):
            note.append(l)
            i += 1
            continue
        if not l.strip():
            i += 1
            continue
        if l.startswith(("use ", "pub use ", "infix")):
            if not uses and not comments:
                comments = note
            note = []
            uses.append(l)
            i += 1
            continue
        j = i + 1
        while j < len(lines) and (not lines[j].strip() or lines[j][0] == " " or lines[j].startswith((")", "]", "}"))):
            j += 1
        chunk = lines[i:j]
        while chunk and not chunk[-1].strip():
            chunk.pop()
        decls.append(("\n".join(chunk), note))
        note = []
        i = j
    # join signature and clauses of one name
    out = []
    for chunk, n in decls:
        m = re.match(r"(?:(?:pattern|unfoldable|abbrev|pub|data|record|ruleset|axiom)\s+)*([^\s(){}:,]+)", chunk)
        name = m.group(1)
        if name == "unfolding":
            out[-1][1].append(chunk)
        elif out and out[-1][0] == name:
            out[-1][1].append(chunk)
        else:
            out.append([name, [chunk], n])
    return comments, uses, out


def clause_path(fields, rest):
    """The name of the clause that projections of nested pairs lead to, and the projections after it."""
    k = 0
    while k < len(fields) - 1 and rest:
        if rest[0] == "0":
            return [fields[k]] + rest[1:]
        if rest[0] != "1":
            return [fields[k + int(rest[0])]] + rest[1:] if rest[0].isdigit() and k + int(rest[0]) < len(fields) else rest
        rest, k = rest[1:], k + 1
    return [fields[k]] + rest if k == len(fields) - 1 else rest


class Turner:
    def __init__(self, entry, where):
        self.e = entry
        self.where = where
        self.left = []
        self.places = {p[0]: (i, p) for i, p in enumerate(entry["places"])}

    def chain(self, place):
        out = []
        while place is not None:
            out.append(place)
            place = self.places[place][1][1]
        return out

    def path(self, need_place, at, fields):
        """The new text of c's fields, where `at` is the old place and fields what followed the befores."""
        if not fields:
            return None
        X, rest = fields[0], fields[1:]
        p = self.places[at][1]
        chain = self.chain(need_place)
        # merged arms first
        here = chain.index(at) if at in chain else -1
        for k, name in enumerate(chain):
            arm = self.e["arms"][self.places[name][0]] if self.places[name][0] < len(self.e["arms"]) else None
            if arm and here >= k and here < k + arm[1]:
                for new, old, path in arm[2]:
                    if norm(old) == norm(X) and list(map(norm, rest[: len(path)])) == list(map(norm, path)):
                        return ".".join(["c", arm[0], new] + rest[len(path):])
        if norm(X) == norm(p[2][0]) and p[2][0]:
            for q in p[4]:
                if rest and rest[0] == q[0]:
                    rest = [q[1]] + rest[1:]
                    break
            clause = self.e["clauses"][self.places[at][0]] if self.places[at][0] < len(self.e["clauses"]) else None
            if clause and len(rest) > 1 and rest[0] == "ensures" and rest[1].isdigit():
                rest = [rest[0]] + clause_path(clause["fields"], rest[1:])
            return ".".join(["c", p[2][1]] + rest)
        for var, old in (self.e["typed"][self.places[at][0]] if self.places[at][0] < len(self.e["typed"]) else []):
            if norm(old) == norm(X):
                return ".".join(["c", "type_inv", var] + rest)
        if X == "requires" and rest and rest[0].isdigit() and self.e.get("pre"):
            rest = clause_path(self.e["pre"]["fields"], rest)
        while X == "before" and rest:
            X, rest = rest[0], rest[1:]
        if norm(X) in ("args", "requires", "ranges", "well_formed", "utf8"):
            return ".".join(["c", norm(X)] + rest)
        # a step of some other place with this name: the nearest above, or else the nearest below
        for name in chain[max(here, 0):] + chain[:max(here, 0)][::-1]:
            q = self.places[name][1]
            if norm(q[2][0]) == norm(X) and q[2][0]:
                for r in q[4]:
                    if rest and rest[0] == r[0]:
                        rest = [r[1]] + rest[1:]
                        break
                clause = self.e["clauses"][self.places[name][0]] if self.places[name][0] < len(self.e["clauses"]) else None
                if clause and len(rest) > 1 and rest[0] == "ensures" and rest[1].isdigit():
                    rest = [rest[0]] + clause_path(clause["fields"], rest[1:])
                return ".".join(["c", q[2][1]] + rest)
        self.left.append(f"{self.where}: no step {X} at {at}")
        return ".".join(["c", X] + rest)

    def body(self, text, need_place, var):
        alias = {var: need_place}

        def resolve(v, fields):
            at = alias[v]
            fields = list(fields)
            while fields and fields[0] == "before":
                parent = self.places[at][1][1]
                if parent is None:
                    break
                at = parent
                fields.pop(0)
            return at, fields

        # aliases of places
        while True:
            m = None
            for m in re.finditer(r"let (" + WORD + r") = (" + WORD + r")((?:\.before)*) in[ \n]*", text):
                if m.group(2) in alias and m.group(1) not in alias:
                    break
            else:
                break
            at, rest = resolve(m.group(2), [w for w in m.group(3).split(".") if w])
            alias[m.group(1)] = at
            text = text[: m.start()] + text[m.end():]

        def one(m):
            v = m.group(1)
            if v not in alias:
                return m.group(0)
            fields = [w for w in m.group(2).split(".") if w]
            at, rest = resolve(v, fields)
            if not rest:
                if v != "c" or m.group(2):
                    return "c"
                return m.group(0)
            return self.path(need_place, at, rest)

        text = re.sub(r"(?<![\w'.\-₀-₉])(" + WORD + r")((?:\." + WORD + r")*)", lambda m: one(m) if m.group(1) in alias else m.group(0), text)
        return self.parts(self.locals(self.given(text)))

    def given(self, text):
        """A let of what an arm was given: its parts are fields of the arm."""
        for i, p in enumerate(self.e["places"]):
            arm = self.e["arms"][i] if i < len(self.e["arms"]) else None
            if not arm:
                continue
            m = re.search(r"let (" + WORD + r") = c\." + re.escape(p[2][1]) + r"\.given in\s*", text)
            if not m:
                continue
            text = text[: m.start()] + text[m.end():]
            for new, old, path in sorted(arm[2], key=lambda q: -len(q[2])):
                if norm(old) == norm(p[2][0]) and path[:1] == ["given"] and len(path) > 1:
                    text = re.sub(r"(?<![\w'.\-])" + re.escape(".".join([m.group(1)] + path[1:])) + r"(?![\w'.\-]*\d)", ".".join(["c", arm[0], new]), text)
        return text

    def locals(self, text):
        """Arguments that went by a number of the code's own go by their names."""
        to = {}
        for old, new in self.e["args"]:
            if old.startswith(".args ."):
                to[old[7:]] = new[7:]
        if not to:
            return text
        heads = ["c.args"] + [m.group(1) for m in re.finditer(r"let (" + WORD + r") = c\.args in\b", text)]
        for h in heads:
            text = re.sub(r"(?<![\w'.\-])" + re.escape(h) + r"\.(t\d+)(?![\w])", lambda m: h + "." + to.get(m.group(1), m.group(1)), text)
        return text

    def parts(self, text):
        """What was a tuple of arguments or of clauses goes by name, also behind a let of the step or of the requires."""
        steps = {}
        for i, p in enumerate(self.e["places"]):
            steps.setdefault("c." + p[2][1], i)
        heads = {h: h for h in list(steps) + ["c.requires"]}
        for m in re.finditer(r"let (" + WORD + r")(?: : [^=]*?)? = (c\." + WORD + r") in\b", text):
            if m.group(2) in heads:
                heads[m.group(1)] = m.group(2)
        said = {}
        for m in re.finditer(r"let (" + WORD + r") = ((?:c\.)?" + WORD + r")\.ensures in\b", text):
            if m.group(2) in heads and heads[m.group(2)] in steps:
                i = steps[heads[m.group(2)]]
                clause = self.e["clauses"][i] if i < len(self.e["clauses"]) else None
                if clause:
                    said[m.group(1)] = clause["fields"]

        def one(m):
            head = heads.get(m.group(1))
            rest = m.group(2).split(".")[1:]
            if m.group(1) in said and rest[0] in ("0", "1"):
                return ".".join([m.group(1)] + clause_path(said[m.group(1)], rest))
            if head is None:
                return m.group(0)
            if head == "c.requires":
                if self.e.get("pre") and rest and rest[0].isdigit():
                    rest = clause_path(self.e["pre"]["fields"], rest)
            else:
                i = steps[head]
                names = self.e["params"].get(self.e["places"][i][3] or "", [])
                clause = self.e["clauses"][i] if i < len(self.e["clauses"]) else None
                if len(rest) > 1 and rest[0] in ("new", "auto") and rest[1] in ("0", "1"):
                    k = 1
                    while k < len(rest) and rest[k] == "1":
                        k += 1
                    if k < len(rest) and rest[k] == "0" and k - 1 < len(names):
                        rest = [rest[0], names[k - 1]] + rest[k + 1:]
                    else:
                        self.left.append(f"{self.where}: {m.group(0)}")
                elif clause and len(rest) > 1 and rest[0] == "ensures" and rest[1].isdigit():
                    rest = [rest[0]] + clause_path(clause["fields"], rest[1:])
            return ".".join([m.group(1)] + rest)

        return re.sub(r"(?<![\w'.\-₀-₉])((?:c\.)?" + WORD + r")((?:\." + WORD + r")+)", one, text)


def top_level(text):
    """Each character of the text with how deep it stands in brackets."""
    deep = 0
    for i, ch in enumerate(text):
        if ch in ")]}":
            deep -= 1
        yield i, ch, deep
        if ch in "([{":
            deep += 1


def by_clause(body, fields):
    """A body that gave a tuple for several clauses gives a record of them by name."""
    cut = 0
    for i, ch, deep in top_level(body):
        if deep == 0 and ch == "i" and re.match(r"in(?=[\s(])", body[i:]) and (i == 0 or body[i - 1] in " \n"):
            cut = i + 2
    head, last = body[:cut], body[cut:]
    pad = re.match(r"\s*", last).group(0)
    last = last.strip()
    if last.startswith("(") and last.endswith(")"):
        inner, parts, start = last[1:-1], [], 0
        for i, ch, deep in top_level(inner):
            if deep < 0:
                break
            if deep == 0 and ch == ",":
                parts.append(inner[start:i].strip())
                start = i + 1
        else:
            if inner[start:].strip():
                parts.append(inner[start:].strip())
            while len(parts) < len(fields) and parts and parts[-1].startswith("(") and parts[-1].endswith(")"):
                more, start = [], 0
                deepest = parts[-1][1:-1]
                for i, ch, deep in top_level(deepest):
                    if deep == 0 and ch == ",":
                        more.append(deepest[start:i].strip())
                        start = i + 1
                if deepest[start:].strip():
                    more.append(deepest[start:].strip())
                if len(more) < 2:
                    break
                parts = parts[:-1] + more
            if len(parts) == len(fields):
                return head + pad + "record { " + "; ".join(f"{f} = {q}" for f, q in zip(fields, parts)) + " }"
    return head + pad + f"let all = {last} in record {{ " + "; ".join(f"{f} = all.{k}" for k, f in enumerate(fields)) + " }"


def convert(folder, names):
    p = os.path.join(folder, "Proof.antt")
    rel = os.path.relpath(folder, os.path.join(ROOT, "proofs")).split(os.sep)
    key = f"Rattle-{CRATE}-proofs." + ".".join(rel) + ".Lts"
    if key not in names:
        print(f"left: {p}: no names under {key}")
        return
    e = names[key]
    comments, uses, decls = blocks(open(p, encoding="utf-8").read())
    keep_uses = []
    for u in uses:
        if re.search(r"proofs\.[\w.+]+\.(Statement|Tie|Lts|Reads)\b", u):
            continue
        keep_uses.append(u)
    t = Turner(e, p)
    needs = {norm(old): (old, new, i) for i, (old, new) in enumerate(e["needs"])}
    asked = e["asked_at"]
    loops = e["loops"]
    inv, ans, helpers = [], [], []
    inv_names = set()
    for name, chunks, note in decls:
        sig = chunks[0].split("\n")[0]
        whole = "\n".join(chunks)
        m = re.search(r":\s*tie\.(invariant|decreases)-([^\s]+)", sig)
        if m:
            kind, loop = m.group(1), m.group(2)
            found = [(j, l) for j, l in enumerate(loops) if norm(l[0][0]) == norm(loop)]
            if not found:
                t.left.append(f"{p}: no loop {loop}")
                continue
            j, l = found[0]
            live, changed = l[1], e["changed"][j]
            eq = [c for c in chunks[1:] if not c.startswith("unfolding")]
            if len(eq) != 1:
                # the equation may stand in the signature's chunk
                t.left.append(f"{p}: clauses of {name}")
                continue
            head, body = eq[0].split("=", 1)
            params = head.split()[1:]
            new = [f"l.initial.{v}" if ch else f"l.{v}" for v, ch in zip(live, changed)] + [f"l.{v}" for v, ch in zip(live, changed) if ch]
            if len(params) != len(new):
                t.left.append(f"{p}: {name} has {len(params)} parameters, and {len(new)} are live")
            table = dict(zip(params, new))
            table.pop("_", None)
            # locals that hide a parameter are left alone only where none do
            body = re.sub(r"(?<![\w'.\-₀-₉])(" + WORD + r")(?![\w'₀-₉])", lambda m: table.get(m.group(1), m.group(1)), body)
            goal = f"{kind}-{l[0][1]}"
            unf = [c for c in chunks[1:] if c.startswith("unfolding")]
            inv.append("\n".join(note + [f"abbrev pub {goal} : goal.{goal}"] + unf + [f"{goal} l ={body}"]))
            inv_names.add(name)
            continue
        m = re.search(r":\s*tie\.Need-([^\s]+)", sig)
        if m:
            cand = [norm(m.group(1)), norm(name), re.sub(r"^(overflow|nonzero)_", "", norm(m.group(1)))]
            hit = next((needs[k] for k in cand if k in needs), None)
            if not hit:
                t.left.append(f"{p}: no goal for {m.group(1)}")
                continue
            old, new, i = hit
            eqs = [c for c in chunks[1:] if not c.startswith("unfolding")]
            unf = [c for c in chunks[1:] if c.startswith("unfolding")]
            if len(eqs) != 1:
                t.left.append(f"{p}: {len(eqs)} clauses of {name}")
                continue
            head, body = eqs[0].split("=", 1)
            params = head.split()[1:]
            if re.fullmatch(r"\s*search rules\s*", body):
                continue
            if len(params) > 1 and any(re.search(r"(?<![\w'])" + re.escape(q) + r"(?![\w'])", body) for q in params[1:]):
                body = f" λ {' '.join(params[1:])}." + body
            place = asked[i][0]
            body = t.body(body, place, params[0])
            fields = e["asked"].get(old)
            if fields and len(fields) > 1:
                body = by_clause(body, fields)
            ans.append("\n".join([f"pub {new} : goal.{new}"] + unf + [f"{new} c ={body}"]))
            continue
        if "tie.close" in whole or "tie.spec" in whole:
            continue
        if re.search(r"\b(tie|lts|reads)\.|-lts\.|-tie\.", whole):
            t.left.append(f"{p}: helper {name} names made records")
        helpers.append((name, "\n".join(note + chunks)))

    def used(texts):
        got, todo = [], "\n".join(texts)
        changed = True
        names_in = set()
        while changed:
            changed = False
            for n, h in helpers:
                if n not in names_in and re.search(r"(?<![\w'\-])" + re.escape(n) + r"(?![\w'\-])", todo):
                    names_in.add(n)
                    todo += "\n" + h
                    changed = True
        return [h for n, h in helpers if n in names_in]

    module = f"Rattle.{CRATE}.proofs." + ".".join(rel)

    def imports(text):
        out = []
        for u in keep_uses:
            m = re.match(r"((?:pub )?use [^{]+\.)\{([^}]*)\}$", u)
            if m:
                ws = []
                for w in m.group(2).split(","):
                    w = w.strip()
                    plain = w.split(" as ")[-1]
                    core = plain.strip("◌") if len(plain.strip("◌")) else plain
                    bits = [b for b in plain.split("◌") if b]
                    if all(b in text for b in bits):
                        ws.append(w)
                if ws:
                    out.append(m.group(1) + "{" + ", ".join(ws) + "}")
            else:
                last = u.split(" as ")[-1].split(".")[-1].strip()
                if last in text:
                    out.append(u)
        return out

    for file, parts, suffix in (("Invariants.antt", inv, "Given"), ("Answers.antt", ans, "Goals")):
        if not parts:
            continue
        hs = used(parts)
        text = "\n\n".join(hs + parts)
        head = comments[:] if (file == "Answers.antt" or not ans) else []
        with open(os.path.join(folder, file), "w", encoding="utf-8") as f:
            f.write("\n".join(head + imports(text) + [f"use {module}.{suffix} as goal", "", text, ""]))
    old = os.path.join(NAMES, "old", p)
    os.makedirs(os.path.dirname(old), exist_ok=True)
    shutil.move(p, old)
    for l in t.left:
        print("left:", l)


def main():
    names = json.load(open(os.path.join(NAMES, ROOT, "names.json")))
    for folder, dirs, files in sorted(os.walk(os.path.join(ROOT, "proofs"))):
        if "Proof.antt" in files and (not ONLY or os.path.basename(folder) in ONLY):
            convert(folder, names)


main()
