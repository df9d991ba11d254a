#!/usr/bin/env python3
"""Brings the repository's own names in specs/, proofs/ and clauses to the spelling of today's library:
types and facts in upper camel case, all else in snake case, a dash only where a lemma's name joins two definitions' names.
Run once, at the top, right after port.py: `tools/respell.py` prints the map, `tools/respell.py --write` rewrites.

Names that Rattle makes (the goals and steps in proofs/FUNCTION/) keep their dashes: a check says what they are called now.
"""

import collections
import os
import re
import sys

WORD = r"[A-Za-z_][\w'ℕℤ-]*"
TOKEN = re.compile(r"(?<![\w'ℕℤ·-])" + WORD)
# a name that Rattle made of a function's code: a goal, or what an Invariants.antt answers
MADE = re.compile(r"^(returns|loop|invariant|decreases|bounds|overflow|offset|slice_bounds|slice-bounds|then|else|in|if)-|-requires")
# names of the library that lemmas join to their own
LIBRARY = {"length", "take", "drop", "map", "append"}


def files(root):
    for folder, dirs, names in os.walk(os.path.join(root, "crates")):
        dirs[:] = sorted(d for d in dirs if d not in ("out", "target", "must-fail"))
        for name in sorted(names):
            if name.endswith((".antt", ".rt")) and name != "Lib.antt":
                yield os.path.join(folder, name)


def kind(root, path):
    parts = os.path.relpath(path, root).split(os.sep)
    if path.endswith(".rt"):
        return "src"
    if parts[2] == "specs":
        return "specs"
    return "proofs" if len(parts) == 4 else "answers"


def uncommented(text):
    return re.sub(r"(?m)(^|\s)--\s.*$", r"\1", text)


def declared(root):
    """Every name that this repository gives itself, with where: specs, proofs, answers, or local."""
    found = collections.defaultdict(set)
    for path in files(root):
        where = kind(root, path)
        with open(path, encoding="utf-8") as f:
            text = uncommented(f.read())
        if where == "src":
            for m in re.finditer(r"\bas (" + WORD + r")(?=[,}])", "\n".join(l for l in text.split("\n") if l.startswith("ghost use"))):
                found[m[1]].add("local")
            continue
        words = r"(?:(?:abbrev|unfoldable|pub|data|record|ruleset)\s+)*"
        for m in re.finditer(r"(?m)^[ |]*(" + words + ")(" + WORD + r")[ ]*(?:[({][^\n]*[)}][ ]*)?:(?=\s)", text):
            found[m[2]].add(where)
            if where == "specs" and re.search("abbrev|unfoldable", m[1]):
                found[m[2]].add("word")
        for m in re.finditer(r"(?m)^\s*(?:pub )?(?:data|record|ruleset) (" + WORD + ")", text):
            found[m[1]].add(where)
        for m in re.finditer(r"\blet (" + WORD + ")", text):
            found[m[1]].add("local")
        for m in re.finditer(r"λ ([^.]*)\.", text):
            for x in re.findall(WORD, m[1]):
                found[x].add("local")
        for m in re.finditer(r"[({](" + WORD + r"(?: " + WORD + r")*)\s*:\s", text):
            for x in m[1].split():
                found[x].add("local")
        for m in re.finditer(r"\bas (" + WORD + r")(?=[,}])", text):
            found[m[1]].add("local")
        # the variables of a clause, left of its `=`
        for m in re.finditer(r"(?m)^\s*(?:pub )?" + WORD + r"((?: [^\n=:]*)?) =(?=\s)", text):
            for x in re.findall(WORD, m[1]):
                found[x].add("local")
    return found


def snake(name):
    name = name.replace("-", "_")
    return re.sub(r"(?<=[a-z])([A-Z])", lambda m: "_" + m[1].lower(), name)


def camel(name):
    first, *rest = name.split("-")
    return first + "".join(w[:1].upper() + w[1:] for w in rest)


def joined(name, known):
    """A lemma's name: a dash between two names of definitions, else underscores."""
    words = name.split("-")
    best = None

    def go(i, parts):
        nonlocal best
        if i == len(words):
            if best is None or len(parts) < len(best):
                best = list(parts)
            return
        for j in range(len(words), i, -1):
            if "-".join(words[i:j]) in known:
                go(j, parts + [(True, words[i:j])])
        go(i + 1, parts + [(False, words[i : i + 1])])

    go(0, [])
    out, was = "", False
    for is_known, part in best:
        out += ("-" if was and is_known else "_") if out else ""
        out += "_".join(part)
        was = is_known
    return out


def respelled(root):
    found = declared(root)
    known = LIBRARY | {n for n, w in found.items() if "word" in w and n[0].islower()}
    names = {}
    for name, where in sorted(found.items()):
        if "-" not in name and not re.match(r"[a-z]+[A-Z]", name):
            continue
        if MADE.search(name) and not where & {"specs", "proofs"}:
            continue
        if where == {"answers"} and re.match(r"^[a-z_]+-.*", name) and MADE.search(name):
            continue
        if name[0].isupper():
            new = camel(name)
        elif "proofs" in where and "specs" not in where and "-" in name and not re.search(r"[a-z][A-Z]", name):
            new = joined(name, known)
        else:
            new = snake(name)
        names[name] = new
    return names, found


def clauses(text):
    """The parts of a .rt file that speak of proofs: `ghost use` lines, clauses and ghost members."""
    out, i = [], 0
    for m in re.finditer(r"ghost use [^;]*;|\b(?:requires|ensures)\*?(?: \w+)? \{|\bghost (?:invariant )?\w+\s*(?::|=) \{", text):
        if m.start() < i:
            continue
        if m[0].endswith(";"):
            out.append((m.start(), m.end()))
            continue
        deep, k = 1, m.end()
        while deep:
            deep += (text[k] == "{") - (text[k] == "}")
            k += 1
        out.append((m.end(), k))
        i = k
    return out


def main():
    root = os.getcwd()
    names, found = respelled(root)
    taken = collections.Counter(names.values())
    for old, new in sorted(names.items()):
        mark = " !together" if taken[new] > 1 else ""
        mark += " !taken" if new in found and new != old else ""
        print(f"{old} {new}{mark}")
    if "--write" not in sys.argv:
        return
    # a string stays as it is
    token = re.compile(r'"[^"\n]*"|' + TOKEN.pattern)
    turn = lambda m: names.get(m[0], m[0])
    for path in files(root):
        with open(path, encoding="utf-8") as f:
            text = f.read()
        if path.endswith(".rt"):
            new, at = "", 0
            for a, b in clauses(text):
                new += text[at:a] + token.sub(turn, text[a:b])
                at = b
            new += text[at:]
        else:
            new = token.sub(turn, text)
        if new != text:
            with open(path, "w", encoding="utf-8") as f:
                f.write(new)


main()
