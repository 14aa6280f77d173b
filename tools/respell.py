#!/usr/bin/env python3
"""Brings the names that the crates declare in specs/ and proofs/ to one spelling: words in snake case, types and modules in camel case.

usage: python3 tools/respell.py [--list]      at the top of the repository, once, right after the kit's port.py

A definition, constructor, field, ruleset or lemma whose name begins with a small letter is written in snake case wherever it is cited:
in specs/, in proofs/, in the contracts of src/, between backticks in comments, and in the texts of must-fail edits. Names of functions,
types, files and modules stay, and so do strings and names that Rattle makes. A lemma keeps its dashes where the snake case word is already
another name (a dash joins two names, as in `bit-and`, the bit of what `and` gives). --list prints the names, old and new, and writes nothing.
"""
import collections
import glob
import re
import sys

WORD = r"[^\s(){}\[\],;.·:«»\"`]+"
HEAD = re.compile(r"^\s*(?:(?:abbrev|unfoldable|pub|opaque)\s+)*(" + WORD + r"(?:\s+" + WORD + r")*)(?:\s+[({][^:]*:[^)}]*[)}])*\s*:(?:\s|$)")
SET = re.compile(r"^\s*(?:pub\s+)?ruleset\s+(" + WORD + r")\s*=")
KEYWORDS = {"data", "record", "module", "use", "let", "elim", "mod", "in", "where", "unfolding"}
TOKEN = re.compile(WORD)


def snake(name):
    name = re.sub(r"(?<=[a-z0-9])([A-Z])", lambda m: "_" + m.group(1).lower(), name)
    return re.sub(r"(?<=[\w'])-(?=[\w'])", "_", name)


def halves(line, mark):
    """The line before its comment, and the comment."""
    i = line.find(mark)
    return (line, "") if i < 0 else (line[:i], line[i:])


def sources():
    for f in sorted(glob.glob("crates/*/specs/**/*.antt", recursive=True) + glob.glob("crates/*/proofs/**/*.antt", recursive=True)):
        yield f, "--"
    for f in sorted(glob.glob("crates/*/src/**/*.rt", recursive=True)):
        yield f, "//"


def declared():
    """Each declared name that begins with a small letter, with whether specs/ declares it."""
    found = {}
    for f, _ in sources():
        if not f.endswith(".antt") or f.count("/") > 3:
            continue
        for line in open(f, encoding="utf-8"):
            code = halves(line, "--")[0]
            for name in re.findall(r"\bas (" + WORD + r")(?=[,}\s])", code) if code.lstrip().startswith(("use ", "pub use ")) else ():
                if re.match(r"^[a-z]", name):
                    found.setdefault(name, False)
            m = HEAD.match(code) or SET.match(code)
            if not m:
                continue
            names = m.group(1).split()
            if set(names) & KEYWORDS:
                continue
            for name in names:
                if re.match(r"^[a-zα-ω]", name):
                    found[name] = found.get(name, False) or "/specs/" in f
    return found


def words():
    """Every word that the files have now."""
    there = collections.Counter()
    for f, mark in sources():
        for line in open(f, encoding="utf-8"):
            there.update(TOKEN.findall(halves(line, mark)[0]))
    return there


def table():
    found, there = declared(), words()
    new = {n: snake(n) for n in found if snake(n) != n}
    twice = collections.Counter(new.values())
    out = {}
    for n, s in sorted(new.items()):
        if s not in there and twice[s] == 1:
            out[n] = s
        elif found[n]:
            # a definition's word is free or was given to a definition of the same meaning elsewhere
            out[n] = s
        else:
            kept = re.sub(r"(?<=[a-z0-9])([A-Z])", lambda m: "_" + m.group(1).lower(), n)
            if kept != n:
                out[n] = kept
    return out, found, there, twice


def turn(text, mark, new):
    done = []
    for line in text.split("\n"):
        code, said = halves(line, mark)
        parts = re.split(r'("[^"]*")', code)
        code = "".join(p if p.startswith('"') else TOKEN.sub(lambda m: new.get(m.group(0), m.group(0)), p) for p in parts)
        said = re.sub(r"`[^`]*`", lambda m: TOKEN.sub(lambda w: new.get(w.group(0), w.group(0)), m.group(0)), said)
        done.append(code + said)
    return "\n".join(done)


def main():
    new, found, there, twice = table()
    if "--list" in sys.argv:
        for n, s in new.items():
            print(("spec " if found[n] else "lemma"), n, s, "THERE" if s in there else "", "TWICE" if twice[s] > 1 else "")
        return
    for f, mark in list(sources()) + [(f, "\0") for f in sorted(glob.glob("crates/*/must-fail/*.edit"))]:
        old = open(f, encoding="utf-8").read()
        text = turn(old, mark, new)
        if text != old:
            open(f, "w", encoding="utf-8").write(text)


main()
