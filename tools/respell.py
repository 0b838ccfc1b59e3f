#!/usr/bin/env python3
"""Brings this repository's own definitions and lemmas to the spelling of today's Rattle.

usage: python3 tools/respell.py [--list]      at the top of a repository that port.py has just turned

Words are in snake case: `headRight` becomes `head_right`. In the name of a definition, a record's field or a
constructor a dash becomes `_` too (`Some-pair`, a fact, becomes `SomePair`); in the name of a lemma a dash joins two names, and stays.
Names of src/, which are in Rust's spelling already, strings, inputs and outputs are not looked at. A name that
would fall together with another one of its crate stops the script before it writes.
"""
import collections
import glob
import os
import re
import sys

# Words of the older library inside names of our own lemmas, by today's word.
WORDS = {"natAbs": "unsigned_abs"}
# Lemmas that get another name, since a definition comes to have theirs, or one that differs by a sign alone: crate, lemma,
# and its new name.
OTHERS = {
    ("widening", "head_bytes"): "bytes_of_head",
    ("span", "are-ends"): "are_ends-ordered",
    ("span", "range-trap"): "range_trap-unfit",
}
# The definition's older name: once it is gone, the lemma has its new name already.
BEFORE = {("widening", "head_bytes"): "headBytes"}
STRING = re.compile(r'("(?:[^"\\\n]|\\.)*")')
TOKEN = re.compile(r"(?<![\w'\-])[^\W\d][\w']*(?:-[\w']+)*")
SIGNED = re.compile(r"^\s*(?:abbrev |unfoldable )?(?:pub )?([^\s:(){}]+)\s*:(?:\s|$)", re.M)
TYPE = re.compile(r"^ *(?:pub )?(?:data|record) (?:pub )?([^\s:(){}]+)", re.M)
DEFINED = re.compile(r"^ *(?:abbrev |unfoldable )(?:pub )?([^\s:(){}]+)\s*:", re.M)
BLOCK = re.compile(r"^( *)(?:pub )?(?:data|record)\b[^\n]*\n((?:\1  [^\n]*\n|\n)+)", re.M)


def snake(name):
    parts = []
    for part in name.split("-"):
        if part in WORDS:
            part = WORDS[part]
        elif part[:1].islower():
            part = re.sub(r"(?<=[a-z0-9])([A-Z])", lambda m: "_" + m.group(1).lower(), part)
        parts.append(part)
    return "-".join(parts)


def texts(root):
    found = []
    for path in glob.glob(os.path.join(root, "crates", "**", "*"), recursive=True):
        if path.endswith((".rt", ".antt")) and f"{os.sep}out{os.sep}" not in path:
            found.append(path)
    return sorted(found)


def no_dashes(paths):
    """The definitions, fields and constructors whose names have a dash."""
    names = set()
    for path in paths:
        if path.endswith(".antt") and not re.search(r"/(Answers|Invariants|Proof)\.antt$", path):
            with open(path, encoding="utf-8") as f:
                text = re.sub(r"--[^\n]*", "", f.read())
            names.update(DEFINED.findall(text) + TYPE.findall(text))
            for indent, block in BLOCK.findall(text):
                names.update(re.findall(rf"^{indent}  (?:pub )?([^\s:(){{}}]+)\s*:(?:\s|$)", block, re.M))
    return {n for n in names if "-" in n}


def renamed(token, dashed, crate):
    if re.fullmatch(r"b'.'", token):
        return token
    if (crate, token) in OTHERS:
        return OTHERS[crate, token]
    new = snake(token)
    if token not in dashed:
        return new
    if token[0].isupper():
        return "".join(part[0].upper() + part[1:] for part in new.split("-"))
    return new.replace("-", "_")


def main():
    paths = texts(".")
    dashed = no_dashes(paths)
    for (crate, name), older in BEFORE.items():
        if not any(older in open(p, encoding="utf-8").read() for p in paths if p.split(os.sep)[2] == crate):
            del OTHERS[crate, name]
    changes = collections.defaultdict(set)
    names = collections.defaultdict(lambda: collections.defaultdict(set))
    outcome = {}
    for path in paths:
        with open(path, encoding="utf-8") as f:
            text = f.read()
        crate = path.split(os.sep)[2]
        turn = lambda m: renamed(m.group(0), dashed, crate)
        outcome[path] = "".join(t if t.startswith('"') else TOKEN.sub(turn, t) for t in STRING.split(text))
        for token in TOKEN.findall(STRING.sub(" ", text)):
            if renamed(token, dashed, crate) != token:
                changes[token].add(renamed(token, dashed, crate))
        if path.endswith(".antt"):
            for name in SIGNED.findall(re.sub(r"--[^\n]*", "", text)):
                names[crate][renamed(name, dashed, crate)].add(name)
    together = [(c, sorted(olds)) for c, news in sorted(names.items()) for olds in news.values() if len(olds) > 1]
    for crate, olds in together:
        print(f"{crate}: these fall together: {', '.join(olds)}")
    if "--list" in sys.argv[1:]:
        for old in sorted(changes):
            print(old, *sorted(changes[old]))
        return
    if together:
        raise SystemExit(1)
    for path, text in outcome.items():
        with open(path, "w", encoding="utf-8") as f:
            f.write(text)
    print(f"{len(changes)} names")


main()
