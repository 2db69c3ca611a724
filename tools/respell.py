#!/usr/bin/env python3
"""Spells the repository's own definitions, lemmas and fields in snake case, as the kit's guide on style asks.

usage: python3 tools/respell.py     at the top of the repository, once, after /opt/rattle/port/port.py

A name that an .antt file of the repository declares with dashes gets underscores, wherever it stands as a whole word in
.antt and .rt files and in must-fail edits; a type in the same way gets camel case. Names that Rattle makes (goals, steps) keep
theirs. It stops where two names would fall together. Each crate's root file gets the line #![tactic(auto)].
"""
import os
import re
import sys

DECLARED = re.compile(r"\s*(?:abbrev |unfoldable )?(?:pub )?(?:record |data )?([^\s(){}:]+(?: [^\s(){}:]+)*)\s*(?:\{.*\}|\(.*\))?\s*:(?!:)")
WORD = re.compile(r"[^\s(){}\[\]⟦⟧,;.:`\"]+")
ROOTS = ("src/lib.rt", "src/main.rt")


def files(*ends):
    for folder, folders, names in os.walk("crates"):
        folders[:] = sorted(x for x in folders if x != "out")
        for name in sorted(names):
            if name.endswith(ends):
                yield os.path.join(folder, name)


def read(path):
    with open(path, encoding="utf-8") as f:
        return f.read()


def write(path, text):
    with open(path, "w", encoding="utf-8") as f:
        f.write(text)


def declared():
    """The names that the repository declares itself: no goal, and no step of a proof."""
    names = set()
    for path in files(".antt"):
        for line in read(path).split("\n"):
            line = line.split("--")[0]
            match = DECLARED.match(line)
            if match and not re.search(r"\b(goal|need|given)\.", line):
                names.update(match.group(1).split())
    return names


def spelled(name):
    parts = name.split("-")
    if parts[0][:1].isupper():
        return "".join(p[:1].upper() + p[1:] for p in parts)
    return "_".join(parts)


def main():
    names = declared()
    new = {n: spelled(n) for n in names if re.search(r"\w-\w", n)}
    taken = list(new.values()) + [n for n in names if n not in new]
    twice = sorted({n for n in taken if taken.count(n) > 1})
    if twice:
        sys.exit("these names would fall together: " + ", ".join(twice))
    for path in files(".antt", ".rt", ".edit"):
        old = read(path)
        text = WORD.sub(lambda m: new.get(m.group(0), m.group(0)), old)
        if path.endswith(ROOTS) and "#![tactic(" not in text:
            head = re.match(r"(?://[^\n]*\n)*", text).group(0)
            text = head + "#![tactic(auto)]\n" + text[len(head):]
        if text != old:
            write(path, text)
    print(f"{len(new)} names respelled")


main()
