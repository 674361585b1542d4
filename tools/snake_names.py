#!/usr/bin/env python3
"""Spells the repository's own definitions and lemmas in snake case, in every definition, proof and clause.

usage: python3 tools/snake_names.py [--check]        at the top of the repository

A name is turned where a file of specs/ or proofs/ declares it: words in camel case
(priceOf) or with dashes (run-claims) become price_of and run_claims. Names that the
toolchain makes for a proof (behind goal., c. and l.) stay, and so does code outside
clauses. Two names that would fall together are told apart by the table below.
--check writes nothing and tells names that fall together.
"""

import os
import re
import sys

WORD = re.compile(r"[^\s(){}\[\].;,:\"'`«»|]+'*")
DECLARED = re.compile(
    r"(?m)^ *(?:(?:abbrev|unfoldable|pub|module) +)*([^\s(){}.;,\"]+)(?: \{[^{}\n]*\})*(?: \([^()\n]*\))* :(?= |$)"
)
MADE = re.compile(r"(?m)^ *(?:abbrev |pub )+(\S+) : (?:goal|given|need|Given|Goals)\.")
OF_A_PROOF = re.compile(r"/proofs/.*/(Answers|Invariants|Choices)(/.*)?\.antt$")
# Behind these stand names that the toolchain makes.
HEADS = ("c", "l", "w", "goal", "given", "need", "g")
# Names that would fall together with another: lemmas that would have a definition's name.
APART = {
    name: name.replace("-", "_") + "_lem"
    for name in "byte-in byte-of idle-bytes is-done is-new of-walks saves-at turned-image walk-price".split()
}


def snake(name):
    return re.sub(r"(?<=[a-z0-9])[A-Z]", lambda m: "_" + m[0].lower(), name).replace("-", "_")


def files(top, endings):
    for folder, folders, names in os.walk(top):
        folders[:] = sorted(d for d in folders if d not in ("out", "target", ".git"))
        for name in sorted(names):
            if name.endswith(endings):
                yield os.path.join(folder, name)


def read(path):
    with open(path, encoding="utf-8") as f:
        return f.read()


def plain(text):
    return re.sub(r"(?m)--.*$", "", text)


def own_names():
    """Each name that is declared here and is not in snake case, with its new spelling."""
    declared = set()
    for path in files("crates", (".antt",)):
        text = plain(read(path))
        made = set(MADE.findall(text)) if OF_A_PROOF.search(path) else set()
        declared.update(n for n in DECLARED.findall(text) if n not in made)
    odd = {n for n in declared if n[0].islower() and re.search(r"[A-Z-]", n)}
    return {n: APART.get(n, snake(n)) for n in odd}, declared


def turned(text, names, in_proof):
    out, at = [], 0
    for m in WORD.finditer(text):
        word = m[0]
        if word not in names:
            continue
        if in_proof:
            before = text[: m.start()]
            head = re.search(r"([^\s(){}\[\];,]+)\.$", before[-80:])
            if head and head[1] in HEADS:
                continue
            if re.search(r"Goals\.\{[^}]*$", before[-300:]):
                continue
        out += [text[at : m.start()], names[word]]
        at = m.end()
    return "".join(out) + text[at:]


def told(names, declared):
    """The names that fall together, with one another or with one that stands."""
    seen, lines = {}, []
    for old, new in sorted(names.items()):
        if new in seen:
            lines.append(f"{old} and {seen[new]} both become {new}")
        if new in declared and new not in names:
            lines.append(f"{old} becomes {new}, which is declared")
        seen[new] = old
    return lines


def main(check):
    names, declared = own_names()
    for line in told(names, declared):
        print("snake_names: " + line)
    if check:
        return
    for path in files("crates", (".antt", ".rt")):
        text = read(path)
        new = turned(text, names, bool(OF_A_PROOF.search(path)))
        if new != text:
            with open(path, "w", encoding="utf-8") as f:
                f.write(new)


if __name__ == "__main__":
    main("--check" in sys.argv[1:])
