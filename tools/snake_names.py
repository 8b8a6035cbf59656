#!/usr/bin/env python3
"""Respells this repository's own definitions and lemmas: words in snake case, primes as apostrophes.

usage: tools/snake_names.py [--check]      at the top of the repository

A name that specs/*.antt or proofs/*.antt declares (a definition, a lemma, a constructor or a field) and that has a dash or a prime `′` is respelled
in every .antt file, in the clauses, ghost items and comments of every .rt file, in must-fail edits, in README.md and in docs/. Strings, inputs, outputs
and the names of Rattle's functions stay. It stops where two names would fall together in one file (a Rattle function or a field
of the same spelling is in another namespace). --check writes nothing.
"""
import glob
import os
import re
import sys

WORD = r"[^\s(){}.;,@\"«»\[\]\\`]+"
TOKEN = re.compile(WORD)
DECLARED = re.compile(r"^(?P<indent> *)(?:(?:abbrev|pub|unfoldable|pattern|opaque|infixl?|infixr) +)*(?P<names>" + WORD + r"(?: +" + WORD + r")*) *(?:\{[^}]*\} *)?:(?!\S)")
FIELD = re.compile(r"(?:record|;) *\{? *(" + WORD + r") *[:=](?!\S)")
# Names that keep their spelling, with the reason; names whose plain respelling is taken, with the one that they get.
KEPT = {"and-false": "std has a lemma of this name", "or-true": "std has a lemma of this name"}
GIVEN = {"Fits-line": "FitsLine", "Node-bounds": "NodeBounds", "Bucket-bounds": "BucketBounds", "History-5": "History5"}


def snake(name):
    if name in GIVEN:
        return GIVEN[name]
    return re.sub(r"(?<=.)-(?=.)", "_", name).replace("′", "'")


def lemma_files():
    for path in sorted(glob.glob("crates/*/specs/**/*.antt", recursive=True) + glob.glob("crates/*/proofs/**/*.antt", recursive=True)):
        if "/specs/" in path or os.path.basename(path) != "Proof.antt":
            yield path


def declared():
    names = set()
    for path in lemma_files():
        for line in open(path, encoding="utf-8"):
            m = DECLARED.match(line)
            if m:
                names.update(m["names"].split())
    return {n for n in names if n not in KEPT and snake(n) != n and re.match(r"[^\W\d_]", n)}


def bare(name, text):
    """Whether a name stands in the text for something else than a part of a path, a projection or a field's value."""
    return re.search(r"(?<![^\s(){},;])" + re.escape(name) + r"(?![^\s(){},;])(?! = )", text)


def respelled(text, table, path):
    """The text with the names of the table: of a page in code spans alone, of a source outside its strings."""
    turn = lambda it: TOKEN.sub(lambda m: table.get(m[0], m[0]), it)
    if path.endswith(".md"):
        return re.sub(r"`[^`\n]*`", lambda m: turn(m[0]), text)
    if path.endswith(".rt"):
        return "".join(p if k % 2 else turn(p) for k, p in enumerate(re.split(r'("(?:[^"\\\n]|\\.)*")', text)))
    return turn(text)


def main(argv):
    check = "--check" in argv
    table = {n: snake(n) for n in declared()}
    back = {}
    for old, new in table.items():
        back.setdefault(new, []).append(old)
    bad = [f"{new}: {' and '.join(olds)}" for new, olds in sorted(back.items()) if len(olds) > 1]
    paths = glob.glob("crates/*/specs/**/*.antt", recursive=True) + glob.glob("crates/*/proofs/**/*.antt", recursive=True)
    paths += glob.glob("crates/*/src/**/*.rt", recursive=True) + glob.glob("crates/*/must-fail/*.edit")
    paths += ["README.md"] + glob.glob("docs/**/*.md", recursive=True) + glob.glob("include/*.h")
    changed = 0
    for path in sorted(paths):
        text = open(path, encoding="utf-8").read()
        tokens = set(TOKEN.findall(text))
        for t in sorted(tokens & set(table)):
            if path.endswith(".antt") and bare(table[t], text):
                bad.append(f"{path}: {t} and {table[t]}")
        new = respelled(text, table, path)
        if new != text:
            changed += 1
            if not check and not bad:
                open(path, "w", encoding="utf-8").write(new)
    print("\n".join(bad))
    print(f"{len(table)} names, {changed} files" + (", nothing written" if check or bad else ""))
    return 1 if bad else 0


if __name__ == "__main__":
    sys.exit(main(sys.argv[1:]))
