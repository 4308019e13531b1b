#!/usr/bin/env python3
"""Brings the repository's own names to the spelling of today's Rattle: snake case for definitions, lemmas and fields.

usage: python3 tools/spelling.py          at the top of the repository, once, after port.py

A word that begins in lower case and has capitals, as in `bytesIn-other`, becomes `bytes_in-other`: in specs/ and proofs/ everywhere, in
src/ in clauses and `ghost use` items (a name of the code has no capitals inside). Types, modules and constructors keep their capitals.
questions/specs/Contracts.antt becomes Promised.antt, since Rattle now makes a module `specs.contracts`.
Two lemmas `count-fits`, which port.py respelled `count_fits`, become `count_fits_lem`: the definition `countFits` has that name now.
"""

import os
import re
import subprocess

WORD = re.compile(r"[^\s(){}\[\],;.:\"`«»/]+")
CAMEL = re.compile(r"[a-z][a-z0-9]*(?:_[a-z0-9]+)*[A-Z]")


LEMMA = ("header/proofs/Opening.antt", "rules/proofs/Canon.antt")


def snake(part):
    """One part of a name between dashes."""
    if not re.match(r"[a-z]", part) or not re.search(r"[A-Z]", part):
        return part
    part = re.sub(r"(?<=[a-z0-9])(?=[A-Z])", "_", part)
    return part.lower()


def respelled(word):
    if not re.match(r"[a-zA-Z]", word) or not re.fullmatch(r"[A-Za-z0-9_'\-₀-₉]+", word):
        return word
    return "-".join(snake(p) for p in word.split("-"))


def texts(root):
    for folder, dirs, files in os.walk(os.path.join(root, "crates")):
        dirs[:] = sorted(d for d in dirs if d not in ("out", "must-fail"))
        for f in sorted(files):
            if f.endswith((".rt", ".antt")):
                yield os.path.join(folder, f)


def turn_line(line, names):
    def turn(m):
        new = respelled(m.group(0))
        if new != m.group(0):
            names.setdefault(m.group(0), new)
        return new

    return WORD.sub(turn, line)


def main():
    root = os.getcwd()
    old, names, whole = {}, {}, {}
    words = set()
    for path in texts(root):
        with open(path, encoding="utf-8") as f:
            old[path] = re.sub(r"\bcount_fits\b", "count_fits_lem", f.read()) if path.endswith(LEMMA) else f.read()
        words |= set(WORD.findall(old[path]))
        whole[path] = "".join(turn_line(line, names) for line in old[path].splitlines(keepends=True))
    news = {}
    for a, b in names.items():
        news.setdefault(b, []).append(a)
    # a word of the code may stand beside it: a clause has no name of the code but its parameters', and none of those is one of these
    for b, a in news.items():
        if len(a) > 1:
            print(f"left: {' and '.join(a)} would be {b}")
        elif b in words:
            print(f"look: {a[0]} is {b} now, a word that is there, of the code, of a module or of another file")
    for path, text in whole.items():
        text = text.replace("Rattle.questions.specs.Contracts.", "Rattle.questions.specs.Promised.")
        if path.endswith("questions/specs/Lib.antt"):
            text = text.replace("pub mod Contracts", "pub mod Promised")
        if path.endswith(LEMMA) or text != old[path]:
            with open(path, "w", encoding="utf-8") as f:
                f.write(text)
    moved = os.path.join(root, "crates/questions/specs/Contracts.antt")
    if os.path.exists(moved):
        subprocess.run(["git", "mv", moved, os.path.join(root, "crates/questions/specs/Promised.antt")], check=True)
    print(f"{len(names)} names")


if __name__ == "__main__":
    main()
