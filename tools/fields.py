#!/usr/bin/env python3
"""Brings the fields of records in specs/ to snake case, which tools/spelling.py left with dashes: `low-cut` is `low_cut`.

usage: python3 tools/fields.py          at the top of the repository, once, after tools/spelling.py

A field of specs/ with dashes is respelled where it is declared, where it is read (`.low-cut`) and where it is given
(`low-cut = ..`), in its own crate and in those above it that read it. Lemmas keep their dashes.
"""

import os
import re
import sys

CRATES = {"descriptions": ("descriptions", "judge"), "demands": ("demands", "overview"), "overview": ("overview",)}
DECLARED = re.compile(r"(?m)^  pub ([a-z][\w']*(?:-[\w']+)+) :")


def texts(crate):
    for kind in ("specs", "proofs"):
        for folder, _, files in os.walk(os.path.join("crates", crate, kind)):
            for name in sorted(files):
                if name.endswith(".antt"):
                    yield os.path.join(folder, name)


def main():
    left = 0
    for crate, readers in CRATES.items():
        fields = set()
        for path in texts(crate):
            if "/specs/" in path:
                fields |= set(DECLARED.findall(open(path, encoding="utf-8").read()))
        for path in {p for r in readers for p in texts(r)}:
            old = text = open(path, encoding="utf-8").read()
            for field in fields:
                new = field.replace("-", "_")
                text = re.sub(r"(?<=\.)%s(?![\w'-])" % re.escape(field), new, text)
                text = re.sub(r"(?<=[ {])%s(?= = )" % re.escape(field), new, text)
                text = re.sub(r"(?<=[ {])%s(?= =\n)" % re.escape(field), new, text)
                if "/specs/" in path:
                    text = re.sub(r"(?m)^  pub %s(?= :)" % re.escape(field), "  pub " + new, text)
            if text != old:
                with open(path, "w", encoding="utf-8") as f:
                    f.write(text)
                left += 1
    print(f"{left} files")


if __name__ == "__main__":
    sys.exit(main())
