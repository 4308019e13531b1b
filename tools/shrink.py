#!/usr/bin/env python3
"""shrink.py CRATE: drops the answers in a crate's proofs that the check finds alone, and the laws beside them that nothing cites then.

It takes all answers away, lets `rt check` name the goals that are open, and puts the answers of those back. `rt tidy` drops the imports after it.
"""
import glob
import os
import re
import subprocess
import sys

os.chdir(f"crates/{sys.argv[1]}")
NAME = r"[\w'\-₀-₉+]+"


def check():
    p = subprocess.run(["rt", "check", "--allow-holes"], capture_output=True, text=True)
    return p.stdout + p.stderr


def cited(name, texts):
    return any(re.search(rf"(?<![\w\-']){re.escape(name)}(?![\w\-'])", t) for t in texts)


def kept(paragraphs, needed):
    """The paragraphs that answer a needed goal, and what they cite."""
    out = []
    for p in paragraphs:
        goals = re.findall(rf"^ *(?:pub )?{NAME} : goal\.(\S+)", p, re.M)
        if len(goals) != 1 or goals[0] in needed:
            out.append(p)
    law = re.compile(rf"(?:--[^\n]*\n)*({NAME}) : (?!goal\.)")
    while True:
        idle = [p for p in out if "module" not in p and (m := law.match(p)) and not cited(m.group(1), [q for q in out if q is not p])]
        if not idle:
            return out
        out = [p for p in out if p not in idle]


saved = {a: open(a).read() for a in glob.glob("proofs/*/**/Answers.antt", recursive=True)}
saved = {a: t for a, t in saved.items() if "Goals as goal" in t}
for a in saved:
    os.remove(a)
needed = {}
for a, goals in re.findall(r"no proof: expected answers in \./(proofs/\S+?/Answers\.antt);.*?did not prove (.*)", check()):
    needed.setdefault(a, set()).update(re.findall(r"`([^`]+)`", goals))
for a in needed:
    open(a, "w").write("\n\n".join(kept(saved[a].split("\n\n"), needed[a])).rstrip("\n") + "\n")
for folder, _, _ in os.walk("proofs", topdown=False):
    if not os.listdir(folder):
        os.rmdir(folder)
log = check()
print(f"{len(saved)} files of answers before, {len(needed)} now" + (", and goals are open" if "did not prove" in log or "no proof" in log else ""))
