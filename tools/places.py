#!/usr/bin/env python3
"""places.py [COMMIT]: counts the places of docs/DESIGN-PASS.md in the sources of a commit, or of the working tree; with -v it names them."""
import glob
import re
import subprocess
import sys

verbose = "-v" in sys.argv
commits = [a for a in sys.argv[1:] if a != "-v"]


def sources(folder, ending):
    if commits:
        names = subprocess.run(["git", "ls-tree", "-r", "--name-only", commits[0], "crates"], capture_output=True, text=True).stdout.split()
        names = [n for n in names if f"/{folder}/" in n and n.endswith(ending)]
        return {n: subprocess.run(["git", "show", f"{commits[0]}:{n}"], capture_output=True, text=True).stdout for n in names}
    return {n: open(n).read() for n in sorted(glob.glob(f"crates/*/{folder}/**/*{ending}", recursive=True))}


code = sources("src", ".rt")
proofs = sources("proofs", ".antt")


def found(pattern, texts=code):
    return [f"{n.split('/', 1)[1]}: {' '.join(m.group(0).split())[:90]}" for n, t in texts.items() for m in re.finditer(pattern, t, re.M)]


def shaped():
    """Enums of the shape of Option or Result: one variant is a refusal; or there are two, one with a value and one without; or a `Fine` and its errors."""
    out = []
    for n, t in code.items():
        for m in re.finditer(r"^(?:pub )?enum (\w+) \{\n(.*?)^\}", t, re.M | re.S):
            variants = [v.strip().rstrip(",") for v in m.group(2).split("\n") if v.strip() and not v.strip().startswith("//")]
            plain = [v for v in variants if "(" not in v]
            two = len(variants) == 2 and len(plain) == 1
            if any("(Refusal)" in v for v in variants) or two or "Fine" in plain:
                out.append(f"{n.split('/', 1)[1]}: {m.group(1)}")
    return out


def by_number():
    """Functions of one crate whose names differ in a number alone."""
    out = []
    for crate in sorted({n.split("/")[1] for n in code}):
        groups = {}
        for n, t in code.items():
            if n.split("/")[1] == crate:
                for name in re.findall(r"^\s*(?:pub )?fn (\w*\d\w*)", t, re.M):
                    groups.setdefault(re.sub(r"\d+", "#", name), []).append(name)
        out += [f"{crate}: {' '.join(g)}" for g in groups.values() if len(g) > 1]
    return out


def unlike():
    """Enums that derive no equality."""
    out = []
    for n, t in code.items():
        for m in re.finditer(r"^((?:#\[.*\]\n)*)pub enum (\w+)|^enum (\w+)", t, re.M):
            if "PartialEq" not in (m.group(1) or ""):
                out.append(f"{n.split('/', 1)[1]}: {m.group(2) or m.group(3)}")
    return out


def together():
    """Functions that take the order, a part of the file and the place where it stands as three parameters."""
    return found(r"^(?:pub )?fn \w+(?:<[^>]*>)?\((?:\s*\w+: [^,)]+,)*?\s*o: Order,(?:\s*\w+: [^,)]+,)*?\s*s: &\[u8\],\s*base: usize")


counts = {
    "1 enums of the shape of Option or Result": shaped(),
    "1 functions that take a refusal out of one": found(r"^(?:pub )?fn of_\w+\(a: [^)]*\) -> Refusal"),
    "1 refusals by number": found(r"Refusal\(\d+, "),
    "1 flags with a value beside them": found(r"^    pub has_\w+: bool"),
    "2 groups of functions that differ in a number": by_number(),
    "3 loops that are no `for`": found(r"^ *(?:while|loop)\b.*"),
    "4 enums that derive no equality": unlike(),
    "4 conversions for C by functions of their own": [p for p in found(r"^pub fn \w+_of\(") if p.startswith("answers/")],
    "5 order, part and base as three parameters": together(),
    "8 files of answers": [n for n in proofs if n.endswith("/Answers.antt") and len(n.split("/")) > 4],
}
for name, places in counts.items():
    print(f"{len(places):5} {name}")
    if verbose:
        print("".join(f"        {p}\n" for p in places), end="")
print(f"{sum(t.count(chr(10)) for t in code.values()):5} lines of sources, {sum(t.count(chr(10)) for t in proofs.values())} of proofs")
