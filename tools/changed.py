#!/usr/bin/env python3
"""changed.py COMMIT: what changed since a commit, crate by crate, old and new side by side: the list at the end of docs/DESIGN-PASS.md.

Types, functions, definitions and laws. What is the same once the old answers are read as Results and Options (`RENAMED`) is named and not
shown, private laws and definitions of one file of proofs likewise. What a law takes from a line `module _ (..)` around it is not printed,
and answers and invariants, which belong to one function each, are not read.
"""
import os
import re
import subprocess
import sys
import textwrap

base = sys.argv[1]

# An old answer: its type in Rust, in contracts, and its variants.
RENAMED = {
    "Headed": ("Result<Head, Refusal>", "Result Head Refusal", {"At": "Ok", "Stop": "Err"}),
    "Step": ("Result<usize, Refusal>", "Result ℕ Refusal", {"On": "Ok", "Stop": "Err"}),
    "Tested": ("Result<(), Refusal>", "Result (Unit {0}) Refusal", {"Fine": "Ok", "Stop": "Err"}),
    "Basiced": ("Result<Basic, Refusal>", "Result Basic Refusal", {"Holds": "Ok", "Stop": "Err"}),
    "Parted": ("Result<Part, Refusal>", "Result Part Refusal", {"On": "Ok", "Stop": "Err"}),
    "DescriptionsJudged": ("Result<Described, Refusal>", "Result Described Refusal", {"On": "Ok", "Stop": "Err"}),
    "Shaped": ("Result<Shape, Refusal>", "Result Shape Refusal", {"On": "Ok", "Stop": "Err"}),
    "Recorded": ("Result<Places, Refusal>", "Result Places Refusal", {"On": "Ok", "Stop": "Err"}),
    "Judged": ("Result<FileHeader, Refusal>", "Result FileHeader Refusal", {"Accepted": "Ok", "Refused": "Err"}),
    "Before": ("Option<Places>", "Option Places", {"These": "Some", "Nothing": "None"}),
    "Held": ("Option<usize>", "Option ℕ", {"At": "Some", "Nothing": "None"}),
    "Lettered": ("Option<Order>", "Option Order", {"Names": "Some", "Nothing": "None"}),
    "MakerField": ("Option<usize>", "Option ℕ", {"At": "Some", "Nothing": "None"}),
    "Measured": ("Option<Measure>", "Option Measure", {"On": "Some", "Nothing": "None"}),
    "Serial": ("Option<u32>", "Option ℕ", {"Is": "Some", "Any": "None"}),
    "Written": ("Result<usize, Refusal>", "Result ℕ Refusal", {"Bytes": "Ok", "Refused": "Err"}),
    "Listed": ("Result<usize, Refusal>", "Result ℕ Refusal", {"Rows": "Ok", "Refused": "Err"}),
    "Indexed": ("Result<usize, Refusal>", "Result ℕ Refusal", {"Entries": "Ok", "Refused": "Err"}),
    "Ran": ("Result<usize, Refusal>", "Result ℕ Refusal", {"Numbers": "Ok", "Refused": "Err"}),
    "KindTold": ("Result<EventKind, Refusal>", "Result EventKind Refusal", {"Kind": "Ok", "Refused": "Err"}),
    "ChannelTold": ("Result<Descriptor, Refusal>", "Result Descriptor Refusal", {"Channel": "Ok", "Refused": "Err"}),
    "MontageTold": ("Result<Wired, Refusal>", "Result Wired Refusal", {"Channel": "Ok", "Refused": "Err"}),
    "MontageCountTold": ("Result<u32, Refusal>", "Result ℕ Refusal", {"Channels": "Ok", "Refused": "Err"}),
    "HeaderTold": ("Result<Header, Refusal>", "Result Header Refusal", {"Header": "Ok", "Refused": "Err"}),
    "ItemTold": ("Result<Entry, Refusal>", "Result Entry Refusal", {"Item": "Ok", "Refused": "Err"}),
    "FactsTold": ("Result<Counts, Refusal>", "Result Counts Refusal", {"Facts": "Ok", "Refused": "Err"}),
    "ClockTold": ("Result<Time, Refusal>", "Result Time Refusal", {"At": "Ok", "Refused": "Err"}),
    "PlaceTold": ("Result<Place, Refusal>", "Result Place Refusal", {"At": "Ok", "Refused": "Err"}),
    "TrackTold": ("Result<Track, Refusal>", "Result Track Refusal", {"At": "Ok", "Refused": "Err"}),
    "SampleTold": ("Result<Number, Refusal>", "Result Number Refusal", {"Value": "Ok", "Refused": "Err"}),
    "RangeTold": ("Result<usize, Refusal>", "Result ℕ Refusal", {"Epochs": "Ok", "Refused": "Err"}),
    "RecordingFound": ("Result<(Order, Places), Refusal>", "Result (Order × Places) Refusal", {"At": "Ok", "Refused": "Err"}),
    "FrameFound": ("Result<(Order, Places, usize), Refusal>", "Result (Order × Places × ℕ) Refusal", {"At": "Ok", "Refused": "Err"}),
    "SamplesFound": ("Result<(Order, Places, Run), Refusal>", "Result (Order × Places × Run) Refusal", {"At": "Ok", "Refused": "Err"}),
    "RunFound": ("Result<(Order, u32, Place), Refusal>", "Result (Order × ℕ × Place) Refusal", {"At": "Ok", "Refused": "Err"}),
    "FramesJudged": ("Result<(Frames, usize), Refusal>", "Result (Frames × ℕ) Refusal", {"On": "Ok", "Stop": "Err"}),
    "Widths": ("Option<usize>", "Option ℕ", {"One": "Some", "Several": "None"}),
    "Direct": ("Option<(Head, usize)>", "Option (Head × ℕ)", {"Record": "Some", "Last": "None"}),
}

NAME = r"[\w'₀-₉\-+]+"


def listed(commit):
    args = ["ls-tree", "-r", "--name-only", commit] if commit else ["ls-files"]
    return subprocess.run(["git", *args, "crates"], capture_output=True, text=True).stdout.split()


def text(commit, name):
    if commit:
        return subprocess.run(["git", "show", f"{commit}:{name}"], capture_output=True, text=True).stdout
    return open(name).read() if os.path.exists(name) else ""


def squeezed(s):
    return re.sub(r",? ?\)", ")", re.sub(r"\s+", " ", s)).replace("( ", "(").strip()


def alike(s, kind, shown):
    """The statement with the old answers read as Results and Options, for a comparison."""
    s = re.sub(r"\s+", " ", s)
    for name, (rust, meant, variants) in RENAMED.items():
        if kind == "functions" and not shown:
            s = re.sub(rf"(?<![\w.]){name}(?!\w)", rust, s)
        for old, new in variants.items():
            s = re.sub(rf"(?<![\w.\-']){name}\.{old}(?![\w\-'])", new, s)
        s = re.sub(rf"(?<![\w.\-']){name}(?![\w\-'.])", meant, s)
    s = re.sub(r"\bDateJudged\b", "Result (Unit {0}) WrongDate", s)
    s = re.sub(r"meaning_[hfdnmitpksr]\b", "meaning", s)
    s = re.sub(r"\b(Codes|Runs|Index)\.meaning\b", "meaning", s)
    s = re.sub(r"\(number_of r\.0\) r\.1", "r.0 r.1", s)
    for old, new in (("Std.Option", "Option"), ("Asked.Header", "Header"), ("Declared.FileHeader", "FileHeader"), ("At.Head", "Head")):
        s = s.replace(old, new)
    return re.sub(r"\s+", " ", re.sub(r"[(),]", " ", s)).strip().replace("Ok tt", "Ok")


def functions(t):
    out, context = {}, ""
    signature = r"^(impl[^{\n]*) \{$|^( *)(pub )?fn (\w+)([^{]*?(?:\{[^{}]*(?:\{[^{}]*\}[^{}]*)*\}[^{]*?)*?)\n? *\{\n"
    for m in re.finditer(signature, t, re.M):
        if m.group(1):
            context = m.group(1)
            continue
        name = f"{context}::{m.group(4)}" if m.group(2) and context else m.group(4)
        out[name] = squeezed((m.group(3) or "") + "fn " + m.group(4) + m.group(5))
    return out


def types(t):
    """The public types of a file, with their variants or fields."""
    declared = r"^pub ((?:struct|enum|trait) (\w+)(?:[^;{]*;|[^;{]*\{\}|.*?^\}))"
    return {m.group(2): squeezed(re.sub(r"//.*", "", m.group(1))) for m in re.finditer(declared, t, re.M | re.S)}


def definitions(t):
    out, lines, i = {}, t.split("\n"), 0
    word = r"^ *(?:abbrev |unfoldable )?(?:pub )?(?:unfoldable |abbrev )?(?:pub )?(?:record |data )?(?:pub )?([\w'₀-₉\-◌>=+*|&]+)(?: :| \(| \{)"
    while i < len(lines):
        m = re.match(word, lines[i])
        if not m or m.group(1) == "record" or not re.match(r"^ *(abbrev|unfoldable|pub record|pub data|pub abbrev|record|data|pub unfoldable)", lines[i]):
            i += 1
            continue
        j = i + 1
        while j < len(lines) and lines[j].strip():
            j += 1
        out[m.group(1)] = squeezed(" ".join(x for x in lines[i:j] if not x.strip().startswith("--")))
        i = j
    return out


def laws(t):
    """The laws of a file; not the fields of its records, nor what a proof names for itself behind `where`."""
    out, lines, hidden = {}, t.split("\n"), None
    for i, line in enumerate(lines):
        indent = len(line) - len(line.lstrip())
        if hidden is not None and line.strip() and indent <= hidden:
            hidden = None
        if hidden is None and line.rstrip().endswith("where") and not line.lstrip().startswith("module"):
            hidden = indent
        m = re.match(rf"^( *)(?:pub )?({NAME}) :(?: (.*))?$", line)
        if hidden is not None or not m or line.lstrip().startswith(("use", "abbrev", "record", "data", "module", "let")):
            continue
        s = m.group(3) or ""
        for more in lines[i + 1:]:
            low = len(more) - len(more.lstrip()) <= indent
            if not more.strip() or low or re.match(rf"^ *{re.escape(m.group(2))} ", more) or more.lstrip().startswith(("unfolding", "--")):
                break
            s += " " + more.strip()
        if not s.strip().startswith("goal."):
            out.setdefault(m.group(2), []).append(squeezed(s))
    return {name: " | ".join(ss) for name, ss in out.items()}


def crate(name, commit):
    """By kind, and then by file and name, what a crate says; and which laws and definitions of its proofs are private."""
    found, private = {"types": {}, "functions": {}, "definitions": {}, "laws": {}}, set()
    for f in listed(commit):
        stem = os.path.basename(f).rsplit(".", 1)[0]
        kind = None
        if f.startswith(f"crates/{name}/src/") and f.endswith(".rt"):
            kind, said = "functions", functions(text(commit, f))
            found["types"].update({(stem, n): s for n, s in types(text(commit, f)).items()})
        elif f.startswith(f"crates/{name}/specs/") and f.endswith(".antt"):
            kind, said = "definitions", definitions(text(commit, f))
        elif re.match(rf"crates/{name}/proofs/\w+\.antt$", f):
            t = text(commit, f)
            kind, said = "laws", laws(t)
            also = definitions(t)
            found["definitions"].update({(stem, n): s for n, s in also.items()})
            private |= {(stem, n) for n in [*said, *also] if not re.search(rf"^ *(?:\w+ )*pub (?:\w+ )*{re.escape(n)}\s", t, re.M)}
        if kind:
            found[kind].update({(stem, n): s for n, s in said.items()})
    return found, private


def wrapped(sign, s):
    lines = []
    for part in s.replace(" requires ", "\nrequires ").replace(" ensures ", "\nensures ").split("\n"):
        lines += textwrap.wrap(part, 116, subsequent_indent="  ", break_long_words=False, break_on_hyphens=False)
    return [f"{sign} {lines[0]}"] + [f"{sign}   {x}" for x in lines[1:]]


def told(kind, old, new, private, private_now):
    """The lines about one kind in a crate."""
    hid = [key[1] for key in old if key in private_now and key not in private]
    same, gone, changed, inner, out = [], [], [], [], []
    for key, was in old.items():
        now = new.get(key) or next((s for k, s in new.items() if k[1] == key[1] and k not in old), None)
        if now is None:
            gone.append(key[1])
        elif now != was and alike(was, kind, was.startswith("pub")) == alike(now, kind, was.startswith("pub")):
            same.append(key[1])
        elif now != was and key in private:
            inner.append(key[1])
        elif now != was:
            changed.append((key[1], was, now))
    fresh = [k[1] for k in new if k not in old and all(o[1] != k[1] for o in old)]
    heads = (f"The same over the new types, {kind}", same), (f"Gone, {kind}", gone), (f"New, {kind}", fresh if kind != "laws" else [])
    for head, names in (*heads, (f"Private now, {kind}", hid), (f"Changed, {kind} of one file alone", inner)):
        if names:
            line = head + ": " + ", ".join(f"`{n}`" for n in names) + "."
            out += textwrap.wrap(line, 120, break_long_words=False, break_on_hyphens=False) + [""]
    if changed:
        out += [f"Changed, {kind}:", "", "```diff"]
        for name, was, now in changed:
            front = f"{name} : " if kind == "laws" else ""
            out += wrapped("-", front + was) + wrapped("+", front + now)
        out += ["```", ""]
    return out


for line in open("crates.txt"):
    if not line.strip() or line.startswith("#"):
        continue
    name = line.split(":")[0].split()[0]
    (old, private_then), (new, private_now) = crate(name, base), crate(name, None)
    lines = [x for kind in old for x in told(kind, old[kind], new[kind], private_then, private_now)]
    if lines:
        print(f"### {name}\n")
        print("\n".join(lines))
