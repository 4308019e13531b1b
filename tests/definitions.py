#!/usr/bin/env python3
"""definitions.py [CORPUS [MOST_BYTES [COUNT]]]: evaluates `judge` of crates/rules itself on files of a corpus.

CORPUS is a folder or an archive that unpacks to corpus/; by default it is the project's own, tests/corpus. For each
file of at most MOST_BYTES bytes (default 1200, at most COUNT of them, default 400) it writes the theorem that the
definitions give exactly the answer in NAME.out, the refusal or the rows, each proved by computation alone, and has rt
check them, in a copy of the definitions that goes with the run. The last line counts the files. The definitions of
the questions, of turning and of rewriting are not evaluated.
"""
import os, re, shutil, subprocess, sys, tarfile, tempfile

HERE = os.path.dirname(os.path.dirname(os.path.abspath(__file__)))
OWN = os.path.join(HERE, 'tests', 'corpus', 'files.tar.gz')
PER_MODULE = 20


def unfoldable(path, leave=()):
    text = open(os.path.join(HERE, path)).read()
    return [n for n in re.findall(r'^unfoldable pub (\S+)', text, re.M) if n not in leave]


def expected(text):
    """The answer as a list of lists of words: one of two for a refusal, else one of four a row (a serial is a 32-bit word)."""
    m = re.match(r'refused (\d+) at (\d+)', text)
    rows = [[m[1], m[2]]] if m else [[n if n[0] != '-' else str(int(n) % 2**32) for n in line.split()] for line in text.split('\n') if line]
    return ' ∷ '.join('(' + ' ∷ '.join(r + ['[]']) + ')' for r in rows) + ' ∷ []'


def module(files, rules, walk, numbers):
    lines = ['-- Files of the corpus, judged by the definitions.',
             'use Rattle.std.proofs.Common.{◌≡◌, refl, ℕ, List, [], ◌∷◌}',
             'use Rattle.words.specs.Numbers.{%s}' % ', '.join(numbers),
             'use Rattle.walk.specs.Walk.{Row, Outcome, refused, passed, %s}' % ', '.join(walk),
             'use Rattle.rules.specs.Rules.{File, %s}' % ', '.join(rules), '',
             'abbrev row4 : Row → List ℕ', 'row4 r = r.start ∷ r.size ∷ r.code ∷ r.serial ∷ []', '',
             'abbrev all4 : List Row → List (List ℕ)', 'all4 [] = []', 'all4 (r ∷ rs) = row4 r ∷ all4 rs', '',
             'abbrev answer : Outcome File → List (List ℕ)', 'answer (refused n p) = (n ∷ p ∷ []) ∷ []',
             'answer (passed v r t) = all4 (rows 0 t)', '']
    for name, data, out in files:
        lines += ['%s : answer (judge (%s)) ≡ %s' % (name, ' ∷ '.join([str(b) for b in data] + ['[]']), expected(out)),
                  'unfolding ' + ' '.join(rules + walk + numbers), '%s = refl' % name, '']
    return '\n'.join(lines)


def checked(top, files, rules, walk, numbers):
    """Whether rt accepts the theorems, in a copy under `top`, and what it says."""
    for crate in ('words', 'walk', 'rules'):
        shutil.copytree(os.path.join(HERE, 'crates', crate), os.path.join(top, 'crates', crate),
                        ignore=shutil.ignore_patterns('out', 'must-fail'))
    own = os.path.join(top, 'crates', 'corpus')
    for part in ('src', 'specs', 'proofs'):
        os.makedirs(os.path.join(own, part))
    open(os.path.join(top, 'crates.txt'), 'w').write('words:\nwalk: words\nrules: words walk\ncorpus: words walk rules\n')
    open(os.path.join(own, 'src', 'lib.rt'), 'w').write('// Files of the corpus.\n#![tactic(auto)]\n')
    open(os.path.join(own, 'specs', 'Lib.antt'), 'w').write('')
    mods = []
    for i in range(0, len(files), PER_MODULE):
        mods.append('Files%d' % (i // PER_MODULE))
        open(os.path.join(own, 'proofs', mods[-1] + '.antt'), 'w').write(module(files[i:i + PER_MODULE], rules, walk, numbers))
    open(os.path.join(own, 'proofs', 'Lib.antt'), 'w').write(''.join('pub mod %s\n' % m for m in mods))
    run = subprocess.run(['rt', 'check'], cwd=own, capture_output=True, text=True)
    return run.returncode == 0, run.stdout + run.stderr


def chosen(corpus, most, count):
    """The name, the bytes and the expected answer of the files that are short enough."""
    files = []
    for f in sorted(os.listdir(corpus)):
        path = os.path.join(corpus, f)
        if f.endswith('.bin') and os.path.getsize(path) <= most and len(files) < count:
            files.append((f[:-4], open(path, 'rb').read(), open(path[:-4] + '.out').read()))
    return files


def main():
    corpus = sys.argv[1] if len(sys.argv) > 1 else OWN
    most = int(sys.argv[2]) if len(sys.argv) > 2 else 1200
    count = int(sys.argv[3]) if len(sys.argv) > 3 else 400
    rules = unfoldable('crates/rules/specs/Rules.antt')
    walk = unfoldable('crates/walk/specs/Walk.antt', ('render', 'size', 'cleared', 'after'))
    numbers = ['ordered', 'word', 'word_in']
    with tempfile.TemporaryDirectory() as top:
        if not os.path.isdir(corpus):
            with tarfile.open(corpus) as archive:
                archive.extractall(os.path.join(top, 'files'), filter='data')
            corpus = os.path.join(top, 'files', 'corpus')
        files = chosen(corpus, most, count)
        ok, text = checked(top, files, rules, walk, numbers)
    bad = sorted(set(re.findall(r'error: `(\w+)`', text)))
    print('\n'.join(bad) if bad else text[-600:] if not ok else '', end='\n' if not ok else '')
    accepted = sum(not o.startswith('refused') for _, _, o in files)
    print('%d files (%d accepted) judged by the definitions, %s' % (len(files), accepted, 'all agree' if ok else 'NOT all agree'))
    sys.exit(0 if ok else 1)


main()
