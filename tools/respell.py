#!/usr/bin/env python3
"""Respells this repository's own definitions and lemmas: words in snake case, types and facts in camel case.

usage: respell.py [--list] [FOLDER]

It goes by text, once, after the toolchain's own upgrade script. A name is the repository's own where one of its files
of specs/ or proofs/ defines it (the answers to generated goals keep their names). Comments and strings stay; of pages
only what stands between backticks is respelled. It says which names fall together and then changes nothing.
"""
import glob, os, re, sys

LIST = '--list' in sys.argv
ROOT = next((a for a in sys.argv[1:] if not a.startswith('-')), '.')
NAME = r"[A-Za-z_][A-Za-z0-9_'′]*(?:[-+*][A-Za-z0-9_'′]+)*(?:-)?"
TOKEN = re.compile(r"[^\s(){}\[\];,.:@\"⦃⦄⌜⌝]+")
# the plain respelling would be the name of a type of src/
EXCEPT = {
    'Slot-word': 'IsSlotWord',
    'Tmcc-word': 'IsTmccWord',
}


def camel(w):
    return ''.join(p[:1].upper() + p[1:] for p in re.split(r'[-_]', w))


def respelt(w):
    if w in EXCEPT:
        return EXCEPT[w]
    w2 = w.replace('′', "'").replace('getD', 'get_or')
    if '-' not in w2 and not re.match(r'[A-Z][a-z0-9]*_', w2):
        return w2
    if re.match(r"[A-Z][a-z0-9]", w2) or re.match(r'[A-Z]-', w2):
        return camel(w2)
    return w2.replace('-', '_')


def files(kind):
    return sorted(f for f in glob.glob(os.path.join(ROOT, 'crates/*/' + kind), recursive=True) if '/out/' not in f)


def code_parts(t, rust):
    """(text, is code) pieces: comments and, in Rust, strings are not code."""
    pat = r'//[^\n]*|"(?:\\.|[^"\\])*"' if rust else r"(?m)(?:(?<=\s)|^)--(?=[ \n])[^\n]*"
    at = 0
    for m in re.finditer(pat, t):
        yield t[at:m.start()], True
        yield m[0], False
        at = m.end()
    yield t[at:], True


def defined(t):
    """names that a file of specs/ or proofs/ defines"""
    code = ''.join(p for p, c in code_parts(t, False) if c)
    out = set()
    for m in re.finditer(r"(?m)^[ ]*(?:abbrev |unfoldable |pub |axiom )*(?:record|data|ruleset)\s+([^\s(){:]+)", code):
        out.add(m[1])
    for m in re.finditer(r"(?m)^[ ]*(?:abbrev |unfoldable |pub )*([^\s(){}:;,.\"]+)\s+:\s+(?!goal\.)", code):
        out.add(m[1])
    return {w for w in out if re.match(r"[A-Za-z]", w)}


def imported(t):
    """names that a file takes from outside the repository"""
    out = set()
    for m in re.finditer(r"use\s+(\S+?)\.\{([^}]*)\}", t):
        path = m[1].split('.')
        if path[0] != 'Rattle' or path[1] in ('std', 'core', 'std_alloc', 'std_io', 'std_collections'):
            out |= {re.split(r'\s+as\s+', x.strip())[0] for x in m[2].split(',')}
    return out


def goals(t):
    """names that Rattle makes: what follows goal., c., l. and the like, and the answers themselves"""
    out = {m[1] for m in re.finditer(r"\b(?:goal|c|l|w|v|a)\.(?:initial\.|fn\.|args\.|new\.)?([^\s(){};,.]+)", t)}
    return out | {m[1] for m in re.finditer(r"(?m)^\s*(?:abbrev )?(?:pub )?([^\s:]+) : goal\.", t)}


antt = files('specs/**/*.antt') + files('proofs/**/*.antt')
rust = files('src/**/*.rt')
text = {f: open(f, encoding='utf-8').read() for f in antt + rust}
own, made = set(), set()
for f in antt:
    own |= defined(text[f])
    if '/proofs/' in f and os.path.basename(f) in ('Answers.antt', 'Invariants.antt', 'Proof.antt'):
        made |= goals(text[f])
turn = {w: respelt(w) for w in own if respelt(w) != w}
both = sorted(w for w in turn if w in made)
types = set()
for f in rust:
    types |= {m[1] for m in re.finditer(r"\b(?:struct|enum|trait|type)\s+(\w+)", text[f])}
whole = set(own)
clash = sorted((w, n) for w, n in turn.items() if (n in whole and n != w) or n in types
               or any(o != w and m == n for o, m in turn.items()))
if LIST:
    for w in sorted(turn):
        print(w, turn[w])
print(len(turn), 'names', file=sys.stderr)
print('also made by Rattle:', both, file=sys.stderr)
print('fall together:', clash, file=sys.stderr)
if LIST or clash:
    sys.exit(1 if clash else 0)


def respell(piece, keep):
    def one(m):
        w = m[0]
        before = piece[:m.start()]
        if w in keep or w not in turn:
            return w
        if w in made and re.search(r"(?:\b(?:goal|c|l|w)|\.(?:initial|fn))\.$", before):
            return w
        return turn[w]
    return TOKEN.sub(one, piece)


for f, t in text.items():
    keep = imported(t)
    new = ''.join(respell(p, keep) if c else p for p, c in code_parts(t, f.endswith('.rt')))
    if new != t:
        open(f, 'w', encoding='utf-8').write(new)
for f in files('must-fail/*.edit'):
    t = open(f, encoding='utf-8').read()
    new = TOKEN.sub(lambda m: turn.get(m[0], m[0]), t)
    if new != t:
        open(f, 'w', encoding='utf-8').write(new)
pages = glob.glob(os.path.join(ROOT, 'docs/*.md')) + [os.path.join(ROOT, 'README.md'), os.path.join(ROOT, 'CHANGELOG.md')]
for f in pages:
    t = open(f, encoding='utf-8').read()
    new = re.sub(r'`[^`\n]+`', lambda m: TOKEN.sub(lambda k: turn.get(k[0], k[0]), m[0][1:-1]).join('``'), t)
    if new != t:
        open(f, 'w', encoding='utf-8').write(new)
