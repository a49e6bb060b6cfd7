#!/usr/bin/env python3
"""Lists the places in src/ at which older forms of the language stand, by kind, with a count for each kind.

    places.py [KIND...]        without a kind: only the counts

Run it at the top of the repository. A place is a line; what is listed is found by shape, and has to be read."""
import collections
import glob
import re
import sys


def files():
    for path in sorted(glob.glob("crates/*/src/*.rt")):
        if "/tests" not in path:
            yield path, open(path, encoding="utf-8").read().split("\n")


def functions():
    """Each function: path, line, comment above, signature joined to a line, its requires and ensures."""
    for path, lines in files():
        for i, line in enumerate(lines):
            if not re.match(r"\s*(pub(\(crate\))? )?(extern \"C\" )?fn ", line):
                continue
            above, k = [], i - 1
            while k >= 0 and re.match(r"\s*(//|#\[)", lines[k]):
                above.insert(0, lines[k].strip())
                k -= 1
            head, k = line.strip(), i + 1
            while k < len(lines) and head.count("(") > head.count(")"):
                head += " " + lines[k].strip()
                k += 1
            clauses = []
            while k < len(lines) and re.match(r"\s*(requires|ensures)", lines[k]):
                clauses.append(lines[k].strip())
                k += 1
            yield path, i + 1, " ".join(above), head, clauses


FOUND = collections.OrderedDict()


def kind(name):
    def add(function):
        FOUND[name] = function
        return function
    return add


@kind("1a")
def _():
    "enums with a variant that says a value is missing, good or refused"
    for path, lines in files():
        text = "\n".join(lines)
        for m in re.finditer(r"enum (\w+)(<[^>]*>)? \{(.*?)\n\}", text, re.S):
            hit = re.findall(r"^\s+(\w*(?:Refus|Good|Unknown|None|Missing|Done)\w*)", m.group(3), re.M)
            if hit:
                yield path, text[:m.start()].count("\n") + 1, "%s: %s" % (m.group(1), ", ".join(hit))


@kind("1b")
def _():
    "functions that answer a flag and write beside it"
    for path, line, above, head, _ in functions():
        if "&mut" in head and re.search(r"-> (Result<)?bool", head):
            yield path, line, head


@kind("1c")
def _():
    "refusals, or whether all is well, as a number: functions, fields and variants"
    for path, line, above, head, _ in functions():
        if re.search(r"-> u8", head) and re.search(r"[Rr]efus|Answers 0|stands for an answer", above):
            yield path, line, head
    for path, lines in files():
        for i, l in enumerate(lines):
            if re.search(r"^\s+(refusal: u8|Refus\w+\(u8)", l):
                yield path, i + 1, l.strip()


@kind("1d")
def _():
    "numbers that stand for none: what a comment says of them"
    for path, line, above, head, _ in functions():
        if re.search(r"-> (\(?u8|u16|usize)", head) and re.search(
                r"(,| or| and) (0|16|zero|510)( where| for any| for a number| past| for zero)|; 510 for|or zero past|0 where|or 0", above):
            yield path, line, head


@kind("2a")
def _():
    "functions and types whose name stands in more than one file outside traits"
    seen = collections.defaultdict(list)
    for path, line, above, head, _ in functions():
        name = re.search(r"fn (\w+)", head).group(1)
        seen["fn " + name].append((path, line, head))
    for path, lines in files():
        for i, l in enumerate(lines):
            m = re.match(r"(pub(\(crate\))? )?(struct|enum|const) (\w+)", l)
            if m:
                seen[m.group(3) + " " + m.group(4)].append((path, i + 1, l))
    skip = {"fn main", "fn run", "fn new", "fn of", "fn fmt", "fn take", "fn waiting", "fn begin", "fn send", "fn tell", "fn permits",
            "fn word_size", "fn data_size", "fn refusal_number", "fn rest", "fn from", "fn try_from", "fn default"}
    for name, places in sorted(seen.items()):
        if name not in skip and len({p[0] for p in places}) > 1:
            yield places[0][0], places[0][1], "%s: %s" % (name, ", ".join(p[0].split("/")[1] for p in places))


@kind("2b")
def _():
    "functions with the same body but for names and numbers, next to or far from one another"
    bodies = collections.defaultdict(list)
    for path, lines in files():
        for i, l in enumerate(lines):
            if not re.match(r"\s*(pub(\(crate\))? )?(extern \"C\" )?fn ", l):
                continue
            k = i
            while k < len(lines) and lines[k].strip() != "{" and not lines[k].rstrip().endswith(";") and not lines[k].rstrip().endswith("{"):
                k += 1
            if k == len(lines) or lines[k].rstrip().endswith(";"):
                continue
            indent = re.match(r"\s*", l).group(0)
            body, j = [], k + 1
            while j < len(lines) and lines[j] != indent + "}":
                body.append(lines[j].strip())
                j += 1
            text = " ".join(body)
            shape = re.sub(r"\b[A-Za-z_]\w*\b", "x", text)
            shape = re.sub(r"\b\d\w*\b", "1", shape)
            if len(shape) > 12:
                bodies[shape].append((path, i + 1, l.strip()))
    for shape, places in bodies.items():
        if len(places) > 1:
            yield places[0][0], places[0][1], "; ".join("%s:%d %s" % (p[0].split("/", 1)[1], p[1], re.search(r"fn (\w+)", p[2]).group(1)) for p in places)


@kind("3a")
def _():
    "loops over a range of numbers"
    for path, lines in files():
        for i, l in enumerate(lines):
            if re.search(r"^\s*for \w+ in .*\.\.", l):
                yield path, i + 1, l.strip()


@kind("3b")
def _():
    "numbers that are counted on by hand"
    for path, lines in files():
        for i, l in enumerate(lines):
            if re.search(r"^\s*(let mut (count|place|at|i|k|n|index) = |(count|place|at|i|k|n|index|whole|active|waiting) \+= )", l):
                yield path, i + 1, l.strip()


@kind("4a")
def _():
    "conversions, tests and printing written as functions"
    for path, line, above, head, _ in functions():
        name = re.search(r"fn (\w+)", head).group(1)
        if name in ("from_word", "word", "value", "number", "place", "text", "fill", "clear", "eq", "cmp", "clone", "to_u8", "from_u8", "hexed", "hex",
                    "unhex", "digit", "capital", "answer_number", "own_word", "fmt", "mode_line", "rest_all", "differing", "block_at", "role_letter"):
            yield path, line, head


@kind("4b")
def _():
    "bytes of numbers taken apart or put together by division"
    for path, lines in files():
        for i, l in enumerate(lines):
            if re.search(r"[/%] (256|BYTE)\b|\* 256\b|\(256 \*|16 \* digit|\* 16 \+", l) and "ensures" not in l and "requires" not in l:
                yield path, i + 1, l.strip()


@kind("5a")
def _():
    "facts that stand in the requires of three or more functions of a crate"
    facts = collections.defaultdict(list)
    for path, line, above, head, clauses in functions():
        for clause in clauses:
            if not clause.startswith("requires"):
                continue
            inner = re.search(r"\{(.*)\}", clause).group(1)
            for atom in re.split(r" × ", inner):
                atom = atom.strip().strip("()").strip()
                facts[path.split("/")[1], re.sub(r"\.(old|now)\b", "", atom)].append((path, line))
    for (crate, atom), places in facts.items():
        if len(set(places)) >= 3:
            yield places[0][0], places[0][1], "%d functions of %s: %s" % (len(set(places)), crate, atom)


@kind("5b")
def _():
    "two parameters that travel together through three or more functions of a crate"
    pairs = collections.defaultdict(set)
    for path, line, above, head, _ in functions():
        inside = re.search(r"\((.*)\)", head)
        names = [p.strip() for p in re.split(r",(?![^<\[]*[>\]])", inside.group(1)) if ":" in p]
        names = [n for n in names if not re.match(r"(heap|rt|f):", n)]
        for a in range(len(names)):
            for b in range(a + 1, len(names)):
                pairs[path.split("/")[1], names[a], names[b]].add((path, line))
    for (crate, a, b), places in sorted(pairs.items()):
        if len(places) >= 3:
            first = sorted(places)[0]
            yield first[0], first[1], "%d functions of %s: %s, %s" % (len(places), crate, a, b)


@kind("6a")
def _():
    "arrays that are fields of a struct or a variant"
    for path, lines in files():
        for i, l in enumerate(lines):
            if re.search(r"^\s+(pub(\(crate\))? )?(\w+: |\w+\()\[\w+; \w+\]", l) and not re.search(r"^\s*let |fn ", l) and l.rstrip().endswith(","):
                yield path, i + 1, l.strip()


@kind("6b")
def _():
    "arrays made in a function, to be filled"
    for path, lines in files():
        for i, l in enumerate(lines):
            if re.search(r"^\s*(let mut \w+ = )?\[(0|\w+::\w+|0u8|0xFF); \w+\];?$", l):
                yield path, i + 1, l.strip()


@kind("7a")
def _():
    "enums that only say which function to call, function pointers and dyn"
    for path, lines in files():
        text = "\n".join(lines)
        for m in re.finditer(r"match [^{;]*\{\n((?:\s+[^\n]*=> [a-z_]+(?:::<\w+>)?\([^\n]*\),\n)+)\s+\}", text):
            yield path, text[:m.start()].count("\n") + 1, " ".join(m.group(0).split())[:140]
        for i, l in enumerate(lines):
            if re.search(r"\bdyn \w|\bfn\(", l):
                yield path, i + 1, l.strip()


@kind("8a")
def _():
    "answers in proofs/"
    for path in sorted(glob.glob("crates/*/proofs/**/Answers.antt", recursive=True)):
        for i, l in enumerate(open(path, encoding="utf-8")):
            if re.match(r"(pub )?\S+ : goal\.", l):
                yield path, i + 1, l.strip()


@kind("8b")
def _():
    "lemmas of the repository's own in proofs/"
    for path in sorted(glob.glob("crates/*/proofs/*.antt")):
        for i, l in enumerate(open(path, encoding="utf-8")):
            if re.match(r"(pub |abbrev |unfoldable )*[^\s{}()-][^\s]* : ", l):
                yield path, i + 1, l.strip()


def main():
    wanted = sys.argv[1:]
    for name, function in FOUND.items():
        found = list(function())
        if not wanted:
            print("%-3s %4d  %s" % (name, len(found), function.__doc__))
        elif name in wanted or name[0] in wanted:
            for path, line, text in found:
                print("%s %s:%d: %s" % (name, path, line, text[:200]))
            print("%s: %d" % (name, len(found)))


main()
