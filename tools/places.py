#!/usr/bin/env python3
"""Counts, in the sources below a folder, the places of the eight points of docs/DESIGN-PASS.md.

    python3 tools/places.py [FOLDER]          a count for each point
    python3 tools/places.py [FOLDER] POINT    the places of one point, a line each
"""
import collections, glob, os, re, sys

ROOT = next((a for a in sys.argv[1:] if not a.isdigit()), ".")
POINT = next((a for a in sys.argv[1:] if a.isdigit()), None)


def files():
    for path in sorted(glob.glob(os.path.join(ROOT, "crates/*/src/**/*.rt"), recursive=True)):
        yield os.path.relpath(path, os.path.join(ROOT, "crates")), open(path).read()


def lines_like(*patterns):
    """Lines of code, comments left out, that one of the patterns is found in."""
    for path, text in files():
        for number, line in enumerate(text.split("\n"), 1):
            code = line.split("//")[0]
            if any(re.search(p, code) for p in patterns):
                yield f"{path}:{number}: {line.strip()}"


def functions():
    """Each function: its file, its name, its parameters, its clauses and its body."""
    for path, text in files():
        for m in re.finditer(r"^( *)(?:pub(?:\([a-z]+\))? )?fn (\w+)", text, re.M):
            end = text.find("\n" + m.group(1) + "}", m.end())
            whole = text[m.start() : end if end > 0 else m.end()]
            opening = whole.find("\n" + m.group(1) + "{")
            opening = opening if opening >= 0 else whole.find(" {\n")
            head, body = whole[:opening], whole[opening:]
            params = re.search(r"\((.*?)\)(?: ->|\s*$|\n)", head, re.S)
            yield path, m.group(2), (params.group(1) if params else ""), head, body


def own_enums_flags_numbers():
    yield from lines_like(
        r"^\s*(pub(\(crate\))? )?enum ",
        r"None => (None|Err|Ok|false|Range::ZERO)\b",
        r"Err\(_\) => None",
        r"Some\(\w+\) => Ok\(",
        r"\{ None \}|\{ Some\(\w+\) \}",
        r"^\s*\w+: bool\b",
        r"\bnumber: \d",
        r"=> \(\d+, line\)|of_call\(\d|Refusal::new\(\d",
    )
    for path, text in files():
        for m in re.finditer(r"Some\(.*\)\n\s*\} else \{\n\s*None\n", text):
            yield f"{path}:{text.count(chr(10), 0, m.start()) + 1}: {m.group(0).split(chr(10))[0].strip()} or None"


def twins():
    """Functions of one shape: alike but for names and numbers. And arrays with a first or last place beside them."""
    shapes = collections.defaultdict(list)
    for path, name, _, _, body in functions():
        lines = [l for l in body.split("\n") if l.strip() and not l.strip().startswith("//")]
        if len(lines) >= 4:
            shapes[re.sub(r"\b\w+\b", "_", "\n".join(lines))].append(f"{path}: {name}")
    for places in shapes.values():
        if len(places) > 1:
            yield " = ".join(places)
    for path, text in files():
        for m in re.finditer(r"struct (\w+)[^{;]*\{(.*?)\n\}", text, re.S):
            if re.search(r"\[.*; .*\]", m.group(2)) and re.search(r"\b(first|len): usize", m.group(2)):
                yield f"{path}: struct {m.group(1)}, an array with its first or last place"


def index_loops():
    yield from lines_like(r"\bfor \w+ in .*\.\.", r"\bwhile\b", r"\bloop \{")


def written_by_hand():
    yield from lines_like(
        r"^\s*impl.* (PartialEq|Eq|PartialOrd|Ord|Clone|Copy|Hash|Default|From<.*>|TryFrom<.*>|Display|Debug) for ",
        r"\bas (u8|u16|u32|u64|usize|i64)\b",
        r'=> "[a-z ,]+"',
        r'println!\(.*\{number\}',
        r'"\{a\} \{b\}|\{\} \{\} \{\} \{\}"',
    )


def repeated_facts():
    """A requires that stands in three or more functions; two parameters that stand together in three or more of a crate."""
    facts, pairs = collections.defaultdict(list), collections.defaultdict(list)
    for path, name, params, head, _ in functions():
        for m in re.finditer(r"requires(?: \w+)? \{ (.*) \}", head):
            facts[m.group(1)].append(f"{path}:{name}")
        names = [p.strip() for p in re.sub(r"\s+", " ", params).split(",") if ":" in p]
        for i, a in enumerate(names):
            for b in names[i + 1 :]:
                pairs[(path.split("/")[0], a, b)].append(name)
    for fact, places in facts.items():
        if len(places) >= 3:
            yield f"{len(places)} x {fact}"
    for (crate, a, b), places in pairs.items():
        if len(places) >= 3:
            yield f"{crate}: {a}, {b} in {len(places)}: {' '.join(places)}"


def buffers_and_arenas():
    for path, text in files():
        for m in re.finditer(r"struct (\w+)[^{;]*\{(.*?)\n\}", text, re.S):
            fields = m.group(2)
            if re.search(r": \[.*; .*\]", fields) and re.search(r"\b(first|len|count|width|begun): usize", fields):
                yield f"{path}: struct {m.group(1)}: an array with a number beside it"
    yield from lines_like(r"let mut \w+ = \[.*; \w+\]", r"^\s*(pub )?(third_last|second_last|last): usize", r"^\s*(left|right|bag|term|condition|number|body|bound): usize,")


def switches():
    yield from lines_like(r"\bdyn \w", r"\bFn(Once|Mut)?\(", r": fn\(", r"if route\.source\(\) == 0", r"match input \{")


def proofs():
    for path in sorted(glob.glob(os.path.join(ROOT, "crates/*/proofs/**/*.antt"), recursive=True)):
        text = open(path).read()
        name = os.path.relpath(path, os.path.join(ROOT, "crates"))
        for m in re.finditer(r"^pub (\S+) : goal\.", text, re.M):
            yield f"{name}: answer {m.group(1)}"


POINTS = [own_enums_flags_numbers, twins, index_loops, written_by_hand, repeated_facts, buffers_and_arenas, switches, proofs]

for n, places in enumerate(POINTS, 1):
    found = list(places())
    if POINT is None:
        print(n, len(found), places.__name__.replace("_", " "))
    elif int(POINT) == n:
        print("\n".join(found))
