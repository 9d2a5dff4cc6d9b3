#!/usr/bin/env python3
"""Lists the places where the code may keep an older form, point by point: tools/places.py [POINT..] (from the top).

A pattern finds more than it means: docs/DESIGN-PASS.md says of each place whether it is one."""
import glob
import re
import sys
from collections import Counter

SOURCES = sorted(f for f in glob.glob("crates/*/src/*.rt"))
LINES = {
    1: [
        ("enums", r"^(pub(\([a-z]+\))? )?enum "),
        ("errors that are numbers", r"Result<[^>]*, u(8|16|32|64)>"),
        ("flags in structs", r"^    (pub )?[a-z_]+: bool,"),
        ("numbers for kinds", r"(code|letter|bit): u(8|32)|\.put\([0-9]|\.note\([0-9]|fn transform_bit"),
        ("None and errors handed on by hand", r"=> None,|return None;|=> (Ok|Some)\([a-z]+\),|=> Err\([A-Za-z:]*\),|return Err\((0|Problem::[A-Za-z]*)\);"),
    ],
    3: [("indices counted by hand", r"for [a-z_]+ in [^{]*\.\.|saturating_add\(1\)|\+= [0-9]+;|\bwhile\b|\bloop\b")],
    4: [
        ("equality, order, copying", r"fn (is|same|eq|cmp|clone)\b"),
        ("conversion", r"fn (from_bits|to_bits|to_u32|check|[a-z]+_of|narrow|widen|digit|push_hex)\b"),
        ("printing", r"fn write_[a-z]+\b"),
    ],
    6: [
        ("lengths beside buffers, indices beside lists", r"^    (pub(\([a-z]+\))? )?(len|at|size): usize,"),
        ("numbers beside rows", r"^    (pub )?([a-z]+_)?ids: |^    pub numbers: "),
        ("lists by place", r": (Option<)?Span>?,$"),
    ],
    7: [("choices by a word or a number", r"match (kind|letter|code|key|words\.[a-z]+\(\)\?) \{")],
}


def found(pattern):
    return [f"{f}:{n}: {line.strip()}" for f in SOURCES for n, line in enumerate(open(f), 1) if re.search(pattern, line)]


def signatures():
    for f in SOURCES:
        text = open(f).read()
        for m in re.finditer(r"\bfn ([a-z_0-9]+)[^{;]*?\(([^{;]*?)\)([^{;]*?)(?=\n    \{|\n\{|;| \{\n)", text, re.S):
            yield f, m.group(1), m.group(2)


def bodies():
    for f in SOURCES:
        text = re.sub(r"\n\s+(ensures|requires) .*", "", open(f).read())
        for m in re.finditer(r"\bfn ([a-z_0-9]+)", text):
            start = re.compile(r"[{;]").search(text, m.end())
            if not start or start.group() == ";":
                continue
            depth, end = 1, start.end()
            while depth:
                depth += {"{": 1, "}": -1}.get(text[end], 0)
                end += 1
            yield f, m.group(1), text[start.end() : end - 1]


def twins():
    """Bodies with a statement or a choice that differ only in names and numbers."""
    shapes = {}
    for f, name, body in bodies():
        shape = re.sub(r"[A-Za-z_0-9]+", "w", re.sub(r"\s+", " ", body).strip())
        if len(shape) > 25 and re.search(r"[{;]", shape):
            shapes.setdefault(shape, []).append(f"{f.split('/')[1]} {name}")
    return [" ~ ".join(v) for v in shapes.values() if len(v) > 1]


def repeated():
    clauses = Counter(re.sub(r"^(ensures|requires) ?[a-z_0-9]* ?", "", line.strip()) for f in SOURCES for line in open(f) if re.match(r"\s+(ensures|requires) ", line))
    pairs = Counter()
    for _, _, parameters in signatures():
        names = [p.strip() for p in re.split(r",(?![^<(]*[>)])", parameters) if ":" in p and "self" not in p.split(":")[0]]
        for i in range(len(names)):
            for j in range(i + 1, len(names)):
                pairs[names[i] + ", " + names[j]] += 1
    return [f"{n} contracts: {c}" for c, n in clauses.items() if n >= 3], [f"{n} functions: {p}" for p, n in pairs.items() if n >= 3]


def show(title, places):
    print(f"  {len(places)} {title}")
    for place in places:
        print("    " + place)


for point in [int(a) for a in sys.argv[1:]] or [1, 2, 3, 4, 5, 6, 7, 8]:
    print(f"point {point}")
    for title, pattern in LINES.get(point, []):
        show(title, found(pattern))
    if point == 2:
        show("bodies of the same shape", twins())
    if point == 5:
        clauses, pairs = repeated()
        show("clauses in three contracts or more", clauses)
        show("pairs of parameters in three functions or more", pairs)
    if point == 8:
        files = [f for f in glob.glob("crates/*/proofs/**/*.antt", recursive=True)]
        show("proof files", [])
        print(f"  {len(files)} files, {sum(len(open(f).readlines()) for f in files)} lines, {sum('Answers' in f for f in files)} of them answers")
