#!/usr/bin/env python3
"""Brings the names of definitions and lemmas to today's spelling: types in upper camel case, all else in snake case.

A dash stays where it joins two names, as in length-written. Run once, at the top, after the toolchain's port.py.
Functions of src/ keep their names: only specs/, proofs/, the ghost lines of src/ and what the pages quote are rewritten.
"""
import glob, re, sys

TYPES = """Alike-outlines By-hand Checked-limits Extracts-match Font-slices In-range Job-rows Lists-exactly Noted-as
Rows-of Store-slices Turned-far""".split()

# names that would fall together with another, and lemmas whose first part is a type or joins two names
OTHERS = {
    "Checked-head": "HeadChecked",  # CheckedHead is the struct
    "Checked-limits": "LimitsChecked",
    "glyph-list": "glyph_list_of",  # glyph_list is a function of the trait
    "once-firsts": "Once-firsts",
    "once-without": "Once-without",
    "drawn-map-end": "drawn-map_end",
    "drawn-map-more": "drawn-map_more",
}

KEPT = """drawn-++ has-++ without-++ has-firsts length-coded length-words length-written firsts-kept firsts-ran
firsts-runs listing-firsts""".split()

PLAIN = """all-grow alike-outlines at-fault both-lists both-short bounded-in broken-made clip-is component-none
component-some condition-ids condition-in condition-row condition-short consulted-broken consulted-refused
consulted-told copied-size cos-and-sin cos-sin cos-sin-reduced cosine-divisors down-from drawn-end drawn-more
each-once end-at end-in extract-bounded extract-font extract-short extract-store extracts-match few-axes few-deltas
few-listed few-parts few-region-axes few-regions few-steps few-values fixed-part flag-bits font-pile font-pile-shows
font-shows front-from front-is full-run full-tape glyph-ids glyph-in glyph-nth glyph-row glyph-short
glyph-values-short has-before has-none has-passes kind-of left-conditions left-glyphs left-lists left-outlines
left-regions left-sets left-widths list-axes list-ids list-in list-size listing-appends listing-grows lists-exactly
lists-now matrix-of need-of no-axis no-condition no-outline of-condition of-glyph of-set of-span one-listed open-run
open-tape outline-ids outline-in part-short part-values piece-told pile-head product-end product-more read-nth
read-part region-axes region-ids region-in reply-in rises-front rises-level rises-rest rising-from row-short
same-calls same-is sample-line set-deltas set-ids set-in set-regions set-row set-short set-size short-in short-some
sine-divisors some-short some-steps span-short spelled-end spelled-more steps-more store-pile store-pile-shows
store-shows take-least take-nil taken-all taken-by tape-end tape-name tape-step taped-as through-name through-now
two-more values-at values-in values-none values-short values-some width-ids width-in words-end written-front
written-more""".split()

NAMES = {n: n.replace("-", "_") for n in PLAIN}
NAMES.update({n: "".join(w[0].upper() + w[1:] for w in n.split("-")) for n in TYPES})
NAMES.update(OTHERS)

TOKEN = re.compile(r"[^\s(){}\[\].,;`]+")


def respelled(text):
    return TOKEN.sub(lambda m: NAMES.get(m.group(), m.group()), text)


def lines(path):
    """The file with the lines rewritten that hold ghost text."""
    ghost = path.endswith(".antt")
    depth = 0
    for line in open(path, encoding="utf-8"):
        if ghost:
            yield line if line.lstrip().startswith("--") else respelled(line)
            continue
        starts = re.match(r"\s*(ghost|requires|ensures)\b", line)
        if starts or depth > 0:
            depth = max(0, (0 if starts and depth == 0 else depth) + line.count("{") - line.count("}"))
            yield respelled(line)
        else:
            yield line


def quoted(path):
    """A page, with what stands in backticks rewritten."""
    text = open(path, encoding="utf-8").read()
    return re.sub(r"`[^`\n]+`", lambda m: respelled(m.group()), text)


def main():
    for path in sorted(glob.glob("crates/**/*.antt", recursive=True) + glob.glob("crates/**/*.rt", recursive=True)):
        if "/out/" not in path:
            new = "".join(lines(path))
            write(path, new)
    for path in ["README.md"] + sorted(glob.glob("docs/*.md")):
        if not path.endswith(("PORT.md", "PORT-OTHER.md")):
            write(path, quoted(path))


def write(path, new):
    if new != open(path, encoding="utf-8").read():
        open(path, "w", encoding="utf-8").write(new)
        print(path)


main()
