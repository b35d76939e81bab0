#!/usr/bin/env python3
"""Brings the definitions and lemmas of this repository to today's spelling, after port.py has run.

usage: tools/respell.py            at the top of the repository, once

A word is in snake case: `sideRefusal` becomes `side_refusal`, and `shape-fits` becomes `shape_fits`. Types, modules and
names that begin with a capital stay. Where a lemma would fall together with the definition that it is about, it gets
`_lem`. Only names that the files of specs/ and proofs/ declare are turned, outside strings, in the crates, and between
backticks in the pages. docs/PORT-NAMES.tsv gets each name that was turned. It proves nothing.
"""
import os
import re

FUNCTION_FILES = ("Proof.antt", "Answers.antt", "Invariants.antt")
NAME = r"[^\s(){}\[\].,;:@\"|λ→×¬«»`]+"
TOP = re.compile(
    r"^(?:(?:pub|abbrev|unfoldable)\s+)*"
    r"(?!(?:use|mod|data|record|syntax|infix\w*|unfolding|where|let|in|do|open|ruleset|pub|abbrev)\b)"
    rf"({NAME})\s*(?:\{{[^}}]*\}}\s*)*:\s")
BLOCK = re.compile(rf"^(?:pub\s+)?(?:record|data|ruleset)\s+({NAME})")
FIELD = re.compile(rf"^\s+(?:pub\s+)?({NAME})\s*:\s")
INNER = re.compile(rf"^\s+(?:(?:pub|abbrev|unfoldable)\s+)+({NAME})\s*(?:\{{[^}}]*\}}\s*)*:\s")  # below a section's head

# A lemma that stands beside a definition which now has its name, in one file alone.
IN_FILE = {"crates/tones/proofs/Lone.antt": {"one_value": "one_value_lem"}}

# Names whose plain spelling is another's.
OTHER = {"ruleNumbers": "numbers_of_rule", "commentThen": "comment_and_then", "in-row": "in_row_lem"}

# Names that port.py turned, because a library of Rattle has the same word: the pages and the edits still have the old.
BY_PORT = """add-at add-kept add-left add-low add-right after-same after-two alike-from alike-of alike-turned all-append
all-both all-map all-of among-in and-last any-order any-out anyOf apart-next array-back as-before as-lent as-passed
at-drop at-first at-high at-low at-most-one at-p at-same at-set at-side below-none both-coded both-sums by-number
by-value bytes-drop call-length callOf cast-t chain-back chain-runs clear-both clear-none code-fits count-add count-map
count-none count-same counted-is div-mono drop-here each-more each-none effect-is effectOf end-is ends-at every-append
every-in every-more every-true every-value fields-within fieldsAt filled-more filled-next filled-none first-alike
first-fine first-fits first-more first-of first-one first-out flat-in found-in four-bytes framed-answer frees-all
from-at from-first from-start gap-ends gap-is gets-code gives-same go-on going-on gone-at halves-of handed-out head-of
header-is header-read high-half in-head in-list in-memory in-near in-order in-pair in-tail inRow joined-line just-enough
keep-all keep-same kept-back kept-same keptAt least-first left-alone left-is length-from length-more length-none
length-run lent-fits lent-none line-clear line-of link-near linked-to low-half lower-of map-at map-same mark-of
marked-more moved-on mul-low near-down negated-fits next-of next-row no-digit no-less no-more no-pieces no-sign no-value
no-zero noPass none-after none-below none-end none-here none-left none-more none-rest none-yet not-left not-within
nothing-then nothing-yet number-is number-more number-of number-passed numberAt numberOf of-calls old-value one-end
one-left one-link one-more one-value one-way or-cases or-swap other-vals other-way out-of out-stays part-in part-none
part-of pass-same passSize passes-at passes-on past-end permutation-refl permutation-sym piece-then pieces-none
place-found place-same placeOf placed-one plain-end plain-then product-le put-byte put-last put-one put-same read-back
read-small reading-begins reading-small refused-none rest-end rest-of rest-then right-is right-of room-fits room-for
room-whole round-trip row-ends row-inside row-of rule-fits run-fits run-more run-past run-ran run-room same-after
same-length same-number same-numbers same-of same-refl same-row same-runs same-size same-test second-fits second-short
seen-all seen-more seen-none shape-is shapeOf shows-same sign-of size-few size-fits size-is size-none skipping-begins
small-count so-far soFar split-at split-below stays-within sum-both sum-fits sum-mono sum-same sumTo take-all take-at
take-min take-more taken-in taken-is tells-more tells-none the-values there-and-back third-of too-few too-long too-many
too-small too-wide topOf total-first two-bytes up-of up-to upTo values-length values-of values-same version-low
whole-part width-is width-of within-both within-more written-listed wrote-none coded-alike enum-told is-one""".split()


def files(root, endings):
    for folder, dirs, names in os.walk(root):
        dirs[:] = sorted(d for d in dirs if d not in ("out", "target", ".git", "unfinished"))
        for name in sorted(names):
            if name.endswith(endings):
                yield os.path.join(folder, name)


def read(path):
    with open(path, encoding="utf-8") as f:
        return f.read()


def snake(name):
    name = name.replace("′", "'").replace("-", "_")
    return re.sub(r"(?<=[a-z0-9])([A-Z])", lambda m: "_" + m.group(1).lower(), name)


def declared():
    """Each name that a file of specs/ or proofs/ declares, but for those of a single function's proof."""
    found = set()
    for path in files("crates", (".antt",)):
        if os.path.basename(path) in FUNCTION_FILES:
            continue
        inside = False
        for line in read(path).split("\n"):
            if not line.strip() or line.startswith("--"):
                continue
            if line[0].isspace():
                m = FIELD.match(line) if inside else INNER.match(line)
            else:
                block = BLOCK.match(line)
                inside = bool(block)
                m = block or TOP.match(line)
            if m:
                found.add(m.group(1))
    return found


def turned(names):
    olds = sorted(n for n in names if not n[0].isupper() and snake(n) != n)
    table = {}
    for old in olds:
        new = OTHER.get(old, snake(old))
        alike = [o for o in olds if OTHER.get(o, snake(o)) == new]
        table[old] = new + "_lem" if len(alike) > 1 and "-" in old else new
    return table


def put(text, table):
    return re.sub(NAME, lambda m: table.get(m.group(0), m.group(0)), text)


def outside_strings(text, table):
    parts = re.split(r'("(?:[^"\\\n]|\\.)*")', text)
    return "".join(p if i % 2 else put(p, table) for i, p in enumerate(parts))


def write(path, new):
    if new != read(path):
        with open(path, "w", encoding="utf-8") as f:
            f.write(new)


def main():
    table = turned(declared())
    pages = {o: snake(o) for o in BY_PORT} | table
    for path in files("crates", (".antt", ".rt")):
        write(path, outside_strings(put(read(path), IN_FILE.get(path, {})), table))
    for path in files("crates", (".edit",)):
        write(path, outside_strings(read(path), pages))
    for path in ["README.md", "CONTRIBUTING.md"] + list(files("docs", (".md",))):
        write(path, re.sub(r"`[^`\n]+`", lambda m: put(m.group(0), pages), read(path)))
    with open("docs/PORT-NAMES.tsv", "w", encoding="utf-8") as f:
        f.writelines(f"{old}\t{new}\n" for old, new in sorted(pages.items()))
    print(f"{len(pages)} names")


main()
