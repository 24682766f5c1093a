#!/usr/bin/env python3
"""Counts the places of docs/DESIGN-PASS.md in the .rt files below a folder: python3 tools/places.py [FOLDER] [--list]."""
import re
import sys
from itertools import combinations
from pathlib import Path

ROOT = Path(next((a for a in sys.argv[1:] if not a.startswith("-")), "."))
LIST = "--list" in sys.argv
COMMENT = re.compile(r"//[^\n]*")
FUNCTION = re.compile(r"^( *)(?:pub )?(?:extern \"C\" )?fn (\w+)(.*?)^\1\}", re.M | re.S)
CLAUSE = re.compile(r"^\s*(?:requires|ensures)\b[^{\n]*\{(?:[^{}]|\{[^{}]*\})*\}", re.M)
NAME = re.compile(r"[A-Za-z_]\w*")


def sources():
    for path in sorted(ROOT.glob("crates/*/src/*.rt")):
        yield path.parts[-3] + ("" if path.stem in ("lib", "main") else "::" + path.stem), COMMENT.sub("", path.read_text())


def functions():
    """Each function: its place, its signature, its clauses, its body."""
    for place, text in sources():
        for _, name, rest in FUNCTION.findall(text):
            clauses = CLAUSE.findall(rest)
            plain = CLAUSE.sub("", rest)
            signature, _, body = plain.partition("{")
            yield f"{place}::{name}", signature, clauses, body


def enums():
    for place, text in sources():
        for name, body in re.findall(r"^(?:pub )?enum (\w+)(?:<[^{]*>)? \{\n(.*?)^\}", text, re.M | re.S):
            variants = re.findall(r"^    (\w+)(.?)", body, re.M)
            yield f"{place}::{name}", [v for v, _ in variants], [v for v, mark in variants if mark in ",\n" or not mark]


def numbers_for_cases():
    """Named numbers of kinds, marks, directions and of no value; tests of a kind by a bare number; answers 0 for none."""
    for place, text in sources():
        for name in re.findall(r"^(?:pub )?const (\w+): u8 = (?:\d+|[A-Z]+);", text, re.M):
            yield f"{place}::{name}"
    for place, signature, _, body in functions():
        if re.search(r"-> u8\s*$", signature) and re.search(r"^\s*(?:return )?(?:\d+|NONE);?$|=> \w+,$", body, re.M):
            yield place
        for test in re.findall(r"\b(?:kind|k|h)\b\)? *(?:==|<=|<) *\d+|\b\d+ *(?:<=|<) *(?:kind|k|h)\b", body):
            yield f"{place}: {test}"


def option_or_result():
    for place, variants, units in enums():
        refuses = {"Refused", "Faulty", "Found", "Without"} & set(variants)
        if refuses or (len(variants) == 2 and len(units) == 1):
            yield place


def twins():
    """Pairs of functions of some size whose bodies are the same but for one or a few words."""
    known = []
    for place, signature, _, body in functions():
        words = re.findall(r"\w+|[^\w\s]", body)
        if len(words) >= 18:
            known.append((place, words))
    for (a, x), (b, y) in combinations(known, 2):
        if len(x) == len(y) and sum(p != q for p, q in zip(x, y)) <= max(2, len(x) // 6):
            yield f"{a} = {b}"


def loops():
    for place, _, _, body in functions():
        for head in re.findall(r"\bwhile [^{]*", body):
            yield f"{place}: {head.strip()}"
        for name, end in re.findall(r"\bfor (\w+) in 0\.\.([^{]*)", body):
            if re.search(rf"\[{name}(?: as usize)?\]", body) or ".len()" in end:
                yield f"{place}: for {name} in 0..{end.strip()}"
        for step in re.findall(r"^\s*(?:next|at|n|i|count) (?:[+-]=|= \w+ [+-]) .*;", body, re.M):
            if re.search(r"\b(?:for|while) ", body):
                yield f"{place}: {step.strip()}"


def searches():
    """Loops that only look for the first that is so, or whether all are."""
    for place, _, _, body in functions():
        if re.search(r"\bfor \w+ in [^{]*\{\s*if [^{]*(?:\{[^{}]*\}[^{}]*)?\{\s*return\b", body):
            yield place


def by_hand():
    """Equality, conversion and printing written out."""
    for place, signature, _, body in functions():
        name = place.split("::")[-1]
        if re.match(r"(same|is_row|number_of|word_of|yes_or_no|open_answer|refus|no_such|wide$|put_(text|digit|number))", name) or name.endswith("word_of"):
            yield place


def facts():
    """Clauses' facts of a value that stand in three functions or more."""
    found = {}
    for place, _, clauses, _ in functions():
        for clause in clauses:
            if not clause.lstrip().startswith("requires"):
                continue
            for fact in re.findall(r"\b(?:Filled|Drawn|Good|Fair|Ordered|Ready|Stored|Prepared|Inverses|Low) [\w.()]+(?: [\w.()]+)?|length [\w.]+ ≡ \d+", clause):
                found.setdefault(re.sub(r"length [\w.]+", "length", re.sub(r"\.(now|old|new)", "", fact)), set()).add(place)
    for fact, places in sorted(found.items()):
        if len(places) >= 3:
            for place in sorted(places):
                yield f"{fact}: {place}"


def companions():
    """Parameters that stand side by side in four signatures or more."""
    found = {}
    for place, signature, _, _ in functions():
        parameters = re.findall(r"(\w+): (&?(?:mut )?[\w\[\]; ]+)", signature.split("->")[0])
        for (a, s), (b, t) in zip(parameters, parameters[1:]):
            found.setdefault((a, b), set()).add(place)
    for pair, places in sorted(found.items()):
        if len(places) >= 4:
            for place in sorted(places):
                yield f"{pair[0]}, {pair[1]}: {place}"


def raw_reads():
    """Reads and writes of the table by a place that is computed by hand, outside of `tables`, and bits picked by hand."""
    for place, _, _, body in functions():
        if not place.startswith("tables"):
            for read in re.findall(r"\btable\[[^\]]*\]", body):
                yield f"{place}: {read}"
        for read in re.findall(r">> \([^)]*% 64\)|<< \([^)]*% 64\)", body):
            yield f"{place}: {read}"


def many():
    for place, signature, _, _ in functions():
        count = len(re.findall(r"\w+: ", signature.split("->")[0])) + len(re.findall(r"\(&?(?:mut )?self", signature))
        if count > 6:
            yield f"{place}: {count}"


POINTS = [
    ("1 own enums of the shape of Option or Result", option_or_result),
    ("1 numbers for kinds, marks, refusals, none", numbers_for_cases),
    ("2 twins", twins),
    ("3 loops by a hand-counted index", loops),
    ("3 searches written as loops", searches),
    ("4 equality, conversion, printing by hand", by_hand),
    ("5 facts in three contracts or more", facts),
    ("5 parameters side by side in four signatures or more", companions),
    ("5 more than six parameters", many),
    ("6 reads by a computed place, bits by hand", raw_reads),
]
for title, find in POINTS:
    places = list(find())
    print(f"{len(places):4d}  {title}")
    if LIST:
        for place in places:
            print("        ", place)
