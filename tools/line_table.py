#!/usr/bin/env python3
"""Writes every table of words from the one of crates/semantics/specs/Sheet.antt (`row`): the code's words and places, what they stand for, and matches.

With --check nothing is written, and the exit status is 1 where something would be. Layout is rt fmt's: run it after this has written."""
import re
import sys
from pathlib import Path

CRATES = Path(__file__).resolve().parent.parent / "crates"
CHECK = "--check" in sys.argv[1:]
SHEET = (CRATES / "semantics" / "specs" / "Sheet.antt").read_text()
PLACES = re.findall(r"^rank (\w+) = \d+$", SHEET, re.M)
WORDS = re.search(r"pub data Word : Type 0 where\n((?:  .* : Word\n)+)", SHEET).group(1).replace(": Word", "").split()
RULES = "var_type element slice listing mapping calling operator unary casing membership comprehension".split()
RULE_NAMES = "Constant Variable Element Slice Listing Mapping Call Operator Unary Casing Membership Comprehension Silent Entry".split()
LETTER_NAMES = "ANY NULL BOOL INT FLOAT NUM STRING DATE DATETIME LIST MAP NODE RELATIONSHIP PATH UNION UNKNOWN".split()
SPECS = CRATES / "semantics" / "specs"
CODES = dict(re.findall(r"^(\w+) = (\d+)$", (SPECS / "Codes.antt").read_text(), re.M))
LETTERS = {base: CODES[code] for base, code in re.findall(r"^letter (t_\w+) = (\w+)$", (SPECS / "Ty.antt").read_text(), re.M)}
changed = []
EXPRESSION = "expression_place"


def variant(name):
    """The code's name of a word, a place or a form: `set_item_place` is SetItem."""
    return "".join(part.capitalize() for part in re.sub("_(word|place)$", "", name).split("_"))


def field(text):
    """A field as the code has it."""
    if text == "count":
        return "COUNT"
    numbers = re.fullmatch(r"(upto|range) (\d+)(?: (\d+))?", text)
    if numbers:
        least, most = ("0", numbers.group(2)) if numbers.group(1) == "upto" else numbers.group(2, 3)
        return f"Shape::Range({least}, {most})"
    return "Shape::" + variant(text)


def under(text):
    """What hangs under a line as the code has it: a role is the place of an expression, or its own."""
    kind, i, role, j = re.fullmatch(r"(\w+)(?: (\d+))?(?: \(?(inner \w+|plain)\)?)?(?: (\d+))?", text).groups()
    place = role and "Place::" + variant(role.split()[1] if role.startswith("inner") else EXPRESSION)
    arguments = ", ".join(x for x in (i, place, j) if x is not None)
    return f"Under::{variant(kind)}" + (f"({arguments})" if arguments else "")


def parts(text):
    """The arguments of a row: words, texts and what stands in brackets."""
    return [a or b or c for a, b, c in re.findall(r'"(\w+)"|\(((?:[^()]|\([^()]*\))*)\)|([\w\[\]]+)', text)]


def rule(text):
    if text in ("silent", "entering"):
        return 12 if text == "silent" else 13
    return 0 if text.startswith("constant") else 1 + RULES.index(text)


def read_rows():
    rows = {}
    for word, kind, rest in re.findall(r"^row (\w+) = (line|expr) (.*)$", SHEET, re.M):
        p = parts(rest)
        if kind == "expr":
            p.insert(1, EXPRESSION)
        spelled, where, fields, below, by = p
        names = [] if fields == "[]" else [f.strip() for f in fields.split("∷")[:-1]]
        base = re.fullmatch(r"constant \(base (\w+)\)", by)
        code = 1
        for c in spelled.encode():
            code = code * 256 + c
        rows[word] = dict(
            spelled=spelled, code=code, place=variant(where), fields=[field(f) for f in names], under=under(below), rule=rule(by),
            letter=int(LETTERS[base.group(1)]) if base else 75 if by.startswith("constant") else 80,
        )
    assert list(rows) == WORDS, [a for a in zip(rows, WORDS) if a[0] != a[1]]
    return rows


ROWS = read_rows()
LISTED = re.search(r"\nwords =\n((?:    .*\n)+)", SHEET).group(1).replace("∷", " ").replace("[]", " ").split()
assert sorted(LISTED) == sorted(WORDS)


def plain(text):
    """Without what rt fmt decides."""
    return re.sub(r",(?=[)}\]])", "", re.sub(r"\s", "", text))


def write(path, text):
    path = CRATES / path
    if plain(path.read_text()) != plain(text):
        changed.append(str(path.relative_to(CRATES)))
        if not CHECK:
            path.write_text(text)


def put(path, *swaps):
    """Replaces, in a file, what stands from the first text of each swap up to the second."""
    text = (CRATES / path).read_text()
    for start, stop, new in swaps:
        a = text.index(start) + len(start)
        b = text.index(stop, a)
        text = text[:a] + new + text[b:]
    write(path, text)


def lines(texts):
    return "".join(f"{text}\n" for text in texts)


def arms(values, rest):
    """The arms of a match on words, at most five words each; `rest` is what the last arm, that of any other word, answers."""
    words = {v: [f"Word::{variant(w)}" for w in WORDS if values[w] == v] for w in WORDS if (v := values[w]) != rest}
    return lines(f"        {' | '.join(ws[i:i + 5])} => {v}," for v, ws in words.items() for i in range(0, len(ws), 5))


def main():
    names = ", ".join(WORDS)
    # that each word is listed
    put("semantics/proofs/Words.antt", ("Sheet.{Word, ", ", words, word_in", names), ("    elim v as (λ w. word_in (text (row w).spelled) words ≡ some w) [ ", " ]\n", " | ".join(f"{w} ↦ refl" for w in WORDS)))
    # the code's words and places, and what they stand for
    put("line/src/words.rt", ("pub enum Word {\n", "}\n", lines(f"    {variant(w)}," for w in WORDS)),
        ("    match code {\n", "        _ => None", lines(f"        {ROWS[w]['code']} => Some(Word::{variant(w)}), // {ROWS[w]['spelled']}" for w in reversed(LISTED))))
    put("line/src/places.rt", ("pub enum Place {\n", "}\n", lines(f"    {variant(p)}," for p in PLACES)))
    put("line/specs/Words.antt", ("Sheet.{Word, ", ", Place, ", names), (", Place, ", ", Field, ", ", ".join(PLACES)),
        ("words.Word.TheVariants.{", "}", ", ".join(map(variant, WORDS))), ("places.Place.TheVariants.{", "}", ", ".join(map(variant, PLACES))),
        ("word_of : Coded → Word\n", "\n\n", lines(f"word_of {variant(w)} = {w}" for w in WORDS).rstrip()),
        ("place_of : Spot → Place\n", "\n\n", lines(f"place_of {variant(p)} = {p}" for p in PLACES).rstrip()),
        ("role_of : Spot → Role\n", "\n\n", lines(f"role_of {variant(p)} = " + ("plain" if p == EXPRESSION else f"inner {p}") for p in PLACES).rstrip()))
    # the rows
    put("line/src/rows.rt", ("    match word {\n", "    }\n}\n", lines(
        f"        Word::{variant(w)} => &Row {{ place: Place::{r['place']}, fields: &[{', '.join(r['fields'])}], under: {r['under']} }}," for w, r in ROWS.items())))
    # rules and constant letters
    put("exprs/src/rule.rt", ("    match word {\n", "        _ => ", arms({w: "Rule::" + RULE_NAMES[r["rule"]] for w, r in ROWS.items()}, "Rule::Silent")))
    put("exprs/src/leaf.rt", ("    match word {\n", "        _ => ", arms({w: LETTER_NAMES[r["letter"] - 65] for w, r in ROWS.items()}, "UNKNOWN")))
    for name in changed:
        print("differs" if CHECK else "written", name)
    if CHECK and changed:
        sys.exit(1)


main()
