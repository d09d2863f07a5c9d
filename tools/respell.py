#!/usr/bin/env python3
"""Brings the repository's own definitions and lemmas to today's spelling, after port.py.

usage: python3 tools/respell.py [FOLDER]             in FOLDER, or here: rewrites the files in place, once
       python3 tools/respell.py --fields [FOLDER]    the last step alone, on files that have had the others

Words are in snake case, types and facts in camel case, a test begins with is_ or are_, and a constructor is a word. Functions of src/,
exported names, strings, inputs and outputs stay. Names that would fall together with another are in LEMMAS and CONSTRUCTORS.
"""

import glob
import os
import re
import sys

# names with no other rule
WORDS = {
    "getD": "get_or",
    "zeros?": "are_zeros",
    "there?": "is_there",
    "below?": "is_below",
    "union?": "is_union",
    "closing?": "is_closing",
    "all?": "takes_all",
    "open?": "is_open",
    "dash?": "is_dash",
    "digit?": "is_digit",
    "letter?": "is_letter",
    "hex?": "is_hex",
    "some?": "is_found",
    "over?": "over_or_not",
    "free?": "is_free",
    "renumber?": "renumber_optional",
    "single?": "is_single",
    "singles?": "are_single",
    "small?": "is_small",
    "coded?": "are_coded",
    "has?": "has_labels",
    "formed?": "is_formed",
    "rising?": "is_rising",
    "distinct?": "is_distinct",
    "large?": "is_large",
    "opening?": "is_opening",
}

# lemmas whose names are those of definitions now: the module that has each
LEMMAS = {
    "Rattle.stores.proofs.Stored": ["read_live"],
    "Rattle.stores.proofs.Cases": ["on_store", "on_list"],
    "Rattle.semantics.proofs.Reader": ["read_name", "read_names"],
    "Rattle.walk_run.proofs.Fine": ["step_by"],
    "Rattle.ty.proofs.Fields": ["letter_at"],
    "Rattle.ty.proofs.UnionEnds": ["is_union"],
    "Rattle.infer.proofs.WalkKept": ["keep_two"],
    "Rattle.infer.proofs.WalkTable": ["entry_place"],
    "Rattle.old_lines.proofs.Made": ["made_labels"],
    "Rattle.old.proofs.SetAll": ["set_all"],
    "Rattle.old.proofs.MakeLoop": ["too_large"],
    "Rattle.unify_run.proofs.UnionsMeet": ["too_large"],
    "Rattle.unify_run.proofs.Theorem": ["run_arms"],
    "Rattle.unify.proofs.Loop": ["has_parts"],
    "Rattle.unify.proofs.ListLaws": ["list_done"],
}

# constructors: the module that has them, a data type of it, and each constructor's new name
SHEET = "Rattle.semantics.specs.Sheet"
SPELLED = (
    "CYRS B END MAT CRE MER WHE WIT RET UNW SET REM DEL CAL PRO SP SL SM RP RL LAB PARTS PART NOD REL NULL BOOL INT FLT STR VAR PAR UNR EXI "
    "PROP IDX SLI LIS MAP KEY CALL BIN UNA CASE ISN IN PAT LCP PCP LPR MPR COP COM SHO ALI WTH ORD MEI UNI"
).split()
PLACES = "First Binding Clause End Projection SetItem RemoveItem Label Parts Part Element Entry Item Expression MergeItem Order Union".split()
BUILTINS = "ID SIZE HEAD TAIL LAST KEYS VALUES".split()
FAULTS = "E2009 E2010 E2011 E2012 E2013 E5012".split()


def snake(name):
    return re.sub(r"(?<=[a-z0-9])(?=[A-Z])", "_", name).lower()


CONSTRUCTORS = {
    SHEET: {w: w.lower() + "_word" for w in SPELLED} | {"At" + p: snake(p) + "_place" for p in PLACES},
    "Rattle.semantics.specs.Builtins": {b: "builtin_" + b.lower() for b in BUILTINS},
    "Rattle.semantics.specs.Walk": {f: "fault_" + f[1:] for f in FAULTS},
}

# fields, constructors and functions of several words, whose dash joins no two names: each dash is an underscore
FIELDS = (
    "a-base a-binding a-bound a-choice a-float a-letter a-line a-map a-name a-variable all-at all-below all-binds all-clauses all-met "
    "all-some an-alias an-entry arms-by before-list binding-digits binding-form case-two counted-digits equal-same fine-answer "
    "fine-condition fine-inner fine-plain first-at first-end first-form first-free first-is first-labels from-here from-rest g-length "
    "if-fit in-ali in-cal in-com in-cop in-lab in-later-field in-later-member in-member in-par in-prop in-range in-rp in-sho in-sp "
    "in-str in-unr into-first is-entry is-laid is-refused is-silent is-so kid-run left-of list-part low-kids map-part members-at "
    "members-fit minus-digits ms-length ms-plain name-part neither-at next-is no-alias no-binding no-choice no-entry no-labels no-rule "
    "no-variable none-at not-close not-rel number-stands of-list of-union open-top outers-at outers-below outers-plain p-below p-in "
    "pat-expr place-more plus-digits ps-length q-below q-in read-other rest-laid rest-refused same-call same-choices same-equal "
    "second-end second-free second-labels some-entries some-members some-type some-variable spelled-high the-heads turn-any two-lists "
    "two-maps two-nodes two-numbers two-relationships two-unions with-last with-variable "
).split()

# such names that another has already
FIELDS_APART = {"role-no": "role_is", "rule-no": "rule_is", "two-slots": "room_for_two", "met?": "is_met", "small_aminus_ten": "small_a_minus_ten"}

CAMEL = re.compile(r"(?<![\w'·/])[a-z]\w*")


def respell_word(word):
    """Each part of a name between underscores that begins small: its capitals become words."""
    return "_".join(WORDS.get(p, snake(p) if p[:1].islower() else p) for p in word.split("_")) if re.search(r"[a-z0-9][A-Z]", word) else word


def token(name):
    return re.compile(r"(?<![\w'.\-?])" + re.escape(name) + r"(?![\w'\-?])")


def module_of(path):
    m = re.search(r"crates/(\w+)/(specs|proofs)/(.*)\.antt$", path)
    return f"Rattle.{m.group(1)}.{m.group(2)}.{m.group(3).replace('/', '.')}" if m else None


def brought(module, path, text):
    """The names of the module that a file has, or brings in."""
    if module_of(path) == module:
        return set(CONSTRUCTORS[module])
    found = set()
    for m in re.finditer(r"use " + re.escape(module) + r"\.\{([^}]*)\}", text):
        found |= set(re.findall(r"\w+", m.group(1)))
    return found


STRING = re.compile(r'("(?:\\.|[^"\\\n])*")')


def respell(path, text, whole):
    """The text, which stands in the file at path, but for its strings; whole is all of that file."""
    return "".join(p if i % 2 else respell_part(path, p, whole) for i, p in enumerate(STRING.split(text)))


def respell_part(path, text, whole):
    here = module_of(path)
    for module, names in LEMMAS.items():
        for name in names:
            if here == module or re.search(r"use " + re.escape(module) + r"\.\{[^}]*(?<![\w'\-])" + name + r"(?![\w'\-])", whole):
                text = token(name).sub(name + "_lem", text)
    for module, names in CONSTRUCTORS.items():
        has = brought(module, path, whole)
        for name, new in names.items():
            if name in has:
                form = re.compile(r"(?<![\w'.\-])" + name + r"(?![\w'])")
                if path.endswith(".antt"):
                    text = form.sub(new, text)
                else:
                    lines = text.split("\n")
                    text = "\n".join(form.sub(new, l) if re.search(r"ghost use|requires|ensures", l) else l for l in lines)
    for old, new in WORDS.items():
        if old.endswith("?"):
            text = re.sub(r"(?<![\w'\-])" + re.escape(old) + r"(?![\w'])", new, text)
    return CAMEL.sub(lambda m: respell_word(m.group(0)), text)


FIELD = re.compile(r"(?<![\w'\-])(" + "|".join(sorted(map(re.escape, [*FIELDS, *FIELDS_APART]), key=len, reverse=True)) + r")(?![\w'\-?])")


def respell_fields(text):
    """The text, but for its strings, with the names of FIELDS in snake case."""
    parts = STRING.split(text)
    return "".join(p if i % 2 else FIELD.sub(lambda m: FIELDS_APART.get(m.group(1), m.group(1).replace("-", "_")), p) for i, p in enumerate(parts))


def target(path, text):
    """The file that an edit is of."""
    m = re.search(r"^file: *(\S+)", text, re.M)
    return os.path.join(os.path.dirname(os.path.dirname(path)), m.group(1)) if m else path


def main(argv):
    last = argv[:1] == ["--fields"]
    root = (argv[1:] if last else argv)[:1] or ["."]
    root = root[0]
    files = []
    for form in ("crates/*/specs/**/*.antt", "crates/*/proofs/**/*.antt", "crates/*/src/**/*.rt", "crates/*/must-fail/*.edit"):
        files += glob.glob(os.path.join(root, form), recursive=True)
    texts = {}
    for path in files:
        with open(path, encoding="utf-8") as f:
            texts[path] = f.read()
    changed = 0
    for path in sorted(files):
        old = texts[path]
        of = target(path, old) if path.endswith(".edit") else path
        new = respell_fields(old if last else respell(of, old, texts.get(of, old)))
        if new != old:
            with open(path, "w", encoding="utf-8") as f:
                f.write(new)
            changed += 1
    print(f"{changed} of {len(files)} files respelled")


if __name__ == "__main__":
    main(sys.argv[1:])
