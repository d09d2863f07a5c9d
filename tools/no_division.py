#!/usr/bin/env python3
"""Looks for divisions in what prints decimals (RULES 10.1, ask 4).

usage: tools/no_division.py CRATE..     after rt has built the libraries: they stand in crates/*/out/rlib

No function that prints a decimal divides, nor any that it calls. Of the libraries it looks at the compiler's MIR, which rt keeps with
each: at every function of `report`, which makes all lines, at every function that calls `append_decimal`, and from there on at every
function called. Of CRATE, a program or the static library, it reads the source, since no MIR is kept of it: nothing in it divides or
prints by a macro of the library, whose numbers are printed by division; and of its functions that name `report`, `append_decimal` or a `Writer`,
what they call is looked at too.

Exit status 0: no division; 1: a division, or nothing that prints; 2: bad usage, or a library is not built.
"""

import json
import re
import subprocess
import sys
from pathlib import Path

ROOT = Path(__file__).resolve().parent.parent
KIT = Path(subprocess.run(["rt", "doc"], check=True, stdout=subprocess.PIPE, text=True).stdout.strip()).parent
# what is no code
NO_CODE = re.compile(r"""//[^\n]*|ghost use [^;]*;|(?:requires|ensures|invariant)[ \w]*\{[^{}]*\}|b?"(?:\\.|[^"\\])*"|b?'(?:\\.|[^'\\])'""")
FUNCTION = re.compile(r"^(?:pub )?(?:extern \"\" )?fn (\w+).*?^}", re.M | re.S)
# (what goes to standard error is the system's reason, and no count)
MACROS = re.compile(r"\b(?:print(?:ln)?|write(?:ln)?|format(?:_args)?)!|\.(?:print(?:ln)?|to_string|fmt)\(")


def stop(why):
    print(why, file=sys.stderr)
    sys.exit(2)


def ours():
    """Every function of this repository's libraries, by its name: its MIR."""
    found = {}
    for file in sorted(ROOT.glob("crates/*/out/rlib/*.rlib/toolchain/mir.json")):
        found.update((name, body["body"]) for name, body in json.loads(file.read_text(encoding="utf-8")))
    if not any(name.startswith("report::") for name in found):
        stop("the libraries are not built: tools/archive.sh builds them")
    return found


class Looking:
    """The functions looked at, and what is wrong with them."""

    def __init__(self, code):
        self.code, self.kit, self.seen, self.bad = code, {}, set(), []

    def body(self, name):
        library = name.split("::")[0]
        file = KIT / "rlibs" / f"{library}.rlib/toolchain/mir.json"
        if name not in self.code and library not in self.kit and file.is_file():
            self.kit[library] = {f: b["body"] for f, b in json.loads(file.read_text(encoding="utf-8"))}
        return self.code.get(name) or self.kit.get(library, {}).get(name)

    def visit(self, name, given=()):
        """Looks at a function and all that it calls; `given` are the functions that its caller passes for its bounds."""
        if (name, given) in self.seen:
            return
        self.seen.add((name, given))
        body = self.body(name)
        if body is None:
            self.bad.append(f"{name} has no MIR here: it is not looked at")
            return
        words = list(words_of(body))
        if any(word in ("Div", "Rem") for word, _ in words):
            self.bad.append(f"{name} divides, and prints a decimal or is called to")
        for word, under in words:
            passed = given_at(under[0], given) if word == "Method" else None
            if passed:
                self.visit(passed)
            elif word in ("Method", "CallV"):
                self.bad.append(f"{name} calls what its caller or a type decides: that is not looked at")
        for callee, passed in calls_with(words):
            self.visit(callee, tuple(given_at(bound, given) for bound in passed))


def words_of(tree):
    """Each word of a MIR with what stands under it."""
    if isinstance(tree, dict):
        for word, under in tree.items():
            yield word, under
            yield from words_of(under)
    elif isinstance(tree, list):
        for part in tree:
            yield from words_of(part)


def calls(words):
    return [under[0] for word, under in words if word == "Fn"]


def calls_with(words):
    """Each function called, with what is passed for its bounds."""
    return [(under[0], under[1].get("dicts", []) if len(under) > 1 else []) for word, under in words if word == "Fn"]


def given_at(bound, given):
    """The function that a bound stands for: one that is passed by its name, or what the caller passed on; None: neither."""
    word, under = next(iter(bound.items())) if isinstance(bound, dict) else (None, None)
    if word == "Given":
        return given[under] if under < len(given) else None
    if word == "Impl" and (m := re.fullmatch(r"\w+::(\S+)\+Fn(?:Once|Mut)?", under[0])):
        return m[1].replace("++", "::")
    return None


def read_source(crate):
    """The files of a crate, their comments, clauses and texts left out."""
    files = sorted((ROOT / "crates" / crate / "src").rglob("*.rt"))
    if not files:
        stop(f"{crate} is no crate of this repository")
    return {file.name: NO_CODE.sub(lambda m: '""' if m[0].endswith('"') else "", file.read_text(encoding="utf-8")) for file in files}


def printing(crate, texts, code):
    """The functions of libraries that the crate's functions call, where these print; and what is wrong in its own text."""
    bad, functions, called = [], {}, set()
    for name, text in texts.items():
        if re.search(r"[/%]", text):
            bad.append(f"{crate}/src/{name} divides")
        if MACROS.search(text):
            bad.append(f"{crate}/src/{name} prints by a macro or a method of the library")
        functions.update({m[1]: m[0] for m in FUNCTION.finditer(text)})
    # a library's function by the last two words of its path in the source, and of its name in the MIR
    short = {}
    for name in code:
        parts = name.split("::")
        short.setdefault((parts[0], parts[-1]), []).append(name)
    prints = {f for f, text in functions.items() if re.search(r"\breport::|\bappend_decimal\b|\bWriter\b", text)}
    while True:
        more = {g for f in prints for g in re.findall(r"\b(\w+)\(", functions[f]) if g in functions} - prints
        if not more:
            break
        prints |= more
    for f in prints:
        for library, g in re.findall(r"\b(\w+)::(\w+)\(", functions[f]):
            called.update(short.get((library, g), []))
    return called, bad


def main(crates):
    if not crates:
        stop("usage: tools/no_division.py CRATE..")
    code = ours()
    printers = {name for name, body in code.items() if name.startswith("report::") or any(f.endswith(("::append_decimal", "::Writer::decimal")) for f in calls(words_of(body)))}
    status = 0
    for crate in crates:
        called, bad = printing(crate, read_source(crate), code)
        look = Looking(code)
        for name in sorted(printers | called):
            look.visit(name)
        bad += look.bad
        for line in bad:
            print(f"{crate}: {line}")
        if not bad:
            print(f"{crate}: {len(look.seen)} functions print decimals or are called to, none divides")
        status |= bool(bad)
    sys.exit(status)


main(sys.argv[1:])
