#!/usr/bin/env python3
"""Brings the names of this repository's definitions and lemmas to snake case, as today's Rattle spells them.

usage: python3 tools/respell.py [--look]      at the top of the repository, once, right after /opt/rattle/port/port.py

A word that begins with a small letter and goes on in camel case (planNumber, same-badPlan) becomes plan_number, same-bad_plan, in specs/, proofs/,
src/ and must-fail/ of every crate; types and modules keep their capitals. A definition that would fall together with a word that stands in the
repository, a function of the program as a rule, gets "_lem" behind its name. Lemmas of the kit that were imported under older names with a
middle dot take the kit's names. --look changes nothing and prints the names that fall together.
"""
import glob
import re
import sys

# Lemmas that would have a definition's new name, and definitions that would have a Rust name: "_lem" is put behind.
LEMMAS = {"ended_by", "fails_by", "limit_is", "no_room", "row_is", "width_is"}
WORD = re.compile(r"(?<![\w'·₀-₉-])[a-zα-ω][\w'·₀-₉-]*")
DOTTED = {
    "eqb-suc-suc as eqb·suc-suc": "eqb-suc-suc",
    "leb-zero as leb·zero": "leb-zero",
    "get_or-append as List·getD-append": "get_or-append",
    "get_or-map as List·getD-map": "get_or-map",
    "get_or-eq_default as List·getD-eq-default": "get_or-eq_default",
    "eqb·suc-suc": "eqb-suc-suc",
    "leb·zero": "leb-zero",
    "List·getD-append": "get_or-append",
    "List·getD-map": "get_or-map",
    "List·getD-eq-default": "get_or-eq_default",
}


def snake(name):
    return re.sub(r"(?<=[a-z0-9])([A-Z])", lambda m: "_" + m.group(1).lower(), name)


def respelled(text, words):
    def new(m):
        w = m.group(0)
        if w in LEMMAS:
            return w + "_lem"
        s = snake(w)
        return s + "_lem" if s != w and s in words - LEMMAS else s

    for old, kit in DOTTED.items():
        text = text.replace(old, kit)
    return WORD.sub(new, text)


def files():
    for pattern in ("specs/**/*.antt", "proofs/**/*.antt", "src/**/*.rt", "must-fail/*.edit"):
        yield from sorted(glob.glob("crates/*/" + pattern, recursive=True))


def main(look):
    texts = {f: open(f, encoding="utf-8").read() for f in files()}
    words = set()
    for text in texts.values():
        words |= set(re.findall(r"[\w'·₀-₉-]+", text))
    new_names = {}
    for w in sorted(words):
        if WORD.fullmatch(w) and snake(w) != w:
            new_names.setdefault(snake(w), set()).add(w)
    for new, old in sorted(new_names.items()):
        if new in words or len(old) > 1:
            print(f"falls together: {', '.join(sorted(old))} and {new}")
    if look:
        return
    for f, text in texts.items():
        new = respelled(text, words)
        if new != text:
            with open(f, "w", encoding="utf-8") as out:
                out.write(new)


main("--look" in sys.argv[1:])
