#!/usr/bin/env python3
"""Turns the repository's own definitions and lemmas from kebab-case and camelCase to snake_case, once, after /opt/rattle/port/port.py.

usage: python3 tools/snake_names.py    at the top of the repository

A name is the repository's own where one of its .antt files declares it and no import from a library brings it in. Types, which begin with a capital,
keep their names, and so do functions of src/. Names that would fall together are told apart by APART. The must-fail edits and the names in backticks
of the documents follow."""
import collections
import pathlib
import re
import sys

ROOT = pathlib.Path(".")
WORD = re.compile(r"[A-Za-z_◌ℕℤ][\w◌'ℤℕ]*(?:-[\w◌'ℤℕ]+)*")
DECLARED = re.compile(r"(?m)^\s*(?:(?:abbrev|unfoldable|pub|opaque)\s+)*((?:[\w'-]+\s+)+):\s")
IMPORTED = re.compile(r"(?m)^\s*(?:pub )?use ([\w.·]+)\.\{([^}]*)\}")

# where two names would become one, or a definition's name that of a function in the same file
APART = {
    "layer-of": "layer_of_place", "all-by": "all_by_holds", "low-to": "low_bound", "by-layer": "for_layer", "byLayer": "each_layer", "on-level": "on_level_is", "layers-of": "layers_are_low",
    "ring-edges": "ring_edges_more", "line-over": "line_over_is", "join-if": "join_if_join", "less-at": "less_at_is", "fresh-counts": "fresh_counted", "along-from": "along_from_more",
    "numbers_of": "number_lines_of", "from_at": "from_later", "in-range": "within_range", "kind-at": "kind_at_is", "result-at": "result_at_is", "line-at": "line_at_is", "kind-of": "kind_known",
    "more-at": "more_at_is", "placed_one": "placed_one_is", "A-cells": "cells_of_a", "L-front": "front_of_l",
}


def code_of(text):
    return "\n".join(re.sub(r"(^|\s)--.*", "", line) for line in text.split("\n"))


def proofs():
    return [p for p in sorted((ROOT / "crates").rglob("*.antt")) if "out" not in p.parts]


def own_names():
    crates = {p.name for p in (ROOT / "crates").iterdir()}
    declared, imported = set(), set()
    for p in proofs():
        code = code_of(p.read_text())
        for module, names in IMPORTED.findall(code):
            if not (module.startswith("Rattle.") and module.split(".")[1] in crates):
                imported |= {n.strip().split(" as ")[0].strip() for n in names.split(",")}
        for names in DECLARED.findall(code):
            declared |= set(names.split())
    return declared - imported, imported


def snake(name):
    out = ""
    for i, c in enumerate(name.replace("-", "_")):
        out += ("_" if i and name[i - 1] not in "-_" else "") + c.lower() if c.isascii() and c.isupper() else c
    return out


def renaming():
    own, imported = own_names()
    names = {n: snake(n) for n in own if "-" in n[1:] or (n[0].islower() and re.search("[A-Z]", n))}
    names.update({n: to for n, to in APART.items() if n in own})
    again = collections.Counter(names.values())
    bad = [n for n, to in names.items() if again[to] > 1 or to in imported or (to in own and to not in names and to not in ALIKE)]
    if bad:
        sys.exit("these fall together with other names: " + ", ".join(sorted(bad)))
    return names


# two names that become one, of different crates that do not name each other's
ALIKE = {"reads_as", "edge_by"}


def main():
    names = renaming()
    told = lambda text: WORD.sub(lambda m: names.get(m.group(0), m.group(0)), text)
    for p in proofs() + sorted((ROOT / "crates").rglob("src/*.rt")) + sorted((ROOT / "crates").rglob("must-fail/*.edit")):
        if "out" in p.parts:
            continue
        old = p.read_text()
        new = told(old)
        if new != old:
            p.write_text(new)
    for p in [ROOT / "README.md"] + sorted((ROOT / "docs").glob("*.md")):
        old = p.read_text()
        new = re.sub(r"`[^`\n]+`", lambda m: told(m.group(0)), old)
        if new != old:
            p.write_text(new)
    print("%d names" % len(names))


main()
