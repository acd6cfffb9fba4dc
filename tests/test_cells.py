#!/usr/bin/env python3
"""Holds the cell-by-cell program to document 01's own examples, and runs it over every kind of generated input."""
import collections
import sys

import cells
import generate

A_AND_B = generate.mask([(0, [(10, 0), (0, 5)]), (1, [(14, 2), (6, 8)])])
EXAMPLES = [
    ("the bytes of A and B", A_AND_B, bytes.fromhex("01000214 00150A01 021C0411 0C".replace(" ", ""))),
    ("1", cells.answer(b"a*b\n" + A_AND_B), b"0 4\n0 2 10 6\n0 5 6 10\n1 6 2 5\n1 10 5 2\narea 12\n"),
    (
        "2",
        cells.answer(b"a+b\n" + A_AND_B),
        b"0 8\n0 0 10 0\n0 2 14 10\n0 5 0 6\n0 8 6 14\n1 0 0 5\n1 6 5 8\n1 10 2 0\n1 14 8 2\narea 86\n",
    ),
    ("3, not joined at y = 2", [line for line in cells.answer(b"a^b\n" + A_AND_B).split(b"\n") if line.startswith(b"0 2 ")], [b"0 2 6 10", b"0 2 14 10"]),
    ("3, 12 records", cells.answer(b"a^b\n" + A_AND_B).split(b"\n")[0], b"0 12"),
    ("3, area", cells.answer(b"a^b\n" + A_AND_B).split(b"\n")[-2], b"area 74"),
    ("4", cells.answer(b"a\n\x01"), b"0 0\narea 0\n"),
    ("5, !a", cells.answer(b"!a\n" + A_AND_B), b"9 0\n"),
    ("5, a+!a", cells.answer(b"a+!a\n" + A_AND_B), b"9 0\n"),
    ("5, !a*b", cells.answer(b"!a*b\n" + A_AND_B)[:2], b"0 "),
    ("6", cells.answer(b"()\n" + A_AND_B), b"8 0\n"),
    ("9, 80 00", cells.answer(b"a\n\x80\x00"), b"13 0\n"),
    ("9, no file", cells.answer(b"a\n"), b"12 0\n"),
    ("12, 16 parentheses", cells.answer(b"(" * 16 + b"a" + b")" * 16 + b"\n\x01"), b"0 0\narea 0\n"),
    ("12, 17 parentheses", cells.answer(b"(" * 17 + b"a" + b")" * 17 + b"\n\x01"), b"7 0\n"),
    ("14", cells.answer(b"a" * 65 + b"\n\x01"), b"6 0\n"),
]

SEED = 20261115
NUMBERS = {0, 6, 7, 8, 9, 10, 11, 12, 13, 14, 15, 16, 17}


def main():
    passed = failed = 0
    for name, got, due in EXAMPLES:
        if got == due:
            passed += 1
        else:
            failed += 1
            print("example %s: %r, not %r" % (name, got, due))
    given = collections.Counter(int(cells.answer(data).split()[0]) for data in generate.cases(SEED, 1500))
    print("seed %d, answers by number: %s" % (SEED, dict(sorted(given.items()))))
    if set(given) == NUMBERS:
        passed += 1
    else:
        failed += 1
        print("numbers that no generated input is answered with: %s" % sorted(NUMBERS - set(given)))
    print("%d passed, %d failed" % (passed, failed))
    return failed != 0


sys.exit(main())
