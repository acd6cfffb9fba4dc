#!/usr/bin/env python3
"""Asks the library's run and area for generated edge lists, refused ones and large ones too, and compares both answers and the run's whole buffer with
the cell-by-cell program. The large lists are named in lists.py after the way of working that they reach. The last line is 'N passed, M failed'."""
import collections
import os
import random
import struct
import subprocess
import sys
import tempfile

import cells
import kit
import lists
import test_c

SEED = 20261116
CASES = 2500
NUMBERS = set(range(11))
ROOT = test_c.ROOT


def due(numbers, text, room):
    """Both answers of the cell-by-cell program, and the buffer."""
    try:
        records, area = cells.run(cells.read_edges(numbers), cells.read_expression(text))
    except cells.Refusal as r:
        return (r.number, r.value), (r.number, r.value), [7] * room(0)
    size = room(4 * len(records))
    if size < 4 * len(records):
        return (10, len(records)), (0, area), [7] * size
    flat = [n for record in records for n in record]
    return (0, len(records)), (0, area), flat + [7] * (size - len(flat))


def build(room):
    kit.archive()
    for name, text in test_c.HEADERS.items():
        with open(os.path.join(room, name), "w") as f:
            f.write(text)
    test_c.compile_c(room, "-std=c99", "-c", os.path.join(ROOT, "tests", "ask.c"), "-o", os.path.join(room, "ask.o"))
    program = os.path.join(room, "ask")
    kit.link(program, os.path.join(room, "ask.o"), kit.ARCHIVE)
    return kit.command(program)


def compare(words):
    """How many questions were answered as they should be, and how many not; the answers by number."""
    r = random.Random(SEED)
    passed, failed, given = 0, 0, collections.Counter()
    with subprocess.Popen(words, stdin=subprocess.PIPE, stdout=subprocess.PIPE) as ask:
        for name, numbers, text in lists.questions(SEED, CASES):
            run, area, buffer = due(numbers, text, lambda needed: lists.room_for(r, needed))
            ask.stdin.write(struct.pack("<3I%di" % len(numbers), len(numbers), len(text), len(buffer), *numbers) + text)
            ask.stdin.flush()
            said = struct.unpack("<4Q", ask.stdout.read(32))
            wrote = list(struct.unpack("<%di" % len(buffer), ask.stdout.read(4 * len(buffer))))
            given[run[0]] += 1
            if said == run + area and wrote == buffer:
                passed += 1
                continue
            failed += 1
            if failed <= 10:
                print("%s: %r %r over %d numbers: %r, not %r%s" % (name, text, len(numbers), len(buffer), said, run + area, "" if wrote == buffer else ", and another buffer"))
        ask.stdin.close()
    return passed, failed, given


def main():
    try:
        with tempfile.TemporaryDirectory() as room:
            passed, failed, given = compare(sys.argv[1:] or build(room))
    except (OSError, subprocess.CalledProcessError, struct.error) as fault:
        print(fault, getattr(fault, "stdout", None) or "")
        print("0 passed, 1 failed")
        return 1
    print("seed %d, answers of the run by number: %s" % (SEED, dict(sorted(given.items()))))
    if set(given) == NUMBERS:
        passed += 1
    else:
        failed += 1
        print("numbers never answered: %s" % sorted(NUMBERS - set(given)))
    print("%d passed, %d failed" % (passed, failed))
    return failed != 0


if __name__ == "__main__":
    sys.exit(main())
