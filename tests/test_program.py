#!/usr/bin/env python3
"""Runs the proved program over generated inputs, refused ones too, and compares what it prints with the cell-by-cell program, byte for byte.

The program runs with the kit's own loader and C library. Another program to run may be given as the only argument."""
import collections
import concurrent.futures
import os
import pathlib
import subprocess
import sys

import cells
import generate
import kit

SEED = 20261115
CASES = 3000
NUMBERS = {0, 6, 7, 8, 9, 10, 11, 12, 13, 14, 15, 16, 17}


def printed(words, data):
    """What the program prints for its input, or how it failed."""
    try:
        run = subprocess.run(words, input=data, capture_output=True, timeout=100)
    except (OSError, subprocess.TimeoutExpired) as fault:
        return str(fault).encode()
    return run.stdout if run.returncode == 0 and not run.stderr else b"status %d, %s" % (run.returncode, run.stderr)


def main():
    words = kit.command(pathlib.Path(sys.argv[1]).resolve() if sys.argv[1:] else kit.program())
    inputs = list(generate.cases(SEED, CASES))
    given = collections.Counter()
    passed = failed = 0
    with concurrent.futures.ThreadPoolExecutor(os.cpu_count()) as pool:
        for data, got in zip(inputs, pool.map(lambda data: printed(words, data), inputs)):
            due = cells.answer(data)
            given[int(due.split()[0])] += 1
            if got == due:
                passed += 1
                continue
            failed += 1
            if failed <= 10:
                print("input %r: %r, not %r" % (data[:200], got[:200], due[:200]))
    print("seed %d, %d inputs, answers by number: %s" % (SEED, len(inputs), dict(sorted(given.items()))))
    if set(given) == NUMBERS:
        passed += 1
    else:
        failed += 1
        print("numbers never answered: %s" % sorted(NUMBERS - set(given)))
    print("%d passed, %d failed" % (passed, failed))
    return failed != 0


sys.exit(main())
