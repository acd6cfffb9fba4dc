#!/usr/bin/env python3
"""Long and deep lines of an expression are answered, and none is lost for want of stack: the program run_expression prints a line for each that it reads.

The bounds are those that an earlier form of the readers reached, with a little left for what the system puts on the stack."""
import resource
import subprocess
import sys

import kit

# The line, how often it is written, the stack in KiB, and the number that it is answered: 6, since it has over 64 bytes.
CASES = [
    (b"(", 32505, 8192),
    (b"!(", 26004, 8192),
    (b"!", 15000, 1024),
    (b"(", 3800, 1024),
    (b"!", 65000, 8192),
]
SHORT = b"a\n"
DUE = {SHORT: b"0 0 16512\n", b"long": b"6 0 0\n"}


def printed(words, data, kib):
    def limit():
        resource.setrlimit(resource.RLIMIT_STACK, (kib * 1024, resource.getrlimit(resource.RLIMIT_STACK)[1]))

    run = subprocess.run(words, input=data, capture_output=True, timeout=100, preexec_fn=limit)
    return run.stdout if run.returncode == 0 and not run.stderr else b"status %d, %s" % (run.returncode, run.stderr)


def main():
    words = kit.command(kit.example('run_expression'))
    passed = failed = 0
    for text, often, kib in CASES:
        # A line before it and, where there is room for one, a line after it: they are not lost either.
        data = SHORT + text * often + b"\n"
        due = DUE[SHORT] + DUE[b"long"]
        if len(data) + len(SHORT) <= 65536:
            data, due = data + SHORT, due + DUE[SHORT]
        got = printed(words, data, kib)
        if got == due:
            passed += 1
        else:
            failed += 1
            print("%d times %s with %d KiB of stack: %r, not %r" % (often, text.decode(), kib, got, due))
    print("%d passed, %d failed" % (passed, failed))
    return failed != 0


sys.exit(main())
