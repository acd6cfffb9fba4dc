"""The library from C. Proves and writes the archive, compiles examples/example.c and tests/calls.c and links them with it by the kit's own compiler
and linker, runs both, and compares what they print; and holds the header to C++. The kit has no headers of the C library: the few
declarations that the two files use are written here. The last line is 'N passed, M failed'."""
import os
import subprocess
import sys
import tempfile

import kit

ROOT = kit.ROOT
HEADERS = {
    'stddef.h': 'typedef __SIZE_TYPE__ size_t;\n#define NULL ((void *)0)\n',
    'stdint.h': 'typedef __UINT8_TYPE__ uint8_t;\ntypedef __INT32_TYPE__ int32_t;\ntypedef __UINT32_TYPE__ uint32_t;\ntypedef __UINT64_TYPE__ uint64_t;\n',
    'stdio.h': 'int printf(const char *, ...) __attribute__((format(printf, 1, 2)));\n',
}
PROGRAMS = [('examples/example.c', 'crates/laukavesp/stdout'), ('tests/calls.c', 'tests/calls.expected')]


def compile_c(room, *words):
    kit.tool(kit.CLANG, '--target=' + kit.TARGET, '--no-default-config', '-nostdinc', '-isystem', room, '-I', os.path.join(ROOT, 'include'),
             '-Wall', '-Wextra', '-pedantic', '-Werror', '-O2', '-fPIC', *words)


def archive():
    """Whether the library is proved and written."""
    return os.path.isfile(kit.archive())


def prints(room, source, expected):
    """Whether a C file prints what the file `expected` has."""
    base = os.path.join(room, os.path.basename(source)[:-2])
    compile_c(room, '-std=c99', '-c', os.path.join(ROOT, source), '-o', base + '.o')
    kit.link(base, base + '.o', kit.ARCHIVE)
    wrote = subprocess.run(kit.command(base), stdout=subprocess.PIPE, check=True).stdout
    with open(os.path.join(ROOT, expected), 'rb') as f:
        right = wrote == f.read()
    if not right:
        print(f'{source} printed something else than {expected}:\n{wrote.decode()}')
    return right


def in_cpp(room):
    """Whether the header is C++ too."""
    path = os.path.join(room, 'only.cpp')
    with open(path, 'w') as f:
        f.write('#include "laukavesp.h"\nlaukavesp_answer (*call)(const int32_t *, size_t, const uint8_t *, size_t) = laukavesp_area;\n')
    compile_c(room, '-std=c++11', '-fsyntax-only', path)
    return True


def passes(test, *words):
    try:
        return test(*words)
    except (OSError, subprocess.CalledProcessError) as fault:
        print(fault, getattr(fault, 'stdout', None) or '')
        return False


def main():
    results = [passes(archive)]
    with tempfile.TemporaryDirectory() as room:
        for name, text in HEADERS.items():
            with open(os.path.join(room, name), 'w') as f:
                f.write(text)
        results += [results[0] and passes(prints, room, *words) for words in PROGRAMS] + [passes(in_cpp, room)]
    print(f'{sum(results)} passed, {len(results) - sum(results)} failed')
    return not all(results)


if __name__ == "__main__":
    sys.exit(main())
