"""The kit that `rt` belongs to: its compiler and linker, and what it makes of this repository: the archive for C and the program. Both are proved and written where
they are not there yet, over what earlier checks kept."""
import os
import shutil
import subprocess

ROOT = os.path.dirname(os.path.dirname(os.path.abspath(__file__)))
HOME = os.environ.get('RATTLE_HOME') or os.path.dirname(os.path.dirname(os.path.realpath(shutil.which('rt') or 'rt')))
TOOLS = os.path.join(HOME, 'toolchain')
CLANG = os.path.join(TOOLS, 'bin', 'clang')
TARGET = 'x86_64-unknown-linux-gnu'
ARCHIVE = os.path.join(ROOT, 'target', 'staticlib', 'libexports.a')


def tool(*words, **where):
    """Runs a tool; what it says is kept for the error."""
    return subprocess.run(words, check=True, text=True, stdin=subprocess.DEVNULL, stdout=subprocess.PIPE, stderr=subprocess.STDOUT, **where).stdout


def archive():
    """The static library, proved and written."""
    tool(os.path.join(ROOT, 'archive'))
    return ARCHIVE


def program():
    """The program, proved and built."""
    tool(os.path.join(ROOT, 'laukavesp'))
    return os.path.join(ROOT, 'crates', 'laukavesp', 'out', 'laukavesp')


def example(name):
    """A program that runs examples, proved and built."""
    crate = os.path.join(ROOT, 'crates', name)
    tool('rt', 'run', cwd=crate)
    return os.path.join(crate, 'out', name)


def link(program, *files):
    tool(os.path.join(HOME, 'bin', 'rattle-link'), '--target', TARGET, '--toolchain', TOOLS, '-o', program, *files)


def command(program):
    """The words that run a program with the kit's own C library."""
    return [os.path.join(TOOLS, 'lib', 'ld-linux-x86-64.so.2'), '--library-path', os.path.join(TOOLS, 'lib'), program]
