#!/usr/bin/env python3
"""Counts the places of src/ that docs/DESIGN-PASS.md speaks of, point by point.

usage: python3 tools/places.py [--list POINT] [ROOT]    at the top of the repository, or of the checkout ROOT

A place is found by its form alone, so that a place that stays for a reason is found too.
"""
import re
import sys
from collections import defaultdict
from pathlib import Path

IDENT = r"[A-Za-z_]\w*"


def sources(root):
    for path in sorted(root.glob("crates/*/src/**/*.rt")):
        yield path.relative_to(root), path.read_text().split("\n")


def functions(lines):
    """(line, name, parameters, result, clauses, body lines) of each function: rt fmt's layout tells where each part ends."""
    i = 0
    while i < len(lines):
        head = re.match(rf"(\s*)(pub )?(extern \"C\" )?fn ({IDENT})", lines[i])
        if not head:
            i += 1
            continue
        start, indent = i, head.group(1)
        while i < len(lines) and lines[i] != indent + "{" and not (lines[i].endswith(("{", "}", ";")) and "ensures" not in lines[i] and "requires" not in lines[i] and "ghost" not in lines[i]):
            i += 1
        signature = " ".join(line.strip() for line in lines[start:i] if not re.match(r"\s*(requires|ensures)", line))
        if i < len(lines) and lines[i] != indent + "{":
            signature += " " + lines[i].strip().rstrip("{")
        clauses = [line.strip() for line in lines[start:i] if re.match(r"\s*(requires|ensures)", line)]
        first = i + 1
        while i < len(lines) and lines[i] != indent + "}":
            i += 1
        inner = signature[signature.index("(") + 1 : signature.rfind(")")] if ")" in signature else ""
        result = signature[signature.rfind("->") + 2 :].strip() if "->" in signature else ""
        parameters = [p.strip() for p in inner.replace(") -> ", ", ").split(", ") if ":" in p]
        yield start + 1, head.group(4), parameters, result, clauses, lines[first:i]
        i += 1


def shape(body):
    """The body with names, numbers and types replaced by the order in which they come."""
    known = {}
    words = []
    for word in re.findall(rf"{IDENT}|\d+|[^\s\w]", " ".join(line.split("//")[0] for line in body)):
        if word in ("let", "mut", "if", "else", "while", "for", "in", "return", "match", "as", "true", "false"):
            words.append(word)
        elif re.match(r"\w", word):
            words.append(known.setdefault(word, f"#{len(known)}"))
        else:
            words.append(word)
    return " ".join(words)


def point_1(root):
    """own enums; a flag with a value beside it; numbers for kinds or refusals"""
    for path, lines in sources(root):
        for n, line in enumerate(lines, 1):
            if re.match(r"\s*(pub )?enum ", line):
                yield path, n, line
            elif re.match(r"\s+pub \w+: bool,", line):
                yield path, n, line
            elif re.search(r"\b(Refused|refused|refusal)\(\d+", line):
                yield path, n, line
            elif re.search(r"\b\w*(number|fault)\w* [!=]= \d+", line):
                yield path, n, line
        for n, name, _, result, _, _ in functions(lines):
            if re.search(r"fault|^number$", name) and result in ("u64", "u32"):
                yield path, n, lines[n - 1]
            elif result == "bool" and name in ("settle",):
                yield path, n, lines[n - 1]


def point_2(root):
    """functions of one shape"""
    groups = defaultdict(list)
    for path, lines in sources(root):
        for n, name, _, _, _, body in functions(lines):
            if len(body) >= 2 or re.search(r"[-+*/%]|if | as ", " ".join(body)):
                groups[shape(body)].append((path, n, lines[n - 1]))
    for group in groups.values():
        if len(group) > 1:
            yield from group


def point_3(root):
    """loops that count an index by hand"""
    for path, lines in sources(root):
        for n, line in enumerate(lines):
            loop = re.match(r"(\s*)while (.*) \{$", line)
            if not loop:
                continue
            end = next(k for k in range(n, len(lines)) if lines[k] == loop.group(1) + "}")
            body = "\n".join(lines[n:end])
            if any(re.search(rf"^\s+{name} [-+]= (\d+|[A-Z]+);", body, re.M) for name in re.findall(IDENT, loop.group(2))):
                yield path, n + 1, line


def point_4(root):
    """equality, order, copying, conversion and printing by hand"""
    for path, lines in sources(root):
        for n, name, _, _, _, body in functions(lines):
            text = " ".join(line.strip() for line in body)
            if re.fullmatch(rf"\(?{IDENT}\)? as \w+", text) or re.fullmatch(rf"if (\w+) < (\w+) \{{ (\1|\2) \}} else \{{ (\1|\2) \}}", text) or re.fullmatch(r"\w+ == \w+", text):
                yield path, n, lines[n - 1]
            elif re.search(r"print_decimal|print_hex", text) or ("/ 10" in text and "% 10" in text):
                yield path, n, lines[n - 1]


def point_5(root):
    """functions with eight parameters or more; and those that require a fact that three or more functions require"""
    facts = defaultdict(list)
    for path, lines in sources(root):
        for n, name, parameters, _, clauses, _ in functions(lines):
            if len(parameters) >= 8:
                yield path, n, lines[n - 1]
            for clause in clauses:
                fact = re.match(r"requires \w* ?\{ (.*) \}", clause)
                for part in re.split(r" × ", fact.group(1)) if fact else []:
                    part = re.sub(r"\.(now|old)\b", "", part.strip("() "))
                    facts[part].append((path, n, f"{lines[n - 1].strip()} requires {part}"))
    for users in facts.values():
        if len({(p, n) for p, n, _ in users}) >= 3:
            yield from users


def point_6(root):
    """a lent buffer with a place or a length beside it; two or more arrays read at one place; a search by hand"""
    for path, lines in sources(root):
        for n, name, parameters, _, _, body in functions(lines):
            buffers = [p for p in parameters if re.search(r"&mut \[", p)]
            counted = [p for p in parameters if re.match(r"(at|n|h|len|count|k|nx|g): usize", p)]
            indexed = defaultdict(set)
            for array, place in re.findall(rf"({IDENT})\[({IDENT})\]", " ".join(body)):
                indexed[place].add(array)
            if (buffers and counted) or any(len(arrays) > 1 for place, arrays in indexed.items()):
                yield path, n, lines[n - 1]


def point_7(root):
    """a parameter that says which step to run; tables of functions"""
    for path, lines in sources(root):
        for n, name, parameters, _, _, body in functions(lines):
            flags = [p.split(":")[0] for p in parameters if p.endswith(": bool")]
            if any(re.search(rf"if !?{flag}\b", line) for flag in flags for line in body):
                yield path, n, lines[n - 1]


def point_8(root):
    """answers that only say `search rules`, `omega arith` or `grind arith`"""
    for path in sorted(root.glob("crates/*/proofs/**/Answers.antt")):
        for n, line in enumerate(path.read_text().split("\n"), 1):
            if re.search(r"^\S+( \w+)* = (search rules|omega arith|grind arith)$", line):
                yield path.relative_to(root), n, line


POINTS = [point_1, point_2, point_3, point_4, point_5, point_6, point_7, point_8]


def main():
    arguments = sys.argv[1:]
    wanted = None
    if arguments[:1] == ["--list"]:
        wanted, arguments = int(arguments[1]), arguments[2:]
    root = Path(arguments[0] if arguments else ".")
    for k, point in enumerate(POINTS, 1):
        places = sorted(set(point(root)))
        if wanted in (None, k):
            print(f"{k}. {point.__doc__}: {len(places)}")
        if wanted == k:
            for path, n, line in places:
                print(f"   {path}:{n}: {line.strip()}")


main()
