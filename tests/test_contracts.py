#!/usr/bin/env python3
"""Holds docs/CONTRACTS.md to the code: every public function and every must-fail edit is named there, and it names no other. A crate's own section, or its row, may
name its edits without the crate. The last line is 'N passed, M failed'."""
import pathlib
import re
import sys

ROOT = pathlib.Path(__file__).resolve().parent.parent
TEXT = (ROOT / "docs" / "CONTRACTS.md").read_text()


def functions(crate):
    """The public functions of a crate, a method with its type."""
    for file in sorted((crate / "src").glob("*.rt")):
        kind = ""
        for line in file.read_text().split("\n"):
            found = re.match(r"impl(?:<[^>]*>)? (\w+)", line)
            kind = found.group(1) + "::" if found else "" if line.startswith("}") else kind
            found = re.match(r"\s*pub (?:extern \"C\" )?fn (\w+)", line)
            if found:
                yield kind + found.group(1)


def blocks():
    """The document in pieces that speak of one matter: a row, or a paragraph, with its section's heading."""
    heading = ""
    for piece in re.split(r"\n(?=\n|\||#|- )", TEXT):
        if piece.strip().startswith("#"):
            heading = piece
        yield heading + "\n" + piece


def main():
    named = set(re.findall(r"`([\w:/]+)`", TEXT))
    spoken = [(set(re.findall(r"`([\w:/]+)", b)), set(re.findall(r"`(\w+)", b))) for b in blocks()]
    missing, known = [], set()
    for crate in sorted((ROOT / "crates").iterdir()):
        for f in functions(crate):
            known.add(f.split("::")[-1])
            full = crate.name + "::" + f
            if full not in named and not any(re.search(r"`%s\W" % re.escape(full), "`" + n + "(") for n in named) and ("`" + full) not in TEXT and ("`" + f + "`") not in TEXT:
                missing.append("function " + full)
        for edit in sorted(crate.glob("must-fail/*.edit")):
            label = edit.stem
            if crate.name + "/" + label in named:
                continue
            if any(label in words and (crate.name in words or any(n.split("::")[0].split("/")[0] == crate.name for n in full)) for full, words in spoken):
                continue
            missing.append("edit %s/%s" % (crate.name, label))
    gone = [n for n in sorted(named) if re.fullmatch(r"\w+/\w+", n) and (ROOT / "crates" / n.split("/")[0]).is_dir() and n.split("/")[1] not in ("specs", "proofs", "src")
            and not (ROOT / "crates" / n.split("/")[0] / "must-fail" / (n.split("/")[1] + ".edit")).exists()]
    gone += [n for n in sorted(named) if re.fullmatch(r"\w+::\w+", n) and not (ROOT / "crates" / n.split("::")[0]).is_dir()]
    for m in missing:
        print("docs/CONTRACTS.md does not name the " + m)
    for n in gone:
        print("docs/CONTRACTS.md names %s, which is not there" % n)
    print("%d passed, %d failed" % (not missing and not gone, bool(missing) + bool(gone)))
    return bool(missing or gone)


if __name__ == "__main__":
    sys.exit(main())
