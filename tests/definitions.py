#!/usr/bin/env python3
"""Makes docs/definitions.md of the definitions: for each crate, in the order of crates.txt, the first comment of each
file of its specs/, and the names that the file makes public.

    python3 -B tests/definitions.py            writes the page
    python3 -B tests/definitions.py --check    compares it, and changes nothing
"""

import argparse
import re
import sys
import textwrap
from pathlib import Path

ROOT = Path(__file__).resolve().parents[1]
PAGE = ROOT / "docs" / "definitions.md"
COLUMNS = 120
# lists the files beside it, and defines nothing
INDEX = "Lib.antt"
# what Markdown would read as its own, outside of backticks
SIGNS = re.compile(r"([*_<>\[\]|])")
PUBLIC = re.compile(r"(  )?(?:(?:abbrev|unfoldable)\s+)?pub\s+(?:(?:record|data)\s+)?(?!mod\b|use\b)([^\s:({]+)")
# names that are two columns in are below one of these; else they are fields of a record
BLOCK = re.compile(r"(?:(?:abbrev|unfoldable)\s+)?(?:mutual|module)\b")

HEAD = """# Definitions

Contracts name definitions, which are in `specs/` of their crate, one concept a file. This page has the first comment of
each file, which names the source of its rule, and the names that the file makes public. "Filebeat reference" is
Elastic's, with the section named; "this project's profile" is a choice of this project ([DECISIONS.md](DECISIONS.md)).
Crates are in the order of `crates.txt`; those without definitions are left out. Worked values are computed by the
definitions in `proofs/Worked.antt` of a crate; [promises.md](promises.md) names the tests.

The page is made by `tests/definitions.py`; the gate refuses one that differs.
"""


def crates():
    for line in (ROOT / "crates.txt").read_text().splitlines():
        if line and not line.startswith("#"):
            yield re.match(r"\w+", line).group()


def files_of(crate):
    specs = ROOT / "crates" / crate / "specs"
    return sorted(it for it in specs.rglob("*.antt") if it.name != INDEX)


def first_comment(text):
    """The comment in front, as one line; empty if there is none."""
    lines = []
    for line in text.splitlines():
        if not line.startswith("--"):
            break
        lines.append(line[2:].strip())
    return " ".join(line for line in lines if line)


def escaped(text):
    """The text as Markdown: what is in backticks stays as it is."""
    parts = text.split("`")
    return "`".join(part if inside % 2 else SIGNS.sub(r"\\\1", part) for inside, part in enumerate(parts))


def public_names(text):
    names, in_block = {}, False
    for line in text.splitlines():
        if line[:1].strip():
            in_block = bool(BLOCK.match(line))
        found = PUBLIC.match(line)
        if found and (in_block or not found.group(1)):
            names[found.group(2)] = None
    return list(names)


def section(file):
    text = file.read_text()
    link = f"[`{file.stem}`](../{file.relative_to(ROOT).as_posix()})"
    comment = escaped(first_comment(text))
    names = ", ".join(f"`{name}`" for name in public_names(text))
    said = f"- {link}: {comment}" + (f" Names: {names}." if names else "")
    return textwrap.fill(said, COLUMNS, subsequent_indent="  ", break_long_words=False, break_on_hyphens=False)


def page():
    parts = [HEAD]
    for crate in crates():
        files = files_of(crate)
        if files:
            parts.append(f"\n## `{crate}`\n\n" + "\n".join(map(section, files)) + "\n")
    return "".join(parts)


def faults(made):
    for crate in crates():
        for file in files_of(crate):
            if not first_comment(file.read_text()):
                yield f"{file.relative_to(ROOT)} has no first comment"
    if not PAGE.is_file() or PAGE.read_text() != made:
        yield f"{PAGE.relative_to(ROOT)} differs from the definitions: python3 -B tests/definitions.py makes it anew"


def main():
    words = argparse.ArgumentParser(description="Makes or compares docs/definitions.md.")
    words.add_argument("--check", action="store_true", help="compare, and change nothing")
    made = page()
    if not words.parse_args().check:
        PAGE.write_text(made)
    found = list(faults(made))
    for fault in found:
        print(fault)
    print(f"definitions: {len(found)} faults")
    return 1 if found else 0


if __name__ == "__main__":
    sys.exit(main())
