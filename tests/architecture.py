#!/usr/bin/env python3
"""Makes the table of crates in docs/architecture.md: the floors and their crates in the order of crates.txt, and the first
sentence of each crate's src/lib.rt, or src/main.rt. The rest of the page is written by hand; the whole has a limit.

    python3 -B tests/architecture.py            writes the table
    python3 -B tests/architecture.py --check    compares it and counts the words of the page, and changes nothing
"""

import argparse
import re
import sys
from pathlib import Path

ROOT = Path(__file__).resolve().parents[1]
PAGE = ROOT / "docs" / "architecture.md"
# a comment of crates.txt that begins with one word and a colon begins a floor
FLOOR = re.compile(r"# (\w+): (.*)")
HEAD = "|Crate|What it is for|\n|---|---|\n"
# how many words the page may have with its table
WORDS = 2000
# what the floor of tests says once for all its crates
SAID_BY_FLOOR = "; no part of the product"
TABLE = re.compile(re.escape(HEAD) + r"(?:\|.*\n)*")
SENTENCE = re.compile(r".+?\.(?=\s|$)")


def lines():
    """Each floor of crates.txt with its description, and each crate, in their order; a crate has None beside it."""
    for line in (ROOT / "crates.txt").read_text().splitlines():
        floor = FLOOR.fullmatch(line)
        if floor:
            yield floor.groups()
        elif line and not line.startswith("#"):
            yield re.match(r"\w+", line).group(), None


def main_file(crate):
    source = ROOT / "crates" / crate / "src"
    return source / "lib.rt" if (source / "lib.rt").is_file() else source / "main.rt"


def first_sentence(crate):
    """The first sentence of the comment in front, or None."""
    said = []
    for line in main_file(crate).read_text().splitlines():
        if not line.startswith("//!"):
            break
        said.append(line[3:].strip())
    found = SENTENCE.match(" ".join(said))
    return found and found.group()


def row(name, description):
    if description is None:
        first, second = f"`{name}`", (first_sentence(name) or "").replace(SAID_BY_FLOOR, "")
    else:
        first, second = f"**{name}**", description
    return "|{}|{}|\n".format(first, second.replace("|", r"\|"))


def table():
    return HEAD + "".join(row(name, description) for name, description in lines())


def count_words(page):
    """How many words a page has; the cells of a row are apart, and a link has the words that it shows."""
    shown = re.sub(r"\]\([^)]*\)", "]", page.replace("|", " "))
    return sum(bool(re.search(r"\w", it)) for it in shown.split())


def faults(made, there, words):
    for name, description in lines():
        if description is None and not first_sentence(name):
            yield f"{main_file(name).relative_to(ROOT)} begins with no sentence"
    if not there:
        yield f"{PAGE.relative_to(ROOT)} has no table of crates"
    elif there.group() != made:
        yield f"{PAGE.relative_to(ROOT)} differs from the crates: python3 -B tests/architecture.py makes its table anew"
    if words > WORDS:
        yield f"{PAGE.relative_to(ROOT)} has {words:,} words, and at most {WORDS:,} are allowed"


def main():
    options = argparse.ArgumentParser(description="Makes or compares the table of crates in docs/architecture.md.")
    options.add_argument("--check", action="store_true", help="compare, and change nothing")
    made = table()
    if not options.parse_args().check:
        PAGE.write_text(TABLE.sub(lambda _: made, PAGE.read_text()))
    page = PAGE.read_text()
    words = count_words(page)
    found = list(faults(made, TABLE.search(page), words))
    for fault in found:
        print(fault)
    print(f"architecture: {len(found)} faults, {words:,} words of {WORDS:,}")
    return 1 if found else 0


if __name__ == "__main__":
    sys.exit(main())
