#!/usr/bin/env python3
"""Lists the definitions that the clauses of `ship` rest on, from the lowest crate up, so that each is read after those that
it names: relations and records of specs/, types and traits of src/. What the kit's std defines is not listed.

    python3 -B tests/audit.py            prints each definition with its file, its lines and their sum
    python3 -B tests/audit.py --write    writes docs/audit.md: each file with the first sentence of its comment
    python3 -B tests/audit.py --check    compares that page, and changes nothing
"""

import argparse
import re
import sys
import textwrap
from dataclasses import dataclass, field
from functools import cache
from pathlib import Path

ROOT = Path(__file__).resolve().parents[1]
PAGE = ROOT / "docs" / "audit.md"
PROMISE = ("beat_run", "src/shipping.rt", "ship")
COLUMNS = 120

# ---- texts

WORD = re.compile(r"[^\s(){}\[\],;]+")
USE = re.compile(r"^\s*(?:ghost\s+)?(?:pub\s+)?use\s+([^;{}]+?)(?:\.?\{([^}]*)\}|\s+as\s+(\S+?))?;?\s*$", re.MULTILINE)
SIGNATURE = re.compile(r"(?:(?:abbrev|unfoldable|opaque)\s+)?(?:pub\s+)?(?:(?:record|data)\s+([^\s:({]+)|([^\s:({=]+)\s*(?:\{[^}]*\}\s*)*:\s)")
BLOCK = re.compile(r"(?:(?:abbrev|unfoldable)\s+)?(?:mutual|module\b.*where)\s*$")
RUST_USE = re.compile(r"^\s*(?:pub\s+)?use\s+([\w:]+?)(?:::\{([^}]*)\})?;", re.MULTILINE)
RUST_ITEM = r"^(?:pub(?:\(crate\))?\s+)?(?:struct|enum|trait|type|const)\s+{}\b"
RUST_MODEL = r"^impl(?:<[^>]*>)?\s+Model\s+for\s+{}\b"


def crates():
    """The crates in the order of crates.txt, each after those that it stands on."""
    named = {}
    for line in (ROOT / "crates.txt").read_text().splitlines():
        if line and not line.startswith("#"):
            name, _, below = line.partition(":")
            named[name.split()[0]] = below.split()
    ordered = []

    def place(name):
        if name in named and name not in ordered:
            for below in named[name]:
                place(below)
            ordered.append(name)

    for name in named:
        place(name)
    return ordered


@cache
def text_of(path):
    return path.read_text() if path.is_file() else ""


@cache
def code_lines(path):
    """The lines of a file, those that only comment as empty ones."""
    mark = "--" if path.suffix == ".antt" else "//"
    return ["" if line.lstrip().startswith(mark) else line for line in text_of(path).splitlines()]


# ---- definitions


@dataclass(frozen=True, order=True)
class Name:
    """A definition: its file, and its name in it."""

    path: Path
    name: str


@dataclass
class Definition:
    lines: list = field(default_factory=list)

    def words(self, path):
        lines = code_lines(path)
        found = set()
        for at in self.lines:
            for word in WORD.findall(lines[at]):
                found |= {word.lstrip("λ").rstrip(".").split(".")[0], *re.findall(r"[A-Za-z_]\w*", word)[:1]}
        return found - {""}


@cache
def relations(path):
    """The definitions of a file of specs/ or proofs/."""
    lines, found, here, base = code_lines(path), {}, None, 0
    names = {it for line in lines for it in names_signed(line)}
    for at, line in enumerate(lines):
        if not line.strip() or line.startswith("use ") or line.startswith("pub mod") or line.startswith("mod "):
            continue
        indent = len(line) - len(line.lstrip())
        if indent == 0 and BLOCK.match(line):
            base, here = 2, None
            continue
        if indent == 0:
            base = 0
        if indent <= base:
            signed = names_signed(line)
            first = WORD.findall(line)
            here = signed[0] if signed else first[0] if first and first[0] in names else here
        if here:
            found.setdefault(here, Definition()).lines.append(at)
    return found


@cache
def constructors(path):
    """The definition that each constructor of a file is of."""
    lines = code_lines(path)
    found = {}
    for name, item in relations(path).items():
        if re.search(r"\bdata\b", lines[item.lines[0]]):
            for at in item.lines[1:]:
                signed = re.match(r"\s+(?:pub\s+)?([^\s:]+)\s+:\s", lines[at])
                if signed:
                    found[signed.group(1)] = name
    return found


def named_in(path, name):
    """The definition of a file that has this name, or the constructor of this name."""
    name = constructors(path).get(name, name)
    return Name(path, name) if name in relations(path) else None


def names_signed(line):
    found = SIGNATURE.match(line.strip()) if len(line) - len(line.lstrip()) <= 2 else None
    return [found.group(1) or found.group(2)] if found else []


@cache
def rust_item(path, name):
    """The declaration of a type, a trait or a constant; of a type that contracts see as another value, that value."""
    lines = code_lines(path)
    for pattern in (RUST_MODEL, RUST_ITEM):
        for at, line in enumerate(lines):
            if re.match(pattern.format(re.escape(name)), line):
                return Definition(list(range(at, end_of(lines, at) + 1)))
    return None


def end_of(lines, at):
    """The last line of an item that begins at this one."""
    depth = 0
    for here in range(at, len(lines)):
        depth += sum(lines[here].count(it) for it in "{([") - sum(lines[here].count(it) for it in "})]")
        if depth <= 0 and (lines[here].rstrip().endswith((";", "}"))):
            return here
    return len(lines) - 1


@cache
def declared_in(crate, name):
    """The file that declares a type, a trait or a constant of a crate."""
    for path in sorted((ROOT / "crates" / crate / "src").rglob("*.rt")):
        if "tests" not in path.parts and rust_item(path, name):
            return path
    return None


# ---- what a name means in a file


@cache
def imports(path):
    """The names that a file brings in, each as the definition that it means."""
    found, text = {}, text_of(path)
    for where, names, alias in USE.findall(text):
        parts = where.strip().rstrip(".").split(".")
        if parts[0] != "Rattle" or len(parts) < 4 or not (ROOT / "crates" / parts[1]).is_dir():
            continue
        for each in (names or alias or parts[-1]).split(","):
            name, _, other = (it.strip() for it in each.strip().partition(" as "))
            meant = meaning(parts[1:], name if names else parts[-1])
            if meant:
                found[other or name] = meant
    if path.suffix == ".rt":
        for where, names in RUST_USE.findall(text):
            parts = where.split("::")
            crate = path.relative_to(ROOT / "crates").parts[0] if parts[0] in ("crate", "super") else parts[0]
            for name in (names or parts[-1]).split(","):
                name = name.strip().split(" as ")[-1]
                meant = declared_in(crate, name) if name and (ROOT / "crates" / crate).is_dir() else None
                if meant:
                    found.setdefault(name, Name(meant, name))
    return found


def meaning(parts, name):
    """What a name of `Rattle.CRATE.FOLDER...` means."""
    crate, folder, inside = parts[0], parts[1], parts[2:]
    if inside[:1] == ["declared"]:
        kinds = [it for it in inside[1:] if it[:1].isupper() and it not in ("TheVariants", "TheConstants")]
        wanted = kinds[-1] if kinds else name
        path = declared_in(crate, wanted)
        return Name(path, wanted) if path else None
    for count in range(len(inside), 0, -1):
        path = (ROOT / "crates" / crate / folder).joinpath(*inside[:count]).with_suffix(".antt")
        if path.is_file():
            return named_in(path, name)
    return None


def definition(name):
    return relations(name.path).get(name.name) if name.path.suffix == ".antt" else rust_item(name.path, name.name)


def named_by(path, words):
    """The definitions that such words mean in a file."""
    known = imports(path)
    for word in words:
        if word in known:
            yield known[word]
        elif path.suffix == ".antt" and named_in(path, word):
            yield named_in(path, word)
        elif path.suffix == ".rt" and rust_item(path, word):
            yield Name(path, word)


def promise():
    """The lines of the promise: the signature of `ship` and its clauses."""
    crate, file, function = PROMISE
    path = ROOT / "crates" / crate / file
    lines = code_lines(path)
    first = next(at for at, line in enumerate(lines) if line.startswith(f"pub fn {function}"))
    last = next(at for at in range(first, len(lines)) if lines[at] == "{")
    return path, Definition(list(range(first, last)))


def rests_on():
    """The definitions that the promise names, and those that these name, to the end."""
    path, clauses = promise()
    found, left = set(), list(named_by(path, clauses.words(path)))
    while left:
        name = left.pop()
        if name in found or not definition(name):
            continue
        found.add(name)
        left += named_by(name.path, definition(name).words(name.path))
    return found


# ---- the page


def size(name):
    lines = code_lines(name.path)
    return sum(bool(lines[at].strip()) for at in definition(name).lines)


def in_order():
    """The definitions, file by file, with the crates from the lowest up."""
    ordered, by_file = crates(), {}
    for name in rests_on():
        by_file.setdefault(name.path, []).append(name)

    def place(path):
        parts = path.relative_to(ROOT / "crates").parts
        return ordered.index(parts[0]), parts[1] != "src", parts

    return [(path, sorted(by_file[path], key=lambda it: definition(it).lines[0])) for path in sorted(by_file, key=place)]


def comment_above(path, at):
    """The comment that ends above this line, as one text."""
    lines, said = text_of(path).splitlines(), []
    for line in reversed(lines[:at]):
        if line.lstrip().startswith("///"):
            said.insert(0, line.lstrip()[len("///") :].strip())
        elif said or not line.startswith("#["):
            break
    return " ".join(said)


def comment_on_top(path):
    said = []
    for line in text_of(path).splitlines():
        if not line.startswith("--"):
            break
        said.append(line[len("--") :].strip())
    return " ".join(said)


def first_sentence(path, names):
    """What a file of specs/ is for, or what the first type or trait of a file of src/ is, that has a comment."""
    if path.suffix == ".antt":
        said = comment_on_top(path)
    else:
        types = [it for it in names if not it.name.isupper()] or names
        said = next(filter(None, (comment_above(path, item_line(it)) for it in types)), "")
    return re.split(r"(?<=[.:])\s", said, maxsplit=1)[0].rstrip(":.") + "." if said else ""


def item_line(name):
    """The line on which a type, a trait or a constant is declared."""
    pattern = RUST_ITEM.format(re.escape(name.name))
    return next((at for at, line in enumerate(code_lines(name.path)) if re.match(pattern, line)), 0)


def page():
    files = in_order()
    total = sum(size(name) for _, names in files for name in names)
    parts = [HEAD.format(definitions=sum(len(names) for _, names in files), lines=total, files=len(files))]
    crate = None
    for path, names in files:
        inside = path.relative_to(ROOT / "crates").parts
        if inside[0] != crate:
            crate = inside[0]
            lines = sum(size(name) for it, of in files if it.relative_to(ROOT / "crates").parts[0] == crate for name in of)
            parts.append(f"\n## `{crate}`, {counted(lines)}\n\n")
        said = f"- [`{'/'.join(inside[1:])}`](../{path.relative_to(ROOT).as_posix()}): {escaped(first_sentence(path, names))}"
        said += f" {counted(sum(map(size, names)))}: " + ", ".join(f"`{it.name}`" for it in names) + "."
        parts.append(textwrap.fill(said, COLUMNS, subsequent_indent="  ", break_long_words=False, break_on_hyphens=False) + "\n")
    return "".join(parts)


def counted(lines):
    return f"{lines} line" if lines == 1 else f"{lines} lines"


def escaped(text):
    """The text as Markdown: what is in backticks as it is."""
    parts = text.split("`")
    return "`".join(part if inside % 2 else re.sub(r"([*_<>\[\]|])", r"\\\1", part) for inside, part in enumerate(parts))


HEAD = """# What the promise rests on

The clauses of `ship` ([shipping.rt](../crates/beat_run/src/shipping.rt)) name definitions, and these name others. This
page lists all of them, {definitions} in {files} files, {lines} lines without comments, from the lowest crate up: so each
follows those that it names. What the kit's std defines is not listed. Of a type that contracts see as another value
(`impl Model`) only that value counts.

`python3 -B tests/audit.py` prints each definition with its lines, and with `--write` it writes this page; the gate
refuses one that differs.
"""


def main():
    words = argparse.ArgumentParser(description="Lists what the clauses of ship rest on.")
    words.add_argument("--write", action="store_true", help="write docs/audit.md")
    words.add_argument("--check", action="store_true", help="compare docs/audit.md, and change nothing")
    given = words.parse_args()
    if given.write:
        PAGE.write_text(page())
    if given.check or given.write:
        same = text_of(PAGE) == page()
        if not same:
            print("docs/audit.md differs from the definitions: python3 -B tests/audit.py --write makes it anew")
        print(f"audit: {0 if same else 1} faults")
        return 0 if same else 1
    total = 0
    for path, names in in_order():
        for name in names:
            lines = definition(name).lines
            total += size(name)
            print(f"{path.relative_to(ROOT)}:{lines[0] + 1}-{lines[-1] + 1} {name.name} {size(name)}")
    print(f"{total} lines")
    return 0


if __name__ == "__main__":
    sys.exit(main())
