#!/usr/bin/env python3
"""Makes man pages of the pages in docs/, in the macros of man(7).

    python3 -B package/man.py FOLDER      writes each page to FOLDER/manN/NAME.N

It knows the Markdown of these pages: headings, paragraphs, lists, tables, blocks of code, bold and slanted text, code and
links. A table becomes a list whose tags are its first cells.
"""

import functools
import re
import sys
import time
from pathlib import Path

import products

DOCS = products.ROOT / "docs"
# pages that are of no program: their names and sections
OTHERS = {"settings": ("beat.toml", 5), "formats": ("beat_formats", 5), "coming_from_filebeat": ("beat_from_filebeat", 7)}
# characters that troff would change in code
CODE = {"-": r"\-", "'": r"\(aq", "`": r"\(ga", "^": r"\(ha", "~": r"\(ti"}
INLINE = re.compile(r"`([^`]+)`|\*\*(.+?)\*\*|\*([^*\s][^*]*)\*|\[([^\[\]]*)\]\(([^)]*)\)", re.DOTALL)
TABLE_RULE = re.compile(r"^\|[-:| ]+\|$")
CELL = re.compile(r"(?<!\\)\|")
ITEM = re.compile(r"^(?:(-)|(\d+\.)) +")


@functools.cache
def pages():
    """Each page of docs/ that becomes a man page, with its name and section."""
    known = {**{name: (name, 1) for name in products.programs()}, **OTHERS}
    return [(page, *known[page.stem]) for page in sorted(DOCS.glob("*.md")) if page.stem in known]


def plain(text, is_code=False):
    """A text for troff: nothing in it is an escape."""
    text = text.replace("\\", r"\e")
    if is_code:
        text = "".join(CODE.get(sign, sign) for sign in text)
    return "".join(sign if sign.isascii() else rf"\[u{ord(sign):04X}]" for sign in text)


def linked(text, target):
    """What a link shows, and after it the man page that it leads to, if that is another one."""
    known = {page.name: f"{name}({section})" for page, name, section in pages()}
    shown, file = spelled(text), target.partition("#")[0]
    if "://" in target:
        return f"{shown} <{plain(target, True)}>"
    if file not in known:
        return shown
    return known[file] if text.strip("`") in (file, Path(file).stem) else f"{shown} ({known[file]})"


def spelled(text):
    """A text with its inline marks, for troff."""
    made, at = "", 0
    for found in INLINE.finditer(text):
        code, bold, slanted, shown, target = found.groups()
        made += plain(text[at : found.start()])
        if code is not None:
            made += rf"\fB{plain(code, True)}\fR"
        elif bold is not None:
            made += rf"\fB{spelled(bold)}\fR"
        elif slanted is not None:
            made += rf"\fI{plain(slanted)}\fR"
        else:
            made += linked(shown, target)
        at = found.end()
    return made + plain(text[at:])


def guarded(text):
    """Lines of text, none of which troff takes for a request."""
    return "\n".join(rf"\&{line}" if line[:1] in (".", "'") else line for line in text.split("\n"))


def flowing(lines):
    return guarded(spelled(" ".join(line.strip() for line in lines)))


def cells_of(line):
    return [cell.strip().replace(r"\|", "|") for cell in CELL.split(line.strip())[1:-1]]


def table(lines):
    """A list whose tags are the first cells. The headings of two columns come first; of more, each with its cell."""
    (first, *heads), rows = cells_of(lines[0]), [cells_of(line) for line in lines[2:]]
    if len(heads) == 1 and first and heads[0]:
        yield f".PP\n\\fI{plain(first)}: {plain(heads[0])}\\fR"
    for tag, *rest in rows:
        yield f".TP\n{guarded(spelled(tag)) or '(none)'}"
        parts = [(head, cell) for head, cell in zip(heads, rest) if cell]
        said = [spelled(f"{head}: {cell}" if head and len(heads) > 1 else cell) for head, cell in parts]
        yield "\n.br\n".join(map(guarded, said)) or r"\&"


def code(lines):
    text = "\n".join(rf"\&{plain(line, True)}" for line in lines)
    return f".PP\n.RS 4\n.nf\n{text}\n.fi\n.RE"


def listing(lines):
    made = []
    for line in lines:
        found = ITEM.match(line)
        if found:
            made.append((found.group(2) or r"\(bu", [line[found.end() :]]))
        else:
            made[-1][1].append(line)
    for mark, own in made:
        yield f".IP {mark} 4\n{flowing(own)}"


def blocks(text):
    """The blocks of a page: the kind of each, and its lines."""
    lines = iter([*text.splitlines(), ""])
    block = []
    for line in lines:
        if line.startswith("```"):
            if block:
                yield block
            block = ["```"]
            for inner in lines:
                if inner.startswith("```"):
                    break
                block.append(inner)
            yield block
            block = []
        elif not line or line.startswith("#"):
            if block:
                yield block
            block = []
            if line:
                yield [line]
        else:
            block.append(line)


def body(text):
    """What follows the title: sections, with what is before the first one as the description."""
    yield ".SH DESCRIPTION"
    for block in blocks(text):
        first = block[0]
        if first.startswith("```"):
            yield code(block[1:])
        elif first.startswith("### "):
            yield f".SS {flowing([first[4:]])}"
        elif first.startswith("## "):
            yield f".SH {flowing([first[3:].replace('`', '').upper()])}"
        elif len(block) > 1 and TABLE_RULE.match(block[1]):
            yield from table(block)
        elif ITEM.match(first):
            yield from listing(block)
        else:
            yield f".PP\n{flowing(block)}"


def first_sentence(text):
    paragraph = " ".join(next(block for block in blocks(text) if not block[0].startswith(("#", "```", "|"))))
    return spelled(re.split(r"(?<=[.:])\s", paragraph)[0].rstrip(".:"))


def man_page(page, name, section):
    """The text of a man page."""
    title, _, text = page.read_text().partition("\n")
    assert title.startswith("# "), page
    date = time.strftime("%Y-%m-%d", time.gmtime(products.moment()))
    others = [f"\\fB{plain(it)}\\fR({number})" for _, it, number in pages() if it != name]
    head = f'.TH {name.upper()} {section} {date} "Moqhuluzi {products.VERSION}" Moqhuluzi'
    parts = [".nh", ".ad l", f".SH NAME\n{plain(name)} \\- {first_sentence(text)}", *body(text)]
    parts.append(f".SH SEE ALSO\n{', '.join(others)}")
    return "\n".join([head, *parts]) + "\n"


def write_to(folder):
    for page, name, section in pages():
        file = folder / f"man{section}" / f"{name}.{section}"
        file.parent.mkdir(parents=True, exist_ok=True)
        file.write_text(man_page(page, name, section))


if __name__ == "__main__":
    if len(sys.argv) != 2:
        sys.exit("usage: man.py FOLDER")
    write_to(Path(sys.argv[1]))
