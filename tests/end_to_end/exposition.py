"""Reads the text format of Prometheus strictly: what a scraper would let pass with a guess is refused here."""

import re

NAME = re.compile(r"[a-zA-Z_:][a-zA-Z0-9_:]*")
LABEL = re.compile(r'([a-zA-Z_][a-zA-Z0-9_]*)="((?:[^"\\\n]|\\[\\n"])*)"')
VALUE = re.compile(r"-?\d+(?:\.\d+)?")
KINDS = ("counter", "gauge")
# what a name ends with, by its unit
UNITS = ("_bytes", "_seconds", "_total")
ESCAPES = {r"\\": "\\", r"\n": "\n", r"\"": '"'}


class Malformed(AssertionError):
    """The text is not of the format."""


def require(holds, line):
    if not holds:
        raise Malformed(repr(line))


def read(text):
    """The samples of each family: a family has a HELP line, a TYPE line and then its samples, all in a row; no sample comes
    twice. A counter is named so, and nothing else is."""
    require(text.endswith("\n"), text[-20:])
    families, name, lines = {}, None, iter(text.split("\n")[:-1])
    for line in lines:
        if line.startswith("#"):
            name = head_of(line, next(lines, ""))
            require(name not in families, line)
            families[name] = {}
        else:
            require(name is not None, line)
            labels, value = sample_of(line, name)
            require(labels not in families[name], line)
            families[name][labels] = value
    for name, samples in families.items():
        require(samples or name.startswith("beat_file_"), name)
    return families


def head_of(first, second):
    """The name that both lines in front of a family have."""
    helps, types = first.split(" ", 3), second.split(" ", 3)
    require(len(helps) == 4 and helps[:2] == ["#", "HELP"] and helps[3], first)
    require(len(types) == 4 and types[:2] == ["#", "TYPE"] and types[3] in KINDS, second)
    name = helps[2]
    require(NAME.fullmatch(name) and types[2] == name, second)
    require((types[3] == "counter") == name.endswith("_total"), second)
    return name


def sample_of(line, name):
    """The labels and the value of a sample of this family."""
    require(line.startswith(name), line)
    rest, labels = line[len(name) :], []
    if rest.startswith("{"):
        rest = rest[1:]
        while not rest.startswith("}"):
            found = LABEL.match(rest)
            require(found, line)
            labels.append((found[1], re.sub(r'\\[\\n"]', lambda it: ESCAPES[it[0]], found[2])))
            rest = rest[found.end() :]
            require(rest.startswith("}") or rest.startswith(","), line)
            rest = rest.removeprefix(",")
        rest = rest[1:]
    require(rest.startswith(" ") and VALUE.fullmatch(rest[1:]), line)
    require(len({label for label, _ in labels}) == len(labels), line)
    return tuple(labels), int(rest[1:])
