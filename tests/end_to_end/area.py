"""Registry areas, spelled and read by themselves: no line of the program's code is used."""

import hashlib
import json
import os

# bytes that the body of a record has at most
MAX_BODY = 1_048_576


def key_of(path, input_id="w"):
    """The key of a file whose identity is its path."""
    return f"filestream::{input_id}::path::{path}"


def row(path, offset, input_id="w"):
    return {"epoch": 0, "key": key_of(path, input_id), "offset": offset, "path": path}


def native_row(path, offset):
    """The row of a file that is known by its inode and device."""
    told = os.stat(path)
    return {**row(str(path), offset), "key": f"filestream::w::native::{told.st_ino}-{told.st_dev}"}


def fingerprint_row(path, offset, input_id="w", length=1_024):
    """The row of a file that is known by the SHA-256 of so many of its first bytes."""
    with open(path, "rb") as file:
        digest = hashlib.sha256(file.read(length)).hexdigest()
    return {**row(str(path), offset), "key": f"filestream::{input_id}::fingerprint::{digest}"}


def changed(it):
    """The row with the moment, in milliseconds, at which its file was last changed."""
    return {**it, "changed": os.stat(it["path"]).st_mtime_ns // 1_000_000}


def text(value):
    """A JSON text: only what has to be escaped is escaped."""
    return json.dumps(value, ensure_ascii=False)


def area(*rows):
    """The bytes of an area that was just started with these rows: generation 1, as many rows in each record as fit."""
    stored = b"{beat 2 %020d\n" % 1
    for body in bodies(sorted(rows, key=lambda it: it["key"].encode())):
        stored += b"{%07d " % len(body) + body + b"\n"
    return stored + b"."


def spelled(value):
    return json.dumps(value, ensure_ascii=False, separators=(",", ":"), sort_keys=True).encode()


def bodies(rows):
    """The bodies of the records that set these rows."""
    body = b""
    for it in rows:
        operation = spelled({**it, "op": "set"})
        # with a comma before it and the bracket behind it
        if body and len(body) + len(operation) + 2 > MAX_BODY:
            yield body + b"]"
            body = b""
        body += (b"," if body else b"[") + operation
    if body:
        yield body + b"]"


def rows_of(stored):
    """The rows that an area holds, by their keys. The area has to be opened and whole, with each body in its one spelling,
    and of the first generation."""
    assert stored[:29] == b"{beat 2 %020d\n" % 1, "no area of version 2 and the first generation"
    rows, gate = {}, 29
    while stored[gate : gate + 1] == b"{":
        length = int(stored[gate + 1 : gate + 8])
        body = stored[gate + 9 : gate + 9 + length]
        operations = json.loads(body)
        assert operations and length <= MAX_BODY and spelled(operations) == body, f"no body: {body!r}"
        assert stored[gate + 8 : gate + 9] == b" " and stored[gate + 9 + length : gate + 10 + length] == b"\n", "no record"
        for operation in operations:
            if operation.pop("op") == "set":
                rows[operation["key"]] = operation
            else:
                rows.pop(operation["key"], None)
        gate += 10 + length
    assert stored[gate : gate + 1] == b".", "the last gate is absent or not closed"
    return [rows[key] for key in sorted(rows, key=str.encode)]
