"""The program `beat_container` over container logs, beside a plain model of them."""

import json
import os
import random
import subprocess
import tempfile
import unittest
from pathlib import Path

from program import finish

LINES = 100_000

# the longest content of a line, and the longest message, in bytes
LONGEST = 16_777_216

DONE, USAGE, SOURCE_FAULT, BAD_LINES, OUT_FAULT = 0, 2, 3, 4, 5


def cri_part(content):
    """The stream of a line, whether it is partial, and its text; nothing where it is not of the format."""
    stamp, *fields = content.split(b" ", 3)
    if not stamp or len(fields) < 2 or fields[0] not in (b"stdout", b"stderr"):
        return None
    stream, tag, text = (*fields, b"")[:3]
    if tag[:1] not in (b"P", b"F") or tag[1:2] not in (b"", b":"):
        return None
    return stream, tag[:1] == b"P", text


def docker_part(content):
    try:
        value = json.loads(content.decode())
    except ValueError:
        return None
    if not isinstance(value, dict) or not all(isinstance(value.get(key), str) for key in ("log", "stream", "time")):
        return None
    if value["stream"] not in ("stdout", "stderr"):
        return None
    log = value["log"].encode()
    return value["stream"].encode(), not log.endswith(b"\n"), log.removesuffix(b"\n")


PARTS = {"cri": cri_part, "docker": docker_part}


def plain(name, keep, log):
    """The container's own lines, and how many lines are not of the format."""
    written, waiting, bad = [], {b"stdout": b"", b"stderr": b""}, 0
    for content in log.split(b"\n")[:-1]:
        part = PARTS[name](content) if len(content) <= LONGEST else None
        if part is None:
            bad += 1
        elif keep in ("all", part[0].decode()):
            stream, partial, text = part
            waiting[stream] += text
            if not partial:
                written.append(waiting[stream][:LONGEST] + b"\n")
                waiting[stream] = b""
    return b"".join(written), bad


def cri_line(chance, stream, partial):
    text = chance.randbytes(chance.randrange(120)).replace(b"\n", b" ")
    tag = chance.choice((b"P", b"P:x")) if partial else chance.choice((b"F", b"F:x:y"))
    return b" ".join((b"2016-10-06T00:17:09.669794202Z", stream, tag, text))


def docker_line(chance, stream, partial):
    text = "".join(chance.choices('ab"\\\t\u00e9\u20ac\U0001f600 ', k=chance.randrange(60)))
    log = text if partial else text + "\n"
    return json.dumps({"log": log, "stream": stream.decode(), "time": "t"}, ensure_ascii=chance.random() < 0.5).encode()


def log_of(chance, line):
    """Lines of both streams, many of them partial, some of no format, and an end that is no line."""
    lines = []
    for _ in range(LINES):
        if chance.random() < 0.01:
            lines.append(chance.choice((b"", b"x", b"{}", b" stdout F x", b"t stdin F x", b"t stdout PF x", b'{"log":"a"}')))
        else:
            lines.append(line(chance, chance.choice((b"stdout", b"stderr")), chance.random() < 0.4))
    return b"\n".join((*lines, b"t stdout F no end"))


class Containers(unittest.TestCase):
    tested = None
    seed = 0

    def setUp(self):
        folder = tempfile.TemporaryDirectory()
        self.addCleanup(folder.cleanup)
        self.folder = Path(folder.name)

    def convert(self, words, log, output=subprocess.PIPE):
        """Runs the program over a log; its status and what it wrote."""
        given = self.folder / "log"
        given.write_bytes(log)
        with given.open("rb") as source:
            return self.run_over(words, source, output)

    def run_over(self, words, source, output=subprocess.PIPE):
        started = subprocess.Popen(
            [os.fspath(self.tested), *words], cwd=self.folder, stdin=source, stdout=output, stderr=subprocess.PIPE
        )
        return finish(started)

    def assert_ended(self, ran, status, written):
        self.assertEqual((ran.returncode, ran.stderr), (status, b""))
        self.assertTrue(ran.stdout == written, f"{len(ran.stdout)} bytes where the model has {len(written)}, or others")

    def test_container_lines_as_the_model_has_them(self):
        chance = random.Random(self.seed)
        for name, line in ("cri", cri_line), ("docker", docker_line):
            log = log_of(chance, line)
            for keep in ("all", "stdout", "stderr"):
                with self.subTest(format=name, stream=keep, seed=self.seed):
                    written, bad = plain(name, keep, log)
                    self.assertGreater(bad, 0)
                    self.assert_ended(self.convert(["--format", name, "--stream", keep], log), BAD_LINES, written)

    def test_container_line_of_the_longest_content(self):
        head = b"t stdout F "
        for more, status in (0, DONE), (1, BAD_LINES):
            text = b"x" * (LONGEST - len(head) + more)
            written = text + b"\n" if status == DONE else b""
            ran = self.convert(["--format", "cri", "--stream", "all"], head + text + b"\nt stdout F y\n")
            self.assert_ended(ran, status, written + b"y\n")

    def test_container_message_is_cut(self):
        """Two partial lines have more bytes together than a message may have."""
        text = b"x" * (LONGEST - 100)
        log = b"t stdout P " + text + b"\nt stderr F y\nt stdout F " + b"z" * 200 + b"\n"
        ran = self.convert(["--format", "cri", "--stream", "all"], log)
        self.assert_ended(ran, DONE, b"y\n" + text + b"z" * 100 + b"\n")

    def test_container_pipe_is_closed(self):
        behind, before = os.pipe()
        os.close(behind)
        ran = self.convert(["--format", "cri", "--stream", "all"], b"t stdout F x\n", before)
        os.close(before)
        self.assertEqual((ran.returncode, ran.stderr), (OUT_FAULT, b""))

    def test_container_source_is_a_folder(self):
        source = os.open(self.folder, os.O_RDONLY)
        self.addCleanup(os.close, source)
        self.assert_ended(self.run_over(["--format", "cri", "--stream", "all"], source), SOURCE_FAULT, b"")

    def test_container_words_are_refused(self):
        for words in [], ["--format", "cri"], ["--format=cri", "--stream=all"], ["--stream", "all", "--format", "cri"], ["--format", "cri", "--stream", b"\xff"]:
            with self.subTest(words=words):
                self.assert_ended(self.convert(words, b"t stdout F x\n"), USAGE, b"")
