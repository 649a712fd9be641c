"""What the tests have in common: runs of the program in a folder of their own, and what they compare."""

import contextlib
import datetime
import json
import re
import subprocess
import tempfile
import time
import unittest
from pathlib import Path

import program
from area import changed, row, rows_of, text
from peer import GLANCE, Window

ONCE = ("-c", "beat.toml", "--once")
UNREACHABLE = "status 7 unreachable worker 0 failures 1"
# so many lines go into one window at most where the settings do not say it
WINDOW = 2048
# so many files of so many lines each are read by several lanes
FILES = 8
LINES = 500
STAMP = re.compile(rb'\{"@timestamp":"(\d{4}-\d\d-\d\dT\d\d:\d\d:\d\d\.\d{3}Z)"')


def now():
    return datetime.datetime.now(datetime.timezone.utc)


def numbered_lines(count):
    """So many short lines as the content of a file, and as events: the offset and the message of each."""
    content, events = "", []
    for number in range(count):
        message = f"line {number}"
        events.append((len(content), message))
        content += f"{message}\n"
    return content.encode(), events


def lines_of(content):
    """The offset and the content of each complete line."""
    lines, offset = [], 0
    for line in content.decode().split("\n")[:-1]:
        lines.append((offset, line))
        offset += len(line) + 1
    return lines


def events_of(payloads):
    """The offset and the message of each."""
    events = map(json.loads, payloads)
    return [(event["log"]["offset"], event["message"]) for event in events]


def places_of(payloads):
    """The path, the offset and the message of each."""
    events = map(json.loads, payloads)
    return [(event["log"]["file"]["path"], event["log"]["offset"], event["message"]) for event in events]


def end_of(events):
    """The place behind the last of these lines."""
    return max((offset + len(message) + 1 for offset, message in events), default=0)


def windows_of(peer):
    """How many events each window of a receiver had."""
    return [frame.count for frame in peer.frames if isinstance(frame, Window)]


class Shipping(unittest.TestCase):
    tested = None
    seed = 0

    def setUp(self):
        self.enter_new_folder()

    def enter_new_folder(self):
        """The folder of the next run; it is removed when the test has ended."""
        room = tempfile.TemporaryDirectory(prefix="beat-test-")
        self.addCleanup(room.cleanup)
        self.folder = Path(room.name).resolve()
        self.path = str(self.folder / "a.log")
        self.area = self.folder / "data" / "registry.a"

    # what a test does

    def run_words(self, *words):
        return program.run(self.tested, words, self.folder)

    def write_settings(self, settings):
        (self.folder / "beat.toml").write_bytes(settings.encode())

    def run_settings(self, settings):
        self.write_settings(settings)
        return self.run_words(*ONCE)

    def prepare(self, content, host, *more):
        """A file with this content, or none, and the settings for it. More are keys of the output; where they do not say
        otherwise, one failure ends a run, so that none has to rest."""
        if content is not None:
            Path(self.path).write_bytes(content)
        attempts = () if any(line.startswith("attempts") for line in more) else ("attempts = 1",)
        self.write_settings(program.settings_text(self.path, host, *attempts, *more))

    def prepare_files(self, host, *more):
        """Several files and the settings for them, with lanes and a small queue. The events of each file, and its size. More are
        keys of the output."""
        logs = self.folder / "logs"
        logs.mkdir()
        content, events = numbered_lines(LINES)
        paths = [logs / f"{number}.log" for number in range(FILES)]
        for path in paths:
            path.write_bytes(content)
        settings = program.settings_text(logs / "*.log", host, *more)
        self.write_settings(settings + "[queue]\nevents = 1000\n[harvest]\nlanes = 3\n")
        return {str(path): events for path in paths}, len(content)

    def start_prepared(self, output=subprocess.PIPE):
        return program.start(self.tested, ONCE, self.folder, output)

    def start(self, content, peer, *more, output=subprocess.PIPE):
        """Starts a run over such a file."""
        self.prepare(content, peer.host, *more)
        return self.start_prepared(output)

    def ship(self, content, peer, *more):
        """One run over such a file."""
        return program.finish(self.start(content, peer, *more))

    @contextlib.contextmanager
    def shipping(self, content, peer):
        """A run in a folder of its own, from its start on or, where the peer hangs up, from then on."""
        self.enter_new_folder()
        with peer, self.start(content, peer) as started:
            try:
                if peer.windows is not None:
                    self.assertTrue(peer.hung_up.wait(program.LIMIT), "the peer got no window to hang up at")
                yield started
            finally:
                started.kill()

    def wait_until(self, holds, why):
        last = time.monotonic() + program.LIMIT
        while not holds():
            self.assertLess(time.monotonic(), last, why)
            time.sleep(GLANCE)

    # what it compares

    def assert_wrote(self, ran, *lines):
        """Standard output is these lines, the last of which has the exit status; nothing else was written."""
        wrote = ran.stdout.decode(errors="replace").splitlines(keepends=True)
        for found, line in zip(wrote, lines):
            self.assertEqual(found, f"{line}\n")
        self.assertEqual(len(wrote), len(lines), wrote[-1:])
        self.assertEqual(ran.stderr, b"")
        self.assertEqual(ran.returncode, int(lines[-1].split()[1]))

    def assert_done(self, ran, rows, shipped, dropped=0):
        """The report and the area have these rows, in byte order of their keys, and no other."""
        rows = sorted(rows, key=lambda it: it["key"].encode())
        files = [f"file {text(it['key'])} {it['epoch']} {it['offset']} {text(it['path'])}" for it in rows]
        self.assert_wrote(ran, *files, f"shipped {shipped} dropped {dropped}", "status 0 done")
        self.assert_rows(*rows)

    def stored_rows(self):
        """The rows of the registry: none where its area is not opened. In how many records they came is left open, since a
        run stores while it reads. None of these runs stores so much that the second area is begun."""
        second = self.area.with_suffix(".b")
        self.assertFalse(second.exists() and second.stat().st_size > 1, "the second area is not blank")
        stored = self.area.read_bytes() if self.area.exists() else b""
        return rows_of(stored) if stored.startswith(b"{") else []

    def assert_rows(self, *rows):
        """The registry has these rows, each with the moment of its file's last change, and no other."""
        rows = sorted(rows, key=lambda it: it["key"].encode())
        self.assertEqual(self.stored_rows(), [changed(it) for it in rows])

    def assert_report(self, ran, offset, shipped):
        """The run over `a.log` has this row and no other."""
        self.assert_done(ran, [row(self.path, offset)], shipped)

    def assert_sent(self, peer, events, since):
        """These paths, offsets and messages came, those of each file in this order, in whole windows, each with a moment of
        this run. Which file comes first is left open: lanes read files at once."""
        self.assertEqual(peer.faults, [])
        self.assertEqual(len(peer.payloads), len(events))
        near = datetime.timedelta(seconds=1)
        payloads = sorted(peer.payloads, key=lambda it: json.loads(it)["log"]["file"]["path"].encode())
        events = sorted(events, key=lambda it: it[0].encode())
        for payload, (path, offset, message) in zip(payloads, events):
            stamp = STAMP.match(payload)
            self.assertIsNotNone(stamp, payload)
            moment = datetime.datetime.strptime(stamp[1].decode(), "%Y-%m-%dT%H:%M:%S.%fZ")
            moment = moment.replace(tzinfo=datetime.timezone.utc)
            self.assertTrue(since - near <= moment <= now() + near, f"{moment} is not near {now()}")
            rest = f',"input":{{"type":"filestream"}},"log":{{"file":{{"path":{text(path)}}},"offset":{offset}}}'
            self.assertEqual(payload[stamp.end() :].decode(), f'{rest},"message":{text(message)}}}')

    def assert_events(self, peer, events, since):
        """These offsets and messages of `a.log` came so."""
        self.assert_sent(peer, [(self.path, *event) for event in events], since)

    def assert_covered(self, peer):
        """The area has the one row of `a.log`, at 0 or at the end of an event that was acknowledged."""
        (stored,) = self.stored_rows()
        self.assertEqual(stored, changed(row(self.path, stored["offset"])))
        ends = [0] + [end_of([event]) for event in events_of(peer.acknowledged)]
        why = f"{stored['offset']} ends no acknowledged line; the last of them ends at {ends[-1]}"
        self.assertTrue(stored["offset"] in ends, why)

    def assert_first_acknowledged(self, peer, events):
        """What was acknowledged are the first of these events, in order and without a gap."""
        acknowledged = events_of(peer.acknowledged)
        self.assertTrue(acknowledged == events[: len(acknowledged)], "not the first lines were acknowledged")
