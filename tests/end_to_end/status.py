"""The program `beat_status`: what it shows of real files and registries, beside runs that write them."""

import fcntl
import json
import os
import subprocess
import threading
import time
from pathlib import Path

import exposition
import program
from area import area, bodies, fingerprint_row, native_row, row
from peer import Behaviour, Peer
from shipping import Shipping, end_of, events_of, numbered_lines

# so many looks at a run, whose file has so many lines, sent in windows of so many
LOOKS = 1_000
LINES = 3_000
WINDOW = 20

# so many looks at two areas that are written all the time, with so many rows, and so many commits between two checkpoints
GLANCES = 1_000
ROWS = 100
COMMITS = 20
# so many of the looks may show an older commit
MOST_OLDER = 100

DONE, USAGE, SETTINGS, REGISTRY_BAD, DISK_FAULT, OUT_FAULT, SOURCE_FAULT = 0, 2, 3, 4, 5, 8, 9

# columns that a line of the table has at most
COLUMNS = 100

INPUT = '[[inputs]]\nid = "{}"\npaths = ["{}"]\nfile_identity = "{}"\n'


class Writer(threading.Thread):
    """Commits to two areas as a run does: a record is written behind a closed gate, which is then opened, and every so often
    the other area is closed, cut and written anew. Each commit has the next number as the offset of each row."""

    def __init__(self, data):
        super().__init__()
        self.areas = [open(data / name, "w+b", buffering=0) for name in ("registry.a", "registry.b")]
        self.used = self.generation = self.end = 0
        # the offset that was begun to be written last, and the one that was written last
        self.begun = self.done = 0
        self.ending = threading.Event()

    def rows(self):
        return [row(f"/gone/{number:04}/" + "x" * 900, self.begun) for number in range(ROWS)]

    def records(self):
        return b"".join(b"{%07d " % len(body) + body + b"\n" for body in bodies(self.rows())) + b"."

    def put(self, bytes, at):
        opened = self.areas[self.used].fileno()
        os.pwrite(opened, bytes, at)
        os.fsync(opened)

    def checkpoint(self):
        self.used = 1 - self.used
        self.generation += 1
        text = b"{beat 2 %020d\n" % self.generation + self.records()
        self.put(b".", 0)
        self.areas[self.used].truncate(1)
        self.put(text[1:], 1)
        self.put(b"{", 0)
        self.end = len(text) - 1

    def commit(self):
        text = self.records()
        self.put(text[1:], self.end + 1)
        self.put(b"{", self.end)
        self.end += len(text) - 1

    def run(self):
        while not self.ending.is_set():
            self.begun += 1
            if self.begun % COMMITS == 1:
                self.checkpoint()
            else:
                self.commit()
            self.done = self.begun


class Status(Shipping):
    status = None

    def setUp(self):
        super().setUp()
        self.logs = self.folder / "logs"
        self.logs.mkdir()
        self.data = self.folder / "data"

    def look(self, *words, stdout=subprocess.PIPE):
        words = ("-c", "beat.toml", *words)
        return program.finish(program.start(self.status, words, self.folder, stdout))

    def shown(self):
        """What is shown as JSON."""
        ran = self.look("--format", "json")
        self.assertEqual((ran.returncode, ran.stderr), (DONE, b""))
        return json.loads(ran.stdout)

    def store(self, *rows):
        self.data.mkdir()
        self.area.write_bytes(area(*rows))

    def write_inputs(self, *inputs):
        settings = "".join(INPUT.format(*it) for it in inputs)
        self.write_settings(settings + '[output]\nhosts = ["127.0.0.1:1"]\n')

    def log(self, name, content):
        path = self.logs / name
        path.parent.mkdir(exist_ok=True)
        path.write_bytes(content)
        return path

    def prepare_kinds(self):
        """A file of each kind, and the registry and the settings for them. What is to be shown of each: its state, its path, its
        size, its row's epoch and offset, and the bytes that it is behind."""
        rotated, shorter = self.log("n/app.log.1", b"x" * 50), self.log("n/short.log", b"x" * 7)
        new, doubled = self.log("n/new.log", b"x" * 9), self.logs / "n" / "other.log"
        os.link(new, doubled)
        printed, small = self.log("f/full.log", b"y" * 1_024), self.log("f/small.log", b"z" * 1_023)
        gone = self.logs / "n" / "gone.log"
        gone_row = {**row(str(gone), 3), "key": "filestream::w::native::1-1"}
        old_name = {**native_row(rotated, 20), "path": str(self.logs / "n" / "app.log")}
        self.store(old_name, native_row(shorter, 30), gone_row, fingerprint_row(printed, 1_024, "f"))
        self.write_inputs(("w", self.logs / "n" / "*", "native"), ("f", self.logs / "f" / "*.log", "fingerprint"))
        return [
            ("present", str(rotated), 50, 0, 20, 30),
            ("shorter", str(shorter), 7, 0, 30, 7),
            ("gone", str(gone), None, 0, 3, None),
            ("present", str(printed), 1_024, 0, 1_024, 0),
            ("new", str(new), 9, 0, 0, 9),
            ("doubled", str(doubled), 9, 0, 0, None),
            ("small", str(small), 1_023, 0, 0, 1_023),
        ]

    def test_status_of_each_kind(self):
        """Each format tells the same of each file, with the area locked by another; folder and area stay as they were."""
        wanted = self.prepare_kinds()
        stored = self.area.read_bytes()
        with open(self.area, "rb") as opened:
            fcntl.flock(opened, fcntl.LOCK_EX)
            shown = self.shown()
            table = self.look()
            text = self.look("--format", "prometheus")
        fields = ("state", "path", "size", "epoch", "offset", "behind_bytes")
        told = [tuple(it[field] for field in fields) for it in shown["files"]]
        self.assertEqual(sorted(told, key=str), sorted(wanted, key=str))
        self.assertEqual(shown["generation"], 1)
        self.assertEqual(shown["totals"]["behind_bytes"], 30 + 7 + 9 + 1_023)
        self.assertEqual(shown["committed_ms"], os.stat(self.area).st_mtime_ns // 1_000_000)
        self.assert_table(table, wanted)
        self.assert_samples(text, wanted)
        self.assertEqual(os.listdir(self.data), ["registry.a"])
        self.assertEqual(self.area.read_bytes(), stored)

    def assert_table(self, ran, wanted):
        """A line for each file, those that are most bytes behind first."""
        lines = ran.stdout.decode().splitlines()
        self.assertEqual((ran.returncode, ran.stderr, len(lines)), (DONE, b"", len(wanted) + 3))
        self.assertLessEqual(max(map(len, lines)), COLUMNS)
        behind = [0 if it == "-" else int(it) for it in (line.split()[0] for line in lines[1:-2])]
        self.assertEqual(behind, sorted(behind, reverse=True))
        for state, path, size, epoch, offset, bytes_behind in wanted:
            numbers = ["-" if it is None else str(it) for it in (bytes_behind, size, offset, epoch)]
            ends = [line for line in lines if line.split()[:5] == [*numbers, state]]
            self.assertTrue(any(path.endswith(line.split()[5].removeprefix("..")) for line in ends), path)

    def assert_samples(self, ran, wanted):
        """The text format is read strictly, and tells the same."""
        self.assertEqual((ran.returncode, ran.stderr), (DONE, b""))
        families = exposition.read(ran.stdout.decode())
        places = {"beat_file_behind_bytes": 5, "beat_file_offset_bytes": 4, "beat_file_size_bytes": 2}
        for name, place in places.items():
            told = {dict(labels)["path"]: value for labels, value in families[name].items()}
            kept = [it for it in wanted if it[0] not in ("doubled", "small") and it[place] is not None]
            self.assertEqual(told, {it[1]: it[place] for it in kept})
        counts = {dict(labels)["state"]: value for labels, value in families["beat_files"].items()}
        self.assertEqual(counts, {"present": 2, "shorter": 1, "gone": 1, "new": 1, "doubled": 1, "small": 1})
        self.assertEqual(families["beat_registry_generation"], {(): 1})

    def test_status_of_hostile_names(self):
        """Labels are escaped, JSON is one object, and the table has no control character."""
        names = ['quo"te.log', "back\\slash.log", "line\nfeed.log", "esc\x1bape.log", "ä" * 60 + ".log"]
        paths = [str(self.log(name, b"x\n")) for name in names]
        self.write_inputs(("w", self.logs / "*.log", "path"))
        self.assertEqual(sorted(it["path"] for it in self.shown()["files"]), sorted(paths))
        families = exposition.read(self.look("--format", "prometheus").stdout.decode())
        told = [dict(labels)["path"] for labels in families["beat_file_size_bytes"]]
        self.assertEqual(sorted(told), sorted(paths))
        table = self.look().stdout.decode()
        self.assertTrue(all(it.isprintable() or it == "\n" for it in table))
        self.assertLessEqual(max(map(len, table.splitlines())), COLUMNS)
        self.assertFalse(self.data.exists())

    def test_status_beside_a_run(self):
        """While a run commits, no look is refused; offsets never fall, and never pass what the receiver had acknowledged."""
        content, events = numbered_lines(LINES)
        with Peer(Behaviour.LATE) as peer:
            started = self.start(content, peer, f"bulk_max_size = {WINDOW}")
            offsets = []
            while started.poll() is None and len(offsets) < LOOKS:
                files = self.shown()["files"]
                # read after the look, so that it is no less than at its moment
                acknowledged = end_of(events_of(list(peer.acknowledged)))
                self.assertEqual(len(files), 1)
                self.assertEqual(files[0]["behind_bytes"], len(content) - files[0]["offset"])
                self.assertLessEqual(files[0]["offset"], acknowledged)
                offsets.append(files[0]["offset"])
            ran = program.finish(started, 60)
        self.assertEqual(ran.returncode, 0, ran)
        self.assertEqual(offsets, sorted(offsets))
        self.assertGreater(len(set(offsets)), 2, f"the offset moved too rarely in {len(offsets)} looks")
        (shown,) = self.shown()["files"]
        self.assertEqual((shown["state"], shown["offset"], shown["behind_bytes"]), ("present", end_of(events), 0))

    def test_status_beside_checkpoints(self):
        """While both areas are written all the time, no look is refused, and each shows all rows as of one commit that was begun.
        That is the last one that was done as the look began, or a later one, but for a few looks that read the areas one
        before a checkpoint and one after the next."""
        self.write_inputs(("w", self.logs / "*.log", "path"))
        self.data.mkdir()
        writer = Writer(self.data)
        writer.start()
        try:
            self.wait_until(lambda: writer.done, "nothing is written")
            older = 0
            for _ in range(GLANCES):
                done = writer.done
                offsets = {it["offset"] for it in self.shown()["files"]}
                self.assertEqual(len(offsets), 1)
                self.assertLessEqual(min(offsets), writer.begun)
                older += min(offsets) < done
            self.assertLessEqual(older, MOST_OLDER)
        finally:
            writer.ending.set()
            writer.join()
        self.assertGreater(writer.generation, 2, "too few checkpoints")

    def test_status_of_refusals(self):
        """Each status with its cause; nothing is shown, and why is told on standard error."""
        self.write_inputs(("w", self.logs / "*.log", "path"))
        self.assert_refused(USAGE, b"--format", "--format", "xml")
        self.assert_refused(USAGE, b"--unknown", "--unknown")
        for bad in (b"{beat 3", b"{beat 2 00000000000000000001\n{"):
            self.data.mkdir(exist_ok=True)
            self.area.write_bytes(bad)
            begun = time.monotonic()
            self.assert_refused(REGISTRY_BAD, b"status 4 registry bad area A at ")
            self.assertGreater(time.monotonic() - begun, 0.25, "it was not read again")
        self.area.unlink()
        self.area.mkdir()
        self.assert_refused(DISK_FAULT, b"status 5 disk fault\n")
        self.area.rmdir()
        with open("/dev/full", "wb") as full:
            self.assertEqual(self.look(stdout=full).returncode, OUT_FAULT)
        self.write_settings("[output]\n")
        self.assert_refused(SETTINGS, b"status 3 settings missing inputs\n")
        Path(self.folder / "beat.toml").unlink()
        self.assert_refused(SOURCE_FAULT, b"status 9 source fault\n")

    def assert_refused(self, status, why, *words):
        ran = self.look(*words)
        self.assertEqual((ran.returncode, ran.stdout), (status, b""))
        self.assertIn(why, ran.stderr)

    def test_status_help_and_version(self):
        for word, begins in (("--help", b"Shows how far"), ("--version", b"beat_status ")):
            ran = program.run(self.status, (word,), self.folder)
            self.assertEqual((ran.returncode, ran.stderr), (DONE, b""))
            self.assertTrue(ran.stdout.startswith(begins), ran.stdout)
