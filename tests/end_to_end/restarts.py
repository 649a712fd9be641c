"""Runs over what an earlier run left."""

import contextlib
import os
import random
import shutil
import subprocess
from pathlib import Path

import example
import program
from area import changed, fingerprint_row, native_row, row
from peer import CUT_OFF, Behaviour, Peer
from shipping import ONCE, Shipping, end_of, lines_of, numbered_lines, places_of

# so many files; of them so many grew, were cut and were renamed between two runs
FILES = 1_000
GREW, WERE_CUT, RENAMED = 100, 10, 10
# seconds that a run over them may take
PATIENCE = 120

# so many runs are killed one after the other over one registry, at most so many seconds after their start
KILLS = 200
LONGEST = 0.3
# so many lines are written to each file before each of them
LINES = 60


class Restarts(Shipping):
    def setUp(self):
        super().setUp()
        self.logs = self.folder / "logs"
        self.logs.mkdir()

    def ship_logs(self, peer, identity="path"):
        settings = program.settings_text(self.logs / "*.log", peer.host)
        self.write_settings(settings.replace('"path"', f'"{identity}"'))
        return program.finish(self.start_prepared(), PATIENCE)

    def assert_shipped(self, ran, peer, rows, events):
        """The registry has these rows, and these paths, offsets and messages were sent."""
        self.assertEqual(ran.returncode, 0, ran.stdout[-200:])
        self.assertEqual(self.stored_rows(), sorted(rows, key=lambda it: it["key"].encode()))
        self.assertEqual(peer.faults, [])
        self.assertEqual(sorted(places_of(peer.payloads)), sorted(events))

    def test_many_files_of_which_some_changed(self):
        """One that grew is read on, one that was cut anew, and one of a new name from its start; the row of a name that is
        gone goes. A further run sends nothing."""
        paths = [self.logs / f"{number:04}.log" for number in range(FILES)]
        for path in paths:
            path.write_text("first\nsecond\n")
        rows = {path: changed(row(str(path), 13)) for path in paths}
        with Peer() as peer:
            ran = self.ship_logs(peer)
        events = [(str(path), offset, message) for path in paths for offset, message in ((0, "first"), (6, "second"))]
        self.assert_shipped(ran, peer, rows.values(), events)

        grew, were_cut = paths[:GREW], paths[GREW : GREW + WERE_CUT]
        renamed = paths[GREW + WERE_CUT : GREW + WERE_CUT + RENAMED]
        events = []
        for path in grew:
            with path.open("a") as file:
                file.write("third\n")
            rows[path] = changed(row(str(path), 19))
            events.append((str(path), 13, "third"))
        for path in were_cut:
            path.write_text("anew\n")
            rows[path] = changed({**row(str(path), 5), "epoch": 1})
            events.append((str(path), 0, "anew"))
        for path in renamed:
            other = path.rename(path.with_suffix(".1.log"))
            del rows[path]
            rows[other] = changed(row(str(other), 13))
            events += [(str(other), 0, "first"), (str(other), 6, "second")]
        with Peer() as peer:
            ran = self.ship_logs(peer)
        self.assert_shipped(ran, peer, rows.values(), events)

        with Peer() as peer:
            ran = self.ship_logs(peer)
        self.assert_shipped(ran, peer, rows.values(), [])

    def test_rows_of_removed_files(self):
        """They stay where the input says so, and else they go."""
        path = self.logs / "a.log"
        path.write_text("first\n")
        with Peer() as peer:
            ran = self.ship_logs(peer)
        stored = [changed(row(str(path), 6))]
        self.assert_shipped(ran, peer, stored, [(str(path), 0, "first")])
        path.unlink()
        for clean, rows in (("false", stored), ("true", [])):
            with self.subTest(clean_removed=clean), Peer() as peer:
                text = program.settings_text(self.logs / "*.log", peer.host)
                self.write_settings(text.replace("[output]", f"clean_removed = {clean}\n[output]"))
                ran = program.finish(self.start_prepared(), PATIENCE)
                self.assert_shipped(ran, peer, rows, [])

    def test_example_loses_nothing_at_a_rotation(self):
        """By the settings of the example, files that grew, were renamed and have successors are sent whole, each line once."""
        logs = Path(shutil.copytree(example.FOLDER / "logs", self.folder / "shop"))
        files = sorted(logs.rglob("*.log"))
        wanted = sorted((str(it), *line) for it in files for line in lines_of(it.read_bytes()))
        with Peer() as peer:
            self.assertEqual(self.run_settings(example.settings_for(logs, peer.host)).returncode, 0)
            self.assertEqual(sorted(places_of(peer.payloads)), wanted)
            for it in files:
                before, rotated = it.read_bytes(), Path(f"{it}.1")
                it.rename(rotated)
                with rotated.open("ab") as opened:
                    opened.write(b"the last line\n")
                it.write_bytes(b"anew: " + before)
                wanted.append((str(rotated), len(before), "the last line"))
                wanted += [(str(it), *line) for line in lines_of(it.read_bytes())]
            self.assertEqual(self.run_words(*ONCE).returncode, 0)
        self.assertEqual((peer.faults, sorted(places_of(peer.payloads))), ([], sorted(wanted)))

    def test_rotated_file_goes_on_by_native_numbers(self):
        """Its row goes with it to the new name, and the new file under the old name is sent from its start."""
        path = self.logs / "a.log"
        path.write_text("first\nsecond\n")
        with Peer() as peer:
            ran = self.ship_logs(peer, "native")
        self.assert_shipped(ran, peer, [changed(native_row(path, 13))], [(str(path), 0, "first"), (str(path), 6, "second")])

        rotated = path.rename(self.logs / "a.1.log")
        with rotated.open("a") as file:
            file.write("third\n")
        path.write_text("anew\n")
        with Peer() as peer:
            ran = self.ship_logs(peer, "native")
        rows = [changed(native_row(rotated, 19)), changed(native_row(path, 5))]
        self.assert_shipped(ran, peer, rows, [(str(rotated), 13, "third"), (str(path), 0, "anew")])

    def test_file_of_two_paths_by_native_numbers(self):
        """It is sent once, by the first path in byte order; the other is told as doubled."""
        path, link = self.logs / "a.log", self.logs / "b.log"
        path.write_text("first\n")
        os.link(path, link)
        with Peer() as peer:
            ran = self.ship_logs(peer, "native")
        self.assert_shipped(ran, peer, [changed(native_row(path, 6))], [(str(path), 0, "first")])
        self.assertIn(f'passed "{link}" doubled\n'.encode(), ran.stdout)

    def ship_by_default(self, peer):
        """A run whose settings say nothing of how files are known."""
        settings = program.settings_text(self.logs / "*.log", peer.host)
        self.write_settings(settings.replace('file_identity = "path"\n', ""))
        return program.finish(self.start_prepared(), PATIENCE)

    def test_files_are_known_by_fingerprints(self):
        """By default a file goes on under another name while its first 1,024 bytes stay, one of fewer is told as small, and
        one of other bytes is sent from its start, under its new key."""
        path, small = self.logs / "a.log", self.logs / "b.log"
        path.write_text(f"{'a' * 1_100}\nsecond\n")
        small.write_text("b" * 1_022 + "\n")
        with Peer() as peer:
            ran = self.ship_by_default(peer)
        self.assert_shipped(ran, peer, [changed(fingerprint_row(path, 1_108))], [(str(path), 0, "a" * 1_100), (str(path), 1_101, "second")])
        self.assertIn(f'passed "{small}" small\n'.encode(), ran.stdout)

        renamed = path.rename(self.logs / "c.log")
        with small.open("a") as file:
            file.write("\n")
        with Peer() as peer:
            ran = self.ship_by_default(peer)
        rows = [changed(fingerprint_row(renamed, 1_108)), changed(fingerprint_row(small, 1_024))]
        self.assert_shipped(ran, peer, rows, [(str(small), 0, "b" * 1_022)])
        self.assertNotIn(b"passed", ran.stdout)

        renamed.write_text(f"{'c' * 1_100}\n")
        with Peer() as peer:
            ran = self.ship_by_default(peer)
        rows = [changed(fingerprint_row(renamed, 1_101)), changed(fingerprint_row(small, 1_024))]
        self.assert_shipped(ran, peer, rows, [(str(renamed), 0, "c" * 1_100)])

    def test_copies_by_fingerprints(self):
        """A copy has the key of the file, and is told as doubled while both have the same first bytes."""
        path, copy = self.logs / "a.log", self.logs / "b.log"
        path.write_text(f"{'a' * 1_100}\n")
        copy.write_text(f"{'a' * 1_100}\nother\n")
        with Peer() as peer:
            ran = self.ship_by_default(peer)
        self.assert_shipped(ran, peer, [changed(fingerprint_row(path, 1_101))], [(str(path), 0, "a" * 1_100)])
        self.assertIn(f'passed "{copy}" doubled\n'.encode(), ran.stdout)

    def run_and_kill(self, peer, seconds):
        """A run over the logs, killed after so many seconds where it has not ended by then."""
        self.write_settings(program.settings_text(self.logs / "*.log", peer.host, "workers = 2", "bulk_max_size = 20"))
        with self.start_prepared() as started:
            with contextlib.suppress(subprocess.TimeoutExpired):
                started.communicate(timeout=seconds)
            # so that nothing is noted as acknowledged that the program could not have heard
            peer.fall_silent()
            started.kill()

    def assert_covered_by(self, events, acknowledged, covered):
        """Each line before the offset of a row was acknowledged, in this run or an earlier one. Up to the places in `covered` this
        was seen before."""
        for it in self.stored_rows():
            path, since, offset = it["path"], covered[it["path"]], it["offset"]
            self.assertGreaterEqual(offset, since, "the offset went back")
            before = [event for event in events if since <= event[0] < offset]
            self.assertIn(offset, (since, end_of(before)), "the offset is within a line")
            self.assertLessEqual({(path, *event) for event in before}, acknowledged)
            covered[path] = offset

    def test_killed_at_many_moments(self):
        """The files grow before each run that is killed. The run behind it ends, and then all lines were acknowledged."""
        chance = random.Random(self.seed)
        paths = [self.logs / f"{number}.log" for number in range(3)]
        covered = {str(path): 0 for path in paths}
        acknowledged = set()
        all_content, all_events = numbered_lines(KILLS * LINES)
        for kill in range(1, KILLS + 1):
            events = all_events[: kill * LINES]
            for path in paths:
                with path.open("ab") as file:
                    file.write(all_content[file.tell() : end_of(events)])
            seconds = LONGEST * chance.random()
            with self.subTest(seed=self.seed, kill=kill, seconds=seconds):
                with Peer(Behaviour.LATE) as peer:
                    self.run_and_kill(peer, seconds)
                self.assertLessEqual(set(peer.faults), {CUT_OFF})
                acknowledged |= set(places_of(peer.acknowledged))
                self.assert_covered_by(events, acknowledged, covered)
                with Peer() as peer:
                    ran = self.ship_logs(peer)
                self.assertEqual(ran.returncode, 0, ran.stdout[-200:])
                acknowledged |= set(places_of(peer.acknowledged))
                self.assert_covered_by(events, acknowledged, covered)
                self.assertEqual(set(covered.values()), {end_of(events)})
        self.assertEqual(acknowledged, {(str(path), *event) for path in paths for event in all_events})
