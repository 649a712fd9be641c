"""Runs that are killed at random moments."""

import contextlib
import random
import signal
import subprocess
import time

import program
from area import changed, row
from peer import CUT_OFF, Behaviour, Peer
from shipping import WINDOW, Shipping, end_of, events_of, numbered_lines, places_of

# the peers of these runs: how they acknowledge, and how many windows before they hang up
KILLED_WITH = (
    (Behaviour.WHOLE, None),
    (Behaviour.SINGLE_BYTES, None),
    (Behaviour.WHOLE, 2),
    (Behaviour.SINGLE_BYTES, 1),
)
# so many runs are killed with each of them
KILLS = 5


class Killed(Shipping):
    def seconds_undisturbed(self, content, peer):
        """How long such a run goes on that nobody kills. It stores all that was acknowledged."""
        with self.shipping(content, peer) as started:
            since = time.monotonic()
            program.finish(started)
            seconds = time.monotonic() - since
        self.assert_rows(row(self.path, end_of(events_of(peer.acknowledged))))
        return seconds

    def ship_and_kill(self, content, peer, seconds):
        """Such a run, killed after so many seconds. True where it had not ended before."""
        with self.shipping(content, peer) as started:
            try:
                started.communicate(timeout=seconds)
            except subprocess.TimeoutExpired:
                # so that nothing is noted as acknowledged that the program could not have heard
                peer.fall_silent()
                started.kill()
        return started.returncode == -signal.SIGKILL

    def assert_killed_is_covered(self, peer, events):
        """Each line before the offset of the row was acknowledged. A run that is killed early leaves no row yet."""
        self.assertLessEqual(set(peer.faults), {CUT_OFF})
        self.assert_first_acknowledged(peer, events)
        if self.stored_rows():
            self.assert_covered(peer)

    def ship_with_workers_and_kill(self, peer, seconds):
        """A run of four workers over several files, killed so many seconds after it stored that a line was acknowledged. The
        events of each file."""
        self.enter_new_folder()
        with peer:
            files, _ = self.prepare_files(peer.host, "workers = 4", "bulk_max_size = 50", "pipelining = 1")
            with self.start_prepared() as started:
                self.wait_until(lambda: any(it["offset"] for it in self.stored_rows()), "no line was stored")
                with contextlib.suppress(subprocess.TimeoutExpired):
                    started.communicate(timeout=seconds)
                peer.fall_silent()
                started.kill()
        return files

    def assert_rows_are_covered(self, peer, files):
        """Each line before the offset of a row was acknowledged, whichever worker had it."""
        self.assertLessEqual(set(peer.faults), {CUT_OFF})
        acknowledged = set(places_of(peer.acknowledged))
        for it in self.stored_rows():
            self.assertEqual(it, changed(row(it["path"], it["offset"])))
            before = [event for event in files[it["path"]] if event[0] < it["offset"]]
            self.assertEqual(end_of(before), it["offset"], "the offset is within a line")
            self.assertLessEqual({(it["path"], *event) for event in before}, acknowledged)

    def test_killed_with_four_workers_no_offset_passes_an_unacknowledged_line(self):
        chance = random.Random(self.seed)
        for _ in range(KILLS):
            seconds = chance.random()
            with self.subTest(seed=self.seed, seconds=seconds):
                # a late one, since rows are stored where nothing else is to be done
                peer = Peer(Behaviour.LATE)
                self.assert_rows_are_covered(peer, self.ship_with_workers_and_kill(peer, seconds))

    def test_killed_at_random_no_offset_passes_an_unacknowledged_line(self):
        chance = random.Random(self.seed)
        content, events = numbered_lines(3 * WINDOW)
        killed = 0
        for behaviour, windows in KILLED_WITH:
            undisturbed = self.seconds_undisturbed(content, Peer(behaviour, windows))
            for part in range(KILLS):
                seconds = undisturbed * (part + chance.random()) / KILLS
                with self.subTest(seed=self.seed, peer=behaviour.name, windows=windows, seconds=seconds):
                    peer = Peer(behaviour, windows)
                    killed += self.ship_and_kill(content, peer, seconds)
                    self.assert_killed_is_covered(peer, events)
        self.assertGreater(killed, 0, f"no run was killed before its end, with the seed {self.seed}")
