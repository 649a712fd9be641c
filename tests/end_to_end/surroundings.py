"""What a run finds around it: closed streams, a data folder or a registry that is none, a full disk, and another run."""

import os

import program
from area import row
from peer import Behaviour, Peer
from shipping import ONCE, Shipping

DISK_FAULT = "status 5 disk fault"

# what a shell closes before the program begins, and whether the report can be read then
CLOSED = (("<&-", True), (">&-", False), ("2>&-", True), ("<&- >&-", False), ("<&- >&- 2>&-", False))

# what stands in the place of a registry or of its folder, by how it is made
NO_REGISTRY = {
    "its folder is a file": lambda path: path.parent.write_bytes(b""),
    "its folder is a link to nothing": lambda path: path.parent.symlink_to("nothing"),
    "a folder": lambda path: path.mkdir(parents=True),
    "a pipe": lambda path: (path.parent.mkdir(), os.mkfifo(path)),
    "a link to a device": lambda path: (path.parent.mkdir(), path.symlink_to(os.devnull)),
    "a link to nothing": lambda path: (path.parent.mkdir(), path.symlink_to("nothing")),
}

# so often two first runs begin together
TOGETHER = 10

# so many files are followed over a full disk, by so many runs; a shell counts what a file may have in blocks of so many bytes
FILES = 40
RUNS = 10
BLOCK_BYTES = 512


class Surroundings(Shipping):
    def test_closed_streams(self):
        """No file that a run opens is taken for one of them: the registry is whole, and the report is printed or lost."""
        for closed, is_read in CLOSED:
            self.enter_new_folder()
            with self.subTest(closed=closed), Peer() as peer:
                self.prepare(b"a\nb\n", peer.host)
                words = ("-c", f'exec "$0" "$@" {closed}', os.fspath(self.tested), *ONCE)
                ran = program.run("sh", words, self.folder)
                if is_read:
                    self.assert_report(ran, 4, 2)
                else:
                    self.assertEqual((ran.returncode, ran.stdout, ran.stderr), (0, b"", b""))
                    self.assert_rows(row(self.path, 4))

    def test_registry_is_no_regular_file(self):
        """That is found before anything is sent, and left as it is."""
        for kind, make in NO_REGISTRY.items():
            self.enter_new_folder()
            with self.subTest(kind=kind), Peer() as peer:
                self.prepare(b"a\nb\n", peer.host)
                make(self.area)
                before = sorted((str(it), it.lstat().st_mode) for it in self.folder.rglob("*"))
                self.assert_wrote(self.run_words(*ONCE), DISK_FAULT)
                self.assertEqual(peer.connections, 0)
                self.assertEqual(sorted((str(it), it.lstat().st_mode) for it in self.folder.rglob("*")), before)

    def test_full_disk(self):
        """Nothing is sent of which no row could be stored, however often it is tried; once there is room, each line is sent."""
        logs = self.folder / "logs"
        logs.mkdir()
        paths = [logs / f"{number}.log" for number in range(FILES)]
        for path in paths:
            path.write_text("first\n")
        with Peer() as peer:
            self.write_settings(program.settings_text(logs / "*.log", peer.host))
            self.assert_done(self.run_words(*ONCE), [row(str(path), 6) for path in paths], FILES)
        stored = self.stored_rows()

        for path in paths:
            with path.open("a") as file:
                file.write("second\n")
        (logs / "new.log").write_text("first\n")
        blocks = self.area.stat().st_size // BLOCK_BYTES
        full = f'trap "" XFSZ && ulimit -f {blocks} && exec "$0" "$@"'
        with Peer() as peer:
            self.write_settings(program.settings_text(logs / "*.log", peer.host))
            for _ in range(RUNS):
                self.assert_wrote(program.run("sh", ("-c", full, os.fspath(self.tested), *ONCE), self.folder), DISK_FAULT)
            self.assertEqual((peer.connections, peer.payloads), (0, []))
        self.assertEqual(self.stored_rows(), stored)

        with Peer() as peer:
            self.write_settings(program.settings_text(logs / "*.log", peer.host))
            rows = [row(str(path), 13) for path in paths] + [row(str(logs / "new.log"), 6)]
            self.assert_done(self.run_words(*ONCE), rows, FILES + 1)

    def test_registry_of_another_run(self):
        """The other run goes on as if nobody else had come."""
        with Peer(Behaviour.SLOW) as peer, self.start(b"a\nb\n", peer) as first:
            self.wait_until(lambda: peer.payloads, "nothing was sent")
            second = self.run_words(*ONCE)
            ran = program.finish(first)
        self.assert_wrote(second, DISK_FAULT)
        self.assert_report(ran, 4, 2)
        self.assertEqual(peer.connections, 1)

    def test_first_runs_together(self):
        """One of them ships. The other finds the registry locked or, where it comes later, nothing more to send."""
        for _ in range(TOGETHER):
            self.enter_new_folder()
            with Peer() as peer:
                self.prepare(b"a\nb\n", peer.host)
                with self.start_prepared() as one, self.start_prepared() as other:
                    ended = sorted((program.finish(it) for it in (one, other)), key=lambda it: b"shipped 2" not in it.stdout)
            self.assert_report(ended[0], 4, 2)
            if ended[1].returncode == 0:
                self.assert_report(ended[1], 4, 0)
            else:
                self.assert_wrote(ended[1], DISK_FAULT)
            self.assertEqual(len(peer.payloads), 2)
