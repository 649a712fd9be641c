"""Several inputs, globs and files."""

import functools
import json
import os
import shutil
from pathlib import Path

import example
import program
from area import MAX_BODY, fingerprint_row, key_of, row
from peer import Peer
from shipping import ONCE, Shipping, lines_of, now, places_of

# the files of the example, by the inputs that cover them
EXAMPLE = {
    "services": ("orders/billing.log", "orders/orders.log"),
    "web": ("web/shop-1/access.log", "web/shop-2/access.log"),
}
# the bytes of its fingerprints
EXAMPLE_FINGERPRINT = 128
SMALL_FILES = 2_000
# so many names has one file that two inputs list: more often together than there may be files. A file system allows 65,000 names at most
HARD_LINKS = 32_769
# so many files may be open at once in a run that is to follow more of them
OPEN_FILES = 64
# so many descriptors a run has for itself, at most
OTHER_DESCRIPTORS = 32
# the status of a run that could not open a file
FOLDER_FAULT = 6
# a process has no byte at the first places of its own memory: the file is listed and opened, and each read of it fails
UNREADABLE = "/proc/self/mem"
# seconds that a run over them may take
PATIENCE = 120

# the contents of three files, what their inputs say besides, and what is sent of them: the file, the message and the tags
EVENTS = ("[1\n x\n y\n[2\n", "keep\nkeep not\nleave\n", "plain\ndrop\n")
MORE_OF_INPUTS = (
    "multiline.pattern = '^ '\nmultiline.match = \"after\"\n",
    "include_lines = ['^keep']\nexclude_lines = ['not$']\n",
    "",
)
PROCESSORS = """processors = [
    { add_tags = { tags = ["t"], when = { equals = { message = "plain" } } } },
    { drop_event = { when = { equals = { message = "drop" } } } },
]
"""
EVENTS_SENT = (
    ("stacks", "[1\n x\n y", None),
    ("stacks", "[2", None),
    ("filtered", "keep", None),
    ("processed", "plain", ["t"]),
)


class ManyFiles(Shipping):
    def run_for(self, settings, *words):
        """One run with a longer limit."""
        self.write_settings(settings)
        return program.finish(program.start(self.tested, words or ONCE, self.folder), PATIENCE)

    def assert_shipped(self, ran, peer, files, since, row_of=row):
        """Each complete line of these files was sent or dropped, and each has such a row."""
        rows, events, dropped = [], [], 0
        for input_id, path in sorted(files, key=lambda it: key_of(it[1], it[0]).encode()):
            content = Path(path).read_bytes()
            lines = lines_of(content)
            rows.append(row_of(path, content.rfind(b"\n") + 1, input_id))
            events += [(path, offset, line) for offset, line in lines if line]
            dropped += sum(not line for _, line in lines)
        self.assert_sent(peer, events, since)
        self.assert_done(ran, rows, len(events), dropped)
        self.assertEqual(peer.connections, 1)

    def test_example_settings(self):
        since = now()
        logs = Path(shutil.copytree(example.FOLDER / "logs", self.folder / "logs"))
        with Peer() as peer:
            ran = self.run_settings(example.settings_for(logs, peer.host))
        files = [(input_id, str(logs / name)) for input_id, names in EXAMPLE.items() for name in names]
        row_of = functools.partial(fingerprint_row, length=EXAMPLE_FINGERPRINT)
        self.assert_shipped(ran, peer, files, since, row_of)

    def test_two_thousand_small_files(self):
        """Of no line, of one, of two with an empty one between them, and with a rest that waits. Their names are so long
        that the area has two records."""
        since = now()
        logs = self.folder / "logs"
        logs.mkdir()
        contents = ("", "one line of file {}\n", "first of {}\n\nthird\n", "line of {}\nrest")
        for number in range(SMALL_FILES):
            (logs / f"{number}-{'x' * 200}.log").write_text(contents[number % len(contents)].format(number))
        with Peer() as peer:
            ran = self.run_for(program.settings_text(logs / "*.log", peer.host))
        self.assert_shipped(ran, peer, [("w", str(path)) for path in logs.iterdir()], since)
        self.assertGreater(self.area.stat().st_size, MAX_BODY)

    def test_hard_links_of_one_file(self):
        """To each input they are one file, which is sent by its first path."""
        logs = self.folder / "logs"
        logs.mkdir()
        first = logs / "00000.log"
        first.write_text("line\n")
        for number in range(1, HARD_LINKS):
            os.link(first, logs / f"{number:05}.log")
        with Peer() as peer:
            inputs = "".join(f'[[inputs]]\nid = "{name}"\npaths = ["{logs}/*.log"]\nfile_identity = "native"\n' for name in "vw")
            ran = self.run_for(f'{inputs}[output]\nhosts = ["{peer.host}"]\n')
        self.assertEqual((ran.returncode, ran.stdout.count(b" doubled\n")), (0, HARD_LINKS - 1), ran.stdout[-100:])
        self.assertEqual(places_of(peer.payloads), [(str(first), 0, "line")] * 2)
        self.assertEqual([(it["path"], it["offset"]) for it in self.stored_rows()], [(str(first), len("line\n"))] * 2)

    def test_more_files_than_may_be_open(self):
        """Those that cannot be opened have no row, and the others are shipped."""
        logs = self.folder / "logs"
        logs.mkdir()
        for number in range(OPEN_FILES):
            (logs / f"{number}.log").write_text("line\n")
        with Peer() as peer:
            self.write_settings(program.settings_text(logs / "*.log", peer.host))
            words = ("-c", f'ulimit -n {OPEN_FILES} && exec "$0" "$@"', os.fspath(self.tested), *ONCE)
            self.assert_wrote(program.run("sh", words, self.folder), "status 6 folder fault")
        shipped = len(peer.payloads)
        self.assertTrue(OPEN_FILES - OTHER_DESCRIPTORS < shipped < OPEN_FILES, shipped)
        self.assertEqual([it["offset"] for it in self.stored_rows()], [len("line\n")] * shipped)

    def limited_run(self, host):
        """One run that may have so many files open, over all in the folder `logs`."""
        self.write_settings(program.settings_text(self.folder / "logs" / "*.log", host, "attempts = 1"))
        words = ("-c", f'ulimit -n {OPEN_FILES} && exec "$0" "$@"', os.fspath(self.tested), *ONCE)
        return program.run("sh", words, self.folder)

    def append_to_logs(self, count, line):
        for number in range(count):
            with (self.folder / "logs" / f"{number}.log").open("a") as log:
                log.write(line)

    def most_files(self, again):
        """As many files as a limited run can open; it sends a line of each, also where an earlier run has stored their rows."""
        for count in range(OPEN_FILES, 0, -1):
            self.enter_new_folder()
            (self.folder / "logs").mkdir()
            self.append_to_logs(count, "one\n")
            with Peer() as peer:
                if again:
                    self.run_settings(program.settings_text(self.folder / "logs" / "*.log", peer.host))
                    self.append_to_logs(count, "two\n")
                ran = self.limited_run(peer.host)
            if ran.returncode != FOLDER_FAULT:
                self.assertEqual((ran.returncode, len(peer.payloads)), (0, count * (1 + again)), ran.stdout)
                return count
        return 0

    def test_files_that_take_every_other_descriptor(self):
        """They leave the registry and the worker theirs."""
        for again in (False, True):
            with self.subTest(again=again):
                self.assertGreater(self.most_files(again), OPEN_FILES - OTHER_DESCRIPTORS)

    def test_a_file_of_which_reads_fail(self):
        """The others are shipped, and the row of the one says that nothing was read."""
        since = now()
        logs = self.folder / "logs"
        logs.mkdir()
        paths = [logs / f"{number}.log" for number in range(3)]
        for path in paths:
            path.write_text(f"line of {path.name}\n")
        with Peer() as peer:
            settings = program.settings_text(logs / "*.log", peer.host)
            ran = self.run_settings(settings.replace('"]', f'", "{UNREADABLE}"]', 1))
            self.assert_wrote(ran, "status 6 folder fault")
            self.assert_sent(peer, [(str(path), 0, f"line of {path.name}") for path in paths], since)
        offsets = {it["path"]: it["offset"] for it in self.stored_rows()}
        self.assertEqual(offsets, {UNREADABLE: 0} | {str(path): path.stat().st_size for path in paths})

    def test_events_of_lines(self):
        """Lines that belong together, filters and processors, each over the file of one input."""
        names = ("stacks", "filtered", "processed")
        for name, content in zip(names, EVENTS):
            (self.folder / name).write_text(content)
        paths = [str(self.folder / name) for name in names]
        with Peer() as peer:
            inputs = "".join(
                f'[[inputs]]\nid = "{name}"\npaths = ["{path}"]\nfile_identity = "path"\n{more}'
                for name, path, more in zip(names, paths, MORE_OF_INPUTS)
            )
            ran = self.run_settings(f'{PROCESSORS}{inputs}[output]\nhosts = ["{peer.host}"]\n')
        self.assert_done(ran, [row(path, len(content), name) for name, path, content in zip(names, paths, EVENTS)], 4, 3)
        sent = map(json.loads, peer.payloads)
        sent = [(Path(it["log"]["file"]["path"]).name, it["message"], it.get("tags")) for it in sent]
        self.assertEqual(sorted(sent, key=str), sorted(EVENTS_SENT, key=str))

    def test_globs_over_folders(self):
        """`**` stands for none to eight folders. Folders, symbolic links and files of another name are skipped."""
        since = now()
        logs = self.folder / "logs"
        depths = [Path(*["d"] * depth) for depth in range(10)]
        (logs / depths[-1]).mkdir(parents=True)
        for depth in depths:
            (logs / depth / "a.log").write_text("line\n")
            (logs / depth / "a.txt").write_text("line\n")
        (logs / "b.log").mkdir()
        (logs / "c.log").symlink_to(logs / "a.log")
        with Peer() as peer:
            ran = self.run_settings(program.settings_text(logs / "**" / "?.log", peer.host))
        self.assert_shipped(ran, peer, [("w", str(logs / depth / "a.log")) for depth in depths[:-1]], since)

    def test_absent_folder(self):
        with Peer() as peer:
            ran = self.run_settings(program.settings_text(self.folder / "logs" / "*.log", peer.host))
        self.assert_done(ran, [], 0)
        self.assertEqual(peer.connections, 0)

    def test_config_and_data(self):
        """The settings and the registry lie where the arguments say."""
        Path(self.path).write_text("a\n")
        self.area = self.folder / "state" / "of" / "beat" / "registry.a"
        with Peer() as peer:
            self.write_settings(program.settings_text(self.path, peer.host))
            (self.folder / "beat.toml").rename(self.folder / "other.toml")
            ran = self.run_words("--data", "state/of/beat", "--once", "--config", "other.toml")
        self.assert_done(ran, [row(self.path, 2)], 1)
        self.assertFalse((self.folder / "data").exists())
