"""Arguments, settings and folders that are refused, each by its name, and settings that are taken."""

import re
from pathlib import Path

import program
from area import fingerprint_row, row
from peer import Peer
from shipping import Shipping

USAGE = "status 2 usage: beat_main -c FILE [--once] [--data DIR] [--generate N]"
FOLLOW = "status 13 unbuilt follow"
# so many bytes the settings have at most
SETTINGS = 1_048_576
# so many files are followed at most
FILES = 65_536
# seconds that a run over more files may take
PATIENCE = 120

WORDS = (
    ([], USAGE),
    (["--once"], USAGE),
    (["-c"], USAGE),
    (["-c", "f", "x"], USAGE),
    (["-c", "f", "--once", "--twice"], USAGE),
    (["-c", "f", "--generate", "0"], USAGE),
    (["--help"], USAGE),
    (["-c", "f", "--once", "-h"], USAGE),
    (["-c", "f"], FOLLOW),
    (["-c", "f", "--generate", "5"], FOLLOW),
)

# settings that are refused: what is made of valid ones, and the line that tells it
SETTINGS_REFUSED = (
    (lambda valid: "", "status 3 settings missing inputs"),
    (lambda valid: "a =", "status 3 settings not toml"),
    (lambda valid: valid + "#" * (SETTINGS + 1 - len(valid)), "status 3 settings too long"),
    (lambda valid: "paht = 1\n" + valid, "status 3 settings unknown paht"),
    (lambda valid: valid + "ttl = 1\n", "status 3 settings unknown output.ttl"),
    (lambda valid: valid.replace("hosts", "# hosts"), "status 3 settings missing output.hosts"),
    (lambda valid: valid.replace('"w"', "1"), "status 3 settings wrong kind inputs.0.id"),
    (lambda valid: valid.replace('"w"', '"two words"'), "status 3 settings bad text inputs.0.id"),
    (lambda valid: valid.replace("127.0.0.1", "no host"), "status 3 settings bad text output.hosts.0"),
    (lambda valid: valid + 'timeout = "1 s"\n', "status 3 settings bad text output.timeout"),
    (lambda valid: valid + "bulk_max_size = 0\n", "status 3 settings out of range output.bulk_max_size 0"),
    (lambda valid: valid.replace('["/', '["'), "status 3 settings bad glob inputs.0.paths.0"),
    (lambda valid: valid.replace("a.log", "[a"), "status 3 settings bad glob inputs.0.paths.0"),
    (
        lambda valid: valid.replace("[output]", 'include_lines = ["["]\n[output]'),
        "status 3 settings bad pattern inputs.0.include_lines.0",
    ),
    (
        lambda valid: valid.replace("[output]", 'ignore_older = "1m"\nclean_inactive = "70s"\n[output]'),
        "status 3 settings clean too soon inputs.0",
    ),
    (
        lambda valid: valid.replace("[output]", 'ignore_older = "1m"\nclean_inactive = "71s"\n[output]'),
        "status 13 unbuilt key inputs.0.clean_inactive",
    ),
)

# the example with every key: what it says of its user's machine, and by what files are known
EVERY_KEY = program.ROOT / "examples" / "every_key.toml"
LOGS = '"/var/log/shop/*.log"'
HOST = '"127.0.0.1:5044"'
IDENTITY = 'file_identity = "fingerprint"'
# what it says, and what may stand there that is not built; each has to be named
EVERY_KEY_UNBUILT = (
    ('ignore_older = "0ms"', 'ignore_older = "1m"', "inputs.0.ignore_older"),
    ('clean_inactive = "0ms"', 'clean_inactive = "1m"', "inputs.0.clean_inactive"),
)
# what it says, and what may stand there as well; the file is shipped with all of these
EVERY_KEY_BUILT = (
    (IDENTITY, 'file_identity = "path"'),
    ("processors = []", "processors = [{ add_tags = { tags = ['x'] } }]"),
    ('line_terminator = "auto"', 'line_terminator = "line_feed"'),
    ("message_max_bytes = 10485760", "message_max_bytes = 1024"),
    ("include_lines = []", "include_lines = ['a']"),
    ("exclude_lines = []", "exclude_lines = ['b']"),
    ("\nworkers = 1\n", "\nworkers = 2\n"),
    ("lanes = 2", "lanes = 8"),
)

# pages whose examples a run takes: whole settings, keys, or members of the list of processors
PAGES = [program.ROOT / name for name in ("README.md", "docs/settings.md", "docs/coming_from_filebeat.md")]
EXAMPLE = re.compile(r"^```toml\n(.*?)^```$", re.MULTILINE | re.DOTALL)

# the same settings spelled otherwise
SETTINGS_TAKEN = (
    lambda valid: valid[:-1],
    lambda valid: valid.replace("\n", "\r\n"),
    lambda valid: valid + "#" * (SETTINGS - len(valid)),
    lambda valid: valid + "attempts = 3\npipelining = 8\nworkers = 16\n[queue]\nevents = 32\n[harvest]\nlanes = 8\n",
    lambda valid: valid.replace("[output]", "multiline.count_lines = 1\nmultiline.type = 'count'\n[output]"),
    lambda valid: valid + "[[processors]]\nadd_tags.tags = ['x']\n",
)


class Refusals(Shipping):
    def test_faulty_words(self):
        for words, line in WORDS:
            with self.subTest(words=words):
                self.assert_wrote(self.run_words(*words), line)
        self.assertFalse(self.area.exists())

    def test_settings_refused_by_name(self):
        Path(self.path).write_bytes(b"a\n")
        with Peer() as peer:
            valid = program.settings_text(self.path, peer.host)
            for made_of, line in SETTINGS_REFUSED:
                with self.subTest(line=line):
                    settings = made_of(valid)
                    self.assertNotEqual(settings, valid)
                    self.assert_wrote(self.run_settings(settings), line)
        self.assertEqual(peer.connections, 0)
        self.assertFalse(self.area.exists())

    def test_settings_spelled_otherwise(self):
        for made_of in SETTINGS_TAKEN:
            self.enter_new_folder()
            Path(self.path).write_bytes(b"a\n")
            with Peer() as peer:
                ran = self.run_settings(made_of(program.settings_text(self.path, peer.host)))
            self.assert_done(ran, [row(self.path, 2)], 1)

    def replaced(self, settings, said, meant):
        """The settings with this in the place of what they say."""
        self.assertIn(said, settings)
        return settings.replace(said, meant)

    def every_key(self, host):
        """The example with every key, for the file `a.log` and this receiver."""
        settings = self.replaced(EVERY_KEY.read_text(), LOGS, f'"{self.path}"')
        return self.replaced(settings, HOST, f'"{host}"')

    def test_every_key_with_its_default(self):
        """An unknown key would be a fault, so each of them is read; the file is known by its fingerprint, and shipped."""
        Path(self.path).write_bytes(b"a" * 1_023 + b"\n")
        with Peer() as peer:
            settings = self.every_key(peer.host)
            for said, asked, key in EVERY_KEY_UNBUILT:
                with self.subTest(key=key):
                    asking = self.replaced(settings, said, asked)
                    self.assert_wrote(self.run_settings(asking), f"status 13 unbuilt key {key}")
            self.assertEqual(peer.connections, 0)
            self.assertFalse(self.area.exists())
            ran = self.run_settings(settings)
        self.assert_done(ran, [fingerprint_row(self.path, 1_024, "services")], 1)

    def test_every_key_with_another_value(self):
        """With the table that the example has behind a hash mark, too."""
        Path(self.path).write_bytes(b"a\n")
        with Peer() as peer:
            settings = self.every_key(peer.host)
            for said, meant in EVERY_KEY_BUILT:
                settings = self.replaced(settings, said, meant)
            ran = self.run_settings(re.sub(r"^#(?=[^ \n])", "", settings, flags=re.MULTILINE))
        self.assert_done(ran, [row(self.path, 2, "services")], 1)
        self.assertIn(b'"tags":["x"]', peer.payloads[0])

    def test_examples_of_pages(self):
        """A run takes each. Its folders are absent, so that it finds nothing to ship."""
        plain = program.settings_text("/a.log", "h")
        for example in (it for page in PAGES for it in EXAMPLE.findall(page.read_text())):
            with self.subTest(example=example):
                settings = f"processors = [{example}]\n" if example.startswith("{") else example
                settings += "" if "[output]" in example else plain
                settings = settings.replace('"/', f'"{self.folder}/absent/')
                self.assert_wrote(self.run_settings(settings), "shipped 0 dropped 0", "status 0 done")

    def test_settings_file_is_absent(self):
        self.assert_wrote(self.run_words("-c", "beat.toml", "--once"), "status 9 source fault")
        self.assertFalse(self.area.exists())

    def test_more_files_than_are_followed(self):
        """They are empty; the one too many is the last in byte order."""
        logs = self.folder / "logs"
        logs.mkdir()
        for number in range(FILES + 1):
            (logs / f"{number:05}").touch()
        with Peer() as peer:
            self.write_settings(program.settings_text(logs / "*", peer.host))
            ran = program.finish(program.start(self.tested, ("-c", "beat.toml", "--once"), self.folder), PATIENCE)
        self.assert_wrote(ran, f'status 10 too many files "{logs}/{FILES:05}"')
        self.assert_rows()
        self.assertEqual(peer.connections, 0)
