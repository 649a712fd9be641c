#!/usr/bin/env python3
"""Makes the Debian package of what package/dist.py packs: dist/moqhuluzi_VERSION_amd64.deb.

    python3 -B package/deb.py [--programs FOLDER] [--into FOLDER]

It needs dpkg-deb. Two runs over the same programs and commit give the same bytes.
"""

import argparse
import gzip
import hashlib
import os
import subprocess
import sys
import tempfile
from pathlib import Path

import dist
import products

NAME = f"moqhuluzi_{products.VERSION}_amd64.deb"
SETTINGS = "etc/moqhuluzi/beat.toml"
DOC = "usr/share/doc/moqhuluzi"
UNITS = "usr/lib/systemd/system"
SCRIPTS = products.ROOT / "package" / "debian"
CONTROL = """Package: moqhuluzi
Version: {version}
Architecture: amd64
Maintainer: Moqhuluzi maintainers <maintainers@users.noreply.moqhuluzi.example>
Installed-Size: {kibibytes}
Depends: libc6 (>= {c_library}), passwd
Section: admin
Priority: optional
Description: log shipper like Filebeat, over Lumberjack v2
 Reads log files once, sends their events to Logstash or other receivers, and
 stores for each file the offset below which every event was acknowledged or
 dropped; the next run resumes there. Other programs check settings and show
 the status, receive events, convert container logs and keep lines in a spool.
"""
# what the units of examples/ say, and what those of the package say in its place
IN_UNITS = (
    ("/usr/local/bin/", "/usr/bin/"),
    ("/etc/beat.toml", "/etc/moqhuluzi/beat.toml"),
    ("/var/lib/beat", "/var/lib/moqhuluzi"),
    ("StateDirectory=beat\n", "StateDirectory=moqhuluzi\nUser=moqhuluzi\nGroup=moqhuluzi\n# may read /var/log\nSupplementaryGroups=adm\n"),
    ("beat.service", "moqhuluzi.service"),
    ("beat.timer", "moqhuluzi.timer"),
    ("start beat\n", "start moqhuluzi\n"),
)


def unit(data):
    text = data.decode()
    for said, meant in IN_UNITS:
        text = text.replace(said, meant)
    return text.encode()


def squeezed(data):
    return gzip.compress(data, mtime=0)


def placed(files):
    """Where each packed file goes on a system: its mode and its bytes, by its path."""
    for path, (mode, data) in files.items():
        folder, _, rest = path.partition("/")
        if folder == "bin":
            yield f"usr/bin/{rest}", (mode, data)
        elif folder == "man":
            yield f"usr/share/man/{rest}.gz", (mode, squeezed(data))
        elif path == "licences/README.md":
            yield f"{DOC}/copyright", (mode, data)
        elif path == "CHANGELOG.md":
            yield f"{DOC}/changelog.gz", (mode, squeezed(data))
        elif path.endswith((".service", ".timer")):
            yield f"{UNITS}/moqhuluzi{Path(path).suffix}", (mode, unit(data))
        elif path != dist.SUMS:
            yield f"{DOC}/{path}", (mode, data)
    yield SETTINGS, files["examples/beat.toml"]


def control_files(files):
    """What the package says of itself, and the scripts that dpkg runs."""
    size = sum(len(data) for _, data in files.values())
    version = "{}.{}".format(*dist.stated_version())
    control = CONTROL.format(version=products.VERSION, kibibytes=-(-size // 1024), c_library=version)
    yield "control", (0o644, control.encode())
    yield "conffiles", (0o644, f"/{SETTINGS}\n".encode())
    sums = [f"{hashlib.md5(data).hexdigest()}  {path}\n" for path, (_, data) in sorted(files.items())]
    yield "md5sums", (0o644, "".join(sums).encode())
    for script in SCRIPTS.iterdir():
        yield script.name, (0o755, script.read_bytes())


def laid_out(files, root):
    """Writes the files below the root, with their modes and the moment of the package."""
    for path, (mode, data) in files.items():
        file = root / path
        file.parent.mkdir(parents=True, exist_ok=True)
        file.write_bytes(data)
        file.chmod(mode)
    for it in [root, *root.rglob("*")]:
        if it.is_dir():
            it.chmod(0o755)
        os.utime(it, (products.moment(), products.moment()))


def make(packed, into):
    """Makes the package of packed files in a folder; its file."""
    files = dict(placed(packed))
    with tempfile.TemporaryDirectory(prefix="beat-deb-") as room:
        root = Path(room) / "root"
        laid_out({**files, **{f"DEBIAN/{name}": it for name, it in control_files(files)}}, root)
        into.mkdir(parents=True, exist_ok=True)
        command = ("dpkg-deb", "--root-owner-group", "-Zgzip", f"-z{dist.LEVEL}", "--build", os.fspath(root), os.fspath(into / NAME))
        environment = {**os.environ, "SOURCE_DATE_EPOCH": str(products.moment())}
        subprocess.run(command, check=True, env=environment, stdout=subprocess.DEVNULL)
    return into / NAME


def main():
    words = argparse.ArgumentParser(description="Makes the Debian package.")
    words.add_argument("--programs", type=Path, help="a folder with other programs than the proved ones, for tests")
    words.add_argument("--into", type=Path, default=products.ROOT / "dist", help="where the package goes (default: dist)")
    given = words.parse_args()
    try:
        file = make(dist.contents(given.programs), given.into)
    except dist.Fault as fault:
        sys.exit(str(fault))
    dist.tell(file)


if __name__ == "__main__":
    main()
