"""What a program needs at run time, as readelf shows it."""

import re
import subprocess

# the shared libraries that belong to the GNU C library
C_LIBRARY = {"libc.so.6", "libm.so.6", "ld-linux-x86-64.so.2"}


def shown(program, *options):
    command = ("readelf", "--wide", *options, str(program))
    return subprocess.run(command, check=True, capture_output=True, text=True, env={"LC_ALL": "C"}).stdout


def libraries(program):
    """The shared libraries that it names."""
    return re.findall(r"\(NEEDED\).*\[([^\]]+)\]", shown(program, "--dynamic"))


def c_library_version(program):
    """The least version of the C library that has all symbols, as (2, 34)."""
    versions = re.findall(r"Name: GLIBC_(\d+)\.(\d+)(?:\.\d+)?\b", shown(program, "--version-info"))
    return max((int(major), int(minor)) for major, minor in versions)
