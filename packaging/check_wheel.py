#!/usr/bin/env python3
"""Checks that the libraries of a wheel run on every system that the tags in its name promise.

    check_wheel.py WHEEL

Each manylinux tag names a version of glibc. No library of the wheel may import a symbol of a later version, or need any library outside glibc. The
wheel's file WHEEL must have the tags of its name, and RECORD the hash of each file. Required: objdump of binutils. If auditwheel is installed, its
report is printed.

The status is 0 if all of this holds, and 1 otherwise, with a line that says what does not.
"""

import base64
import hashlib
import os
import re
import shutil
import subprocess
import sys
import tempfile
import zipfile

# the policies of manylinux allow more; this library has no use for it
LIBRARIES = {"libc.so.6"}
OLDER = {"manylinux1": (2, 5), "manylinux2010": (2, 12), "manylinux2014": (2, 17)}


class Wrong(Exception):
    """Why a wheel is refused."""


def glibc_of(platform):
    """The version of glibc that a platform tag names."""
    found = re.fullmatch(r"manylinux_(\d+)_(\d+)_x86_64", platform)
    if found:
        return int(found[1]), int(found[2])
    name = platform.replace("_x86_64", "")
    if name not in OLDER or not platform.endswith("_x86_64"):
        raise Wrong(f"its tag {platform} names no glibc version on x86-64")
    return OLDER[name]


def dumped(flag, file):
    return subprocess.run(["objdump", flag, file], stdout=subprocess.PIPE, check=True, text=True).stdout


def newest(file, name, limit):
    """The newest version of glibc that a library takes a symbol of."""
    if "file format elf64-x86-64" not in dumped("-f", file):
        raise Wrong(f"{name} is not a library for x86-64")
    others = set(re.findall(r"^ *NEEDED +(\S+)$", dumped("-p", file), re.M)) - LIBRARIES
    if others:
        raise Wrong(f"{name} needs {', '.join(sorted(others))}")
    versions = {}
    for line in dumped("-T", file).splitlines():
        found = re.search(r"\*UND\*.*\(?GLIBC_(\d+(?:\.\d+)+)\)? +(\S+)$", line)
        if found:
            versions[found[2]] = tuple(map(int, found[1].split(".")))
    late = sorted(symbol for symbol, version in versions.items() if version > limit)
    if late:
        words = ", ".join(f"{symbol} of glibc {'.'.join(map(str, versions[symbol]))}" for symbol in late)
        raise Wrong(f"{name} imports {words}, but its tags promise glibc {'.'.join(map(str, limit))}")
    if not versions:
        raise Wrong(f"{name}: objdump -T shows no glibc symbol")
    return max(versions.values())


def check(wheel):
    *_, platforms = os.path.basename(wheel)[: -len(".whl")].split("-")
    limit = min(map(glibc_of, platforms.split(".")))
    with zipfile.ZipFile(wheel) as archive, tempfile.TemporaryDirectory() as folder:
        names = archive.namelist()
        (record,) = (name for name in names if name.endswith(".dist-info/RECORD"))
        sums = dict(line.split(",")[:2] for line in archive.read(record).decode().splitlines())
        for name in names:
            digest = base64.urlsafe_b64encode(hashlib.sha256(archive.read(name)).digest()).rstrip(b"=").decode()
            if name != record and sums.get(name) != f"sha256={digest}":
                raise Wrong(f"RECORD has no hash, or another hash, for {name}")
        said = re.findall(r"^Tag: py3-none-(\S+)$", archive.read(record.replace("RECORD", "WHEEL")).decode(), re.M)
        if said != platforms.split("."):
            raise Wrong(f"its file WHEEL has the tags {', '.join(said)}, not those of its name")
        libraries = [name for name in names if ".so" in os.path.basename(name)]
        if not libraries:
            raise Wrong("it has no library")
        most = max(newest(archive.extract(name, folder), name, limit) for name in libraries)
    words = ".".join(map(str, most))
    print(f"{os.path.basename(wheel)}: {len(names)} files, {len(libraries)} library; no symbol is newer than glibc {words}")
    if shutil.which("auditwheel"):
        subprocess.run(["auditwheel", "show", wheel], check=True)
    else:
        print("skipped auditwheel: it is not installed")


if __name__ == "__main__":
    if sys.argv[1:] == ["--help"]:
        print(__doc__.strip())
        sys.exit(0)
    if len(sys.argv) != 2:
        sys.exit(__doc__.strip())
    try:
        check(sys.argv[1])
    except (Wrong, OSError, ValueError, zipfile.BadZipFile, subprocess.CalledProcessError) as why:
        sys.exit(f"check_wheel.py: {sys.argv[1]}: {why}")
