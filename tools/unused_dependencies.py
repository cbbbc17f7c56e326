#!/usr/bin/env python3
"""Lists the libraries in lines of crates.txt that no file of the crate names.

Usage: tools/unused_dependencies.py. It prints a line `CRATE: LIBRARY ..` for each crate with an unused library. The exit status is 1 if there is one.

A file of src/ names a library by `LIBRARY::`, by `use LIBRARY;` or `use LIBRARY as`, or in a `ghost use Rattle.LIBRARY.`; a file of specs/ or proofs/ by
`Rattle.LIBRARY.`.
"""

import re
import sys
from pathlib import Path

TOP = Path(__file__).resolve().parent.parent


def dependencies():
    """Each crate with the libraries of its line, in the order of crates.txt."""
    for line in (TOP / "crates.txt").read_text().splitlines():
        line = line.split("#")[0].strip()
        if line:
            head, libraries = line.split(":")
            yield head.split()[0], libraries.split()


def text_of(crate):
    """The text of a crate's files, separated by line feeds."""
    folder = TOP / "crates" / crate
    files = sorted(folder.glob("src/**/*.rt"))
    for part in ("specs", "proofs"):
        files += sorted((folder / part).glob("**/*.antt"))
    return "\n".join(file.read_text() for file in files)


def is_named(library, text):
    """Whether a text names a library."""
    name = re.escape(library)
    return re.search(rf"\b{name}::|\bRattle\.{name}\b|\buse {name}\b", text) is not None


def main():
    found = False
    for crate, libraries in dependencies():
        text = text_of(crate)
        unused = [library for library in libraries if not is_named(library, text)]
        if unused:
            found = True
            print(f"{crate}: {' '.join(unused)}")
    sys.exit(1 if found else 0)


if __name__ == "__main__":
    main()
