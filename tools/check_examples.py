#!/usr/bin/env python3
"""Checks that each example in a docstring is part of the program example_tour, which the gate proves and runs.

Usage, from anywhere in a clone: tools/check_examples.py

An example is a fenced block in the docstrings (/// and //!) of a crate. Its lines must occur one after another, with the same
indentation relative to each other, in a file of crates/example_tour/src. The status is 1 if one does not.
"""
import sys
import textwrap
from pathlib import Path

ROOT = Path(__file__).resolve().parent.parent
PROGRAM = ROOT / "crates/example_tour/src"


def examples(path):
    """The fenced blocks of a file's docstrings: the number of the first line, and the lines."""
    block, start = None, 0
    for number, line in enumerate(path.read_text(encoding="utf-8").splitlines(), 1):
        text = line.strip()
        if not text.startswith(("///", "//!")):
            block = None
            continue
        text = text[3:].removeprefix(" ")
        if not text.startswith("```"):
            if block is not None:
                block.append(text)
        elif block is None:
            block, start = [], number + 1
        else:
            yield start, block
            block = None


def occurs(wanted, lines):
    """Whether some lines contain the wanted ones, apart from a common indentation."""
    for first in range(len(lines) - len(wanted) + 1):
        part = textwrap.dedent("\n".join(lines[first:first + len(wanted)])).splitlines()
        if [line.rstrip() for line in part] == [line.rstrip() for line in wanted]:
            return True
    return False


def main():
    program = [path.read_text(encoding="utf-8").splitlines() for path in sorted(PROGRAM.glob("*.rt"))]
    found = wrong = 0
    for path in sorted((ROOT / "crates").glob("*/src/**/*.rt")):
        for number, block in examples(path):
            found += 1
            if not any(occurs(block, lines) for lines in program):
                wrong += 1
                print(f"{path.relative_to(ROOT)}:{number}: this example is not in crates/example_tour/src: {block[0] if block else ''}")
    print(f"check_examples: {found} examples, {wrong} of them not in example_tour")
    return 1 if wrong or not found else 0


if __name__ == "__main__":
    sys.exit(main())
