#!/usr/bin/env python3
"""Assembles the texts of a listing and lists the bytes again.

    tools/round_trip.py BITS code.bin [PROGRAM] [--base BASE]

PROGRAM (by default the repository's built listing_program) lists the file by `list BITS BASE intel`. The texts go to `asm BITS`, many lines at a time, at the
address that the listing gives. The resulting bytes are listed at the same address. Each text must come back unchanged. No instruction may be longer than in
the file, and a single byte must be itself.

An instruction that becomes shorter moves the code after it. Texts name targets by their addresses, so the next line is assembled at its address in the
listing: a run of lines ends with each line that became shorter. Single bytes are assembled in runs of their own, because other bytes after them might be
decoded with them.

The script prints the number of lines, how many changed their bytes, the number of runs, the seconds of `asm`, and each line that did not come back. The exit
status is 1 if there is such a line. No proof depends on this script.
"""
import argparse
import collections
import itertools
import os
import re
import subprocess
import sys
import time

LINES = 500  # lines assembled at a time


def ran(program, words, data):
    return subprocess.run([program, *words], input=data, stdout=subprocess.PIPE, stderr=subprocess.PIPE, check=False)


def lines_of(program, bits, base, code):
    """The bytes and the text of each line of a listing."""
    listing = ran(program, ["list", bits, f"{base:x}", "intel"], code).stdout.decode("ascii")
    return [(bytes.fromhex(digits), text) for _, digits, text in (line.split(None, 2) for line in listing.splitlines())]


class Typing:
    """The results of the lines that have been assembled so far."""

    def __init__(self, program, bits):
        self.program, self.bits = program, bits
        self.seconds, self.typed, self.runs = 0.0, 0, 0
        self.changed, self.shorter, self.single, self.bad, self.kinds = 0, 0, 0, [], collections.Counter()

    def asm(self, at, texts):
        """The bytes of some lines, and the number of lines before the first bad one."""
        before = time.monotonic()
        made = ran(self.program, ["asm", self.bits, f"{at:x}"], "".join(f"{text}\n" for text in texts).encode("ascii"))
        self.seconds += time.monotonic() - before
        self.typed += len(texts)
        self.runs += 1
        bad = re.match(rb"bad text in line (\d+)\n", made.stderr)
        if made.returncode == 11 and bad:
            return self.asm(at, texts[: int(bad[1]) - 1]) if bad[1] != b"1" else (b"", 0)
        if made.returncode != 0:
            sys.exit(f"round_trip.py: `asm {self.bits} {at:x}` ended with status {made.returncode}: {made.stderr.decode().strip()}")
        return made.stdout, len(texts)

    def run(self, at, lines):
        """Assembles a run of lines at its address, and returns how many of its lines are settled."""
        made, count = self.asm(at, [text for _, text in lines])
        if count == 0:
            self.bad.append(f"{at:x}: {lines[0][0].hex()} {lines[0][1]}: no instruction")
            return 1
        for number, (line, other) in enumerate(zip(lines, lines_of(self.program, self.bits, at, made))):
            self.settle(at, line, other)
            if len(other[0]) != len(line[0]):
                return number + 1
        return count

    def single_bytes(self, at, lines):
        """Assembles a run of single bytes, and returns their number."""
        made, count = self.asm(at, [text for _, text in lines])
        if made != b"".join(byte for byte, _ in lines) or count != len(lines):
            self.bad.append(f"{at:x}: {len(lines)} single bytes came back as {made.hex()}")
        self.single += len(lines)
        return len(lines)

    def settle(self, at, line, other):
        if line[1] != other[1] or len(other[0]) > len(line[0]):
            self.bad.append(f"run at {at:x}: {line[0].hex()} {line[1]} came back as {other[0].hex()} {other[1]}")
        if line[0] != other[0]:
            self.changed += 1
            self.shorter += len(other[0]) < len(line[0])
            self.kinds[line[1].split()[0]] += 1


def main():
    parser = argparse.ArgumentParser(description=__doc__, formatter_class=argparse.RawDescriptionHelpFormatter)
    parser.add_argument("bits", choices=["16", "32", "64"])
    parser.add_argument("code")
    top = os.path.dirname(os.path.dirname(os.path.abspath(__file__)))
    parser.add_argument("program", nargs="?", default=f"{top}/crates/listing_program/out/listing_program")
    parser.add_argument("--base", default="0")
    said = parser.parse_args()
    lines = lines_of(said.program, said.bits, int(said.base, 16), open(said.code, "rb").read())
    typing, at, done = Typing(said.program, said.bits), int(said.base, 16), 0
    while done < len(lines):
        is_single = lines[done][1].startswith("db ")
        piece = list(itertools.takewhile(lambda line: line[1].startswith("db ") == is_single, lines[done:done + LINES]))
        settled = (typing.single_bytes if is_single else typing.run)(at % 2 ** int(said.bits), piece)
        at += sum(len(code) for code, _ in lines[done:done + settled])
        done += settled
    print(f"{len(lines)} lines, {typing.single} of them single bytes; {len(typing.bad)} did not come back")
    print(f"{typing.changed} changed bytes, {typing.shorter} of these are shorter; {typing.runs} runs")
    print(f"asm took {typing.seconds:.2f} s for {typing.typed} lines: {typing.typed / max(typing.seconds, 1e-9):.0f} lines a second, including the start of each run")
    for name, count in typing.kinds.most_common(12):
        print(f"{count:9} {name}")
    print("\n".join(typing.bad[:20]))
    return 1 if typing.bad else 0


if __name__ == "__main__":
    sys.exit(main())
