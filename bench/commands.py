#!/usr/bin/env python3
"""Measures whole commands of listing_program, including the start of the program, over inputs of growing size.

    bench/commands.py FILE [PROGRAM]

FILE is raw 64-bit code, at least as large as gdb's text section. PROGRAM is the built listing_program, by default the repository's. The script prints a table
for `move`, one for `flow` and one for `list`. Times are processor time, the best and the median of twenty runs (RUNS=n for another number). Machine
instructions for each line or instruction are counted by valgrind, if it is installed, minus those of the smallest input.

For `flow`, the first bytes of FILE follow a call of each target of a direct branch in them, so that most of them are reached.
"""
import os
import re
import shutil
import statistics
import subprocess
import sys
import tempfile

TOP = os.path.realpath(f"{os.path.dirname(os.path.realpath(__file__))}/..")
RUNS = int(os.environ.get("RUNS") or 20)
TARGET = re.compile(r" (?:j\w+|call|loop\w*) 0x([0-9a-f]+)$")


def timed(command, file):
    """Processor time in seconds of one run."""
    with open(file, "rb") as given, open(os.devnull, "wb") as nowhere:
        child = subprocess.Popen(command, stdin=given, stdout=nowhere, stderr=nowhere)
        _, status, used = os.wait4(child.pid, 0)
        child.returncode = os.waitstatus_to_exitcode(status)
    if child.returncode != 0:
        sys.exit(f"commands.py: `{' '.join(command)}` ended with status {child.returncode}")
    return used.ru_utime + used.ru_stime


def counted(command, file):
    with open(file, "rb") as given:
        words = ["valgrind", "--tool=cachegrind", "--cache-sim=no", "--cachegrind-out-file=/dev/null", *command]
        ran = subprocess.run(words, stdin=given, stdout=subprocess.DEVNULL, stderr=subprocess.PIPE, text=True, check=False)
    return int(re.search(r"I *refs: *([\d,]+)", ran.stderr)[1].replace(",", ""))


def lines(command, code):
    return subprocess.run(command, input=code, stdout=subprocess.PIPE, check=True).stdout.decode("ascii").splitlines()


def row(first, command, code, items, least, folder):
    """Prints a row of a table: its name, best, median, machine instructions for each item."""
    file = f"{folder}/input.bin"
    with open(file, "wb") as it:
        it.write(code)
    runs = [timed(command, file) for _ in range(RUNS)]
    each = ""
    if shutil.which("valgrind"):
        with open(f"{folder}/least.bin", "wb") as it:
            it.write(least)
        each = f"{(counted(command, file) - counted(command, f'{folder}/least.bin')) / items:,.0f}"
    best, median = min(runs) * 1000, statistics.median(runs) * 1000
    print(f"| {first} | {best:,.1f} ms | {median:,.1f} ms | {each} |", flush=True)


def behind_calls(program, code):
    """The code, after a call of each target of a direct branch in it."""
    found = (TARGET.search(line) for line in lines([program, "list", "64", "0", "intel"], code))
    targets = sorted({int(it[1], 16) for it in found if it and int(it[1], 16) < len(code)})
    front = 5 * len(targets)
    calls = b"".join(b"\xe8" + (front + target - 5 * (n + 1)).to_bytes(4, "little") for n, target in enumerate(targets))
    return (calls + code)[:len(code)]


def main():
    if len(sys.argv) not in (2, 3):
        sys.exit("usage: bench/commands.py FILE [PROGRAM], with FILE raw 64-bit code")
    program = os.path.realpath(sys.argv[2] if len(sys.argv) == 3 else f"{TOP}/crates/listing_program/out/listing_program")
    with open(sys.argv[1], "rb") as it:
        code = it.read()
    listed = lines([program, "list", "64", "0", "intel"], code[:1_048_576])
    starts = [int(line.split(None, 1)[0], 16) for line in listed]
    whole = next((n for n, line in enumerate(listed) if line[48:].startswith("db ")), len(listed))
    head = "| Best | Median | Machine instructions for each |\n|---|---|---|---|"
    with tempfile.TemporaryDirectory() as folder:
        print(f"| `move`, instructions {head}")
        for number in (8_192, 16_384, 32_768, 65_536):
            number = min(number, whole - 1)
            row(f"{number:,} in {starts[number]:,} bytes", [program, "move", "64", "400000", "10000000"], code[:starts[number]], number, code[:1], folder)
        print(f"\n| `flow`, bytes {head}")
        for size in (131_072, 262_144, 524_288, 1_048_576):
            given = behind_calls(program, code[:size])
            reached = len(lines([program, "flow", "64", "0"], given))
            row(f"{size:,}, with {reached:,} starts reached", [program, "flow", "64", "0"], given, reached, b"\xc3", folder)
        print(f"\n| `list`, bytes {head}")
        for size in (16_384, 1_048_576, 16_000_000):
            given = (code * (size // len(code) + 1))[:size]
            row(f"{size:,}", [program, "list", "64", "0", "intel"], given, len(lines([program, "list", "64", "0", "intel"], given)), b"\x90", folder)


if __name__ == "__main__":
    main()
