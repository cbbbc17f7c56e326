#!/usr/bin/env python3
"""Compares the library with the test suites of other tools: the length and the text of each instruction that they expect, and our assembler over their lines.

  tools/peers/suites.py gas  FOLDER    GNU as: FOLDER is the source of binutils, with gas/testsuite/gas/i386/*.d
  tools/peers/suites.py mc   FOLDER    LLVM's MC tests as Capstone keeps them: the source of capstone, with suite/MC/X86/*.s.cs
  tools/peers/suites.py nasm FOLDER    NASM: the source of nasm, with test/*.asm; NASM itself assembles them, line by line

Debian has the sources: `apt-get source binutils capstone nasm`. The library is the one that the Python package loads (FEDDURZAI_LIBRARY, or capi/out).
A line counts as read if it is an instruction of the table, and as measured if it has no row. Each kind of difference is printed once, with its number and an
example; the last line has the totals.
"""
import argparse
import collections
import glob
import os
import re
import subprocess
import sys
import tempfile

TOP = os.path.dirname(os.path.dirname(os.path.dirname(os.path.abspath(__file__))))
sys.path.insert(0, f"{TOP}/capi/python")
try:
    import feddurzai
except (ImportError, OSError) as error:
    feddurzai = None
    missing = error

DUMPED = re.compile(r"^\s*([0-9a-f]+):\s*((?:[0-9a-f]{2} )*[0-9a-f]{2})(?:\t| *\t|  +|$)\s*(.*)$")
# the parts of a pattern that match runs of blanks, and an address
BLANK = re.compile(r"\[[ \t]+\][*+]|\\s[*+]|(?<=\d) \*(?=[a-z])")
ADDRESS = re.compile(r"^\s*\[[a-f0-9-]+\]\+:")


class Count:
    """What was read, and each kind of difference with an example."""

    def __init__(self):
        self.numbers = collections.Counter()
        self.kinds = collections.Counter()
        self.examples = {}

    def kind(self, name, example):
        self.kinds[name] += 1
        self.examples.setdefault(name, example)

    def write(self, shown):
        for name, number in self.kinds.most_common(shown):
            print(f"{number:8}  {name}: {self.examples[name]}")
        print(", ".join(f"{number:,} {name}" for name, number in self.numbers.items()))


def length_of(bits, address, code):
    """Whether the table has the instruction, and its length; 0 if it is not even measured."""
    try:
        item = feddurzai.decode(bits, address, code)
        return item, item.len
    except (feddurzai.InvalidCode, feddurzai.TooShort):
        pass
    try:
        return None, feddurzai.measure(bits, code).len
    except (feddurzai.InvalidCode, feddurzai.TooShort):
        return None, 0


def blank(text):
    """A text without its numbers and registers, to name a kind."""
    return re.sub(r"\b0x[0-9a-f]+\b", "N", re.sub(r"%?\b(?:[re]?[abcd]x|[re]?[sd]i|[re]?[sb]p|[abcd][lh]|r\d+[dwb]?|[xyz]mm\d+)\b", "R", text))


def kind_of_text(ours, theirs):
    """What differs in two texts: the mnemonics, or the first operand that differs."""
    a, b = (it.split(None, 1) + ["", ""] for it in (ours, theirs))
    if a[0] != b[0]:
        return f"{a[0]} for {b[0]}"
    return f"{blank(a[1])} for {blank(b[1])}"


def mode_of_dump(name, words):
    """The mode of a dump by its file and the words of its head."""
    if "i8086" in words or "16bit" in name:
        return 16
    return 64 if re.search(r"x86[-_]64|ilp32|64(?:[-.]|$)|^rex", name) else 32


def gas(folder, count):
    """GNU as: each line of its dumps."""
    for path in sorted(glob.glob(f"{folder}/gas/testsuite/gas/i386/**/*.d", recursive=True)):
        with open(path, encoding="latin-1") as file:
            lines = file.read().splitlines()
        head = " ".join(line for line in lines if line.startswith("#"))
        if "#objdump" not in head or "-s" in head.split("#objdump:")[1].split("#")[0].split():
            continue
        bits = mode_of_dump(os.path.relpath(path, f"{folder}/gas/testsuite/gas/i386"), head)
        intel = "intel" in head.split("#objdump:")[1].split("#")[0]
        suffixed = "suffix" in head
        for line in lines:
            line = ADDRESS.sub("0:", BLANK.sub("\t", line).lstrip())
            found = DUMPED.match(line)
            if not found:
                continue
            code = bytes.fromhex(found[2].replace(" ", ""))
            text = re.sub(r"\\(.)", r"\1", found[3]).strip()
            if not text or "(bad)" in text or re.search(r"\)\?|\.\*|\||^\*|\]\+", found[3]):
                count.numbers["lines of patterns or without text"] += 1
                continue
            address = int(found[1], 16)
            item, size = length_of(bits, address, code + bytes(15))
            if size == 0:
                count.numbers["neither read nor measured"] += 1
                count.kind("refused", f"{code.hex()} {text}")
                continue
            count.numbers["read" if item else "measured"] += 1
            if size != len(code):
                count.numbers["lengths that differ"] += 1
                count.kind(f"length {size} for {len(code)}", f"{os.path.basename(path)}: {code.hex()} {text}")
                continue
            if item is None or suffixed:
                continue
            # the address of a pattern is not known: what names one is not compared
            text = re.sub(r"\s*#.*| *<.*", "", text).strip()
            options, style = (feddurzai.GNU, feddurzai.Style.MASM) if intel else (feddurzai.GNU_ATT, feddurzai.Style.ATT)
            ours = re.sub(r"\s*#.*", "", item.format(options, syntax=style)).strip()
            if item.info().target is not None:
                continue
            count.numbers["texts compared"] += 1
            if ours == re.sub(r"\s+", " ", text) or re.sub(r"\s+", " ", ours) == re.sub(r"\s+", " ", text):
                count.numbers["texts alike"] += 1
            else:
                count.kind("text " + kind_of_text(ours, text), f"{os.path.basename(path)}: {code.hex()} {ours!r}, GNU {text!r}")


def mc(folder, count):
    """LLVM's tests: bytes and a text a line, the mode in the head of the file."""
    for path in sorted(glob.glob(f"{folder}/suite/MC/X86/*.s.cs")):
        with open(path, encoding="latin-1") as file:
            lines = file.read().splitlines()
        bits = 64 if "CS_MODE_64" in lines[0] else 16 if "CS_MODE_16" in lines[0] else 32
        for line in lines[1:]:
            line = line.lstrip("/# ")
            found = re.match(r"((?:0x[0-9a-f]{2},?)+) = (.*)$", line)
            if not found:
                continue
            code = bytes(int(it, 16) for it in found[1].strip(",").split(","))
            item, size = length_of(bits, 0, code + bytes(15))
            count.numbers["read" if item else "measured" if size else "neither read nor measured"] += 1
            if size and size != len(code):
                count.numbers["lengths that differ"] += 1
                count.kind(f"length {size} for {len(code)}", f"{os.path.basename(path)}: {code.hex()} {found[2]}")


def nasm(folder, count):
    """NASM's tests: the listing that NASM makes of each file, and our assembler over the lines that have rows."""
    for path in sorted(glob.glob(f"{folder}/test/*.asm")):
        with tempfile.TemporaryDirectory() as work:
            ran = subprocess.run(["nasm", "-f", "bin", "-I", f"{folder}/test/", "-l", f"{work}/list", "-o", f"{work}/bin", path], capture_output=True, cwd=work)
            if ran.returncode or not os.path.exists(f"{work}/list"):
                count.numbers["files that NASM does not assemble by itself"] += 1
                continue
            with open(f"{work}/list", encoding="latin-1") as file:
                lines = file.read().splitlines()
        bits = 16
        for line in lines:
            found = re.match(r"\s*\d+ (?:([0-9A-F]{8}) ([0-9A-F\[\]()-]+))?\s*(?:<\d+>)?\s*(.*)$", line)
            if not found:
                continue
            mode = re.search(r"\b(?:bits|BITS|use)\s*(16|32|64)\b", found[3])
            if mode:
                bits = int(mode[1])
            text = found[3].split(";")[0].strip()
            if not found[1] or not text or not re.fullmatch(r"[0-9A-F]+", found[2]) or text.lower().split()[0] in ("db", "dw", "dd", "dq", "times", "%macro"):
                continue
            code = bytes.fromhex(found[2])
            item, size = length_of(bits, int(found[1], 16), code + bytes(15))
            count.numbers["read" if item else "measured" if size else "neither read nor measured"] += 1
            if size and size != len(code):
                count.numbers["lengths that differ, or lines of a macro"] += 1
            if item is None or size != len(code):
                continue
            try:
                made = feddurzai.assemble_code(bits, int(found[1], 16), text).code
            except (feddurzai.Refusal, ValueError) as refusal:
                count.numbers["lines that our assembler refuses"] += 1
                count.kind("refused", f"{text!r}: {str(refusal).splitlines()[0]}")
                continue
            count.numbers["lines assembled alike" if made == code else "lines assembled otherwise"] += 1
            if made != code:
                count.kind("otherwise", f"{text!r}: {made.hex()}, NASM {code.hex()}")


def main():
    reader = argparse.ArgumentParser(description=__doc__, formatter_class=argparse.RawDescriptionHelpFormatter)
    reader.add_argument("suite", choices=["gas", "mc", "nasm"])
    reader.add_argument("folder", metavar="FOLDER")
    reader.add_argument("--kinds", type=int, default=60, help="how many kinds of difference are printed")
    asked = reader.parse_args()
    if feddurzai is None:
        sys.exit(f"suites.py: {missing}")
    count = Count()
    {"gas": gas, "mc": mc, "nasm": nasm}[asked.suite](asked.folder, count)
    count.write(asked.kinds)


main()
