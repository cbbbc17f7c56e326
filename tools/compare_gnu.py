#!/usr/bin/env python3
"""Compares the texts that `Instr.format` makes with GNU's options with those of objdump, over the .text of an ELF file.

Usage: tools/compare_gnu.py FILE [COUNT]

The shared library is the one that the Python package loads (FEDDURZAI_LIBRARY, or capi/out). At most COUNT instructions are compared, all by default. Symbols
in angle brackets are left out, and objdump's bare targets get their `0x`. Instructions without a row, and those that objdump
reads with another length, are not compared. For each syntax the share of equal texts is printed, then the differences by kind with an example of each.
Required: objdump.
"""

import collections
import os
import re
import subprocess
import sys

sys.path.insert(0, os.path.join(os.path.dirname(os.path.dirname(os.path.abspath(__file__))), "capi", "python"))
import feddurzai  # noqa: E402

LINE = re.compile(r"^ *([0-9a-f]+):\t(.*)$")
HEAD = re.compile(r"^\S+:\s+file format elf(\d+)-", re.M)


def lines_of(path, syntax):
    """The address and the text of each instruction that objdump prints, without symbols."""
    words = ["objdump", "-d", "-w", "-j", ".text", "--no-show-raw-insn", "-M", syntax, path]
    with subprocess.Popen(words, stdout=subprocess.PIPE, env={**os.environ, "LC_ALL": "C"}, text=True) as ran:
        for line in ran.stdout:
            found = LINE.match(line)
            if found:
                yield int(found[1], 16), re.sub(r" +<[^#]*>( *#|$)", r"\1", found[2].rstrip()).rstrip()


def text_section(path):
    """The mode, the address and the bytes of the .text of a file."""
    words = subprocess.run(["objdump", "-h", "-w", "-j", ".text", path], stdout=subprocess.PIPE, check=True, text=True).stdout
    bits = 64 if HEAD.search(words)[1] == "64" else 32
    size, address, offset = next((int(row[2], 16), int(row[3], 16), int(row[5], 16)) for row in map(str.split, words.splitlines()) if row[1:2] == [".text"])
    with open(path, "rb") as file:
        file.seek(offset)
        return bits, address, file.read(size)


def kind_of(ours, theirs):
    """What differs: the first words, or the operands with numbers and registers left out."""
    a, b = ours.split(None, 1) + [""], theirs.split(None, 1) + [""]
    if a[0] != b[0]:
        return f"{a[0]} for {b[0]}"
    blank = [re.sub(r"-?0x[0-9a-f]+", "N", re.sub(r"%?\b[re]?[a-ds][a-z0-9]{1,3}\b", "R", it[1])) for it in (a, b)]
    return f"{blank[0]} for {blank[1]}"


def compare(path, syntax, style, options, most):
    """Prints the share of equal texts in a syntax, and the kinds of the others."""
    bits, start, code = text_section(path)
    kinds, examples, count, equal = collections.Counter(), {}, 0, 0
    listed = lines_of(path, syntax)
    here = next(listed)
    for address, theirs in listed:
        (at, text), here = here, (address, theirs)
        if text.startswith("(bad)") or address <= at:
            continue
        try:
            item = feddurzai.decode(bits, start, code, at - start)
        except (feddurzai.InvalidCode, feddurzai.TooShort):
            continue
        if item.len != address - at:
            continue
        if item.info().target is not None:
            text = re.sub(r" ([0-9a-f]+)$", r" 0x\1", text)
        ours = item.format(options, syntax=style)
        count += 1
        if ours == text:
            equal += 1
        else:
            kind = kind_of(ours, text)
            kinds[kind] += 1
            examples.setdefault(kind, (ours, text))
        if count == most:
            break
    print(f"{syntax}: {equal} of {count} alike, {100 * equal / max(count, 1):.3f} %")
    for kind, number in kinds.most_common(25):
        print(f"  {number:8}  {examples[kind][0]}  |  {examples[kind][1]}")


def main(words):
    """Compares both syntaxes."""
    if len(words) not in (1, 2) or words[0] in ("-h", "--help"):
        print(__doc__.strip())
        return 0 if words and words[0] in ("-h", "--help") else 2
    most = int(words[1]) if len(words) == 2 else -1
    for syntax, style, options in (("intel", feddurzai.Style.MASM, feddurzai.GNU), ("att", feddurzai.Style.ATT, feddurzai.GNU_ATT)):
        compare(words[0], syntax, style, options, most)
    return 0


if __name__ == "__main__":
    sys.exit(main(sys.argv[1:]))
