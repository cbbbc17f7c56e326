#!/usr/bin/env python3
"""Compares a listing with Capstone, instruction by instruction.

    tools/compare_listing.py BITS CODE LISTING

CODE is a file of raw code, and LISTING the output of listing_program for `list BITS 0 intel` over it. At each item of the listing, Capstone decodes the
same bytes at the same address. Lengths and names are compared. A single byte of the listing agrees if Capstone decodes nothing there. A few names differ
by convention (a pseudo-name for a compare with a constant, `movabs`, string instructions with their size letter) and are mapped to one name first. The
other differences are counted by kind, with a few examples of each. The script needs Capstone (Debian: python3-capstone). No proof depends on it.
"""
import collections
import re
import sys

if len(sys.argv) != 4:
    sys.exit(__doc__)

import capstone  # noqa: E402

MODES = {"16": capstone.CS_MODE_16, "32": capstone.CS_MODE_32, "64": capstone.CS_MODE_64}
PREFIX_WORDS = {"lock", "rep", "repe", "repz", "repne", "repnz", "es", "cs", "ss", "ds", "fs", "gs", "a16", "a32", "a64", "o16", "o32", "o64",
                "xacquire", "xrelease", "bnd", "notrack", "data16", "addr32"}
# two names of one instruction, with Capstone's on the left
ALIASES = {"movabs": "mov", "ljmp": "jmpf", "lcall": "callf", "retf": "retf", "lret": "retf", "pushaw": "pusha", "pushal": "pushad",
           "popaw": "popa", "popal": "popad", "iretw": "iret", "cwde": "cwde", "wait": "wait", "fwait": "wait", "xlatb": "xlat",
           "sal": "shl", "ud2b": "ud1", "ud0": "ud0", "fstenv": "fnstenv", "int1": "int1", "int3": "int3", "salc": "salc", "pushfw": "pushf", "popfw": "popf",
           "loopne": "loopne", "loope": "loope", "fcompi": "fcomip", "fucompi": "fucomip", "jcxz": "jrcxz", "jecxz": "jrcxz", "jrcxz": "jrcxz",
           "popaq": "popa", "fxrstor64": "fxrstor64", "fxsave64": "fxsave64", "enterw": "enter", "leavew": "leave", "retw": "ret", "retq": "ret"}
COMPARES = re.compile(r"^(v?)cmp([a-z0-9_]*)(ps|pd|ss|sd)$")


def folded(name):
    name = ALIASES.get(name, name)
    match = COMPARES.match(name)
    if match and match.group(2):
        return match.group(1) + "cmp" + match.group(3)
    return name


def name_of(text):
    words = text.replace(",", " ").split()
    while words and words[0] in PREFIX_WORDS:
        words = words[1:]
    return folded(words[0]) if words else ""


def main():
    bits, code_file, listing_file = sys.argv[1:4]
    code = open(code_file, "rb").read()
    reader = capstone.Cs(capstone.CS_ARCH_X86, MODES[bits])
    counts = collections.Counter()
    examples = collections.defaultdict(list)
    offset = 0
    for line in open(listing_file, encoding="ascii"):
        address, digits, text = line.rstrip("\n").split(None, 2)
        length = len(digits) // 2
        theirs = next(reader.disasm(code[offset:offset + 15], int(address, 16), 1), None)
        single = text.startswith(("db ", ".byte "))
        if single:
            kind = "both refuse" if theirs is None else "only the listing refuses: " + theirs.mnemonic
        elif theirs is None:
            kind = "only Capstone refuses: " + name_of(text)
        elif theirs.size != length:
            kind = f"lengths differ: {name_of(text)} and {theirs.mnemonic}"
        elif name_of(text) != name_of(theirs.mnemonic):
            kind = f"names differ: {name_of(text)} and {theirs.mnemonic}"
        else:
            kind = "agree"
        counts[kind] += 1
        if kind not in ("agree", "both refuse") and len(examples[kind]) < 2:
            other = f"{theirs.mnemonic} {theirs.op_str}" if theirs else "-"
            examples[kind].append(f"    {address} {digits}: {text} | {other}")
        offset += length
    print(f"{sum(counts.values())} items, {offset} of {len(code)} bytes")
    for kind, number in counts.most_common():
        print(f"{number:9} {kind}")
        for example in examples[kind]:
            print(example)


main()
