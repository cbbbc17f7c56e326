#!/usr/bin/env python3
"""Compares the lengths of instructions without a row, and the addresses that they refer to, with other disassemblers.

    tools/compare_unlisted.py objdump FILE ..       each instruction of these programs and libraries whose format is measured
    tools/compare_unlisted.py llvm FILE ..          the same with LLVM (llvm-objdump-14, or the program of LLVM_OBJDUMP)
    tools/compare_unlisted.py zydis [COUNT [SEED]]  COUNT random encodings of each format, 20,000 by default
    tools/compare_unlisted.py random [COUNT [SEED]] the same with objdump
    tools/compare_unlisted.py library [COUNT [SEED]]  the same with the library, by its Python package

`tools/unlisted/model.py` computes the lengths from the formats alone; docs/unlisted.md states them. The library's answers must be those of the model,
or that the table has the instruction. Needed are objdump (Debian: binutils); LLVM (Debian: llvm-14); Zydis and a C compiler (Debian: libzydis-dev, gcc); or the shared library
(capi/build.sh), which the environment variable FEDDURZAI_LIBRARY can name.

The script prints each difference, and ends with status 1 if there is one. No proof depends on it.
"""
import argparse
import collections
import os
import random
import re
import subprocess
import sys
import tempfile

sys.dont_write_bytecode = True
from unlisted.model import ENDED, Shape, shape, target  # noqa: E402
from unlisted.samples import samples  # noqa: E402

HERE = os.path.dirname(os.path.abspath(__file__))
LINE = re.compile(r"^\s*([0-9a-f]+):\s((?:[0-9a-f]{2} )+)\s*(.*)$")
NOTE = re.compile(r"#\s*(?:0x)?([0-9a-f]+)")
BRANCH = re.compile(r"xbegin\s+(?:0x)?([0-9a-f]+)")
MACHINES = {16: "i8086", 32: "i386", 64: "i386:x86-64"}


OBJDUMP = ("objdump", "-w", "--insn-width=16")
LLVM = (os.environ.get("LLVM_OBJDUMP", "llvm-objdump-14"),)
# how each says that it reads nothing
UNREAD = ("(bad)", "<unknown>")


def disassembled(words, program=OBJDUMP):
    """The instructions that a disassembler lists: address, bytes and text."""
    with subprocess.Popen([*program, *words], stdout=subprocess.PIPE, text=True) as listing:
        for line in listing.stdout:
            found = LINE.match(line)
            if found:
                yield int(found[1], 16), bytes.fromhex(found[2]), found[3]
        if listing.wait():
            sys.exit(f"compare_unlisted.py: {program[0]} ended with status {listing.returncode}")


def tell(words):
    """Prints a difference."""
    print("differs:", *words)
    return 1


def compare_programs(paths, program=OBJDUMP):
    """Each instruction of programs in 64-bit mode, as a disassembler lists it."""
    differences = 0
    for path in paths:
        counts, all_count, addresses = collections.Counter(), 0, 0
        for address, code, text in disassembled(["-d", path], program):
            if any(word in text for word in UNREAD):
                continue
            all_count += 1
            found = shape(64, code + b"\x90" * 15)
            if found in (None, ENDED):
                continue
            counts[found.kind] += 1
            if found.length != len(code):
                differences += tell((path, f"{address:x}", code.hex(), text, found.length))
            note = NOTE.search(text) or BRANCH.match(text)
            if note and "rip" in text or found.relative:
                addresses += 1
                if not note or target(64, address, found) != int(note[1], 16):
                    differences += tell((path, f"{address:x}", code.hex(), text, found))
        kinds = ", ".join(f"{n:,} {kind}" for kind, n in sorted(counts.items()))
        print(f"{os.path.basename(path)}: {all_count:,} instructions, {sum(counts.values()):,} with a format: {kinds}; {addresses:,} addresses")
    return differences


def compare_random_objdump(count, seed):
    """Random encodings, each at a multiple of 32 bytes with NOPs behind it."""
    differences = 0
    tried, same, refused = collections.Counter(), collections.Counter(), collections.Counter()
    by_mode = collections.defaultdict(list)
    for kind, bits, code in samples(count, seed):
        found = shape(bits, code)
        if found not in (None, ENDED):
            by_mode[bits].append((kind, code[:found.length], found))
            tried[kind] += 1
    for bits, cases in by_mode.items():
        with tempfile.NamedTemporaryFile() as file:
            file.write(b"".join(code + b"\x90" * (32 - len(code)) for _, code, _ in cases))
            file.flush()
            listed = {address: (code, text) for address, code, text in
                      disassembled(["-D", "-b", "binary", "-m", MACHINES[bits], file.name]) if address % 32 == 0}
        for index, (kind, code, found) in enumerate(cases):
            other, text = listed.get(32 * index, (b"", "(bad)"))
            if "(bad)" in text or len(other) < len(code) and not set(text.split()) - PREFIX_WORDS:
                refused[kind] += 1
            elif len(other) == len(code):
                same[kind] += 1
            else:
                differences += tell((bits, code.hex(), other.hex(), text, found))
    for kind in tried:
        print(f"{kind}: {tried[kind]:,} tried, {same[kind]:,} of the same length, {refused[kind]:,} refused by objdump")
    return differences


PREFIX_WORDS = {"data16", "addr32", "addr16", "data32", "cs", "ds", "es", "ss", "fs", "gs", "repz", "repnz", "rep", "lock", "rex", "rex.W", "rex.R",
                "rex.X", "rex.B", *(f"rex.{a}" for a in ("WR", "WX", "WB", "RX", "RB", "XB", "WRX", "WRB", "WXB", "RXB", "WRXB"))}


def built_zydis(folder):
    """The program that asks Zydis."""
    program = os.path.join(folder, "zydis_lengths")
    subprocess.run(["cc", "-O2", "-o", program, os.path.join(HERE, "unlisted", "zydis_lengths.c"), "-lZydis"], check=True)
    return program


def asked(program, lines):
    """A program's answers to lines."""
    text = "".join(line + "\n" for line in lines)
    return subprocess.run([program], input=text, capture_output=True, text=True, check=True).stdout.splitlines()


# why Zydis refuses an instruction, by its status codes
CAUSES = {"1": "no such opcode", "2": "too long", "3": "no such register", "4": "LOCK", "8": "fields of EVEX", "10": "mask"}


def base_of(bits):
    """The address of each encoding."""
    return 0x4000 if bits == 16 else 0x400000


def library_answer(feddurzai, bits, code):
    """What the library measures, as a shape of the model, ENDED or None."""
    try:
        found = feddurzai.measure(bits, code)
    except feddurzai.TooShort:
        return ENDED
    except feddurzai.InvalidCode:
        return None
    relative = (found.reference.name.lower(), found.at, found.size, found.distance) if found.reference else None
    return Shape(found.len, found.kind.name.lower(), relative)


def is_listed(feddurzai, bits, code):
    """Whether the table has an instruction that the bytes begin or are the front of."""
    try:
        feddurzai.decode(bits, 0, code)
    except feddurzai.InvalidCode:
        return False
    except feddurzai.TooShort:
        return True
    return True


def compare_library(count, seed):
    """Random encodings, and their first bytes, with the library."""
    sys.path.insert(0, os.path.join(HERE, "..", "capi", "python"))
    import feddurzai
    differences = 0
    tried, same, listed = collections.Counter(), collections.Counter(), collections.Counter()
    chance = random.Random(seed)
    for kind, bits, code in samples(count, seed):
        for code in (code, code[:chance.randrange(16)]):
            found, answer = shape(bits, code), library_answer(feddurzai, bits, code)
            tried[kind] += 1
            if answer == found:
                same[kind] += 1
            elif answer is None and is_listed(feddurzai, bits, code if found == ENDED else code[:found.length]):
                listed[kind] += 1
            else:
                differences += tell((bits, code.hex(), answer, found))
    for kind in tried:
        print(f"{kind}: {tried[kind]:,} tried, {same[kind]:,} the same as the model, {listed[kind]:,} of the table")
    return differences


def compare_zydis(count, seed):
    """Random encodings with Zydis."""
    differences = 0
    cases = [(kind, bits, code, shape(bits, code)) for kind, bits, code in samples(count, seed)]
    lines = [f"{bits} {code.hex()}" for _, bits, code, _ in cases]
    with tempfile.TemporaryDirectory() as folder:
        answers = asked(built_zydis(folder), lines)
    tried, same, refused, addresses, unlike = (collections.Counter() for _ in range(5))
    causes = collections.defaultdict(collections.Counter)
    for (kind, bits, code, found), answer in zip(cases, answers, strict=True):
        if found in (None, ENDED):
            continue
        tried[kind] += 1
        length, address, word = answer.split()
        if length == "-":
            refused[kind] += 1
            causes[kind][CAUSES.get(word, word)] += 1
            continue
        if word in ("jkzd", "jknzd"):
            unlike[kind] += 1
            continue
        # Zydis does not wrap the target of an XBEGIN at the address size of the mode
        other = None if address == "-" else int(address, 16) % (1 << bits)
        if int(length) != found.length or other != target(bits, base_of(bits), found):
            differences += tell((bits, code.hex(), answer, found))
            continue
        same[kind] += 1
        addresses[kind] += address != "-"
    for kind in tried:
        print(f"{kind}: {tried[kind]:,} tried, {same[kind]:,} the same, of these {addresses[kind]:,} with an address, {unlike[kind]:,} JKZD and JKNZD, "
              f"{refused[kind]:,} refused by Zydis: " + (", ".join(f"{n:,} {cause}" for cause, n in sorted(causes[kind].items())) or "none"))
    return differences


def main():
    """Compares, and returns the exit status."""
    parser = argparse.ArgumentParser(description=__doc__, formatter_class=argparse.RawDescriptionHelpFormatter)
    parser.add_argument("what", choices=("objdump", "llvm", "random", "zydis", "library"))
    parser.add_argument("words", nargs="*")
    options = parser.parse_args()
    if options.what in ("objdump", "llvm"):
        return 1 if compare_programs(options.words, LLVM if options.what == "llvm" else OBJDUMP) else 0
    count, seed = [int(word) for word in options.words] + [20000, 1][len(options.words):]
    compare = {"random": compare_random_objdump, "zydis": compare_zydis, "library": compare_library}[options.what]
    return 1 if compare(count, seed) else 0


if __name__ == "__main__":
    sys.exit(main())
