#!/usr/bin/env python3
"""Measures the Python package over a file of raw code: how many items a second `iterate` yields, alone, with texts, with effects and with info.

    bench/python.py FILE [BITS]

FILE is raw code, 64-bit by default; its first 2,000,000 bytes are read (BYTES=n for another number). The package is that of this repository, with the
library that it finds: capi/out, or the file that FEDDURZAI_LIBRARY names. A round measures each line once, one after another, and each line is the best of
seven rounds (ROUNDS=n for another number) in processor time. `effects, read` also reads each field of the effects. If the Python module of Capstone is
installed, its `disasm_lite`, whose tuples include the texts, and its `disasm` follow. It stops at a byte that begins no instruction and is called again
behind that. The last column compares the items a second with those of `disasm_lite`.
"""
import os
import sys
import time

HERE = os.path.dirname(os.path.realpath(__file__))
sys.path.insert(0, os.path.join(HERE, "..", "capi", "python"))
import feddurzai  # noqa: E402

try:
    import capstone
except ImportError:
    capstone = None


def iterate(bits, code):
    number = 0
    for _ in feddurzai.iterate(bits, 0x401000, code):
        number += 1
    return number


def texts(bits, code):
    number = 0
    for item in feddurzai.iterate(bits, 0x401000, code):
        item.text()
        number += 1
    return number


def effects(bits, code):
    number, instruction = 0, feddurzai.ItemKind.INSTRUCTION
    for item in feddurzai.iterate(bits, 0x401000, code):
        if item.kind is instruction:
            item.effects()
        number += 1
    return number


def effects_read(bits, code):
    number, instruction = 0, feddurzai.ItemKind.INSTRUCTION
    for item in feddurzai.iterate(bits, 0x401000, code):
        if item.kind is instruction:
            told = item.effects()
            told.registers, told.memory, told.flags_read, told.flags_written, told.flags_cleared
            told.flags_set, told.flags_undefined, told.flags_kept, told.features
            for use in told.registers:
                use.register, use.access
            for use in told.memory:
                use.segment, use.base, use.index, use.scale, use.displacement, use.size, use.access
        number += 1
    return number


def info(bits, code):
    number, instruction = 0, feddurzai.ItemKind.INSTRUCTION
    for item in feddurzai.iterate(bits, 0x401000, code):
        if item.kind is instruction:
            item.info()
        number += 1
    return number


def by_capstone(detail):
    """A measurement of Capstone, with the records of the operands or with tuples of texts."""

    def run(bits, code):
        engine = capstone.Cs(capstone.CS_ARCH_X86, {16: capstone.CS_MODE_16, 32: capstone.CS_MODE_32, 64: capstone.CS_MODE_64}[bits])
        engine.detail = detail
        number = at = 0
        while at < len(code):
            if detail:
                for it in engine.disasm(code[at:], 0x401000 + at):
                    at = it.address + it.size - 0x401000
                    number += 1
            else:
                for address, size, _, _ in engine.disasm_lite(code[at:], 0x401000 + at):
                    at = address + size - 0x401000
                    number += 1
            at += 1
            number += at <= len(code)
        return number

    return run


def main():
    if len(sys.argv) not in (2, 3):
        sys.exit("usage: bench/python.py FILE [BITS], with FILE raw code and BITS 16, 32 or 64")
    bits, rounds = int(sys.argv[2]) if len(sys.argv) == 3 else 64, int(os.environ.get("ROUNDS") or 7)
    with open(sys.argv[1], "rb") as file:
        code = file.read(int(os.environ.get("BYTES") or 2_000_000))
    runs = {"iterate": iterate, "texts": texts, "effects": effects, "effects, read": effects_read, "info": info}
    if capstone is not None:
        runs["Capstone, lite"], runs["Capstone, detail"] = by_capstone(False), by_capstone(True)
    best, numbers = {}, {}
    for _ in range(rounds):
        for name, run in runs.items():
            start = time.process_time()
            numbers[name] = run(bits, code)
            took = time.process_time() - start
            best[name] = min(took, best.get(name, took))
    rates = {name: numbers[name] / best[name] for name in runs}
    print(f"{len(code)} bytes, Python {sys.version.split()[0]}, the best of {rounds} rounds")
    for name in runs:
        compared = f"{rates[name] / rates['Capstone, lite']:6.2f}" if "Capstone, lite" in runs else ""
        print(f"{name:18} {numbers[name]:9} items {rates[name]:12,.0f} a second {compared}")


if __name__ == "__main__":
    main()
