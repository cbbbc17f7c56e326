#!/usr/bin/env python3
"""Assembles random routines by this library, by GNU as and by NASM, and sorts every difference of their bytes into kinds.

Usage: tools/compare_assemblers.py [ROUTINES [SEED]]       default: 10000 routines, seed 1

Required: the library for C (capi/build.sh), GNU as and NASM. A routine has 5 to 200 lines: instructions of the kinds that compilers write, branches to
labels, operands at labels, and data. Each line is written as each assembler wants it; this library gets the text of GNU as but for data and `[rip+label]`.

Two things are checked of each routine, and the first that fails ends the program with status 1:

 - Each branch and each operand at a label goes to the address of that label's line, in the bytes of each assembler.
 - No routine is longer here than elsewhere. Where the other assembler writes another instruction than the line says, if only with its operands in another
   order, the line is replaced by the text of that instruction before the lengths are compared.

A difference is a line whose bytes differ though the lines before it are as long: its kind is by what is decoded from both. Lines of branches are compared by
their forms. The counts are in docs/assembler.md.
"""

import os
import random
import struct
import subprocess
import sys
import tempfile
from collections import Counter
from typing import NamedTuple

sys.path.insert(0, os.path.join(os.path.dirname(os.path.abspath(__file__)), "..", "capi", "python"))
import feddurzai  # noqa: E402
from feddurzai import Instr, Near  # noqa: E402

BASE = 0x401000
AT_ONCE = 250  # routines in one file for the other assemblers

R64 = ["rax", "rcx", "rdx", "rbx", "rsp", "rbp", "rsi", "rdi"] + [f"r{n}" for n in range(8, 16)]
R32 = ["eax", "ecx", "edx", "ebx", "esp", "ebp", "esi", "edi"] + [f"r{n}d" for n in range(8, 16)]
R16 = ["ax", "cx", "dx", "bx", "sp", "bp", "si", "di"] + [f"r{n}w" for n in range(8, 16)]
R8 = ["al", "cl", "dl", "bl", "spl", "bpl", "sil", "dil"] + [f"r{n}b" for n in range(8, 16)]
BY_SIZE = {8: R8, 16: R16, 32: R32, 64: R64}
POINTER = {8: "byte", 16: "word", 32: "dword", 64: "qword", 128: "xmmword", 256: "ymmword"}
CONDITIONS = "o no b ae e ne be a s ns p np l ge le g z nz c nc".split()
ARITHMETIC = "add or adc sbb and sub xor cmp".split()


# the kinds of differences where the text of the instruction differs
OTHER = ("another instruction", "operands or terms swapped")


class Line(NamedTuple):
    """A line: its label or an empty text, what it is for this library and GNU as, what for NASM, how many bytes of data it has, and the label it goes to."""

    label: str
    text: str
    nasm: str
    data: bytes = b""
    goes_to: str = ""


class Writer:
    """Writes random lines. `labels` are those of the routine."""

    def __init__(self, chance, labels):
        self.chance, self.labels = chance, labels

    def number(self, bits):
        """A number that an operand of this size takes, often near a border of the forms."""
        border = self.chance.choice([0, 1, 5, 127, 128, -1, -128, -129, 255, 256, 1000, 0x7FFF, 0x12345678, -0x80000000, 0x7FFFFFFF])
        low, high = -(1 << min(bits, 32) - 1), (1 << min(bits, 32) - 1) - 1
        return border if low <= border <= high else self.chance.randint(-128, 127)

    def address(self):
        """The terms of an address, and the same for NASM."""
        base, index = self.chance.choice(R64), self.chance.choice([name for name in R64 if name != "rsp"])
        far = self.chance.choice([0, 8, 16, 127, 128, -128, -129, 4096, -8])
        terms = self.chance.choice([base, base, f"{base}+{index}*{self.chance.choice([2, 4, 8])}", f"{base}+{index}", f"{index}*{self.chance.choice([4, 8])}"])
        return terms + (f"{far:+d}" if far else "")

    def memory(self, bits):
        return f"{POINTER[bits]} ptr [{self.address()}]"

    def either(self, bits):
        return self.chance.choice([self.chance.choice(BY_SIZE[bits]), self.memory(bits)])

    def instruction(self):
        """The text of an instruction that goes nowhere."""
        pick, bits = self.chance.choice, self.chance.choice([8, 16, 32, 32, 64, 64])
        register, wide = pick(BY_SIZE[bits]), self.chance.choice([32, 64])
        vector = lambda: f"xmm{self.chance.randrange(16)}"
        return pick(
            [
                lambda: f"{pick(ARITHMETIC + ['mov', 'test'])} {self.either(bits)}, {pick(BY_SIZE[bits])}",
                lambda: f"{pick(ARITHMETIC + ['mov'])} {register}, {self.either(bits)}",
                lambda: f"{pick(ARITHMETIC + ['mov', 'test'])} {self.either(bits)}, {self.number(bits)}",
                lambda: f"{pick('inc dec neg not mul div'.split())} {self.either(bits)}",
                lambda: f"{pick('shl shr sar rol ror'.split())} {self.either(bits)}, {pick([1, 2, 7, 'cl'])}",
                lambda: f"lea {pick(BY_SIZE[wide])}, [{self.address()}]",
                lambda: f"{pick('movzx movsx'.split())} {pick(BY_SIZE[wide])}, {self.either(pick([8, 16]))}",
                lambda: f"imul {pick(BY_SIZE[wide])}, {self.either(wide)}, {self.number(wide)}",
                lambda: f"{pick(['push', 'pop'])} {pick(R64)}",
                lambda: f"push {self.number(32)}",
                lambda: f"cmov{pick(CONDITIONS)} {pick(BY_SIZE[wide])}, {self.either(wide)}",
                lambda: f"set{pick(CONDITIONS)} {self.either(8)}",
                lambda: f"xchg {pick(BY_SIZE[bits])}, {pick(BY_SIZE[bits])}",
                lambda: f"{pick('bt bts btr'.split())} {self.either(wide)}, {pick([1, 5, 31])}",
                lambda: f"{pick('addps mulps subps pxor paddd movaps'.split())} {vector()}, {vector()}",
                lambda: f"{pick('addsd mulsd divsd'.split())} {vector()}, {pick([vector(), self.memory(64)])}",
                lambda: f"cvtsi2sd {vector()}, {pick(BY_SIZE[wide])}",
                lambda: f"{pick('vaddps vmulps vpxor'.split())} {vector()}, {vector()}, {vector()}",
                lambda: f"vmovaps {vector()}, {vector()}",
                lambda: pick("nop ret leave cdq cqo cld syscall cpuid rdtsc hlt int3".split()),
                lambda: pick(["rep movsb", "rep stosq", "lodsb", "scasb", "lock inc dword ptr [rbx]", "xlatb"]),
            ]
        )()

    def line(self, label):
        """A line with this label."""
        kind, there = self.chance.random(), self.chance.choice(self.labels)
        if kind < 0.14:
            text = f"{self.chance.choice(['jmp', 'call'] + ['j' + c for c in CONDITIONS])} {there}"
            return Line(label, text, text, goes_to=there)
        if kind < 0.2:
            front, name = self.chance.choice(["lea rax,", "mov r9, qword", "cmp byte", "movzx ecx, byte", "jmp qword", "addsd xmm3, qword"]), "rip+" + there
            back = ", 7" if front == "cmp byte" else ""
            pointer = " ptr" if front[-1] != "," else ""
            return Line(label, f"{front}{pointer} [{name}]{back}", f"{front} [rel {there}]{back}", goes_to=there)
        if kind < 0.24:
            data = self.chance.randbytes(self.chance.choice([1, 4, 8, 40]))
            text = "db " + ", ".join(str(byte) for byte in data)
            return Line(label, text, text, data)
        text = self.instruction()
        return Line(label, text, text.replace(" ptr", ""))


def routine_of(chance, number):
    """A random routine: its lines."""
    count = chance.randint(5, 200)
    places = sorted(chance.sample(range(count), max(1, count // 12)))
    labels = {at: f"lab{number}_{k}" for k, at in enumerate(places)}
    writer = Writer(chance, list(labels.values()))
    return [writer.line(labels.get(at, "")) for at in range(count)]


def sections(path):
    """The bytes of the sections of an ELF file of 64 bits, by their names."""
    with open(path, "rb") as file:
        data = file.read()
    (table,), (size, count, names) = struct.unpack_from("<Q", data, 0x28), struct.unpack_from("<3H", data, 0x3A)
    if count == 0 or names == 0xFFFF:  # too many sections for the fields of the header
        count, names = struct.unpack_from("<Q", data, table + 0x20)[0] or count, struct.unpack_from("<I", data, table + 0x28)[0] or names
    headers = [struct.unpack_from("<IIQQQQIIQQ", data, table + k * size) for k in range(count)]
    texts = headers[names]
    found = {}
    for header in headers:
        start = texts[4] + header[0]
        found[data[start : data.index(b"\0", start)].decode()] = data[header[4] : header[4] + header[5]]
    return found


def by_gnu(folder, routines):
    """The bytes of routines by GNU as."""
    lines = [".intel_syntax noprefix"]
    for k, routine in enumerate(routines):
        lines.append(f'.section r{k}, "ax"')
        for line in routine:
            lines += [line.label + ":"] if line.label else []
            lines.append(".byte " + line.text[3:] if line.data else line.text)
    with open(f"{folder}/gnu.s", "w") as file:
        file.write("\n".join(lines) + "\n")
    subprocess.run(["as", "--64", "-o", f"{folder}/gnu.o", f"{folder}/gnu.s"], check=True)
    found = sections(f"{folder}/gnu.o")
    return [found[f"r{k}"] for k in range(len(routines))]


def by_nasm(folder, routines):
    """The bytes of routines by NASM."""
    lines = ["bits 64", "default rel"]
    for k, routine in enumerate(routines):
        lines.append(f"section r{k} progbits alloc exec nowrite align=1")
        for line in routine:
            lines += [line.label + ":"] if line.label else []
            lines.append(line.nasm)
    with open(f"{folder}/nasm.s", "w") as file:
        file.write("\n".join(lines) + "\n")
    subprocess.run(["nasm", "-f", "elf64", "-w-all", "-o", f"{folder}/nasm.o", f"{folder}/nasm.s"], check=True)
    found = sections(f"{folder}/nasm.o")
    return [found[f"r{k}"] for k in range(len(routines))]


def by_us(routine):
    """The bytes of a routine by this library."""
    text = "\n".join((line.label + ": " if line.label else "") + line.text for line in routine)
    return feddurzai.assemble_code(64, BASE, text).code


class Cut(NamedTuple):
    """The bytes of a line, and its instruction if it is no data."""

    address: int
    bytes: bytes
    item: object


def cut(routine, code):
    """The bytes of each line of a routine."""
    at, cuts = 0, []
    for line in routine:
        if line.data:
            item, size = None, len(line.data)
            if code[at : at + size] != line.data:
                raise AssertionError(f"data differs: {line.text}")
        else:
            item = feddurzai.decode(64, BASE + at, code[at:])
            size = item.len
        cuts.append(Cut(BASE + at, code[at : at + size], item))
        at += size
    if at != len(code):
        raise AssertionError(f"{len(code) - at} bytes follow the last line")
    return cuts


def goal_of(item):
    """Where an instruction goes: a near target, or the address of an operand at RIP."""
    about = item.info()
    return about.target if about.target is not None else about.ip_address


def reaches(routine, cuts):
    """The first line that does not go to its label, or None."""
    at = {line.label: part.address for line, part in zip(routine, cuts) if line.label}
    for line, part in zip(routine, cuts):
        if line.goes_to and goal_of(part.item) != at[line.goes_to]:
            return line
    return None


def kind_of(line, ours, theirs):
    """The kind of a difference in the bytes of a line, None if there is none."""
    if line.data or ours.bytes == theirs.bytes:
        return None
    if line.goes_to and isinstance(ours.item, Instr):
        if ours.item.code == theirs.item.code:
            return None
        if any(isinstance(operand, Near) for operand in ours.item.ops):
            return f"branch of another form ({len(ours.bytes)} bytes here, {len(theirs.bytes)} there)"
    text, other = ours.item.text(), theirs.item.text()
    length = "as long" if len(ours.bytes) == len(theirs.bytes) else "shorter here" if len(ours.bytes) < len(theirs.bytes) else "longer here"
    if text == other:
        return f"the same instruction, {length}"
    if ours.item.name == theirs.item.name and sorted(text.replace(",", " ").split()) == sorted(other.replace(",", " ").split()):
        return f"operands or terms swapped, {length}"
    return f"another instruction, {length}"


def compare(name, routine, ours, theirs, kinds, samples):
    """Compares two outputs of a routine. Counts the kinds of differences, and returns how much longer ours is with the instructions of the other."""
    for who, cuts in (("here", ours), (name, theirs)):
        missed = reaches(routine, cuts)
        if missed:
            raise AssertionError(f"{who}: {missed.text} does not go to its label")
    same = list(routine)
    for k, (line, mine, other) in enumerate(zip(routine, ours, theirs)):
        kind = kind_of(line, mine, other)
        if kind:
            kinds[kind] += 1
            samples.setdefault(kind, f"{line.text}: {mine.bytes.hex()} here ({mine.item}), {other.bytes.hex()} there ({other.item})")
        if kind and kind.startswith(OTHER):
            same[k] = line._replace(text=other.item.text())
    size = sum(len(part.bytes) for part in ours) if same == routine else len(by_us(same))
    return size - sum(len(part.bytes) for part in theirs)


def main():
    count, seed = (int(word) for word in (sys.argv[1:] + ["10000", "1"][len(sys.argv) - 1 :])[:2])
    chance = random.Random(seed)
    lines, lengths = 0, Counter()
    kinds, samples, shorter = {"GNU as": Counter(), "NASM": Counter()}, {"GNU as": {}, "NASM": {}}, Counter()
    with tempfile.TemporaryDirectory() as folder:
        for first in range(0, count, AT_ONCE):
            routines = [routine_of(chance, number) for number in range(first, min(first + AT_ONCE, count))]
            outputs = {"GNU as": by_gnu(folder, routines), "NASM": by_nasm(folder, routines)}
            for k, routine in enumerate(routines):
                code = by_us(routine)
                ours = cut(routine, code)
                lines += len(routine)
                lengths["here"] += len(code)
                for name, codes in outputs.items():
                    longer = compare(name, routine, ours, cut(routine, codes[k]), kinds[name], samples[name])
                    lengths[name] += len(codes[k])
                    shorter[name] += longer < 0
                    if longer > 0:
                        raise AssertionError(f"routine {first + k} is {longer} bytes longer here than by {name}")
    print(f"{count} routines of {lines} lines: {lengths['here']} bytes here, {lengths['GNU as']} by GNU as, {lengths['NASM']} by NASM")
    for name in kinds:
        print(f"{name}: {shorter[name]} routines are shorter here, none is longer")
        for kind, number in kinds[name].most_common():
            print(f"  {number:7} {kind}\n          {samples[name][kind]}")
    return 0


if __name__ == "__main__":
    try:
        sys.exit(main())
    except AssertionError as failure:
        sys.exit(f"compare_assemblers: {failure}")
