#!/usr/bin/env python3
"""Writes the codes of common instructions to feddurzai.h, tests/codes.h, the Python package and the crate feddurzai, and all codes to the crate for Rust, from
the rows of the table.

    listing_program rows | capi/codes.py            writes all files
    listing_program rows | capi/codes.py --check    compares the files with what it would write; exit status 1 if one differs

A row is `CODE NOTATION NAME`. The list below selects the rows that have a constant and names each; the numbers come from the rows alone.
rust_names.py names all rows for Rust; the crate also has the number of the interface, which comes from feddurzai.h.
"""

import os
import re
import sys

sys.dont_write_bytecode = True
import rust_names  # noqa: E402

HERE = os.path.dirname(os.path.abspath(__file__))
BEGIN = "/* begin of the codes that codes.py writes */\n"
END = "/* end of the codes that codes.py writes */\n"

CONDITIONS = "o no b ae e ne be a s ns p np l ge le g".split()
ARITHMETIC = "add or adc sbb and sub xor cmp".split()


def wanted():
    """Each constant with the name and the notation of its row."""
    for name, short, near, digit in (("jmp", "EB", "E9", 4), ("call", None, "E8", 2)):
        for size, suffix in (("o64", ""), ("o32", "_O32")):
            if short:
                yield f"{name}_REL8{suffix}", name, f"{size} {short} cb"
            yield f"{name}_REL32{suffix}", name, f"{size} {near} cd"
        yield f"{name}_RM64", name, f"o64 FF /{digit}"
        yield f"{name}_RM32", name, f"o32 FF /{digit}"
    for n, condition in enumerate(CONDITIONS):
        for size, suffix in (("o64", ""), ("o32", "_O32")):
            yield f"j{condition}_REL8{suffix}", f"j{condition}", f"{size} {0x70 + n:02X} cb"
            yield f"j{condition}_REL32{suffix}", f"j{condition}", f"{size} 0F {0x80 + n:02X} cd"
    yield "ret", "ret", "o64 C3"
    yield "ret_O32", "ret", "o32 C3"
    yield "ret_IMM16", "ret", "o64 C2 iw"
    yield "push_R64", "push", "o64 50+ro"
    yield "push_R32", "push", "o32 50+rd"
    yield "push_IMM8", "push", "o64 6A ib"
    yield "push_IMM32", "push", "o64 68 id"
    yield "push_RM64", "push", "o64 FF /6"
    yield "pop_R64", "pop", "o64 58+ro"
    yield "pop_R32", "pop", "o32 58+rd"
    yield "pop_RM64", "pop", "o64 8F /0"
    yield "pushfq", "pushfq", "o64 9C"
    yield "popfq", "popfq", "o64 9D"
    for name, notation in (("nop", "NF3 90"), ("int3", "CC"), ("ud2", "0F 0B"), ("syscall", "0F 05"), ("hlt", "F4"), ("leave", "o64 C9"), ("endbr64", "F3 0F 1E FA")):
        yield name, name, notation
    yield "nop_RM32", "nop", "o32 0F 1F /0"
    for bits, size in (("64", "REX.W +"), ("32", "o32")):
        register, immediate = f"B8+{'ro io' if bits == '64' else 'rd id'}", f"R{bits}_IMM{bits}"
        yield f"mov_RM{bits}_R{bits}", "mov", f"{size} 89 /r"
        yield f"mov_R{bits}_RM{bits}", "mov", f"{size} 8B /r"
        yield f"mov_{immediate}", "mov", f"{size} {register}"
        yield f"mov_RM{bits}_IMM32", "mov", f"{size} C7 /0 id"
        yield f"lea_R{bits}", "lea", f"{size} 8D /r"
        yield f"xchg_RM{bits}_R{bits}", "xchg", f"{size} 87 /r"
        yield f"test_RM{bits}_R{bits}", "test", f"{size} 85 /r"
        yield f"test_RM{bits}_IMM32", "test", f"{size} F7 /0 id"
        for n, name in enumerate(ARITHMETIC):
            yield f"{name}_RM{bits}_R{bits}", name, f"{size} {8 * n + 1:02X} /r"
            yield f"{name}_R{bits}_RM{bits}", name, f"{size} {8 * n + 3:02X} /r"
            yield f"{name}_RM{bits}_IMM8", name, f"{size} 83 /{n} ib"
            yield f"{name}_RM{bits}_IMM32", name, f"{size} 81 /{n} id"
    yield "mov_RM8_R8", "mov", "88 /r"
    yield "mov_R8_RM8", "mov", "8A /r"
    yield "mov_R8_IMM8", "mov", "B0+rb ib"
    yield "mov_RM8_IMM8", "mov", "C6 /0 ib"


def read_rows(lines):
    """The notation and the name of each row, in the order of the codes."""
    rows = []
    for line in lines:
        code, rest = line.rstrip("\n").split(" ", 1)
        if int(code) != len(rows):
            sys.exit(f"codes.py: standard input has code {code} where {len(rows)} is due: pass it the output of listing_program rows")
        rows.append(tuple(rest.rsplit(" ", 1)))
    return rows


def by_name(listed):
    """Maps each name and notation to the code and the number of rows of the name before it."""
    rows, seen = {}, {}
    for code, (notation, name) in enumerate(listed):
        rows[name, notation] = code, seen.get(name, 0)
        seen[name] = seen.get(name, 0) + 1
    return rows


PYTHON_HEAD = '''"""The codes of common instructions. codes.py writes this file from the rows of the table."""

from ._numbers import Named


class Code(Named):
    """The codes of common instructions, for an `Instr`; `code_of` finds the others.

    In the names RM is a register or memory, REL an offset and IMM an immediate, and a number is a width in bits. JMP, CALL, Jcc, RET, PUSH,
    POP and LEAVE are of 64-bit code, unless _O32, R32 or RM32 marks them as 32-bit code.

    >>> Instr(Code.JMP_REL32, Near(0x2000)).encode(64, 0x1000).hex()
    'e9fb0f0000'
    >>> print(Code.JMP_REL32)
    Code.JMP_REL32
    >>> Code.JMP_REL32 == code_of("jmp", "o64 E9 cd")
    True
    """

'''


RATTLE_HEAD = """//! The codes of common instructions. capi/codes.py writes this file from the rows of the table; `rows::code_of` finds the others.
//!
//! In the names RM is a register or memory, REL an offset and IMM an immediate, and a number is a width in bits. JMP, CALL, Jcc, RET, PUSH, POP and LEAVE are
//! of 64-bit code, unless `_O32`, `R32` or `RM32` marks them as 32-bit code.

use x86_values::Code;
"""


def parts(rows):
    """The constants as lines of the header, of the test, of the Python package and of the crate feddurzai."""
    constants, tests, members, items = [], [], [], []
    for constant, name, notation in wanted():
        if (name, notation) not in rows:
            sys.exit(f"codes.py: standard input has no row {notation} {name}: pass it the output of listing_program rows")
        code, n = rows[name, notation]
        constant = constant.upper()
        members.append(f"    {constant} = {code}".ljust(32) + f"# {notation}\n")
        items.append(f"\n/// {name.upper()}: `{notation}`.\npub const {constant}: Code = Code({code});\n")
        constant = f"FEDDURZAI_CODE_{constant}"
        constants.append(f"    {constant} = {code},".ljust(44) + f"/* {notation} */\n")
        tests.append(f'{{{constant}, "{name}", {n}, "{notation}"}},\n')
    constants[-1] = constants[-1].replace(",", " ", 1)
    return (
        "enum {\n" + "".join(constants) + "};\n",
        "/* codes.py writes this: each constant of feddurzai.h with the row that it is for */\n" + "".join(tests),
        PYTHON_HEAD + "".join(members),
        RATTLE_HEAD + "".join(items),
    )


def text_of(path):
    """The text of a file, empty if there is no such file."""
    if not os.path.exists(path):
        return ""
    with open(path) as file:
        return file.read()


def main():
    words = sys.argv[1:]
    if words not in ([], ["--check"]):
        print(__doc__.strip())
        sys.exit(0 if words in (["-h"], ["--help"]) else 2)
    check = words == ["--check"]
    header_path = os.path.join(HERE, "feddurzai.h")
    header = text_of(header_path)
    rows = read_rows(sys.stdin)
    constants, tests, members, items = parts(by_name(rows))
    before, rest = header.split(BEGIN)
    written = {
        header_path: before + BEGIN + constants + END + rest.split(END)[1],
        os.path.join(HERE, "tests", "codes.h"): tests,
        os.path.join(HERE, "python", "feddurzai", "_codes.py"): members,
        os.path.join(os.path.dirname(HERE), "crates", "feddurzai", "src", "codes.rt"): items,
    }
    interface = re.search(r"^#define FEDDURZAI_INTERFACE (\d+)$", header, re.MULTILINE)
    for name, text in rust_names.files_of(rows, interface[1]).items():
        written[os.path.join(HERE, "rust", "src", *name.split("/"))] = text
    if check:
        other = [path for path, text in written.items() if text_of(path) != text]
        sys.exit(f"codes.py: out of date: {', '.join(other)}: run codes.py without --check" if other else 0)
    for path, text in written.items():
        with open(path, "w") as file:
            file.write(text)


main()
