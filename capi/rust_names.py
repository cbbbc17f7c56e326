"""The names of all rows for the Rust crate: those of iced-x86 as far as a rule gives them.

`names_of` returns a name for each row of the table, in the order of the codes: the mnemonic and a word for each operand, as in
`Mov_r64_rm64`. The words come from the operands of the entries in crates/row_entries/data, and docs/for-iced-users.md describes the rule.
"""

import os
import sys

sys.path.insert(0, os.path.join(os.path.dirname(os.path.dirname(os.path.abspath(__file__))), "tools"))
from tables.entries import read_all  # noqa: E402
from tables.rows import table_of  # noqa: E402

SIZES = {"O16": 16, "O32": 32, "O32or64": 32, "O64": 64, "W0": 32, "W1": 64}
LETTERS = {16: "w", 32: "d", 64: "q"}
ACCUMULATORS = {8: "AL", 16: "AX", 32: "EAX", 64: "RAX"}

# words of operands that no size changes
FIXED = {
    "Al": "AL", "Ax": "AX", "Cl": "CL", "Dx": "DX", "One": "1", "Cs": "CS", "Ds": "DS", "Es": "ES", "Fs": "FS", "Gs": "GS", "Ss": "SS",
    "Cn": "cr", "Dn": "dr", "Sw": "Sreg", "Rm": "r", "Eb": "rm8", "Ew": "rm16", "Ed": "rm32", "Gb": "r8", "Gw": "r16", "Gd": "r32", "Zb": "r8",
    "Kb": "r32m8", "Kw": "r32m16", "Ib": "imm8", "Ibs": "imm8", "Iw": "imm16", "M": "m", "Mb": "m8", "Mw": "m16", "Md": "m32", "Mq": "m64",
    "Mo": "m128", "Mt": "m80", "Nq": "mm", "Pq": "mm", "Qd": "mmm32", "Qq": "mmm64", "St": "st0", "StI": "sti", "Vo": "xmm", "Ho": "xmm",
    "Wo": "xmmm128", "Wb": "xmmm8", "Ww": "xmmm16", "Wd": "xmmm32", "Wq": "xmmm64", "Ob": "moffs8", "Xmm0": "",
}
# words of operands with the operand size, or the size of W
SIZED = {
    "Ev": "rm{}", "Ey": "rm{}", "Gv": "r{}", "Gy": "r{}", "By": "r{}", "Rv": "r{}", "Ry": "r{}", "Zv": "r{}", "Iv": "imm{}", "Mv": "m{}",
    "Ov": "moffs{}", "Ap": "ptr16{}", "Mf": "m16{}", "Mp": "m16{}",
}
# operands of string instructions, by the name without its size
STRINGS = {
    "movs": "m{0} m{0}", "cmps": "m{0} m{0}", "stos": "m{0} {1}", "lods": "{1} m{0}", "scas": "{1} m{0}", "ins": "m{0} DX", "outs": "DX m{0}",
}
STRING_SIZES = {"b": 8, "w": 16, "d": 32, "q": 64}
# rows whose operand size is a letter after the name
LETTERED = "ret retf leave enter sysret sysexit".split()
# names without a letter where iced-x86 has one
WITH_LETTER = {"pushf": "pushfw", "popf": "popfw", "pusha": "pushaw", "popa": "popaw", "iret": "iretw"}
# the kind of memory of x87 instructions and of some others
REALS = {"Md": "m32fp", "Mq": "m64fp", "Mt": "m80fp"}
INTEGERS = {"Mw": "m16int", "Md": "m32int", "Mq": "m64int"}
STATES = {"fldenv": (14, 28), "fnstenv": (14, 28), "frstor": (94, 108), "fnsave": (94, 108)}
BLOCKS = {"fxsave": "m512byte", "fxrstor": "m512byte", "xsave": "mem", "xsaveopt": "mem", "xrstor": "mem"}


def vector(row, letter):
    """The register of the size of a VEX row, XMM in any other row."""
    return ("y" if row.l == "L256" else "x") + letter


def memory_part(row, divisor):
    """XMM or memory of a part of the vector size."""
    return f"xmmm{(256 if row.l == 'L256' else 128) // divisor}"


def word(row, kind):
    """The word of an operand."""
    size = SIZES.get(row.size, 32)
    if kind in ("Vx", "Hx", "Ux", "Lx"):
        return vector(row, "mm")
    if kind == "Wx":
        return vector(row, "mmm") + ("256" if row.l == "L256" else "128")
    if kind == "Mx":
        return "m256" if row.l == "L256" else "m128"
    if kind in ("Wh", "W4", "W8"):
        return memory_part(row, {"Wh": 2, "W4": 4, "W8": 8}[kind])
    if kind in ("GatherX", "GatherL"):
        index = "x" if kind == "GatherX" or row.l == "L128" else "y"
        return f"vm{32 if row.name.split('gather')[1][0] == 'd' else 64}{index}"
    if row.name.startswith("f") and row.map == "One" and kind in ("Mw", "Md", "Mq", "Mt"):
        if row.name in ("fldcw", "fnstcw", "fnstsw"):
            return "m2byte"
        if row.name in ("fbld", "fbstp"):
            return "m80bcd"
        return (INTEGERS if row.name.startswith("fi") else REALS)[kind]
    if kind == "M" and row.name.rstrip("64") in BLOCKS:
        return BLOCKS[row.name.rstrip("64")]
    if kind == "M" and row.name in STATES:
        return f"m{STATES[row.name][size == 32]}byte"
    if kind == "M" and row.name in ("sgdt", "sidt", "lgdt", "lidt"):
        return {16: "m1632_16", 32: "m1632", 64: "m1664"}[size]
    if row.name == "movnti" and kind == "Ey":
        return f"m{size}"
    # 32 bits also where the operand size is 16
    if kind in ("Ey", "Gy", "By", "Ry"):
        size = max(size, 32)
    if kind == "Ma":
        return f"m{size}{size}"
    if kind == "Xv":
        return "rm16" if size == 16 else f"r{size}m16"
    if kind == "Ez":
        return f"rm{min(size, 32)}"
    if kind == "Iz":
        return f"imm{min(size, 32)}"
    if kind in ("RaxAny", "EaxZ"):
        return ACCUMULATORS[size]
    if kind == "Jb":
        return f"rel8_{size}"
    if kind == "Jz":
        return "rel16" if size == 16 else f"rel32_{size}"
    if kind in SIZED:
        return SIZED[kind].format(size)
    if kind not in FIXED:
        sys.exit(f"rust_names.py: FIXED and SIZED have no word for the operand kind {kind}: {row.entry.where}")
    return FIXED[kind]


def name_of(row):
    """The name of a row by the rule; rows may share it."""
    name, size = WITH_LETTER.get(row.name, row.name), SIZES.get(row.size, 0)
    kinds = [kind for kind in row.ops if kind != "Absent"]
    words = [word(row, kind) for kind in kinds]
    if not kinds and name[:-1] in STRINGS and name[-1] in STRING_SIZES:
        bits = STRING_SIZES[name[-1]]
        words = STRINGS[name[:-1]].format(bits, ACCUMULATORS[bits]).split()
    elif name in LETTERED:
        name = ("retn" if name == "ret" else name) + LETTERS.get(size, "d")
    elif name in ("push", "pop") and kinds[0] in ("Cs", "Ds", "Es", "Fs", "Gs", "Ss", "Ibs", "Iz") and (name, kinds[0], size) != ("push", "Iz", 16):
        name += LETTERS[size]
    elif name in ("callf", "jmpf"):
        name = name[:-1]
    elif name.endswith(("pcmpestrm", "pcmpestri")) and "W1" in (row.w, row.size):
        name += "64"
    elif name == "xlat":
        words = ["m8"]
    elif name == "nop" and not kinds:
        name = "nopd"
    elif name in ("maskmovq", "maskmovdqu", "vmaskmovdqu"):
        words.insert(0, "rDI")
    front = "VEX_" if row.kind == "Vex" else ""
    return "_".join([front + name.capitalize(), *(w for w in words if w)])


def ending(row):
    """What tells rows of one name apart: the map and the opcode byte."""
    return f"_{row.map.lstrip('M').upper() if row.map != 'One' else ''}{row.opcode:02X}"


def names_of():
    """Each row's name and mnemonic. The first of rows with one name has it; each other one has its opcode after it."""
    seen, names = set(), []
    for row in table_of(read_all()):
        name = name_of(row)
        if name in seen:
            name += ending(row)
        if name in seen:
            sys.exit(f"rust_names.py: two rows have the name {name}: {row.entry.where}")
        seen.add(name)
        names.append((name, row.name))
    return names


HEAD = "// codes.py writes this file from the rows of the table: do not edit it.\n"
WIDTH = 118


def wrapped(words, indent):
    """Words in lines of at most WIDTH columns."""
    lines, line = [], ""
    for one in words:
        if line and len(indent) + len(line) + 1 + len(one) > WIDTH:
            lines.append(line)
            line = ""
        line += f" {one}" if line else one
    return "".join(f"{indent}{line}\n" for line in [*lines, line])


def codes_text(doc, first, rows):
    """A file with the constants of some rows: their number, name and notation."""
    words = [f'{first + at} {name} "{notation}",' for at, (name, notation) in enumerate(rows)]
    return f"{HEAD}//! {doc}\n\nuse super::Code;\n\ncodes! {{\n{wrapped(words, '    ')}}}\n"


def files_of(rows, interface):
    """The files of the crate that depend on the rows, by their names in capi/rust/src. `rows` has the notation and the name of each row."""
    names = names_of()
    if [name for _, name in names] != [name for _, name in rows]:
        sys.exit("rust_names.py: standard input has other rows than crates/row_entries/data")
    mnemonics = sorted({name for _, name in rows})
    numbers = {name: at + 1 for at, name in enumerate(mnemonics)}
    listed = [(name, notation) for (name, _), (notation, _) in zip(names, rows)]
    half = next(at for at, (name, _) in enumerate(listed) if name.startswith("VEX_"))
    words = [f'{numbers[name]} {name.capitalize()} "{name}",' for name in mnemonics]
    of_codes = [f"{numbers[name]}," for _, name in rows]
    return {
        "code/legacy.rs": codes_text("The codes of the rows of version 1 without VEX.", 0, listed[:half]),
        "code/vex.rs": codes_text("The codes of the rows of version 1 with VEX, and of version 2.", half, listed[half:]),
        "mnemonic/names.rs": f"{HEAD}//! The mnemonics, and the mnemonic of each code.\n\nuse super::Mnemonic;\n\nmnemonics! {{\n{wrapped(words, '    ')}}}\n\n"
        f"/// The number of the mnemonic of each code.\n#[rustfmt::skip]\npub(super) static OF_CODES: [u16; {len(rows)}] = [\n{wrapped(of_codes, '    ')}];\n",
        "generated.rs": f"{HEAD}//! Numbers of `feddurzai.h`.\n\n/// The interface that this crate is made for: `FEDDURZAI_INTERFACE`.\npub const INTERFACE: u32 = {interface};\n"
        f"/// The number of codes: `FEDDURZAI_CODES`.\npub const CODES: u16 = {len(rows)};\n",
    }
