#!/usr/bin/env python3
"""Counts the functions of a library that each jump of a hook can overwrite, and why it cannot overwrite the others.

    tools/count_hooks.py [FILE]

FILE is an ELF file for x86-64 with symbols of functions, by default the C library. The script passes each function with a size to
`feddurzai.detour`, three times: with the replacement near it, with the trampoline near it and the replacement far, and with both far. Two symbols
at one address count once. It prints the table of docs/hooks.md.

The script uses the Python package in capi/python over the shared library: run capi/build.sh, or set the environment variable FEDDURZAI_LIBRARY to
the file of a built library. It also needs pyelftools (Debian: python3-pyelftools).
"""

import os
import sys
from collections import Counter
from typing import Dict, Iterator, NamedTuple, Tuple

if "--help" in sys.argv or "-h" in sys.argv:
    print(__doc__.strip())
    sys.exit(0)

sys.path.insert(0, os.path.join(os.path.dirname(os.path.dirname(os.path.abspath(__file__))), "capi", "python"))
try:
    from elftools.elf.elffile import ELFFile

    import feddurzai
    from feddurzai import DetourForm, Reason, Refusal
except ImportError as missing:
    sys.exit(f"count_hooks.py: {missing} (--help says what the script needs)")

FAR = 0x7FFF_0000_0000
# for each form, the offsets from the function, or the addresses, of the replacement and of the trampoline
LAYOUTS = {
    "5 bytes, the replacement near": (DetourForm.NEAR, (0x1000_0000, None), (0x1100_0000, None)),
    "5 bytes, by a relay": (DetourForm.RELAY, (None, FAR), (0x1100_0000, None)),
    "14 bytes": (DetourForm.ABSOLUTE, (None, FAR), (None, FAR + 0x1000_0000)),
}
WORDS = {
    Reason.SMALL: "smaller than the jump",
    Reason.ENDS: "ends before, and other code follows",
    Reason.ENTERED: "entered from elsewhere",
    Reason.INVALID: "a byte where no instruction begins",
    Reason.TOO_SHORT: "ends within an instruction",
    Reason.TOO_FAR: "an operand at RIP does not reach",
}


class Function(NamedTuple):
    address: int
    code: bytes


def functions_of(elf: ELFFile) -> Iterator[Function]:
    """The functions that the symbols name, each address once, at its greatest size."""
    sizes: Dict[int, int] = {}
    for name in (".symtab", ".dynsym"):
        table = elf.get_section_by_name(name)
        for symbol in table.iter_symbols() if table is not None else ():
            if symbol["st_info"]["type"] in ("STT_FUNC", "STT_GNU_IFUNC") and symbol["st_shndx"] != "SHN_UNDEF" and symbol["st_size"] > 0:
                address = symbol["st_value"]
                sizes[address] = max(sizes.get(address, 0), symbol["st_size"])
    parts = [(part["sh_addr"], part.data()) for part in elf.iter_sections() if part["sh_flags"] & 4 and part["sh_type"] == "SHT_PROGBITS"]
    for address, size in sorted(sizes.items()):
        for start, data in parts:
            if start <= address and address + size <= start + len(data):
                yield Function(address, data[address - start : address - start + size])
                break


def at(function: Function, where: Tuple[object, object]) -> int:
    behind, address = where
    return address if behind is None else function.address + behind


def main() -> None:
    path = sys.argv[1] if len(sys.argv) > 1 else "/lib/x86_64-linux-gnu/libc.so.6"
    with open(path, "rb") as file:
        elf = ELFFile(file)
        if elf["e_machine"] != "EM_X86_64":
            sys.exit(f"count_hooks.py: {path} is an ELF file for {elf['e_machine']}, not for x86-64")
        functions = list(functions_of(elf))
    print(f"{path}: {len(functions)} functions\n")
    hooked, refused = Counter(), {jump: Counter() for jump in LAYOUTS}
    for function in functions:
        for jump, (form, to, place) in LAYOUTS.items():
            try:
                made = feddurzai.detour(64, function.address, function.code, at(function, to), at(function, place))
            except Refusal as refusal:
                refused[jump][refusal.reason] += 1
            else:
                assert made.form is form, (hex(function.address), made.form)
                hooked[jump] += 1
    reasons = [reason for reason in Reason if any(refused[jump][reason] for jump in LAYOUTS)]
    rows = [["The jump", "Hooked", *(WORDS.get(reason, reason.name) for reason in reasons)]]
    rows += [[jump, str(hooked[jump]), *(str(refused[jump][reason]) for reason in reasons)] for jump in LAYOUTS]
    for number, row in enumerate(rows):
        print("| " + " | ".join(row) + " |")
        if number == 0:
            print("|" + "---|" * len(row))


if __name__ == "__main__":
    main()
