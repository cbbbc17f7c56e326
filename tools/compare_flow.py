#!/usr/bin/env python3
"""Compares the offsets that `flow` reaches in the text of an ELF program with objdump's listing.

usage: tools/compare_flow.py PROGRAM ELF [SYMBOL]

PROGRAM is the built listing_program, and ELF a 64-bit executable. Control is followed
from the entry of ELF, or from SYMBOL. The script prepends a jump to the entry, so that
all of the text can be reached (of a long one, the mebibyte around the entry). Each
reached offset must be the start of an instruction in objdump's listing, or follow its
LOCK: with one thread, glibc jumps over that byte. The script prints the number of
reached offsets, and how many targets of direct branches in the listing are among them.
The exit status is 1 if a reached offset is not the start of an instruction.
"""
import re
import struct
import subprocess
import sys
import tempfile

MOST = 1_048_576


def output(*command, data=None):
    return subprocess.run(command, input=data, stdout=subprocess.PIPE, check=True).stdout


def entry_of(elf, words):
    """The address of the entry, or of the symbol."""
    if words:
        for line in output("nm", "--defined-only", elf).decode().splitlines():
            address, _, name = line.split(maxsplit=2)
            if name == words[0]:
                return int(address, 16)
        sys.exit(f"compare_flow.py: {elf} has no symbol {words[0]}: run nm --defined-only {elf} for a list")
    found = re.search(r"Entry point address:\s+0x([0-9a-f]+)", output("readelf", "-h", elf).decode())
    return int(found.group(1), 16)


def text_of(elf):
    """The address and the bytes of the text section."""
    found = re.search(r" \.text\s+PROGBITS\s+([0-9a-f]+)", output("readelf", "-SW", elf).decode())
    with tempfile.NamedTemporaryFile() as file:
        output("objcopy", "-O", "binary", "--only-section=.text", elf, file.name)
        return int(found.group(1), 16), file.read()


def listing_of(elf, low, high):
    """The starts of instructions between two addresses by objdump, the addresses after a LOCK, and the targets of direct branches there."""
    starts, locked, targets = set(), set(), set()
    options = ["-d", "-j", ".text", "--no-show-raw-insn", f"--start-address={low}", f"--stop-address={high}"]
    for line in output("objdump", *options, elf).decode().splitlines():
        found = re.match(r"\s+([0-9a-f]+):\t(.*)", line)
        if not found:
            continue
        starts.add(int(found.group(1), 16))
        if found.group(2).startswith("lock "):
            locked.add(int(found.group(1), 16) + 1)
        branch = re.match(r"(?:(?:bnd|notrack|data16|cs|ds) )*(?:j\w+|call\w*|loop\w*|xbegin)(?:,p[nt])?\s+(?:0x)?([0-9a-f]+)\b", found.group(2))
        if branch:
            targets.add(int(branch.group(1), 16))
    return starts, locked - starts, {target for target in targets if low <= target < high}


def main(words):
    if len(words) not in (2, 3):
        sys.exit(__doc__.strip())
    program, elf = words[:2]
    entry = entry_of(elf, words[2:])
    address, text = text_of(elf)
    room = MOST - 5
    skipped = 0 if len(text) <= room else max(0, min(entry - address - room // 2, len(text) - room))
    low, code = address + skipped, text[skipped : skipped + room]
    jump = b"\xe9" + struct.pack("<i", entry - low)
    lines = output(program, "flow", "64", f"{low - 5:x}", data=jump + code).decode().splitlines()
    reached = {int(line[:16], 16): line[34:] for line in lines[1:]}
    starts, locked, targets = listing_of(elf, low, low + len(code))
    behind_lock = set(reached) & locked
    wrong = sorted(set(reached) - starts - locked)
    unread = sum(1 for word in reached.values() if word in ("invalid", "too short"))
    print(f"{len(code)} bytes from {low:#x}, entry {entry:#x}")
    print(f"{len(reached)} offsets are reached, of {len(starts)} instructions; at {unread} of them no instruction begins")
    print(f"{len(targets & set(reached))} of {len(targets)} targets of direct branches are reached")
    print(f"{len(behind_lock)} reached offsets follow the LOCK of an instruction")
    print(f"{len(wrong)} other reached offsets are not the start of an instruction")
    for at in wrong[:20]:
        print(f"  {at:#x} {reached[at]}")
    sys.exit(1 if wrong else 0)


main(sys.argv[1:])
