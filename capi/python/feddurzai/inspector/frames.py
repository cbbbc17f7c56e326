"""Landing pads: where a function handles exceptions, by .eh_frame and .gcc_except_table.

Control comes there by the unwinder alone, never by a branch. The formats are those of the Linux Standard Base, Core, chapter 10.6, and of GCC's
tables for C++ and other languages.
"""

from __future__ import annotations

import struct
from typing import Dict, List, NamedTuple, Optional, Tuple

from .elf import Program, Section

OMITTED, PC_RELATIVE = 0xFF, 0x10
NUMBERS = {0x02: "<H", 0x03: "<I", 0x04: "<Q", 0x0A: "<h", 0x0B: "<i", 0x0C: "<q"}


class _Reader:
    """Numbers of a section, from an offset on."""

    def __init__(self, section: Section, at: int, bits: int) -> None:
        self.section, self.at, self.bits = section, at, bits

    def byte(self) -> int:
        self.at += 1
        return self.section.code[self.at - 1]

    def number(self, form: str) -> int:
        (value,) = struct.unpack_from(form, self.section.code, self.at)
        self.at += struct.calcsize(form)
        return int(value)

    def leb(self, signed: bool = False) -> int:
        value = shift = 0
        while True:
            byte = self.byte()
            value |= (byte & 0x7F) << shift
            shift += 7
            if byte < 0x80:
                return value - (1 << shift) if signed and byte & 0x40 else value

    def pointer(self, encoding: int) -> int:
        """A number in an encoding, 0 as it is."""
        start, kind = self.section.start + self.at, encoding & 0x0F
        if kind in (0x01, 0x09):
            value = self.leb(kind == 0x09)
        else:
            value = self.number(NUMBERS[kind] if kind else "<Q" if self.bits == 64 else "<I")
        return value + start if value and encoding & 0x70 == PC_RELATIVE else value


class _Common(NamedTuple):
    """What the frames of a common entry share: the encodings of their addresses, and of the address of their exception table."""

    augmented: bool
    addresses: int
    table: int


def _common(frames: Section, at: int, bits: int) -> _Common:
    reader = _Reader(frames, at + 8, bits)
    version = reader.byte()
    end = frames.code.index(0, reader.at)
    augmentation = frames.code[reader.at : end].decode("ascii")
    reader.at = end + 1
    reader.leb()
    reader.leb(True)
    if version == 1:
        reader.byte()
    else:
        reader.leb()
    found = {"R": 0, "L": OMITTED}
    if augmentation.startswith("z"):
        reader.leb()
        for letter in augmentation[1:]:
            if letter in "RL":
                found[letter] = reader.byte()
            elif letter == "P":
                reader.pointer(reader.byte())
    return _Common(augmentation.startswith("z"), found["R"], found["L"])


def _frame(frames: Section, at: int, bits: int, known: Dict[int, _Common]) -> Tuple[int, int]:
    """The first address of a frame and the address of its exception table, 0 without one."""
    where = at + 4 - _Reader(frames, at + 4, bits).number("<I")
    if where not in known:
        known[where] = _common(frames, where, bits)
    common, reader = known[where], _Reader(frames, at + 8, bits)
    start = reader.pointer(common.addresses)
    reader.pointer(common.addresses & 0x0F)
    if not common.augmented or common.table == OMITTED:
        return start, 0
    reader.leb()
    return start, reader.pointer(common.table)


def _pads(table: Section, at: int, start: int, bits: int) -> List[int]:
    """The landing pads of an exception table."""
    reader = _Reader(table, at, bits)
    encoding = reader.byte()
    base = start if encoding == OMITTED else reader.pointer(encoding)
    if reader.byte() != OMITTED:
        reader.leb()
    encoding = reader.byte()
    size = reader.leb()
    end, found = reader.at + size, []
    while reader.at < end:
        reader.pointer(encoding)
        reader.pointer(encoding)
        pad = reader.pointer(encoding)
        reader.leb()
        if pad:
            found.append(base + pad)
    return found


def _section(program: Program, name: str) -> Optional[Section]:
    return next((it for it in program.sections if it.name == name), None)


def landing_pads(program: Program) -> Dict[int, List[int]]:
    """For each first address of a frame with an exception table its landing pads. Frames that cannot be read are left out."""
    header, frames, tables = (_section(program, it) for it in (".eh_frame_hdr", ".eh_frame", ".gcc_except_table"))
    if header is None or frames is None or tables is None or header.code[:1] != b"\x01" or header.code[2:4] != b"\x03\x3b":
        return {}
    (count,) = struct.unpack_from("<I", header.code, 8)
    rows = header.code[12 : 12 + 8 * count]
    known: Dict[int, _Common] = {}
    found: Dict[int, List[int]] = {}
    for _, frame in struct.iter_unpack("<ii", rows[: len(rows) & -8]):
        # a damaged file may have any number in these tables
        try:
            start, table = _frame(frames, header.start + frame - frames.start, program.bits, known)
            if tables.contains(table):
                found[start] = _pads(tables, table - tables.start, start, program.bits)
        except (IndexError, KeyError, ValueError, struct.error):
            continue
    return found
