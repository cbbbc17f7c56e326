"""A second model of the encoding formats of docs/unlisted.md: how long an instruction is by its format alone.

It is written from Intel SDM volume 2 (2.1 to 2.3, 2.7, appendix A) and AMD64 manual volume 3 (chapter 1, appendix A), and shares no code with
crates/unlisted. `shape(bits, data)` returns a Shape, ENDED or None (unknown). It does not know the opcode table: it also gives the shape of
instructions that have a row, where their format is one of those that are measured.
"""
from collections import namedtuple

# length, kind, and (what, offset, bytes, signed distance) or None
Shape = namedtuple("Shape", "length kind relative")
ENDED = "ended"

LEGACY_PREFIXES = frozenset(b"\xf0\xf2\xf3\x26\x2e\x36\x3e\x64\x65\x66\x67")


class _Ended(Exception):
    """The bytes end."""


class _Unknown(Exception):
    """No format begins so."""


class _Reader:
    """The bytes of an instruction, at most 15."""

    def __init__(self, data):
        self.data = data[:15]
        self.complete = len(data) >= 15
        self.at = 0

    def byte(self):
        """The next byte."""
        return self.take(1)[0]

    def take(self, count):
        """The next bytes."""
        part = self.data[self.at:self.at + count]
        if len(part) < count:
            raise _Unknown if self.complete else _Ended
        self.at += count
        return part


def _prefixes(reader, bits):
    """The prefix bytes, and the REX directly before the opcode (0 without one)."""
    seen = []
    while reader.at < len(reader.data):
        b = reader.data[reader.at]
        if b not in LEGACY_PREFIXES and not (bits == 64 and 0x40 <= b <= 0x4F):
            break
        seen.append(b)
        reader.at += 1
    rex = seen[-1] if seen and bits == 64 and 0x40 <= seen[-1] <= 0x4F else 0
    return seen, rex


def _immediate_z(bits, seen, rex):
    """The bytes of an Iz or Jz."""
    wide = bits != 16
    if 0x66 in seen:
        wide = not wide
    return 4 if wide or rex & 8 else 2


def _modrm(reader, bits, seen, modrm, immediates):
    """What follows a ModRM byte. Returns the relative number of memory at RIP or EIP, or None."""
    address = {16: 16, 32: 32, 64: 64}[bits]
    if 0x67 in seen:
        address = {16: 32, 32: 16, 64: 32}[bits]
    mod, rm = modrm >> 6, modrm & 7
    relative, count = None, 0
    if mod != 3:
        if address == 16:
            count = {0: 2 if rm == 6 else 0, 1: 1, 2: 2}[mod]
        else:
            base = rm
            if rm == 4:
                base = reader.byte() & 7
            count = {0: 4 if base == 5 else 0, 1: 1, 2: 4}[mod]
            if bits == 64 and mod == 0 and rm == 5:
                relative = "rip" if address == 64 else "eip"
    at = reader.at
    disp = reader.take(count + immediates)[:count]
    return (relative, at, 4, int.from_bytes(disp, "little", signed=True)) if relative else None


def _vector(reader, bits, seen, rex, lead):
    """EVEX, VEX and XOP, after the first byte."""
    if rex or any(b in seen for b in (0x66, 0xF0, 0xF2, 0xF3)):
        raise _Unknown
    first = reader.byte()
    if lead in (0x62, 0xC4, 0xC5) and bits != 64 and first < 0xC0:
        raise _Unknown
    if lead == 0xC5:
        space, kind = 1, "vex"
    elif lead == 0xC4:
        space, kind = first & 31, "vex"
        if space not in (0, 1, 2, 3):
            raise _Unknown
        reader.byte()
    elif lead == 0x8F:
        space, kind = first & 31, "xop"
        if space not in (8, 9, 10):
            raise _Unknown
        reader.byte()
    else:
        space, kind = first & 7, "evex"
        if first & 8 or space not in (1, 2, 3, 5, 6):
            raise _Unknown
        if not reader.byte() & 4:
            raise _Unknown
        reader.byte()
    opcode = reader.byte()
    if kind == "vex" and (space == 0 or space == 1 and opcode in (0x84, 0x85)):
        # JKZD and JKNZD, near and short
        if space == 0 and opcode not in (0x74, 0x75):
            raise _Unknown
        count = 1 if space == 0 else _immediate_z(bits, seen, rex)
        at = reader.at
        return kind, ("branch", at, count, int.from_bytes(reader.take(count), "little", signed=True))
    if kind == "xop":
        immediates = {8: 1, 9: 0, 10: 4}[space]
    else:
        immediates = int(space == 3 or (space == 1 and opcode in (0x70, 0x71, 0x72, 0x73, 0xC2, 0xC4, 0xC5, 0xC6)))
    if kind == "vex" and space == 1 and opcode == 0x77:
        return kind, None
    if kind == "vex" and (space == 1 and opcode in (*range(0x41, 0x4C), *range(0x90, 0x94), 0x98, 0x99) or space == 3 and 0x30 <= opcode <= 0x33):
        kind = "mask"
    return kind, _modrm(reader, bits, seen, reader.byte(), immediates)


# opcode bytes of the one-byte map with the ModRM bytes that have no row, as a test; the immediates are 0, 1 or those of Iz
ONE_BYTE = {
    **{op: (lambda m: m >> 3 & 7 == 6, 0) for op in (0xD0, 0xD1, 0xD2, 0xD3)},
    **{op: (lambda m: m >> 3 & 7 == 6, 1) for op in (0xC0, 0xC1)},
    0xF6: (lambda m: m >> 3 & 7 == 1, 1),
    0xF7: (lambda m: m >> 3 & 7 == 1, "z"),
    0xC6: (lambda m: m == 0xF8, 1),
    0xD9: (lambda m: 0xD8 <= m <= 0xDF, 0),
    0xDB: (lambda m: m in (0xE0, 0xE1, 0xE4, 0xE5), 0),
    0xDC: (lambda m: 0xD0 <= m <= 0xDF, 0),
    0xDD: (lambda m: 0xC8 <= m <= 0xCF, 0),
    0xDE: (lambda m: 0xD0 <= m <= 0xD7, 0),
    0xDF: (lambda m: 0xC0 <= m <= 0xDF, 0),
}
# opcode bytes after 0F with a ModRM byte and nothing else, and those with nothing
GROUPS = frozenset((0x01, 0x0D, *range(0x18, 0x20), 0x79, 0xAE, 0xB7, 0xBF, 0xC7, 0xFF))
BARE = frozenset((0x0E, 0x37, 0xAA, *range(0xC8, 0xD0)))


def _two_byte(reader, bits, seen):
    """After 0F."""
    opcode = reader.byte()
    repeats = [b for b in seen if b in (0xF2, 0xF3)]
    if opcode in (0x38, 0x3A):
        reader.byte()
        return "legacy", _modrm(reader, bits, seen, reader.byte(), int(opcode == 0x3A))
    if opcode in BARE or (opcode == 0x09 and repeats[-1:] == [0xF3]):
        return "now3d" if opcode == 0x0E else "legacy", None
    if opcode == 0x0F:
        return "now3d", _modrm(reader, bits, seen, reader.byte(), 1)
    if opcode == 0x78:
        return "legacy", _modrm(reader, bits, seen, reader.byte(), 2 if 0x66 in seen or repeats[-1:] == [0xF2] else 0)
    if opcode in GROUPS or (opcode == 0x2B and repeats):
        return "legacy", _modrm(reader, bits, seen, reader.byte(), 0)
    raise _Unknown


def _one_byte(reader, bits, seen, rex, opcode):
    """An opcode byte of the one-byte map."""
    if opcode == 0xD6 and bits != 64:
        return "legacy", None
    if opcode == 0xC7:
        if reader.byte() != 0xF8:
            raise _Unknown
        count, at = _immediate_z(bits, seen, rex), reader.at
        return "legacy", ("branch", at, count, int.from_bytes(reader.take(count), "little", signed=True))
    if opcode not in ONE_BYTE:
        raise _Unknown
    allowed, immediates = ONE_BYTE[opcode]
    modrm = reader.byte()
    if not allowed(modrm):
        raise _Unknown
    return "legacy", _modrm(reader, bits, seen, modrm, _immediate_z(bits, seen, rex) if immediates == "z" else immediates)


def shape(bits, data):
    """The shape of the instruction at the front of the bytes by its format, ENDED or None."""
    reader = _Reader(data)
    seen, rex = _prefixes(reader, bits)
    try:
        first = reader.byte()
        if first in (0x62, 0xC4, 0xC5, 0x8F):
            kind, relative = _vector(reader, bits, seen, rex, first)
        elif first == 0x0F:
            kind, relative = _two_byte(reader, bits, seen)
        else:
            kind, relative = _one_byte(reader, bits, seen, rex, first)
    except _Ended:
        return ENDED
    except _Unknown:
        return None
    return Shape(reader.at, kind, relative)


def target(bits, address, found):
    """The address that the relative number of a shape refers to, or None."""
    if not found.relative:
        return None
    size = {"rip": 64, "eip": 32, "branch": bits}[found.relative[0]]
    return (address + found.length + found.relative[3]) % (1 << size)
