"""The parts of an instruction in its bytes."""

from typing import NamedTuple, Tuple

from . import _checks, _native
from ._checks import Buffer
from ._refusal import taken

_PARTS = 10
_Room = _native.room_of(2 * _PARTS)


class Part(NamedTuple):
    """A part of an instruction: the offset of its first byte, and its length in bytes, 0 if it is absent.

    >>> offsets(64, b"\\x6a\\x05").immediates[0]
    Part(at=1, len=1)
    """

    at: int
    len: int


class Offsets(NamedTuple):
    """The parts of an instruction in the order of its bytes, and its length. `prefixes` includes REX, and `lead` is VEX or the escape bytes.
    `immediates` has the bytes of each operand: its immediate, the offset of a near branch, a far pointer, or the byte that names a register.

    >>> offsets(64, bytes.fromhex("48c7431012345678")).displacement
    Part(at=3, len=1)
    """

    prefixes: Part
    lead: Part
    opcode: Part
    modrm: Part
    sib: Part
    displacement: Part
    immediates: Tuple[Part, ...]
    len: int


def offsets(bits: int, code: Buffer, at: int = 0) -> Offsets:
    """Finds the parts of the instruction at offset `at` of `code` (Intel SDM volume 2, 2.1). Their offsets count from its first byte.

    Raises InvalidCode, TooShort, and Refusal with BAD_MODE, as `decode` does.

    >>> found = offsets(64, bytes.fromhex("48895c2410"))
    >>> found.modrm, found.sib, found.displacement, found.len
    (Part(at=2, len=1), Part(at=3, len=1), Part(at=4, len=1), 5)
    """
    window = _checks.front_bytes("code", code, at, _native.MAX_LEN)
    room = _Room()
    length = taken(_native.offsets(_checks.number("bits", bits, _checks.U32), window, len(window), room))
    pairs = iter(room.raw)
    prefixes, lead, opcode, modrm, sib, displacement, *immediates = (Part(first, count) for first, count in zip(pairs, pairs))
    return Offsets(prefixes, lead, opcode, modrm, sib, displacement, tuple(immediates), length)
