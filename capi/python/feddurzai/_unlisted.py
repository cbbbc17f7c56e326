"""Instructions that the opcode table leaves out: their lengths, by the encoding formats alone."""

import struct
from typing import NamedTuple, Optional, Tuple

from . import _checks, _native
from ._checks import Buffer
from ._items import Item
from ._numbers import ItemKind, Reference, Style, UnlistedKind
from ._refusal import taken

# feddurzai_shape: distance, kind, reference, at, size
_STRUCT = struct.Struct("=q4B4x")
_Room = _native.room_of(_STRUCT.size)


class Shape(NamedTuple):
    """What `measure` returns: the length in bytes, the kind, and the number that is relative to the address after the instruction.

    `reference` is what that number refers to, `at` is its offset, `size` its length in bytes, and `distance` its value. Without such a number
    `reference` is Reference.NONE, and the three are 0.

    >>> measure(64, bytes.fromhex("62f17d48ef0510000000")).reference
    <Reference.RIP: 1>
    """

    len: int
    kind: UnlistedKind
    reference: Reference
    at: int
    size: int
    distance: int

    def target(self, bits: int, ip: int) -> Optional[int]:
        """The address that the number refers to, for an instruction at `ip`; None without such a number.

        >>> hex(measure(64, bytes.fromhex("62f17d48ef0510000000")).target(64, 0x1000))
        '0x101a'
        """
        if self.reference is Reference.NONE:
            return None
        size = {Reference.RIP: 64, Reference.EIP: 32}.get(self.reference, bits)
        return (ip + self.len + self.distance) & (1 << size) - 1


def measure(bits: int, code: Buffer, at: int = 0) -> Shape:
    """Measures the instruction at offset `at` of `code` if the opcode table leaves it out. docs/unlisted.md lists what is measured.

    Raises InvalidCode if the table has it, or if no encoding that is measured begins there; TooShort if the bytes end inside one; and Refusal
    with BAD_MODE.

    >>> shape = measure(64, bytes.fromhex("62f17c4858c1"))
    >>> shape.len, shape.kind.name
    (6, 'EVEX')
    """
    window = _checks.front_bytes("code", code, at, _native.MAX_LEN)
    length, room = _measured(_checks.number("bits", bits, _checks.U32), window)
    return _shape_of(taken(length), room)


def _measured(bits: int, window: bytes) -> Tuple[int, bytes]:
    """The answer of the library, and the struct."""
    room = _Room()
    length = _native.measure(bits, window, len(window), room)
    return length, room.raw


def _shape_of(length: int, room: bytes) -> Shape:
    distance, kind, reference, first, size = _STRUCT.unpack(room)
    return Shape(length, UnlistedKind(kind), Reference(reference), first, size, distance)


class Unlisted(Item):
    """An instruction that the opcode table leaves out, in `iterate(.., unlisted=True)`. Its `shape` is that of `measure`.

    >>> item = next(iterate(64, 0x1000, bytes.fromhex("62f17c4858c1"), unlisted=True))
    >>> print(item, item.shape.len, item.target)
    (evex) 62f17c4858c1 6 None
    """

    __slots__ = ("shape", "target")
    kind = ItemKind.UNLISTED
    shape: Shape
    target: Optional[int]

    def __init__(self, address: int, code: bytes, shape: Shape, target: Optional[int]) -> None:
        super().__init__(address, code)
        self.shape = shape
        self.target = target

    def text(self, syntax: int = Style.INTEL) -> str:
        """Its kind in brackets, and its bytes.

        >>> next(iterate(64, 0, bytes.fromhex("c5fc41c0"), unlisted=True)).text()
        '(mask) c5fc41c0'
        """
        return f"({self.shape.kind.name.lower()}) {self.bytes.hex()}"


def measured_item(bits: int, address: int, code: bytes, at: int) -> Optional[Unlisted]:
    """The item for `iterate` at an offset, None if the instruction there is not measured."""
    window = code[at : at + _native.MAX_LEN]
    length, room = _measured(bits, window)
    if length < 0:
        return None
    shape = _shape_of(length, room)
    return Unlisted(address, window[:length], shape, shape.target(bits, address))
