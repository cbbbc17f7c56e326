"""Moving several blocks of code at once."""

import struct
from dataclasses import dataclass
from typing import Iterable, List, NamedTuple, Tuple

from . import _checks, _native
from ._calls import _MOVED, Moved
from ._checks import Buffer
from ._numbers import Form, Reason
from ._refusal import BlocksReport, refusal_of

_BLOCK = struct.Struct("=4Q")
_PLACED = struct.Struct("=3Q")
_BLOCKS_REPORT = struct.Struct("=5Q")
_BlocksRoom = _native.room_of(_BLOCKS_REPORT.size)


@dataclass(frozen=True)
class Block:
    """A block of code: its old address, its bytes, and its new address.

    >>> Block(0x1000, bytes.fromhex("90"), 0x2000).new_ip
    8192
    """

    old_ip: int
    code: Buffer
    new_ip: int

    def __post_init__(self) -> None:
        object.__setattr__(self, "old_ip", _checks.number("old_ip", self.old_ip))
        object.__setattr__(self, "code", _checks.code_bytes("code", self.code))
        object.__setattr__(self, "new_ip", _checks.number("new_ip", self.new_ip))


class MovedBlock(NamedTuple):
    """A moved block: its new address, its bytes, its size without its slots, and a `Moved` for each instruction.

    >>> move_blocks(64, [Block(0x1000, bytes.fromhex("90"), 0x2000)])[0].code
    b'\\x90'
    """

    new_ip: int
    code: bytes
    code_bytes: int
    places: List[Moved]


def move_blocks(bits: int, blocks: Iterable[Block]) -> List[MovedBlock]:
    """Moves blocks of code at once, each to an address of its own. Near branches and operands at RIP or EIP keep their targets, and a target
    that is the start of an instruction of any of the blocks is followed.

    Raises Refusal with BAD_MODE, TOO_LARGE, WRAPS, TOO_MANY, TOO_FAR or NO_MEMORY, and InvalidCode or TooShort. The report's `block` is the
    number of the block that fails.

    >>> hot, cold = Block(0x1000, bytes.fromhex("0f85fa000000 c3"), 0x2000), Block(0x1100, bytes.fromhex("e901ffffff"), 0x2020)
    >>> [moved.code.hex() for moved in move_blocks(64, [hot, cold])]
    ['0f851a000000c3', 'e9e1ffffff']
    """
    bits, taken_in = _checks.number("bits", bits, _checks.U32), list(blocks)
    for block in taken_in:
        if not isinstance(block, Block):
            raise TypeError(f"each of blocks must be a Block, not {type(block).__name__}")
    code = b"".join(bytes(block.code) for block in taken_in)
    rows, offset = bytearray(), 0
    for block in taken_in:
        rows += _BLOCK.pack(block.old_ip, block.new_ip, offset, len(block.code))
        offset += len(block.code)
    given = (bits, code, len(code), bytes(rows), len(taken_in))
    room = _BlocksRoom()
    said = _native.move_blocks(*given, None, 0, None, 0, None, 0, room)
    report = BlocksReport(*_BLOCKS_REPORT.unpack(room.raw))
    if said not in (0, Reason.NO_ROOM):
        raise refusal_of(said, report)
    out = _native.room_of(report.bytes)()
    places = _native.room_of(len(taken_in) * _PLACED.size)()
    entries = _native.room_of(report.count * _MOVED.size)()
    said = _native.move_blocks(*given, out, report.bytes, places, len(taken_in), entries, report.count, room)
    if said < 0:
        raise refusal_of(said, BlocksReport(*_BLOCKS_REPORT.unpack(room.raw)))
    moved = [Moved(old, new, length, Form(form)) for old, new, length, form in _MOVED.iter_unpack(entries.raw)]
    return list(_split(taken_in, out.raw, moved, list(_PLACED.iter_unpack(places.raw))))


def _split(blocks: List[Block], code: bytes, moved: List[Moved], places: List[Tuple[int, ...]]) -> Iterable[MovedBlock]:
    """The bytes and the instructions of each block."""
    start = first = 0
    for block, (end, code_bytes, count) in zip(blocks, places):
        yield MovedBlock(block.new_ip, code[start:end], code_bytes, moved[first : first + count])
        start, first = end, first + count
