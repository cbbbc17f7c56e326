"""The text, the bytes and the properties of an instruction in a struct."""

import struct
from ctypes import c_size_t
from functools import lru_cache
from typing import NamedTuple, Optional, Tuple

from . import _checks, _native
from ._numbers import Access, Flow, RegClass, Style
from ._operands import Register
from ._refusal import refusal_of, taken

# feddurzai_about: target, ip_address, has_target, has_ip_address, flow, memory_size; then access[4], use_count, uses[8]
_ABOUT = struct.Struct("=QQ4B")
_ACCESS_AT, _COUNT_AT, _USES_AT, _ABOUT_SIZE = 20, 24, 25, 56
# the offsets of the operand kinds in a feddurzai_instr
_KINDS_AT = (14, 38, 62, 86)
_abouts, _texts, _MAX_TEXT = _native.Rooms(_ABOUT_SIZE), _native.Rooms(_native.MAX_TEXT), c_size_t(_native.MAX_TEXT)
_BytesRoom = _native.room_of(_native.MAX_LEN)
_NameRoom = _native.room_of(_native.NAME_ROOM)


class Use(NamedTuple):
    """A register that an instruction names, and how it is accessed.

    >>> decode(64, 0, bytes.fromhex("4889c3")).info().uses[0]
    Use(register=Register(reg_class=<RegClass.R64: 5>, number=3), access=<Access.WRITE: 2>)
    """

    register: Register
    access: Access


class About(NamedTuple):
    """What `info` reports of an instruction.

    `target` is the target of a near branch, and `ip_address` the address of a memory operand at RIP or EIP; each is None if there is none.
    `memory_size` is the size of the memory operand in bytes, 0 without one or if it has no size. `access` has an entry for each operand. `uses`
    has the registers that the operands name, in order; base and index of an address count as read.

    >>> about = decode(64, 0x1000, bytes.fromhex("7410")).info()
    >>> about.flow.name, hex(about.target), about.ip_address
    ('CONDITIONAL', '0x1012', None)
    """

    flow: Flow
    target: Optional[int]
    ip_address: Optional[int]
    memory_size: int
    access: Tuple[Access, ...]
    uses: Tuple[Use, ...]


_FLOWS, _ACCESSES, _CLASSES = tuple(Flow), tuple(Access), tuple(RegClass)


@lru_cache(maxsize=1024)
def _accesses_of(numbers: bytes) -> Tuple[Access, ...]:
    return tuple(_ACCESSES[number] for number in numbers)


@lru_cache(maxsize=4096)
def _uses_of(numbers: bytes) -> Tuple[Use, ...]:
    return tuple(
        Use(Register(_CLASSES[reg_class], number), _ACCESSES[access]) for reg_class, number, access in zip(*3 * [iter(numbers)])
    )


def text_of(bits: int, instr: bytes, syntax: int) -> str:
    """The text of the instruction in a struct, in a mode that has been checked."""
    if type(syntax) is not Style:
        syntax = _checks.number("syntax", syntax, _checks.U32)
    return known_text(bits, instr, syntax)


# most code has few different instructions: of those of gdb, more than half have a text that one of the last thousands had
@lru_cache(maxsize=8192)
def known_text(bits: int, instr: bytes, syntax: int) -> str:
    """The text of the instruction in a struct, in a mode and a style that have been checked."""
    taken_out = _texts.take()
    room, at = taken_out
    said = _native.bare_text(bits, syntax, instr, at, _MAX_TEXT)
    letters: bytes = room.value
    _texts.give(taken_out)
    if said < 0:
        raise refusal_of(said)
    return letters.decode()


def encode_of(bits: int, ip: int, instr: bytes) -> bytes:
    """The bytes of the instruction in a struct."""
    room = _BytesRoom()
    bits, ip = _checks.number("bits", bits, _checks.U32), _checks.number("ip", ip)
    length = taken(_native.encode(bits, ip, instr, room, _native.MAX_LEN))
    return room.raw[:length]


@lru_cache(maxsize=8192)
def info_of(instr: bytes) -> About:
    """What the instruction in a struct does."""
    taken_out = _abouts.take()
    room, at = taken_out
    said = _native.bare_info(instr, at)
    about: bytes = room.raw
    _abouts.give(taken_out)
    taken(said)
    target, ip_address, has_target, has_ip_address, flow, memory_size = _ABOUT.unpack_from(about)
    ops = sum(1 for kind_at in _KINDS_AT if instr[kind_at])
    return About(
        _FLOWS[flow],
        target if has_target else None,
        ip_address if has_ip_address else None,
        memory_size,
        _accesses_of(about[_ACCESS_AT : _ACCESS_AT + ops]),
        _uses_of(about[_USES_AT : _USES_AT + 3 * about[_COUNT_AT]]),
    )


@lru_cache(maxsize=4096)
def name_of(code: int) -> str:
    """The name of a row."""
    room = _NameRoom()
    taken(_native.name(_checks.number("code", code, _checks.U32), room, _native.NAME_ROOM))
    return str(room.value, "ascii")
