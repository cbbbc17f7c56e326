"""Large code, decoded in chunks of raw structs: the loops run in C as far as possible, because a section has millions of instructions."""

from __future__ import annotations

import struct
from bisect import bisect_left
from ctypes import byref, c_char_p, c_size_t, c_uint8, c_uint32, c_void_p, cast
from itertools import accumulate, chain, compress
from typing import Dict, FrozenSet, Iterable, Iterator, List, NamedTuple, Optional, Sequence, Tuple

from .. import _checks, _native
from .._effects import effects_of
from .._info import info_of, name_of
from .._items import HIGH_AT, LEN_AT, LOW_AT, SIZE
from .._numbers import Flow, OperandKind, RegClass
from .._refusal import taken
from .._unlisted import Unlisted, measured_item
from .elf import Program

CHUNK = 4096
# how many items are decoded after an instruction without a row at whose end no decoded item begins
_FEW = 32
_OP_SIZE, _KIND_AT, _BASE_AT = 24, 14, 15
_KINDS_AT = tuple(_OP_SIZE * n + _KIND_AT for n in range(4))
_Room = _native.room_of(CHUNK * SIZE)
_VALUE = struct.Struct("=Q")
# a struct in numbers of eight bytes: each operand begins with one, its value
_STEP = SIZE // 8
# no row has a code with this high byte: the item is a single byte, or an instruction without a row
BAD = 0xFF
_POINTERS = (RegClass.EIP, RegClass.RIP)


class Chunk(NamedTuple):
    """Consecutive items of some code: the offset of the first one, a struct for each, and by their numbers the items that are instructions
    without a row, whose structs have a length alone."""

    offset: int
    structs: bytes
    unlisted: Dict[int, Unlisted]

    @property
    def lengths(self) -> bytes:
        return self.structs[LEN_AT::SIZE]

    @property
    def highs(self) -> bytes:
        """For each item the high byte of its code; BAD for a single byte and for an instruction without a row."""
        return self.structs[HIGH_AT::SIZE]

    def offsets(self) -> List[int]:
        """The offsets of the items, and that after the last one."""
        return list(accumulate(chain((self.offset,), self.lengths)))

    def struct_at(self, n: int) -> bytes:
        return self.structs[n * SIZE : (n + 1) * SIZE]

    def keys(self) -> List[Tuple[int, ...]]:
        """For each item its code and operand kinds, on which its features depend."""
        structs = self.structs
        return list(zip(structs[LOW_AT::SIZE], structs[HIGH_AT::SIZE], *(structs[at::SIZE] for at in _KINDS_AT)))


def key_of(fields: bytes) -> Tuple[int, ...]:
    """The key of one struct, as `Chunk.keys` has it."""
    return (fields[LOW_AT], fields[HIGH_AT], *(fields[at] for at in _KINDS_AT))


def code_of(fields: bytes) -> int:
    """The code of one struct."""
    return fields[LOW_AT] + 256 * fields[HIGH_AT]


def _length_alone(length: int) -> bytes:
    """The struct of an item of several bytes that is no instruction of the table."""
    fields = bytearray(SIZE)
    fields[LOW_AT] = fields[HIGH_AT] = BAD
    fields[LEN_AT] = length
    return bytes(fields)


def _joined(bits: int, start: int, code: bytes, chunk: Chunk) -> Chunk:
    """A chunk of single bytes and instructions of the table, with the bytes of each instruction without a row as one item. It ends after the
    first of these at whose end none of its items begins."""
    offsets, parts, found = chunk.offsets(), [], {}
    # the next item to be taken over, and the number of those that are
    item = count = 0
    for n in _places(chunk.highs, BAD):
        unlisted = None
        if n >= item and chunk.structs[n * SIZE + LOW_AT] == BAD:
            unlisted = measured_item(bits, start + offsets[n] & (1 << bits) - 1, code, offsets[n])
        if unlisted is None:
            continue
        count += n - item
        parts += [chunk.structs[item * SIZE : n * SIZE], _length_alone(unlisted.len)]
        found[count] = unlisted
        count += 1
        end = offsets[n] + unlisted.len
        # decoding depends on nothing before the first byte, so the items from there on are those that follow the instruction
        item = bisect_left(offsets, end)
        if item == len(offsets) or offsets[item] != end:
            return Chunk(chunk.offset, b"".join(parts), found)
    return Chunk(chunk.offset, b"".join([*parts, chunk.structs[item * SIZE :]]), found)


def chunks(bits: int, start: int, code: bytes, unlisted: bool = False) -> Iterator[Chunk]:
    """The items of some code, from its first byte on. With `unlisted`, an instruction without a row that `measure` measures is one item, and
    else its bytes are items of their own."""
    room, count = _Room(), c_size_t()
    # the address stays valid as long as `code` is alive
    at, where, most = 0, cast(c_char_p(code), c_void_p).value or 0, CHUNK
    while at < len(code):
        taken(_native.decode_many(bits, start + at & _checks.U64, where + at, len(code) - at, room, most, byref(count)))
        chunk = Chunk(at, room.raw[: count.value * SIZE], {})
        at += sum(chunk.lengths)
        most = min(CHUNK, 8 * most)
        if unlisted and BAD in chunk.highs:
            chunk = _joined(bits, start, code, chunk)
            end = chunk.offset + sum(chunk.lengths)
            if end != at:
                at, most = end, _FEW
        yield chunk


_ONLY = [bytes(int(byte == value) for byte in range(256)) for value in range(256)]


def _places(data: bytes, value: int) -> List[int]:
    """The indices of a byte."""
    return list(compress(range(len(data)), data.translate(_ONLY[value])))


class Reference(NamedTuple):
    """An item that names an address: a near branch, or an operand at RIP or EIP."""

    item: int
    target: int
    is_branch: bool


def references(chunk: Chunk) -> Iterator[Reference]:
    """The items of a chunk that name an address."""
    structs = chunk.structs
    values = memoryview(structs).cast("Q")
    for slot in range(3):
        kinds = structs[_OP_SIZE * slot + _KIND_AT :: SIZE]
        at = _OP_SIZE // 8 * slot
        if slot == 0:
            for n in _places(kinds, OperandKind.NEAR):
                yield Reference(n, values[n * _STEP + at], True)
        bases = structs[_OP_SIZE * slot + _BASE_AT :: SIZE]
        for pointer in _POINTERS:
            if pointer in bases:
                for n in _places(bases, pointer):
                    if kinds[n] == OperandKind.MEMORY:
                        yield Reference(n, values[n * _STEP + at], False)


def immediates(chunk: Chunk) -> Iterator[Tuple[int, int]]:
    """The items of a chunk with an immediate as first or second operand, and its value."""
    values = memoryview(chunk.structs).cast("Q")
    for slot in range(2):
        for n in _places(chunk.structs[_OP_SIZE * slot + _KIND_AT :: SIZE], OperandKind.IMMEDIATE):
            yield n, values[n * _STEP + _OP_SIZE // 8 * slot]


_FLOWS: Dict[Tuple[int, int], Flow] = {}


def flow_of(fields: bytes) -> Flow:
    """The flow of an instruction, which depends on its code alone."""
    key = fields[LOW_AT], fields[HIGH_AT]
    if key not in _FLOWS:
        _FLOWS[key] = info_of(fields).flow
    return _FLOWS[key]


_FEATURES: Dict[Tuple[int, Tuple[int, ...]], FrozenSet[str]] = {}


def features_of(bits: int, key: Tuple[int, ...], fields: bytes) -> FrozenSet[str]:
    """The features that an instruction needs, which depend on its code and the kinds of its operands.

    TZCNT needs none: compilers write `rep bsf` into code for every processor, which runs as BSF without BMI1.
    """
    if (bits, key) not in _FEATURES:
        _FEATURES[bits, key] = frozenset() if name_of(code_of(fields)) == "tzcnt" else effects_of(bits, fields).features
    return _FEATURES[bits, key]


class Reached(NamedTuple):
    """The offsets that control reaches, in ascending order, with the number of the flow at each, or 0xFE or 0xFF if no instruction starts there."""

    starts: Sequence[int]
    kinds: bytes


def reach(bits: int, base: int, code: bytes, entries: Iterable[int], unlisted: bool = False) -> Reached:
    """Follows control from some offsets of at most MAX_FLOW bytes. With `unlisted`, it goes through instructions without a row."""
    chosen = sorted(set(entries))
    room = len(code)
    if not room or not chosen:
        return Reached((), b"")
    starts, leaders, kinds = (c_uint32 * room)(), (c_uint32 * room)(), (c_uint8 * room)()
    call = _native.flow_unlisted if unlisted else _native.flow_from
    count = taken(
        call(
            *(bits, base, code, room, (c_uint32 * len(chosen))(*chosen), len(chosen)),
            *(starts, room, leaders, room, kinds, room),
        )
    )
    return Reached(starts[:count], bytes(kinds[:count]))


class Xrefs:
    """Where the code of a program names addresses: for each target the addresses of the instructions."""

    def __init__(self, program: Program) -> None:
        self.branches: Dict[int, List[int]] = {}
        self.data: Dict[int, List[int]] = {}
        for section in program.code_sections():
            for chunk in chunks(program.bits, section.start, section.code, unlisted=True):
                offsets = chunk.offsets()
                for item, target, is_branch in references(chunk):
                    found = self.branches if is_branch else self.data
                    found.setdefault(target, []).append(section.start + offsets[item])

    def into(self, start: int, end: int) -> List[Tuple[int, int]]:
        """The branches whose target is from `start` up to `end`: the address of the branch, and its target."""
        return sorted((at, target) for target in range(start, end) for at in self.branches.get(target, ()))

    def callers(self, program: Program, start: int) -> List[str]:
        """The names of the functions that branch to an address from outside, each once."""
        found: Dict[str, None] = {}
        for at in self.branches.get(start, ()):
            function = program.function_around(at)
            if function is None or function.start != start:
                found[function.name if function else f"{at:#x}"] = None
        return list(found)


def near_target(fields: bytes) -> Optional[int]:
    """The target of a near branch, None for any other instruction."""
    return _VALUE.unpack_from(fields)[0] if fields[_KIND_AT] == OperandKind.NEAR else None
