"""What an instruction touches: registers, memory, flags and features, named and implied."""

from __future__ import annotations

import struct
from dataclasses import dataclass
from functools import lru_cache
from typing import Any, Dict, FrozenSet, NamedTuple, Optional, Tuple

from . import _checks, _native
from ._numbers import Flags, OperandKind, RegClass, Segment, Touch
from ._operands import ADDRESS_BITS, Register
from ._refusal import refusal_of, taken

# feddurzai_touched: features, six sets of flags; then memory[4], registers[32], memory_count, register_count
_SETS = struct.Struct("=Q6I")
_MEMORY = struct.Struct("=QH7B7x")
_MEMORY_AT, _REGISTERS_AT, _COUNTS_AT, _SIZE = 32, 128, 224, 232
# the sets, the displacement of the first memory, and all else
_PARTS = struct.Struct(f"=32sQ{_COUNTS_AT + 2 - 40}s")
_touched = _native.Rooms(_SIZE)
# the offsets of the first operand's kind and of the address size in a feddurzai_instr, which begins with that operand's value
_KIND_AT, _ASIZE_AT = 14, 102
_NEAR, _NO_TARGET = int(OperandKind.NEAR), bytes(8)


@dataclass(frozen=True)
class RegisterUse:
    """A register that an instruction touches, and how it is accessed.

    >>> [(str(use.register), use.access == Touch.READ | Touch.WRITE) for use in decode(64, 0, bytes.fromhex("c3")).effects().registers]
    [('rsp', True)]
    """

    register: Register
    access: Touch


@dataclass(frozen=True)
class MemoryUse:
    """Memory that an instruction accesses: segment:[base + index * scale + displacement].

    The registers have the values that they hold before the instruction, except that POP to memory at rSP uses the incremented rSP.
    `displacement` is signed if there is a base or an index; with the base RIP or EIP it is the absolute address. `size` is in bytes, and 0 if
    the processor's state decides (XSAVE, XRSTOR).

    >>> push = decode(64, 0, bytes.fromhex("53")).effects().memory[0]
    >>> str(push), push.segment.name, push.size, push.access == Touch.WRITE
    ('ss:[rsp-0x8]', 'SS', 8, True)
    """

    segment: Segment
    base: Optional[Register]
    index: Optional[Register]
    scale: int
    displacement: int
    size: int
    access: Touch

    def __str__(self) -> str:
        fixed = self.base is not None and self.base.reg_class in (RegClass.EIP, RegClass.RIP)
        parts = [] if self.base is None or fixed else [str(self.base)]
        if self.index is not None:
            parts.append(str(self.index) + (f"*{self.scale}" if self.scale > 1 else ""))
        words = "+".join(parts)
        if self.displacement or not parts:
            words += f"{'-' if self.displacement < 0 else '+' if parts else ''}{abs(self.displacement):#x}"
        return f"{self.segment.name.lower()}:[{words}]"


@dataclass(frozen=True)
class Effects:
    """What an instruction touches, named by its operands or implied.

    `registers` has the registers that operands name, then the segment registers through which memory is accessed, then implied registers,
    and last the counter of a repeat prefix. A register may occur more than once. An MMX register overlaps an x87 register, which is not
    reported (see `Register.full`). `memory` has the memory operand, then implied memory.

    The instruction depends on `flags_read`. It gives `flags_written` a defined value; of these, `flags_cleared` become 0 and `flags_set`
    become 1. The manual leaves `flags_undefined` undefined. All other flags stay. The instruction may also keep the flags of `flags_kept`, as
    a shift by a count of 0 does.

    `features` has the names of all CPUID features that the instruction needs.

    >>> moves = decode(64, 0, bytes.fromhex("f3a4")).effects()
    >>> [(str(use.register), str(use.access)) for use in moves.registers]
    [('rsi', 'Touch.MAY_READ|MAY_WRITE'), ('rdi', 'Touch.MAY_READ|MAY_WRITE'), ('rcx', 'Touch.READ|MAY_WRITE')]
    >>> [str(memory) for memory in moves.memory], str(moves.flags_read)
    (['ds:[rsi]', 'es:[rdi]'], 'Flags.DF')
    """

    registers: Tuple[RegisterUse, ...]
    memory: Tuple[MemoryUse, ...]
    flags_read: Flags
    flags_written: Flags
    flags_cleared: Flags
    flags_set: Flags
    flags_undefined: Flags
    flags_kept: Flags
    features: FrozenSet[str]


@lru_cache(maxsize=None)
def _register(reg_class: int, number: int) -> Optional[Register]:
    return Register(RegClass(reg_class), number) if reg_class else None


@lru_cache(maxsize=4096)
def _registers_of(numbers: bytes) -> Tuple[RegisterUse, ...]:
    return tuple(
        RegisterUse(Register(RegClass(reg_class), number), Touch(access)) for reg_class, number, access in zip(*3 * [iter(numbers)])
    )


def _sign_of(numbers: bytes, asize: int) -> Tuple[int, int]:
    """Two numbers, `half` and `mask`, with which the displacement of a feddurzai_memory_use is `(value + half & mask) - half`: signed if there is a
    base or an index, else the value itself."""
    _, _, _, base_class, _, index_class, _, _, _ = _MEMORY.unpack(numbers)
    if base_class in (RegClass.EIP, RegClass.RIP) or not (base_class or index_class):
        return 0, _checks.U64
    bits = ADDRESS_BITS.get(base_class) or ADDRESS_BITS.get(index_class) or asize or 64
    return 1 << bits - 1, (1 << bits) - 1


@lru_cache(maxsize=4096)
def _memory_of(numbers: bytes, asize: int) -> MemoryUse:
    value, size, segment, base_class, base_number, index_class, index_number, scale, access = _MEMORY.unpack(numbers)
    half, mask = _sign_of(numbers, asize)
    base, index = _register(base_class, base_number), _register(index_class, index_number)
    return MemoryUse(Segment(segment), base, index, scale, (value + half & mask) - half, size, Touch(access))


@lru_cache(maxsize=None)
def _feature_of(bit: int) -> str:
    room = _native.TextRoom()
    taken(_native.feature_name(bit, room, _native.MAX_TEXT))
    return str(room.value, "ascii")


@lru_cache(maxsize=256)
def _features_of(bits: int) -> FrozenSet[str]:
    return frozenset(_feature_of(bit) for bit in range(bits.bit_length()) if bits >> bit & 1)


# a set of flags, made once: the constructor of `Flags` takes longer than all else here
_flags_of = lru_cache(maxsize=1024)(Flags)


def effects_of(bits: int, instr: bytes) -> Effects:
    """What the instruction in a struct touches, in a mode."""
    return _known_effects(_checks.number("bits", bits, _checks.U32), instr)


def effects_of_decoded(bits: int, instr: bytes) -> Effects:
    """What the decoded instruction in a struct touches, in the mode in which it was decoded.

    The target of a near branch is no effect, and nearly every branch has another: without it, branches are found among those that were seen.
    """
    if instr[_KIND_AT] == _NEAR:
        instr = _NO_TARGET + instr[8:]
    return _known_effects(bits, instr)


# most code has few different instructions, see `known_text`
@lru_cache(maxsize=8192)
def _known_effects(bits: int, instr: bytes) -> Effects:
    """What the instruction in a struct touches, in a mode that has been checked."""
    taken_out = _touched.take()
    room, at = taken_out
    said = _native.bare_effects(bits, instr, at)
    front, displacement, rest = _PARTS.unpack_from(room)
    _touched.give(taken_out)
    if said < 0:
        raise refusal_of(said)
    return _effects_of(front, displacement, rest, instr[_ASIZE_AT])


class _Shape(NamedTuple):
    """What the library has said of an instruction, without the displacement of its first memory: the effects of the first such instruction, their
    fields and those of this memory, and two numbers that make a displacement signed, see `_sign_of`. Instructions that were not seen before
    mostly differ from others in a displacement alone."""

    effects: Effects
    fields: Dict[str, Any]
    memory_fields: Dict[str, Any]
    half: int
    mask: int


_shapes: Dict[Tuple[bytes, bytes, int], _Shape] = {}
_MOST_SHAPES = 8192
_new, _set = object.__new__, object.__setattr__


def _effects_of(front: bytes, displacement: int, rest: bytes, asize: int) -> Effects:
    """What a feddurzai_touched says of an instruction with an address size."""
    key = front, rest, asize
    shape = _shapes.get(key)
    if shape is None:
        if len(_shapes) >= _MOST_SHAPES:
            _shapes.clear()
        shape = _shapes[key] = _shape_of(_PARTS.pack(front, displacement, rest), asize)
    effects, fields, memory_fields, half, mask = shape
    displacement = (displacement + half & mask) - half
    if not memory_fields or memory_fields["displacement"] == displacement:
        return effects
    # The constructor of a frozen class takes longer than all else here, because it sets each field by a call.
    memory, made = _new(MemoryUse), _new(Effects)
    _set(memory, "__dict__", {**memory_fields, "displacement": displacement})
    _set(made, "__dict__", {**fields, "memory": (memory, *effects.memory[1:])})
    return made


def _shape_of(told: bytes, asize: int) -> _Shape:
    """The shape of a feddurzai_touched."""
    features, read, written, cleared, set_, undefined, kept = _SETS.unpack_from(told)
    memory_count, register_count = told[_COUNTS_AT], told[_COUNTS_AT + 1]
    places = range(_MEMORY_AT, _MEMORY_AT + memory_count * _MEMORY.size, _MEMORY.size)
    effects = Effects(
        _registers_of(told[_REGISTERS_AT : _REGISTERS_AT + 3 * register_count]),
        tuple(_memory_of(told[at : at + _MEMORY.size], asize) for at in places),
        _flags_of(read),
        _flags_of(written),
        _flags_of(cleared),
        _flags_of(set_),
        _flags_of(undefined),
        _flags_of(kept),
        _features_of(features),
    )
    memory_fields = vars(effects.memory[0]) if effects.memory else {}
    return _Shape(effects, vars(effects), memory_fields, *_sign_of(told[_MEMORY_AT : _MEMORY_AT + _MEMORY.size], asize))
