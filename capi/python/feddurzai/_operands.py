"""Registers and operands."""

from __future__ import annotations

import struct
from dataclasses import dataclass
from functools import lru_cache
from typing import ClassVar, Dict, Optional, Tuple, Union

from . import _checks, _native
from ._numbers import OperandKind, Reason, RegClass, Style
from ._refusal import taken

# the fields of feddurzai_operand: value, offset, selector, kind, reg_class, reg_number, index_class, index_number, scale, disp_bits
Fields = Tuple[int, ...]
ABSENT: Fields = (0,) * 10

# the address size of an address with a register of this class
ADDRESS_BITS = {RegClass.R16: 16, RegClass.R32: 32, RegClass.EIP: 32, RegClass.R64: 64, RegClass.RIP: 64}


@dataclass(frozen=True)
class Register:
    """A register, as an operand or in an address: its class, and its number in the class.

    >>> Register(RegClass.R64, 3)
    Register(reg_class=<RegClass.R64: 5>, number=3)
    >>> str(Register(RegClass.R64, 3)), Register(RegClass.R64, 3) == register("rbx")
    ('rbx', True)
    """

    kind: ClassVar[OperandKind] = OperandKind.REGISTER
    reg_class: RegClass
    number: int

    def __post_init__(self) -> None:
        object.__setattr__(self, "reg_class", RegClass(_checks.number("reg_class", self.reg_class, max(RegClass))))
        _checks.number("number", self.number, _checks.U8)

    def name(self, syntax: int = Style.INTEL) -> str:
        """Its name in a `Style`. Raises Refusal with NO_REGISTER if its class has no such number.

        >>> Register(RegClass.SEG, 4).name(Style.ATT)
        '%fs'
        """
        return _name_of(_checks.number("syntax", syntax, _checks.U32), self.reg_class, self.number)

    def full(self) -> Register:
        """The widest register that contains it: RAX for AL, AH, AX and EAX, YMM1 for XMM1, RIP for EIP, and any other register itself. Two
        registers overlap if these are equal.

        One overlap is not reported: MM0 to MM7 are the low 64 bits of the physical x87 registers R0 to R7 (Intel SDM volume 1, 9.2.2), and
        which ST(i) that is depends on TOP, which is known only at run time. Raises Refusal with NO_REGISTER if its class has no such number.

        >>> [str(register(name).full()) for name in ("ah", "r9d", "xmm1", "cs")]
        ['rax', 'r9', 'ymm1', 'cs']
        """
        return _full_of(self.reg_class, self.number)

    def __str__(self) -> str:
        return self.name()

    def _fields(self, asize: int) -> Fields:
        return (0, 0, 0, self.kind, self.reg_class, self.number, 0, 0, 0, 0)


@dataclass(frozen=True)
class Memory:
    """A memory operand: base + index * scale + displacement.

    With `base` RIP or EIP the displacement is the absolute address of the operand. In a decoded operand it is signed if there is a base or an
    index, else unsigned. `disp_bits` is its encoded width: 0, 8, 16, 32 or 64; None chooses the shortest that holds it.

    >>> Instr(code_of("lea", "REX.W + 8D /r"), register("rax"), Memory(register("rbx"), register("rcx"), 4, -8)).text(bits=64)
    'lea rax, [rbx+rcx*4-0x8]'
    """

    kind: ClassVar[OperandKind] = OperandKind.MEMORY
    base: Optional[Register] = None
    index: Optional[Register] = None
    scale: int = 1
    displacement: int = 0
    disp_bits: Optional[int] = None

    def __post_init__(self) -> None:
        for what, part in (("base", self.base), ("index", self.index)):
            if part is not None and not isinstance(part, Register):
                raise TypeError(f"{what} must be a Register or None, not {type(part).__name__}")
        _checks.number("scale", self.scale, _checks.U8)
        if self.disp_bits is not None:
            _checks.number("disp_bits", self.disp_bits, _checks.U8)
        _checks.signed("displacement", self.displacement)

    def _address_bits(self) -> int:
        """The address size that its registers determine, 0 if they determine none."""
        for part in (self.base, self.index):
            if part is not None and part.reg_class in ADDRESS_BITS:
                return ADDRESS_BITS[part.reg_class]
        return 0

    def _least_bits(self, asize: int) -> int:
        """The width of the shortest displacement that holds the value."""
        most = 16 if asize == 16 else 32
        if self.base is None or self.base.reg_class in (RegClass.EIP, RegClass.RIP):
            return most
        value = signed(self.displacement, asize)
        # the bases EBP, RBP and R13, and BP without an index, have no form without a displacement
        bare = self.base.number % 8 != 5 or asize == 16 and self.index is not None
        if value == 0 and bare:
            return 0
        return 8 if -128 <= value <= 127 else most

    def _fields(self, asize: int) -> Fields:
        asize = asize or self._address_bits() or 64
        bits = self._least_bits(asize) if self.disp_bits is None else self.disp_bits
        base = (self.base.reg_class, self.base.number) if self.base else (0, 0)
        index = (self.index.reg_class, self.index.number) if self.index else (0, 0)
        return (self.displacement % (1 << asize), 0, 0, self.kind, *base, *index, self.scale, bits)


@dataclass(frozen=True)
class Immediate:
    """An immediate. A sign-extended one is truncated to the operand size: with 32 bits, -1 is 0xffffffff.

    >>> hex(decode(64, 0, bytes.fromhex("83c0ff")).ops[1].value)
    '0xffffffff'
    """

    kind: ClassVar[OperandKind] = OperandKind.IMMEDIATE
    value: int

    def __post_init__(self) -> None:
        _checks.signed("value", self.value)

    def _fields(self, asize: int) -> Fields:
        return (self.value & _checks.U64, 0, 0, self.kind, 0, 0, 0, 0, 0, 0)


@dataclass(frozen=True)
class Near:
    """The target of a near branch, as an absolute address.

    >>> decode(64, 0x1000, bytes.fromhex("ebfe")).ops
    (Near(target=4096),)
    """

    kind: ClassVar[OperandKind] = OperandKind.NEAR
    target: int

    def __post_init__(self) -> None:
        _checks.number("target", self.target)

    def _fields(self, asize: int) -> Fields:
        return (self.target, 0, 0, self.kind, 0, 0, 0, 0, 0, 0)


@dataclass(frozen=True)
class Far:
    """A far pointer: a selector and an offset.

    >>> decode(32, 0, bytes.fromhex("ea 78563412 2300")).ops
    (Far(selector=35, offset=305419896),)
    """

    kind: ClassVar[OperandKind] = OperandKind.FAR
    selector: int
    offset: int

    def __post_init__(self) -> None:
        _checks.number("selector", self.selector, _checks.U16)
        _checks.number("offset", self.offset, _checks.U32)

    def _fields(self, asize: int) -> Fields:
        return (0, self.offset, self.selector, self.kind, 0, 0, 0, 0, 0, 0)


Operand = Union[Register, Memory, Immediate, Near, Far]
OPERANDS = (Register, Memory, Immediate, Near, Far)


def signed(value: int, bits: int) -> int:
    """The signed number of the low `bits` bits of a value."""
    value %= 1 << bits
    return value - (1 << bits) if value >> (bits - 1) else value


@lru_cache(maxsize=None)
def _register(reg_class: int, number: int) -> Optional[Register]:
    """The register in a struct, None without one."""
    return Register(RegClass(reg_class), number) if reg_class else None


_OPERAND = struct.Struct("=QIH7B3x")


@lru_cache(maxsize=8192)
def operand_of(fields: bytes, asize: int) -> Optional[Operand]:
    """The operand in a struct that the library has filled, None if it is absent."""
    value, offset, selector, kind, reg_class, reg_number, index_class, index_number, scale, disp_bits = _OPERAND.unpack(fields)
    if kind == OperandKind.REGISTER:
        return _register(reg_class, reg_number)
    if kind == OperandKind.MEMORY:
        if reg_class not in (RegClass.EIP, RegClass.RIP) and (reg_class or index_class):
            value = signed(value, asize or 64)
        return Memory(_register(reg_class, reg_number), _register(index_class, index_number), scale, value, disp_bits)
    if kind == OperandKind.IMMEDIATE:
        return Immediate(value)
    if kind == OperandKind.NEAR:
        return Near(value)
    return Far(selector, offset) if kind == OperandKind.FAR else None


@lru_cache(maxsize=None)
def _name_of(syntax: int, reg_class: int, number: int) -> str:
    room = _native.TextRoom()
    taken(_native.register_text(syntax, reg_class, number, room, _native.MAX_TEXT))
    return str(room.value, "ascii")


@lru_cache(maxsize=None)
def _full_of(reg_class: int, number: int) -> Register:
    said = taken(_native.full_register(reg_class, number))
    return Register(RegClass(said >> 8), said & 255)


@lru_cache(maxsize=None)
def _registers() -> Dict[str, Register]:
    found = {}
    for reg_class in RegClass:
        for number in range(16):
            # for a register the refusal is that the buffer is too small; for a number without one it is another
            if _native.register_text(Style.INTEL, reg_class, number, None, 0) == Reason.NO_ROOM:
                found[_name_of(Style.INTEL, reg_class, number)] = Register(reg_class, number)
    return found


def registers() -> Dict[str, Register]:
    """Returns all registers by their names in the Intel style.

    >>> registers()["r8d"].number
    8
    """
    return dict(_registers())


def register(name: str) -> Register:
    """Returns the register of a name, in the Intel style and in lower case. Raises ValueError if no register has the name.

    >>> register("r8d")
    Register(reg_class=<RegClass.R32: 4>, number=8)
    """
    found = _registers().get(_checks.word("name", name))
    if found is None:
        raise ValueError(f"no register has the name {name!r}: names are in lower case, such as 'rax' and 'st0'")
    return found
