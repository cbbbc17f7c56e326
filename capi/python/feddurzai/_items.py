"""Instructions, and the other items of `iterate`."""

from __future__ import annotations

import struct
import sys
from typing import Any, Optional, Tuple

from . import _checks
from ._effects import Effects, effects_of, effects_of_decoded
from ._format import DEFAULTS, Options, Symbols, formatted
from ._numbers import ItemKind, Repeat, Segment, Style
from ._operands import ABSENT, OPERANDS, Memory, Operand, operand_of
from ._pieces import Piece, pieces_of
from ._info import About, encode_of, info_of, known_text, name_of

# feddurzai_instr: four operands, code, len, lock, rep, segment, asize
_STRUCT = struct.Struct("=" + 4 * "QIH7B3x" + "H5Bx")
_OP_SIZE, _OP_FIELDS = 24, 10
SIZE = 4 * _OP_SIZE + 8
CODE_AT, LEN_AT, LOCK_AT, REP_AT, SEGMENT_AT, ASIZE_AT = (4 * _OP_SIZE + n for n in (0, 2, 3, 4, 5, 6))
# the two bytes of the code
LOW_AT, HIGH_AT = (CODE_AT, CODE_AT + 1) if sys.byteorder == "little" else (CODE_AT + 1, CODE_AT)
assert _STRUCT.size == SIZE


Bytes = bytes


class Item:
    """An item of `iterate`: an `Instr`, a `BadByte`, a `Rest` or an `Unlisted`. Its `kind` is an `ItemKind`.

    `address` is the address of its first byte, `bytes` has its bytes, and `len` and `len(item)` are their number.

    >>> [(item.address, item.kind.name, item.bytes.hex()) for item in iterate(64, 0x1000, bytes.fromhex("90 06 48"))]
    [(4096, 'INSTRUCTION', '90'), (4097, 'INVALID', '06'), (4098, 'TOO_SHORT', '48')]
    """

    __slots__ = ("address", "bytes")
    kind: ItemKind
    address: Optional[int]
    bytes: Bytes

    def __init__(self, address: Optional[int], code: Bytes) -> None:
        self.address = address
        self.bytes = code

    @property
    def len(self) -> int:
        """Its length in bytes.

        >>> decode(64, 0, bytes.fromhex("90")).len
        1
        """
        return len(self.bytes)

    def __len__(self) -> int:
        return len(self.bytes)

    def __bool__(self) -> bool:
        return True

    def __eq__(self, other: object) -> bool:
        if not isinstance(other, Item) or self.kind is not other.kind:
            return NotImplemented
        return self.address == other.address and self.bytes == other.bytes

    def __hash__(self) -> int:
        return hash((self.kind, self.address, self.bytes))

    def __str__(self) -> str:
        return self.text()

    def __repr__(self) -> str:
        return f"<{type(self).__name__} {self.address:#x}: {self.bytes.hex()}>"

    def text(self, syntax: int = Style.INTEL) -> str:
        """Its text in a `Style`; for an item that is not an instruction, words in brackets.

        >>> [item.text(Style.ATT) for item in iterate(64, 0, bytes.fromhex("c3 06 48"))]
        ['ret', '(bad)', '(the bytes end here)']
        """
        raise NotImplementedError


class BadByte(Item):
    """A byte with which no instruction begins, whatever follows the bytes.

    >>> next(iterate(64, 0x1000, bytes.fromhex("06")))
    <BadByte 0x1000: 06>
    """

    __slots__ = ()
    kind = ItemKind.INVALID

    def text(self, syntax: int = Style.INTEL) -> str:
        """A word in brackets, in every style.

        >>> BadByte(0, bytes.fromhex("06")).text()
        '(bad)'
        """
        return "(bad)"


class Rest(Item):
    """The last bytes, which end before the instruction does.

    >>> next(iterate(64, 0x1000, bytes.fromhex("4883c4")))
    <Rest 0x1000: 4883c4>
    """

    __slots__ = ()
    kind = ItemKind.TOO_SHORT

    def text(self, syntax: int = Style.INTEL) -> str:
        """Words in brackets, in every style.

        >>> Rest(0, bytes.fromhex("48")).text()
        '(the bytes end here)'
        """
        return "(the bytes end here)"


class Instr(Item):
    """An instruction, decoded by `decode` or constructed: Instr(code, operands..).

    A decoded one has an `address`, its `bytes` and its mode `bits`; a constructed one has None, b"" and None. Two are equal if code, operands
    and prefixes are; addresses and bytes are not compared. An `Instr` is immutable: `replace` returns another.

    `asize` is 16, 32 or 64 if the instruction has a memory operand or uses an address size, else 0. None takes it from the registers of the
    memory operand; if these do not determine it, pass it.

    >>> mov = decode(64, 0x1000, bytes.fromhex("48895c2410"))
    >>> mov
    <Instr 0x1000: 48895c2410 mov qword [rsp+0x10], rbx>
    >>> mov == decode(64, 0, mov.bytes), mov.len, mov.name, str(mov.ops[1])
    (True, 5, 'mov', 'rbx')
    >>> Instr(code_of("inc", "REX.W + FF /0"), register("r8")).encode(64, 0).hex()
    '49ffc0'
    """

    __slots__ = ("_struct", "bits")
    kind = ItemKind.INSTRUCTION
    bits: Optional[int]

    def __init__(
        self,
        code: int,
        *ops: Operand,
        lock: bool = False,
        rep: int = Repeat.NONE,
        segment: int = Segment.NONE,
        asize: Optional[int] = None,
    ) -> None:
        if len(ops) > 4:
            raise ValueError(f"an instruction has at most 4 operands, and {len(ops)} were given")
        for n, op in enumerate(ops):
            if not isinstance(op, OPERANDS):
                raise TypeError(f"operand {n} must be a Register, Memory, Immediate, Near or Far, not {type(op).__name__}")
        if asize is None:
            asize = next((op._address_bits() for op in ops if isinstance(op, Memory)), 0)
        values: Tuple[int, ...] = ()
        for op in ops:
            values += op._fields(asize)
        values += (4 - len(ops)) * ABSENT
        self.address = self.bits = None
        self.bytes = b""
        self._struct = _STRUCT.pack(
            *values,
            _checks.number("code", code, _checks.U16),
            0,
            _checks.number("lock", lock, _checks.U8),
            _checks.number("rep", rep, _checks.U8),
            _checks.number("segment", segment, _checks.U8),
            _checks.number("asize", asize, _checks.U8),
        )

    @property
    def code(self) -> int:
        """The code: the number of its row of the table.

        >>> decode(64, 0, bytes.fromhex("c3")).code in codes_of("ret")
        True
        """
        return int.from_bytes(self._struct[CODE_AT:LEN_AT], sys.byteorder)

    @property
    def name(self) -> str:
        """The name of its row: a mnemonic in lower case. Its text may have another name, by the address size.

        >>> decode(64, 0, bytes.fromhex("90")).name
        'nop'
        """
        return name_of(self.code)

    @property
    def ops(self) -> Tuple[Operand, ...]:
        """Its operands: each a `Register`, `Memory`, `Immediate`, `Near` or `Far`.

        >>> decode(64, 0, bytes.fromhex("83c005")).ops
        (Register(reg_class=<RegClass.R32: 4>, number=0), Immediate(value=5))
        """
        fields, found = self._struct, []
        for at in range(0, 4 * _OP_SIZE, _OP_SIZE):
            op = operand_of(fields[at : at + _OP_SIZE], fields[ASIZE_AT])
            if op is None:
                break
            found.append(op)
        return tuple(found)

    @property
    def lock(self) -> bool:
        """Whether it has LOCK.

        >>> decode(64, 0, bytes.fromhex("f0480fb111")).lock
        True
        """
        return bool(self._struct[LOCK_AT])

    @property
    def rep(self) -> Repeat:
        """Its repeat prefix, `Repeat.NONE` without one.

        >>> decode(64, 0, bytes.fromhex("f3a4")).rep.name
        'REP'
        """
        return Repeat(self._struct[REP_AT])

    @property
    def segment(self) -> Segment:
        """Its segment prefix, `Segment.NONE` without one.

        >>> decode(64, 0, bytes.fromhex("64488b00")).segment.name
        'FS'
        """
        return Segment(self._struct[SEGMENT_AT])

    @property
    def asize(self) -> int:
        """Its address size in bits, 0 if it uses none.

        >>> decode(64, 0, bytes.fromhex("67488b00")).asize, decode(64, 0, bytes.fromhex("90")).asize
        (32, 0)
        """
        return self._struct[ASIZE_AT]

    def replace(self, **changes: Any) -> Instr:
        """Returns a copy with some of `code`, `ops`, `lock`, `rep`, `segment` and `asize` changed.

        >>> je = decode(64, 0x1000, bytes.fromhex("7410"))
        >>> je.replace(ops=[Near(0x1080)]).encode(64, 0x1000).hex()
        '747e'
        """
        wrong = set(changes) - {"code", "ops", "lock", "rep", "segment", "asize"}
        if wrong:
            raise TypeError(f"an instruction has no {', '.join(sorted(wrong))}: replace takes code, ops, lock, rep, segment and asize")
        kept = {what: getattr(self, what) for what in ("lock", "rep", "segment", "asize")}
        code, ops = changes.pop("code", self.code), changes.pop("ops", self.ops)
        return Instr(code, *ops, **{**kept, **changes})

    def text(self, syntax: int = Style.INTEL, bits: Optional[int] = None) -> str:
        """Its text in a `Style`. For a constructed instruction, pass the mode. Raises Refusal with BAD_MODE, BAD_SYNTAX, BAD_INSTR or BAD_FORM.

        >>> decode(64, 0, bytes.fromhex("83c005")).text(Style.ATT)
        'add $0x5, %eax'
        """
        if bits is None and self.bits is not None and type(syntax) is Style:
            return known_text(self.bits, self._struct, syntax)
        return known_text(*self._shown(syntax, bits, "text"))

    def pieces(self, syntax: int = Style.INTEL, bits: Optional[int] = None) -> Tuple[Piece, ...]:
        """The pieces of its text in a `Style`: see `Piece`. Their texts joined are `text(..)`. Arguments and refusals are those of `text`.

        >>> [(piece.text, piece.operand) for piece in decode(64, 0, bytes.fromhex("83c005")).pieces(Style.ATT)]
        [('add', None), (' ', None), ('$', 1), ('0x5', 1), (',', None), (' ', None), ('%eax', 0)]
        """
        return pieces_of(*self._shown(syntax, bits, "pieces"))

    def operand_text(self, operand: int, syntax: int = Style.INTEL, bits: Optional[int] = None) -> str:
        """The text of one operand, 0 to 3 in the manual's order in every style: its pieces joined. Raises IndexError if there is no such operand.

        >>> decode(64, 0, bytes.fromhex("48895c2410")).operand_text(0)
        'qword [rsp+0x10]'
        """
        found = [piece.text for piece in self.pieces(syntax, bits) if piece.operand == operand]
        if not found:
            raise IndexError(f"the instruction has no operand {operand}")
        return "".join(found)

    def format(
        self,
        options: Options = DEFAULTS,
        symbols: Optional[Symbols] = None,
        syntax: int = Style.INTEL,
        bits: Optional[int] = None,
        end: Optional[int] = None,
    ) -> str:
        """Its text by `Options`, with the symbol of the address that it names: its near target, or the address of its memory operand.

        `symbols` maps an address to a name, or to a name and how far the address lies after it: a dict, or a function that returns None where
        there is no symbol. `end` is the address of the next instruction; a decoded one has it. It counts with `rip_distance` alone.

        >>> lea = decode(64, 0x401000, bytes.fromhex("488d3dbd2e0000"))
        >>> lea.format(GNU, {0x403EC4: ("message", 4)}, Style.MASM)
        'lea    rdi,[rip+0x2ebd]        # 403ec4 <message+0x4>'
        """
        shown = self._shown(syntax, bits, "format")
        if end is None:
            end = 0 if self.address is None else (self.address + len(self.bytes)) & (1 << 64) - 1
        return formatted(shown, self.bytes, pieces_of(*shown), options, symbols, _checks.number("end", end))

    def _shown(self, syntax: int, bits: Optional[int], call: str) -> Tuple[int, Bytes, int]:
        """The mode, the struct and the style for a text."""
        if bits is not None:
            bits = _checks.number("bits", bits, _checks.U32)
        elif self.bits is None:
            raise ValueError(f"a constructed instruction has no mode: pass it, as in {call}(bits=64)")
        else:
            bits = self.bits
        if type(syntax) is not Style:
            syntax = _checks.number("syntax", syntax, _checks.U32)
        return bits, self._struct, syntax

    def encode(self, bits: int, ip: int) -> Bytes:
        """Returns the shortest bytes that decode to it at the address `ip`: see the function `encode`.

        >>> decode(64, 0x1000, bytes.fromhex("c4e17877")).encode(64, 0x1000).hex()
        'c5f877'
        """
        return encode_of(bits, ip, self._struct)

    def info(self) -> About:
        """Reports flow, operand access, memory size and named registers: see the function `info`.

        >>> decode(64, 0, bytes.fromhex("48895c2410")).info().memory_size
        8
        """
        return info_of(self._struct)

    def effects(self, bits: Optional[int] = None) -> Effects:
        """Reports what it touches: see the function `effects`. For a constructed instruction, pass the mode.

        >>> sorted(decode(64, 0, bytes.fromhex("c4e27d18c1")).effects().features)
        ['AVX2']
        """
        if bits is None:
            bits = self.bits
            if bits is None:
                raise ValueError("a constructed instruction has no mode: pass it, as in effects(bits=64)")
            return effects_of_decoded(bits, self._struct)
        return effects_of(bits, self._struct)

    def _key(self) -> Tuple[int, ...]:
        """All fields except the length; padding bytes are not compared."""
        values = _STRUCT.unpack(self._struct)
        return values[: 4 * _OP_FIELDS + 1] + values[4 * _OP_FIELDS + 2 :]

    def __eq__(self, other: object) -> bool:
        if not isinstance(other, Instr):
            return NotImplemented
        return self._key() == other._key()

    def __hash__(self) -> int:
        return hash(self._key())

    def __str__(self) -> str:
        return repr(self) if self.bits is None else known_text(self.bits, self._struct, Style.INTEL)

    def __repr__(self) -> str:
        if self.bits is not None:
            return f"<Instr {self.address:#x}: {self.bytes.hex()} {self.text()}>"
        words = [str(self.code), *map(repr, self.ops)]
        for what in ("lock", "rep", "segment"):
            if getattr(self, what):
                words.append(f"{what}={getattr(self, what)!r}")
        if self.asize:
            words.append(f"asize={self.asize}")
        return f"Instr({', '.join(words)})"
