"""The pieces of an instruction's text: for colours, links and symbols."""

import struct
from ctypes import c_size_t
from functools import lru_cache
from typing import NamedTuple, Optional, Tuple

from . import _native
from ._numbers import PieceKind, Role
from ._refusal import refusal_of

# feddurzai_piece: value, start, end, kind, operand, role, width
_STRUCT = struct.Struct("=Q6B2x")
_NO_OPERAND = 255
_MAX_PIECES, _MAX_TEXT = c_size_t(_native.MAX_PIECES), c_size_t(_native.MAX_TEXT)
_texts, _pieces = _native.Rooms(_native.MAX_TEXT), _native.Rooms(_native.MAX_PIECES * _STRUCT.size)


class Piece(NamedTuple):
    """A piece of an instruction's text.

    `operand` is the operand that it belongs to, 0 to 3 in the manual's order in every style, or None. For a number `value` is the operand's number,
    `role` what it is there for, and `width` its length in bytes; for any other piece they are None, None and 0. `value` of a displacement that
    is printed with a minus is the whole displacement, extended to 64 bits.

    >>> [piece.text for piece in decode(64, 0x1000, bytes.fromhex("7410")).pieces()]
    ['je', ' ', '0x1012']
    """

    text: str
    kind: PieceKind
    operand: Optional[int] = None
    role: Optional[Role] = None
    value: Optional[int] = None
    width: int = 0

    def __str__(self) -> str:
        return self.text


# as many as texts: code has few different instructions
@lru_cache(maxsize=8192)
def pieces_of(bits: int, instr: bytes, syntax: int) -> Tuple[Piece, ...]:
    """The pieces of the text of the instruction in a struct, in a mode and a style that have been checked."""
    taken_text, taken_pieces = _texts.take(), _pieces.take()
    count = _native.bare_pieces(bits, syntax, instr, taken_text[1], _MAX_TEXT, taken_pieces[1], _MAX_PIECES)
    letters: str = taken_text[0].value.decode() if count >= 0 else ""
    structs: bytes = taken_pieces[0].raw if count >= 0 else b""
    _texts.give(taken_text)
    _pieces.give(taken_pieces)
    if count < 0:
        raise refusal_of(count)
    found = []
    for value, start, end, kind, operand, role, width in _STRUCT.iter_unpack(structs[: count * _STRUCT.size]):
        where = None if operand == _NO_OPERAND else operand
        if role:
            found.append(Piece(letters[start:end], PieceKind(kind), where, Role(role), value, width))
        else:
            found.append(Piece(letters[start:end], PieceKind(kind), where))
    return tuple(found)
