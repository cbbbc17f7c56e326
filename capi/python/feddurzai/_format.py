"""Texts by options and with symbols."""

import ctypes
from typing import Any, Callable, Mapping, NamedTuple, Optional, Tuple, Union

from . import _checks, _native
from ._numbers import Digits, Letters, Role, SymbolPlace
from ._pieces import Piece
from ._refusal import taken

# what is known of an address: a name, or a name and how far the address lies after it
Symbol = Union[str, Tuple[str, int]]
Symbols = Union[Mapping[int, Symbol], Callable[[int], Optional[Symbol]]]
_NAMED = (Role.TARGET, Role.ADDRESS)


class Options(NamedTuple):
    """How `Instr.format` writes a text. The defaults give the text of `Instr.text`.

    `signed` writes immediates as signed numbers. `tight` leaves out the space after a comma. `size_if_needed` writes the size of memory only where
    no register shows it. `operand_column` is the column of the first operand, 0 to 255. `rip_distance` writes `[rip+0x2ebd]` in place of an address.
    `gnu_names` has GNU's names, letters, prefixes and operands of string instructions. `wrapped` writes a distance below zero without a sign, and `bare`
    writes `fs:0x28` in place of `fs:[0x28]`. `note_distances` gives a distance a comment although it has no symbol. `comment_gap` is the number of
    spaces in front of a comment, 1 to 255. `GNU` has the options of objdump and GDB under `-M intel`, with Style.MASM, and `GNU_ATT` those without it,
    with Style.ATT.

    >>> add = decode(64, 0, bytes.fromhex("83c0f0"))
    >>> add.format(Options(letters=Letters.UPPER, digits=Digits.DECIMAL, signed=True))
    'ADD EAX, -16'
    """

    letters: Letters = Letters.LOWER
    digits: Digits = Digits.STYLE
    signed: bool = False
    tight: bool = False
    size_if_needed: bool = False
    operand_column: int = 0
    rip_distance: bool = False
    symbol_place: SymbolPlace = SymbolPlace.BEHIND
    gnu_names: bool = False
    wrapped: bool = False
    bare: bool = False
    note_distances: bool = False
    comment_gap: int = 2


DEFAULTS = Options()
GNU = Options(Letters.UPPER_KEYWORDS, Digits.HEX_PREFIX, False, True, False, 7, True, SymbolPlace.GNU, True, True, True, True, 8)
GNU_ATT = GNU._replace(wrapped=False)


def _numbers(options: Options) -> bytes:
    """feddurzai_options."""
    return bytes(_checks.number(name, int(value), _checks.U8) for name, value in zip(Options._fields, options))


def _symbol(symbols: Optional[Symbols], address: int) -> Tuple[bytes, int]:
    """The name of an address and its offset, an empty name if it has none."""
    if symbols is None:
        return b"", 0
    found: Any = symbols(address) if callable(symbols) else symbols.get(address)
    if found is None:
        return b"", 0
    name, offset = found if isinstance(found, tuple) else (found, 0)
    return _checks.word("the name of a symbol", name).encode(), _checks.number("the offset of a symbol", offset)


def formatted(
    shown: Tuple[int, bytes, int], code: bytes, pieces: Tuple[Piece, ...], options: Options, symbols: Optional[Symbols], end: int
) -> str:
    """The text of an instruction, whose mode, struct and style are `shown`, whose bytes are `code`, and whose own text has these pieces."""
    bits, instr, syntax = shown
    named = next((piece.value for piece in pieces if piece.role in _NAMED), None)
    name, offset = (b"", 0) if named is None else _symbol(symbols, named)
    # each piece has at most 20 characters more than its own, GNU's words of prefixes and operands at most 256, and the symbol comes with an address and an
    # offset
    room = ctypes.create_string_buffer(_native.MAX_TEXT + 20 * len(pieces) + options.operand_column + options.comment_gap + len(name) + 320)
    taken(_native.format_code(bits, syntax, _numbers(options), code, len(code), instr, end, name, len(name), offset, room, len(room)))
    return room.value.decode()
