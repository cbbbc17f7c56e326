"""Instruction texts with colours and symbols, for terminals and pages."""

from __future__ import annotations

import html
import os
import sys
from itertools import groupby
from typing import Iterable, Iterator, Optional, TextIO, Tuple

from feddurzai import Instr, Item, Piece, PieceKind, Unlisted

from .elf import Program

COLOURS = {"address": 90, "bytes": 90, "mnemonic": 36, "register": 33, "number": 35, "size": 90, "symbol": 32, "title": 1, "bad": 31, "note": 90, "unlisted": 2}


# the classes of pieces, for their colours
CLASSES = {
    PieceKind.PREFIX: "mnemonic",
    PieceKind.MNEMONIC: "mnemonic",
    PieceKind.REGISTER: "register",
    PieceKind.KEYWORD: "size",
    PieceKind.NUMBER: "number",
}


def parts_of(pieces: Iterable[Piece]) -> Iterator[Tuple[str, str]]:
    """Yields the class and the characters of pieces; consecutive pieces of one class are joined. The class is mnemonic, register, number, size or
    rest."""
    for kind, some in groupby(pieces, key=lambda piece: CLASSES.get(piece.kind, "rest")):
        yield kind, "".join(piece.text for piece in some)


def target_of(item: Item) -> Optional[int]:
    """The address that an instruction names: its near target, or that of its operand at RIP; else None."""
    if isinstance(item, Unlisted):
        return item.target
    if not isinstance(item, Instr):
        return None
    about = item.info()
    return about.ip_address if about.target is None else about.target


def relocation_in(program: Program, address: int, size: int) -> Optional[str]:
    """The symbol that the linker will store in some bytes, None if there is none."""
    if not program.is_object:
        return None
    return next((program.relocated[at] for at in range(address, address + size) if at in program.relocated), None)


def symbol_beside(program: Program, item: Item, text: str) -> Optional[str]:
    """The symbol of the address that an instruction names, None if there is none. For an instruction without a row it may be the address itself,
    if the instruction's text does not have it."""
    target = target_of(item)
    if target is None:
        return None
    symbol, address = program.symbol_of(target), f"{target:#x}"
    return address if symbol is None and isinstance(item, Unlisted) and address not in text else symbol


def beside(program: Program, item: Item, text: str) -> str:
    """What is written after an instruction's text: the symbol of the address that it names, in angle brackets."""
    name = relocation_in(program, item.address or 0, item.len) or symbol_beside(program, item, text)
    return "" if name is None else f"<{name}>"


class Painter:
    """Parts of a text, in colours or plain."""

    def __init__(self, colours: bool) -> None:
        self.colours = colours

    def paint(self, kind: str, text: str) -> str:
        return f"\x1b[{COLOURS[kind]}m{text}\x1b[0m" if self.colours and kind in COLOURS else text

    def instruction(self, pieces: Iterable[Piece]) -> str:
        """The text of an instruction, from its pieces."""
        return "".join(self.paint(kind, part) for kind, part in parts_of(pieces))


def wants_colours(choice: str, stream: TextIO = sys.stdout) -> bool:
    """Whether output has colours: `always`, `never`, or `auto`, which means on a terminal unless NO_COLOR is set."""
    return choice == "always" or choice == "auto" and stream.isatty() and "NO_COLOR" not in os.environ


def counted(number: int, thing: str) -> str:
    """`1 file`, `2 files`."""
    return f"{number} {thing}" if number == 1 else f"{number} {thing}s"


def span(kind: str, text: str) -> str:
    """A part of a text as HTML."""
    return html.escape(text) if kind == "rest" else f'<span class="{kind}">{html.escape(text)}</span>'
