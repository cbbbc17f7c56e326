"""Listings of functions and sections."""

from __future__ import annotations

import bisect
import json
from itertools import islice
from typing import Any, Dict, Iterator, List, Optional, TextIO, Tuple

from .. import _native
from .._items import SIZE
from .._pieces import pieces_of
from .elf import Function, Program
from .objdump import Unlisteds
from .scan import BAD, Chunk, Xrefs, chunks, references
from .texts import Painter, relocation_in, symbol_beside

_BAD_TEXT = "(bad)"
# how many texts are kept
MOST_KNOWN = 1 << 18
# how many chunks are decoded before objdump is asked about what is in them
MANY = 64


def functions(program: Program) -> List[Dict[str, Any]]:
    """The functions of a file, by address."""
    return [
        {"address": it.start, "size": it.size, "names": list(it.names), "ifunc": it.ifunc} for _, it in sorted(program.functions.items())
    ]


def write_functions(program: Program, out: TextIO) -> None:
    """Writes a line for each name: address, size, name."""
    width = program.bits // 4
    for _, function in sorted(program.functions.items()):
        for name in function.names:
            out.write(f"{function.start:0{width}x} {function.size:8} {name}{' (ifunc)' if function.ifunc else ''}\n")


# an item of a listing: its address, bytes and text, the symbol that is shown after the text, and the kind of an instruction without a row
Line = Tuple[int, bytes, str, Optional[str], Optional[str]]


def _symbols(program: Program, chunk: Chunk, offsets: List[int], start: int) -> Dict[int, Optional[str]]:
    """For the items of a chunk that name an address: the symbol of the address, None if it has none."""
    found = {item: program.symbol_of(target) for item, target, _ in references(chunk)}
    if program.is_object:
        for item, high in enumerate(chunk.highs):
            name = relocation_in(program, start + offsets[item], offsets[item + 1] - offsets[item])
            # a single byte is shown as it is
            if name is not None and (high != BAD or item in chunk.unlisted):
                found[item] = name
    return found


def _chunks(program: Program, function: Function, unlisted: Unlisteds) -> Iterator[Chunk]:
    """The items of a function or section. objdump reads the instructions without a row of many chunks in one run."""
    some = chunks(program.bits, function.start, program.code_of(function), unlisted=True)
    while part := list(islice(some, MANY)):
        unlisted.read(it for chunk in part for it in chunk.unlisted.values())
        yield from part


def lines(program: Program, function: Function, style: int, painter: Optional[Painter] = None) -> Iterator[List[Line]]:
    """The items of a function or section, some at a time. A painter colours the texts of instructions."""
    bits, start, code = program.bits, function.start, program.code_of(function)
    text, room, size = _native.text, _native.TextRoom(), _native.MAX_TEXT
    # the text of an instruction that names no address depends on its bytes alone
    known: Dict[bytes, str] = {}
    unlisted = Unlisteds(bits, style)
    for chunk in _chunks(program, function, unlisted):
        offsets = chunk.offsets()
        symbols = _symbols(program, chunk, offsets, start)
        found: List[Line] = []
        at = chunk.offset
        for n, (high, end) in enumerate(zip(chunk.highs, offsets[1:])):
            bytes_, symbol, item, kind = code[at:end], symbols.get(n), chunk.unlisted.get(n), None
            words: Optional[str]
            if item is not None:
                words, kind = unlisted.text(item), item.shape.kind.name.lower()
                symbol = symbol or symbol_beside(program, item, words)
            elif high == BAD:
                words = _BAD_TEXT
            else:
                words = None if n in symbols else known.get(bytes_)
                if words is None:
                    if painter is None:
                        text(bits, style, chunk.struct_at(n), room, size)
                        words = room.value.decode()
                    else:
                        words = painter.instruction(pieces_of(bits, chunk.struct_at(n), style))
                    if n not in symbols and len(known) < MOST_KNOWN:
                        known[bytes_] = words
            found.append((start + at, bytes_, words, symbol, kind))
            at = end
        yield found


def _heading(program: Program, painter: Painter, address: int, xrefs: Optional[Xrefs]) -> str:
    """The lines in front of an address: its symbols, and the functions that branch to it."""
    width = program.bits // 4
    written = "".join(painter.paint("title", f"{address:0{width}x} <{name}>:") + "\n" for name in program.names_at(address))
    callers = [] if xrefs is None else xrefs.callers(program, address)
    return written + (painter.paint("note", f"  called from {', '.join(callers)}") + "\n" if callers else "")


def _tails(program: Program, function: Function, style: int) -> Iterator[Tuple[List[int], List[str]]]:
    """For the items of a function or section, some at a time: their offsets and that after the last one, and what a line without colours has after
    the address. The loops run in C as far as possible."""
    bits, code = program.bits, program.code_of(function)
    text, room, size = _native.text, _native.TextRoom(), _native.MAX_TEXT
    # the line of an item that names no address depends on its bytes alone, also that of a byte at which no instruction starts
    known: Dict[bytes, str] = {}
    unlisted = Unlisteds(bits, style)
    for chunk in _chunks(program, function, unlisted):
        offsets, structs, highs = chunk.offsets(), chunk.structs, chunk.highs
        symbols = _symbols(program, chunk, offsets, function.start)
        items = [code[at:end] for at, end in zip(offsets, offsets[1:])]
        for n, symbol in symbols.items():
            # no cached line has this key
            if n not in chunk.unlisted:
                text(bits, style, structs[n * SIZE : (n + 1) * SIZE], room, size)
                beside = f" <{symbol}>\n" if symbol is not None else "\n"
                symbols[n] = f"{items[n].hex():30} {str(room.value, 'ascii')}{beside}"
        tails = list(map(known.get, items))
        for n, item in chunk.unlisted.items():
            words = unlisted.text(item)
            symbol = symbols.get(n) or symbol_beside(program, item, words)
            symbols[n] = f"{items[n].hex():30} {words}{'' if symbol is None else f' <{symbol}>'}\n"
        for n, tail in enumerate(tails):
            if tail is None and n not in symbols:
                words = _BAD_TEXT
                if highs[n] != BAD:
                    text(bits, style, structs[n * SIZE : (n + 1) * SIZE], room, size)
                    words = str(room.value, "ascii")
                tails[n] = tail = f"{items[n].hex():30} {words}\n"
                if len(known) < MOST_KNOWN:
                    known[items[n]] = tail
        for n, tail in symbols.items():
            tails[n] = tail
        yield offsets, [tail or "" for tail in tails]


def _write_plain(program: Program, function: Function, style: int, out: TextIO, xrefs: Optional[Xrefs]) -> None:
    """`write` without colours."""
    width, painter, heads, start = program.bits // 4, Painter(False), program.starts, function.start
    for offsets, tails in _tails(program, function, style):
        lines_ = [f"  {start + at:0{width}x}  {tail}" for at, tail in zip(offsets, tails)]
        first = bisect.bisect_left(heads, start + offsets[0])
        for address in heads[first : bisect.bisect_left(heads, start + offsets[-1])]:
            n = bisect.bisect_left(offsets, address - start)
            if offsets[n] == address - start:
                lines_[n] = _heading(program, painter, address, xrefs) + lines_[n]
        out.write("".join(lines_))


def write(program: Program, function: Function, style: int, colours: bool, out: TextIO, xrefs: Optional[Xrefs] = None) -> None:
    """Lists a function or section, with a line in front of each symbol."""
    if not colours:
        _write_plain(program, function, style, out, xrefs)
        return
    width, painter, headed = program.bits // 4, Painter(True), set(program.starts)
    for some in lines(program, function, style, painter):
        written = []
        for address, code, text, symbol, kind in some:
            if address in headed:
                written.append(_heading(program, painter, address, xrefs))
            beside = "" if symbol is None else f" <{symbol}>"
            words = painter.paint("bad", text) if text is _BAD_TEXT else text if kind is None else painter.paint("unlisted", text)
            where, bytes_ = painter.paint("address", f"{address:0{width}x}"), painter.paint("bytes", f"{code.hex():30}")
            written.append(f"  {where}  {bytes_} {words}{painter.paint('symbol', beside)}\n")
        out.write("".join(written))


def write_json(program: Program, function: Function, style: int, out: TextIO) -> None:
    """Writes the items of a function or section as a JSON array, one item a line."""
    separator = "[\n"
    for some in lines(program, function, style):
        for address, code, text, symbol, kind in some:
            item = {"address": address, "bytes": code.hex(), "text": text}
            if symbol is not None:
                item["symbol"] = symbol
            if kind is not None:
                item["unlisted"] = kind
            out.write(separator + json.dumps(item))
            separator = ",\n"
    out.write("[]\n" if separator == "[\n" else "\n]\n")
