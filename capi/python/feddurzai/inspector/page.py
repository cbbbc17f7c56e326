"""A page for a function: its listing, whose targets are links, and its flow graph."""

from __future__ import annotations

import html
from typing import List, Set

import feddurzai
from feddurzai import Instr, Item, Unlisted

from .elf import BadFile, Function, Program
from .graph import Graph, dot_of, drawn, graph_of
from .objdump import Unlisteds
from .scan import Xrefs
from .texts import counted, parts_of, relocation_in, span, symbol_beside, target_of

# a page of more instructions is too large for a browser
MOST = 20000

PAGE = """<!DOCTYPE html>
<html lang="en"><head><meta charset="utf-8"><title>{title}</title><style>
:root {{ color-scheme: light dark; }}
body {{ font: 15px/1.45 system-ui, sans-serif; margin: 1.5rem; color: #1f2328; background: #ffffff; }}
h1 {{ font-size: 1.3rem; }} h2 {{ font-size: 1.05rem; margin-top: 2rem; }}
table {{ border-collapse: collapse; font: 13px/1.5 ui-monospace, monospace; white-space: pre; }}
td {{ padding: 0 1.2em 0 0; vertical-align: top; }}
tr:target, tr:hover {{ background: #fff3c4; }}
tr.leader td {{ border-top: 1px solid #d0d7de; }}
tr.apart {{ opacity: .55; }}
a {{ color: #0a58ca; text-decoration: none; }} a:hover {{ text-decoration: underline; }}
.address, .bytes, .size, .note {{ color: #6e7781; }} .mnemonic {{ color: #0550ae; }} .register {{ color: #953800; }}
.number {{ color: #8250df; }} .symbol {{ color: #116329; }} .bad {{ color: #cf222e; }} .unlisted {{ color: #0e7490; font-style: italic; }}
.graph {{ overflow: auto; border: 1px solid #d0d7de; padding: 1rem; background: #ffffff; }}
@media (prefers-color-scheme: dark) {{
  body {{ color: #e6edf3; background: #0d1117; }} tr:target, tr:hover {{ background: #3a3000; }} tr.leader td {{ border-color: #30363d; }}
  a {{ color: #58a6ff; }} .address, .bytes, .size, .note {{ color: #8b949e; }} .mnemonic {{ color: #79c0ff; }} .register {{ color: #ffa657; }}
  .number {{ color: #d2a8ff; }} .symbol {{ color: #7ee787; }} .bad {{ color: #ff7b72; }} .unlisted {{ color: #56d4dd; }}
}}
</style></head><body>
<h1>{title}</h1>
<p>{about}</p>
{notes}
<h2>Listing</h2>
<table>
{rows}
</table>
<h2>Flow graph</h2>
<p>Green: taken; red: not taken; blue: jump; orange: case of a jump table; grey: control continues. A dashed box ends with an indirect jump to
unknown places. A box links to its first instruction in the listing.</p>
<div class="graph">{graph}</div>
</body></html>
"""


class _Rows:
    """The lines of the listing as HTML."""

    def __init__(self, program: Program, graph: Graph, items: List[Item], style: int, unlisted: Unlisteds) -> None:
        self.program, self.style, self.unlisted = program, style, unlisted
        self.leaders = {block.start for block in graph.blocks}
        self.reached: Set[int] = {item.address or 0 for block in graph.blocks for item in block.items}
        self.starts = {item.address for item in items}
        self.unresolved = set(graph.unresolved)
        self.cases = {table.jump: table.targets for table in graph.tables}

    def _beside(self, item: Item, text: str) -> str:
        name = relocation_in(self.program, item.address or 0, item.len)
        if name is not None:
            return " " + span("symbol", f"<{name}>")
        target = target_of(item)
        if target is None:
            return ""
        symbol = symbol_beside(self.program, item, text)
        words = f"<{symbol}>" if symbol else f"{target:#x}"
        if target in self.starts:
            return f' <a href="#a{target:x}">{html.escape(words)}</a>'
        return " " + span("symbol", words) if symbol else ""

    def _note(self, address: int) -> str:
        if address in self.cases:
            links = ", ".join(f'<a href="#a{it:x}">{it:x}</a>' for it in sorted(set(self.cases[address])))
            return f' <span class="note">jump table: {links}</span>'
        return ' <span class="note">where this jump goes is unknown</span>' if address in self.unresolved else ""

    def row(self, item: Item) -> str:
        address = item.address or 0
        words = self.unlisted.text(item) if isinstance(item, Unlisted) else item.text(self.style)
        if isinstance(item, Instr):
            text = "".join(span(kind, part) for kind, part in parts_of(item.pieces(self.style)))
        else:
            text = span("unlisted" if isinstance(item, Unlisted) else "bad", words)
        text += self._beside(item, words) + self._note(address)
        kinds = " ".join(["leader"] * (address in self.leaders) + ["apart"] * (address not in self.reached))
        link = f'<a href="#a{address:x}"><span class="address">{address:x}</span></a>'
        return f'<tr id="a{address:x}" class="{kinds}"><td>{link}</td><td class="bytes">{item.bytes.hex()}</td><td>{text}</td></tr>'


def page_of(program: Program, function: Function, style: int, xrefs: Xrefs, most: int = MOST) -> str:
    """The page of a function as HTML. Raises BadFile if it has more than `most` instructions."""
    code = program.code_of(function)
    items = list(feddurzai.iterate(program.bits, function.start, code, unlisted=True))
    if len(items) > most:
        raise BadFile(f"{function.name} has {len(items)} instructions, and a page holds {most}: choose a function, or raise --limit")
    graph, unlisted = graph_of(program, function), Unlisteds(program.bits, style)
    unlisted.read(items)
    rows = _Rows(program, graph, items, style, unlisted)
    about = f"{counted(len(code), 'byte')} at {function.start:#x}, {counted(len(items), 'instruction')}, "
    about += f"{counted(len(graph.blocks), 'basic block')} reached from the first byte"
    about += f" and through {counted(len(graph.tables), 'jump table')}" if graph.tables else ""
    about += ". Pale lines are not reached from there" + (", as far as is known: the targets of some jumps are unknown." if graph.unresolved else ".")
    notes = []
    if len(function.names) > 1:
        notes.append(f"<p>Other names: {html.escape(', '.join(function.names[1:]))}</p>")
    callers = xrefs.callers(program, function.start)
    if callers:
        notes.append(f"<p>Called from: {html.escape(', '.join(callers))}</p>")
    count = sum(isinstance(item, Unlisted) for item in items)
    if count:
        words = "their texts are objdump's, as far as it knows them" if unlisted.by_objdump else "without objdump they are shown by their bytes"
        shade = span("unlisted", "in this shade")
        notes.append(f"<p>{counted(count, 'instruction')} without a row of the opcode table, {shade}: {words}.</p>")
    picture = drawn(dot_of(program, graph, style, unlisted)).decode()
    return PAGE.format(
        title=html.escape(function.name),
        about=about,
        notes="\n".join(notes),
        rows="\n".join(rows.row(item) for item in items),
        graph=picture[picture.index("<svg") :],
    )
