"""Flow graphs of functions: basic blocks, with the targets of jump tables, in the DOT language and as pictures."""

from __future__ import annotations

import os
import shutil
import subprocess
from typing import Any, Dict, List, NamedTuple, Optional, Tuple

import feddurzai
from feddurzai import Flow, Instr, Item, Reference, Unlisted

from . import tables
from .elf import BadFile, Function, Program
from .objdump import Unlisteds
from .texts import beside

EDGES = {"taken": "forestgreen", "not taken": "firebrick", "jump": "royalblue", "next": "gray30", "case": "darkorange"}
CONTINUES = (Flow.NEXT, Flow.CALL, Flow.INDIRECT_CALL, Flow.INTERRUPT)
FORMATS = (".svg", ".png", ".pdf", ".dot")


class Edge(NamedTuple):
    """Where control goes from a block, and how: one of EDGES."""

    target: int
    how: str


class Block:
    """A basic block: its items, and the edges to others. `unresolved`: it ends with an indirect jump to unknown places."""

    def __init__(self, items: List[Item], leaders: Dict[int, Any], cases: Dict[int, Tuple[int, ...]]) -> None:
        self.items = items
        self.edges: List[Edge] = []
        self.unresolved = False
        last = items[-1]
        address = last.address or 0
        end = address + last.len
        if isinstance(last, Unlisted):
            # XBEGIN goes on at its target after an abort
            is_branch = last.shape.reference is Reference.BRANCH
            if is_branch and last.target in leaders:
                self.edges.append(Edge(last.target, "taken"))
            if end in leaders:
                self.edges.append(Edge(end, "not taken" if is_branch else "next"))
        if not isinstance(last, Instr):
            return
        about = last.info()
        if about.flow in (Flow.JUMP, Flow.CONDITIONAL) and about.target in leaders:
            self.edges.append(Edge(about.target, "jump" if about.flow is Flow.JUMP else "taken"))
        if end in leaders and about.flow is Flow.CONDITIONAL:
            self.edges.append(Edge(end, "not taken"))
        elif end in leaders and about.flow in CONTINUES:
            self.edges.append(Edge(end, "next"))
        if about.flow is Flow.INDIRECT_JUMP:
            self.unresolved = address not in cases
            self.edges += [Edge(target, "case") for target in sorted(set(cases.get(address, ()))) if target in leaders]

    @property
    def start(self) -> int:
        return self.items[0].address or 0


class Graph(NamedTuple):
    """The flow graph of a function."""

    function: Function
    blocks: List[Block]
    tables: List[tables.Table]
    unresolved: List[int]


def graph_of(program: Program, function: Function) -> Graph:
    """The basic blocks that control reaches from the first byte of a function, in ascending order, jump tables included. Control goes through
    instructions without a row."""
    code = program.code_of(function)
    followed = tables.follow(program, function, unlisted=True)
    entries = {0}
    for table in followed.tables:
        entries.update(target - function.start for target in table.targets)
    by_leader: Dict[int, List[Item]] = {}
    starts = sorted(it for it in entries if 0 <= it < len(code))
    for at, leader, _ in feddurzai.flow(program.bits, function.start, code, starts, unlisted=True):
        item = next(feddurzai.iterate(program.bits, function.start + at, code[at : at + 15], unlisted=True))
        by_leader.setdefault(function.start + leader, []).append(item)
    cases = {table.jump: table.targets for table in followed.tables}
    blocks = [Block(items, by_leader, cases) for _, items in sorted(by_leader.items())]
    return Graph(function, blocks, followed.tables, followed.unresolved)


def quoted(text: str) -> str:
    """A name in the DOT language."""
    return '"' + text.replace("\\", "\\\\").replace('"', '\\"') + '"'


def dot_of(program: Program, graph: Graph, style: int, unlisted: Optional[Unlisteds] = None) -> str:
    """A graph in the DOT language: boxes that link to the lines of a page. `unlisted` may have texts that objdump has read."""
    unlisted = unlisted or Unlisteds(program.bits, style)
    unlisted.read(item for block in graph.blocks for item in block.items)
    lines = [
        f"digraph {quoted(graph.function.name)} {{",
        '  graph [bgcolor="transparent" splines="polyline"]',
        '  node [shape="box" fontname="monospace" fontsize="10" style="filled" fillcolor="white" color="gray40"]',
        '  edge [arrowsize="0.7"]',
    ]
    for block in graph.blocks:
        texts = []
        for item in block.items:
            words = unlisted.text(item) if isinstance(item, Unlisted) else item.text(style)
            symbol = beside(program, item, words)
            texts.append(f"{item.address:x}  {words}{' ' + symbol if symbol else ''}")
        if block.unresolved:
            texts.append("(where this jump goes is unknown)")
        label = "".join(text.replace("\\", "\\\\").replace('"', '\\"') + "\\l" for text in texts)
        dashed = ' style="filled,dashed"' if block.unresolved else ""
        lines.append(f'  "{block.start:x}" [label="{label}" URL="#a{block.start:x}" tooltip="{block.start:x}"{dashed}]')
        lines += [f'  "{block.start:x}" -> "{to:x}" [color="{EDGES[how]}" tooltip="{how}"]' for to, how in block.edges]
    return "\n".join([*lines, "}"]) + "\n"


def drawn(dot: str, form: str = "svg") -> bytes:
    """A graph as a picture: svg, png or pdf. Raises BadFile without Graphviz."""
    if not shutil.which("dot"):
        raise BadFile("the command dot is not installed: install Graphviz, or write a .dot file")
    done = subprocess.run(["dot", f"-T{form}"], input=dot.encode(), stdout=subprocess.PIPE, stderr=subprocess.PIPE, check=False)
    if done.returncode:
        raise BadFile(f"dot failed: {done.stderr.decode(errors='replace').strip().splitlines()[-1:]}")
    return done.stdout


def form_of(path: str) -> str:
    """The format of a picture by its file name. Raises BadFile for any other than FORMATS."""
    ending = os.path.splitext(path)[1].lower()
    if ending not in FORMATS:
        raise BadFile(f"{path}: a graph is written as {', '.join(FORMATS)}")
    return ending[1:]


def as_json(graph: Graph) -> Dict[str, Any]:
    """A graph as plain data."""

    def edge(it: Edge) -> Dict[str, Any]:
        return {"target": it.target, "how": it.how}

    def block(it: Block) -> Dict[str, Any]:
        end = it.items[-1]
        return {"start": it.start, "end": (end.address or 0) + end.len, "unresolved": it.unresolved, "edges": [edge(one) for one in it.edges]}

    return {
        "function": graph.function.name,
        "start": graph.function.start,
        "size": graph.function.size,
        "blocks": [block(it) for it in graph.blocks],
        "tables": [{"jump": it.jump, "table": it.at, "targets": list(it.targets)} for it in graph.tables],
        "unresolved": graph.unresolved,
    }
