#!/usr/bin/env python3
"""Draws the basic blocks of some code from the output of listing_program.

usage: tools/flow_graph.py FLOW LIST [SVG]

FLOW is a file with the output of `flow BITS BASE`, and LIST one with the output of
`list BITS BASE intel` over the same bytes. The graph is written to standard output in
the DOT language. With SVG it is also laid out by Graphviz, if that is installed, and
written to the file SVG.

A box is a basic block. Edges are green for a taken conditional branch, red for one that
is not taken, blue for a jump, black if control continues, and dashed for a call. An
instruction that overlaps others may be missing from the listing, which goes through the
bytes in order. Then its text and its end are unknown, and its box has a dashed border.
"""
import re
import shutil
import subprocess
import sys

COLOURS = {
    "taken": 'color="forestgreen"',
    "not taken": 'color="firebrick"',
    "jump": 'color="royalblue"',
    "next": 'color="black"',
    "call": 'color="gray40" style="dashed"',
}
# The flows after which control may continue at the end of the instruction.
GOES_ON = {"Next", "Call", "IndirectCall", "Interrupt"}
# The edge to the near target of an instruction, by its flow.
TO_TARGET = {"UnconditionalBranch": "jump", "ConditionalBranch": "taken", "Call": "call"}


class Instruction:
    """A reached instruction: its address and flow, and its length and text by the listing."""

    def __init__(self, address, flow, listed):
        self.address = address
        self.flow = flow
        self.length, self.text = listed if listed else (None, None)

    def line(self, width):
        """The line of the box, with the address in so many digits."""
        text = self.text if self.text is not None else "(not in the listing)"
        if self.flow in ("invalid", "too short"):
            text += f"  ({self.flow})"
        return f"{self.address:0{width}x}  {text}"

    def edges(self, space):
        """The addresses to which control may go from here, each with the kind of the edge."""
        edges = []
        kind = TO_TARGET.get(self.flow)
        target = re.search(r" 0x([0-9a-f]+)$", self.text or "")
        if kind and target:
            edges.append((int(target.group(1), 16), kind))
        if self.length is not None:
            end = (self.address + self.length) % space
            if self.flow == "ConditionalBranch":
                edges.append((end, "not taken"))
            elif self.flow in GOES_ON:
                edges.append((end, "next"))
        return edges


def read_listing(path):
    """The length and the text of each listed instruction, by its address."""
    listed = {}
    with open(path, encoding="ascii") as lines:
        for line in lines:
            address, code, text = line.rstrip("\n").split(maxsplit=2)
            listed[int(address, 16)] = (len(code) // 2, text)
    return listed


def read_blocks(path, listed):
    """The instructions of each basic block in order, by the address of its leader, and the digits of an address."""
    blocks = {}
    digits = 0
    with open(path, encoding="ascii") as lines:
        for line in lines:
            address, leader, flow = line.rstrip("\n").split(" ", 2)
            digits = len(address)
            at = int(address, 16)
            blocks.setdefault(int(leader, 16), []).append(Instruction(at, flow, listed.get(at)))
    return blocks, digits


def escaped(text):
    """A text within the quotes of DOT."""
    return text.replace("\\", "\\\\").replace('"', '\\"')


def dot(blocks, digits):
    """The graph in DOT."""
    lines = [
        "digraph flow {",
        '  node [shape="box" fontname="monospace" fontsize="10"];',
        '  edge [arrowsize="0.7"];',
    ]
    space = 16**digits
    width = max((len(f"{i.address:x}") for block in blocks.values() for i in block), default=0)
    for leader, instructions in blocks.items():
        label = "".join(escaped(i.line(width)) + "\\l" for i in instructions)
        border = ' style="dashed"' if any(i.text is None for i in instructions) else ""
        lines.append(f'  b{leader:x} [label="{label}"{border}];')
        followers = {i.address for i in instructions[1:]}
        for instruction in instructions:
            for target, kind in instruction.edges(space):
                # The edge to a follower is the next line of the box. An edge to no block leaves the code.
                if target in blocks and target not in followers:
                    lines.append(f"  b{leader:x} -> b{target:x} [{COLOURS[kind]}];")
    lines.append("}")
    return "\n".join(lines) + "\n"


def main(words):
    if len(words) not in (2, 3):
        sys.exit(__doc__.strip())
    blocks, digits = read_blocks(words[0], read_listing(words[1]))
    graph = dot(blocks, digits)
    sys.stdout.write(graph)
    if len(words) == 3:
        if not shutil.which("dot"):
            sys.exit(f"flow_graph.py: {words[2]} was not written: install Graphviz, which has the command dot")
        subprocess.run(["dot", "-Tsvg", "-o", words[2]], input=graph, text=True, check=True)


main(sys.argv[1:])
