"""The nested tables of the opcode table. handler_tables proves of each node that it is right for the rows that are left on its way.

Each mode has a pair of roots of its own: one for fields with a ModRM byte and one for those without one. A row's conditions in a mode and at an
opcode byte are nine masks, one for each field that a node may split by; a mask has a bit for each value that the row allows. A node splits by the
field that makes the mean way to a row shortest. Behind it, each entry keeps the rows that allow its value, and asks them nothing more of that
field. Alike nodes are written once, also those of different modes.
"""
import functools
import re

from .entries import BANG, CARET, KINDS, MAP_ORDER
from .source import wrapped

MODES = (16, 32, 64)

# The fields in the order of their masks, and how many values each has.
PRESENT, PREFIX, PLACE, REG, RM, SIZE, W, L, REX_B = range(9)
WIDTHS = (2, 4, 2, 8, 8, 3, 2, 2, 2)
FULL = tuple((1 << n) - 1 for n in WIDTHS)
SPLITS = {PREFIX: 'Prefix', PLACE: 'Place', REG: 'Reg', RM: 'Rm', SIZE: 'Size', W: 'W', L: 'L', REX_B: 'RexB'}


# ------------------------------------------------------------------ masks

def mask(count, allows):
    return sum(1 << value for value in range(count) if allows(value))


def masks(bits, opcode, row):
    """The nine masks of a row."""
    at_90 = row.kind == 'Legacy' and row.map == 'One' and opcode == 0x90
    rule, fixed = row.rule, row.rule == 'Fixed'
    prefix = {'Any': 0b1111, 'Np': 0b0001, 'Nfx': 0b0011, 'Nf3': 0b1011, 'P66': 0b0010, 'F3': 0b0100, 'F2': 0b1000}[row.cls]
    if at_90 and row.plus == 'Register':
        prefix &= 0b1011
    place = 0b11 if rule == 'No' else 0b10 if fixed else {'Any': 0b11, 'Memory': 0b01, 'Register': 0b10}[row.place]
    reg = 1 << row.byte if rule == 'Digit' else 1 << row.byte // 8 % 8 if fixed else FULL[REG]
    rm = 1 << row.byte % 8 if fixed and row.plus != 'Stack' else FULL[RM]

    def size(value):
        size = MODES[value]
        if bits == 64 and (row.marks & BANG or row.marks & CARET and size == 32):
            size = 64
        return {'O16': size == 16, 'O32': size == 32, 'O32or64': size != 16, 'O64': size == 64}.get(row.size, True)

    def w(value):
        if row.size in ('W0', 'W1'):
            counts = bits == 64 and bool(value)
            return counts == (row.size == 'W1')
        return {'W0': not value, 'W1': bool(value)}.get(row.w, True)

    def l(value):
        return {'L128': not value, 'Lz': not value, 'L256': bool(value)}.get(row.l, True)

    def rex_b(value):
        if not at_90:
            return True
        return bool(value) if row.plus == 'Register' else row.cls == 'F3' or not value

    present = 0b11 if rule == 'No' else 0b10
    return (present, prefix, place, reg, rm, mask(3, size), mask(2, w), mask(2, l), mask(2, rex_b))


# ------------------------------------------------------------------ nodes

def keep(rows, field, value):
    """Of rows, each a code with its masks, those that allow a value, which asks them nothing more."""
    return tuple((code, ms[:field] + (FULL[field],) + ms[field + 1:]) for code, ms in rows if ms[field] >> value & 1)


def behind(rows, field):
    """The rows that are left in each entry of a node."""
    return [keep(rows, field, value) for value in range(WIDTHS[field])]


@functools.lru_cache(None)
def best(rows):
    """The mean number of look-ups from here on, and what to split by: a field, 'stop' or 'leaf'."""
    if not rows:
        return 0, 'stop'
    if rows == ((rows[0][0], FULL),):
        return 0, 'leaf'
    tries = []
    for field in SPLITS:
        if any(ms[field] != FULL[field] for _, ms in rows):
            entries = behind(rows, field)
            tries.append((1 + sum(best(entry)[0] for entry in entries) / len(entries), field))
    return min(tries)


class Nodes:
    """The nodes of each width, each once: what it splits by, and its entries."""

    def __init__(self):
        self.of_width = {2: [], 3: [], 4: [], 8: [], 256: []}
        self.known = {}

    def node(self, split, entries):
        width, node = len(entries), (split, tuple(entries))
        if node not in self.known:
            self.known[node] = len(self.of_width[width])
            self.of_width[width].append(node)
        return f'N{width}({self.known[node]})'

    def entry(self, rows):
        """The entry for the rows that are left."""
        split = best(rows)[1]
        if split == 'stop':
            return 'Stop'
        if split == 'leaf':
            return f'Leaf({rows[0][0]})'
        return self.node(SPLITS[split], [self.entry(entry) for entry in behind(rows, split)])

    def depth(self, entry):
        m = re.match(r'N(\d+)\((\d+)\)', entry)
        return 1 + max(self.depth(e) for e in self.of_width[int(m[1])][int(m[2])][1]) if m else 0


# The roots in the order of their numbers: each mode's for fields with a ModRM byte, then its for those without one.
ROOTS = tuple((bits, present) for bits in MODES for present in (1, 0))


def nested(table):
    """The nodes. The first of width 8 are the roots."""
    nodes = Nodes()
    nodes.of_width[8] = [None] * len(ROOTS)
    cells = {}
    for code, row in enumerate(table):
        for opcode in row.opcodes:
            cells.setdefault((row.kind, row.map, opcode), []).append((code, row))
    for root, (bits, present) in enumerate(ROOTS):
        entries = []
        for kind in KINDS:
            for map_ in MAP_ORDER:
                line = []
                for opcode in range(256):
                    cell = cells.get((kind, map_, opcode), [])
                    conditions = tuple((code, masks(bits, opcode, row)) for code, row in cell if row.modes & bits // 16)
                    line.append(nodes.entry(keep(conditions, PRESENT, present)))
                entries.append('Stop' if all(entry == 'Stop' for entry in line) else nodes.node('Opcode', line))
        nodes.of_width[8][root] = ('Kind', tuple(entries))
    return nodes


# ------------------------------------------------------------------ output

HEAD = '''//! Generated by tools/write_tables.py, do not edit: the nodes of the nested tables, from the entries in crates/row_entries/data.
use crate::node::{Next, Split};
use x86_values::Code;

macro_rules! nodes {
    ($({ $($next:ident $(($at:literal))?)* })*) => {
        [$([$(entry!($next $(($at))?)),*]),*]
    };
}

macro_rules! entry {
    (Stop) => { Next::Stop };
    (Leaf($code:literal)) => { Next::Leaf(Code($code)) };
    ($next:ident($at:literal)) => { Next::$next($at) };
}

macro_rules! splits {
    ($($split:ident)*) => {
        [$(Split::$split),*]
    };
}
'''


def files(table):
    """The file of this stage: where it stands under crates/, and its text."""
    text = HEAD
    for width, known in nested(table).of_width.items():
        text += f'\n/// The nodes of {width} entries.\npub static NODES{width}: [[Next; {width}]; {len(known)}] = nodes! {{\n'
        for _, entries in known:
            text += '    { ' + ' '.join(entries) + ' }\n' if width < 256 else '    {\n' + wrapped(entries, '        ') + '    }\n'
        text += '};\n'
        if width < 256:
            text += f'\n/// What each of them splits by.\npub static SPLITS{width}: [Split; {len(known)}] = splits! {{\n'
            text += wrapped([split for split, _ in known], '    ') + '};\n'
    return {'handler_tables/src/generated_nodes.rt': text}
