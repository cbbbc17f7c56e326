"""The rows that entries stand for, and their order (docs/entries.md)."""
from dataclasses import dataclass

from .entries import BANG, BY_SIZE, BY_W, CARET, KINDS, M16, M32, M64, MAP_ORDER, MEMORY_ONLY, PARTS, READS_MODRM, REGISTER_ONLY, BadEntry, Entry


@dataclass(frozen=True)
class Row:
    """A row of the table, and the entry that it is one of. `first` says that it is the first of them; `byte` is the digit or the fixed ModRM byte."""
    entry: Entry
    first: bool
    name: str
    kind: str
    map: str
    cls: str
    opcode: int
    plus: str
    rule: str
    byte: int
    place: str
    size: str
    w: str
    l: str
    modes: int
    ops: tuple
    marks: int

    @property
    def part(self):
        return self.entry.part

    @property
    def opcodes(self):
        """The opcode bytes that the row stands at."""
        return range(self.opcode, self.opcode + 8) if self.plus == 'Register' else (self.opcode,)

    @property
    def rank(self):
        """What rows are ordered by; rows of one rank stay in the order of their lines."""
        return self.entry.version, KINDS.index(self.kind), MAP_ORDER.index(self.map), self.opcode


def sizes_of(e):
    """The sizes of an entry's rows, with the modes of each."""
    only64, not64 = e.modes & M64, e.modes & (M16 | M32)
    ops, legacy = set(e.ops), e.part.kind == 'Legacy'
    by_size = bool(ops & BY_SIZE) or len(e.names) == 3
    if 'W0' in e.sizes and legacy:
        out = [('W0', e.modes)]
    elif 'W1' in e.sizes and legacy:
        out = [('W1', only64)]
    elif 'y' in e.sizes or (ops & BY_W and not by_size):
        out = [('W0', e.modes), ('W1', only64)]
    elif e.marks & CARET:
        out = [('O16', e.modes), ('O32', not64), ('O64', only64)]
    elif e.marks & BANG:
        out = [('O16', not64), ('O32', not64), ('O64', only64)]
    elif 'w' in e.sizes:
        out = [('O16', e.modes), ('O32or64', e.modes)]
    elif 'O32+O64' in e.sizes:
        out = [('O32', e.modes), ('O64', only64)]
    elif 'O16+O32' in e.sizes:
        out = [('O16', e.modes), ('O32', e.modes)]
    elif by_size or 'O16+O32+O64' in e.sizes or (len(e.names) == 2 and not only64):
        out = [('O16', e.modes), ('O32', e.modes), ('O64', only64)]
    else:
        out = [('None', e.modes)]
    return [(size, modes) for size, modes in out if modes]


def forms_of(e):
    """The name, size, W, L and modes of each of an entry's rows."""
    sizes = sizes_of(e)
    if e.part.kind == 'Legacy':
        return [(name, size, 'None', 'None', modes) for name, (size, modes) in named(e, sizes)]
    if sizes[0][0] == 'None':
        return [(name, 'None', w, l, e.modes) for l in e.l for name, w in named(e, e.w)]
    # a row that takes W as its size says it in its notation too
    return [(name, size, size, l, modes) for l in e.l for name, (size, modes) in named(e, sizes)]


def named(e, rows):
    """Rows with the names of the entry: one by one, or the same for all."""
    if len(e.names) not in (1, len(rows)):
        raise BadEntry(f'{e.where}: {len(e.names)} names for {len(rows)} rows')
    return [(e.names[k] if len(e.names) > 1 else e.names[0], row) for k, row in enumerate(rows)]


def expand(e):
    """The rows of an entry, in the order of the table."""
    ops = set(e.ops)
    rule, byte = ('Fixed', e.fixed) if e.fixed is not None else ('Digit', e.digit) if e.digit is not None else \
        ('Any' if e.place or ops & READS_MODRM else 'No', None)
    place = e.place or ('Register' if ops & REGISTER_ONLY else 'Memory' if ops & MEMORY_ONLY else 'Any')
    if rule in ('No', 'Fixed'):
        place = 'Any'
    kinds = tuple((e.ops + ['Absent'] * 4)[:4])
    return [Row(e, k == 0, name, e.part.kind, e.map, e.cls, e.opcode, e.plus, rule, byte, place, size, w, l, modes, kinds, e.marks)
        for k, (name, size, w, l, modes) in enumerate(forms_of(e))]


def table_of(entries):
    """The rows of the table, by code."""
    return sorted((row for entry in entries for row in expand(entry)), key=lambda row: row.rank)


def rows_of_part(table, part):
    """The rows of a part, in the order of its list."""
    return [row for row in table if row.part is part]


def parts_of(table):
    """The parts that have rows."""
    return [part for part in PARTS if any(row.part is part for row in table)]
