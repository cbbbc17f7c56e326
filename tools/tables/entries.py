"""The entries of the opcode table, from the lines of crates/row_entries/data (docs/entries.md says how a line is read)."""
import os
import re
from dataclasses import dataclass, field

ROWS = os.path.join(os.path.dirname(os.path.dirname(os.path.dirname(os.path.abspath(__file__)))), 'crates', 'row_entries', 'data')


@dataclass(frozen=True)
class Part:
    """A crate of rows: its name, the file of its entries, the kind of its rows, and its name among the parts of opcode_rows."""
    crate: str
    file: str
    kind: str
    name: str


PARTS = [
    Part('rows_integer', 'integer.txt', 'Legacy', 'Integer'),
    Part('rows_x87', 'x87.txt', 'Legacy', 'X87'),
    Part('rows_sse', 'sse.txt', 'Legacy', 'Sse'),
    Part('rows_vex', 'vex.txt', 'Vex', 'Vex'),
]

KINDS = ['Legacy', 'Vex']
MAPS = {'One': 'One', '0F': 'M0f', '0F38': 'M0f38', '0F3A': 'M0f3a'}
MAP_ORDER = list(MAPS.values())
CLASSES = {'NP': 'Np', 'NFx': 'Nfx', 'NF3': 'Nf3', '66': 'P66', 'F3': 'F3', 'F2': 'F2'}
M16, M32, M64 = 1, 2, 4
LOCKABLE, ADDRESS, SIZED, CARET, BANG = 1, 2, 4, 8, 16
MARKS = {'lockable': LOCKABLE, 'a': ADDRESS, 's': SIZED, '^': CARET, '!': BANG}

# What the kinds of operands say of the row they stand in.
BY_SIZE = {'Ev', 'Ez', 'Gv', 'Zv', 'Rv', 'Xv', 'Mv', 'Ov', 'Iz', 'Iv', 'Jz', 'Ap'}
BY_W = {'Ey', 'Gy', 'By', 'Ry'}
REGISTER_ONLY = {'Rv', 'Ry', 'Nq', 'Ux'}
MEMORY_ONLY = {'M', 'Mb', 'Mw', 'Md', 'Mq', 'Mt', 'Mv', 'Mx', 'Mo', 'Ma', 'Mp', 'Mf', 'GatherX', 'GatherL'}
READS_MODRM = REGISTER_ONLY | MEMORY_ONLY | {
    'Eb', 'Ew', 'Ed', 'Eq', 'Ev', 'Ez', 'Ey', 'Gb', 'Gw', 'Gd', 'Gv', 'Gy', 'Rm', 'Xv', 'Kb', 'Kw', 'Sw', 'Cn', 'Dn', 'Pq', 'Qd', 'Qq', 'Vx',
    'Wx', 'Vo', 'Wo', 'Wb', 'Ww', 'Wd', 'Wq', 'Wh', 'W4', 'W8'}
OTHER_NAMES = {'AL': 'Al', 'AX': 'Ax', 'CL': 'Cl', 'DX': 'Dx', 'ES': 'Es', 'CS': 'Cs', 'SS': 'Ss', 'DS': 'Ds', 'FS': 'Fs', 'GS': 'Gs',
    'ST': 'St', 'ST(i)': 'StI', 'XMM0': 'Xmm0', '1': 'One', 'rAX': 'RaxAny', 'eAX': 'EaxZ', 'gx': 'GatherX', 'gv': 'GatherL'}
PLAIN_KINDS = READS_MODRM | {'Zb', 'Zv', 'By', 'Ob', 'Ov', 'Ib', 'Iw', 'Ibs', 'Iz', 'Iv', 'Jb', 'Jz', 'Ap', 'Hx', 'Lx', 'Ho'}

PLACES = {'mem': 'Memory', 'reg': 'Register'}
MODE_WORDS = {'n64': M16 | M32, 'o64': M64}
SIZE_WORDS = {'O16+O32', 'O32+O64', 'O16+O32+O64', 'w', 'y', 'W0', 'W1'}
VEX_W = {'W0': ['W0'], 'W1': ['W1'], 'W0|W1': ['W0', 'W1'], 'WIG': ['Wig']}
VEX_L = {'128': ['L128'], '256': ['L256'], 'LIG': ['Lig'], 'LZ': ['Lz']}

HEAD = re.compile(r'^([0-9A-F]{2})(?:(\+r)|/([0-7])|\.([0-9A-F]{2})(\+i)?)?$')
VERSIONS = {'1': 1, '2': 2, '3': 3, '4': 4, '5': 5, '6': 6, '7': 7, '8': 8, '9': 9}


class BadEntry(Exception):
    """A line that is no entry, with the file and the number of the line."""


@dataclass
class Entry:
    """A line of a file. Its sizes are the words that name operand sizes; w and l are the bits of a VEX, whatever the sizes say."""
    where: str
    text: str
    headings: list
    part: Part
    version: int
    map: str
    opcode: int
    plus: str
    digit: int
    fixed: int
    cls: str
    names: list = field(default_factory=list)
    ops: list = field(default_factory=list)
    place: str = None
    modes: int = M16 | M32 | M64
    marks: int = 0
    sizes: set = field(default_factory=set)
    w: list = field(default_factory=lambda: ['Wig'])
    l: list = field(default_factory=lambda: ['L128', 'L256'])


def is_operands(word):
    return all(w in OTHER_NAMES or w in PLAIN_KINDS for w in word.split(','))


def read_mark(entry, word):
    """Takes a word behind the operands into the entry."""
    vex = entry.part.kind == 'Vex'
    if vex and word in VEX_W:
        entry.w = VEX_W[word]
    elif vex and word in VEX_L:
        entry.l = VEX_L[word]
    elif word in MARKS:
        entry.marks |= MARKS[word]
    elif word in PLACES:
        entry.place = PLACES[word]
    elif word in MODE_WORDS:
        entry.modes = MODE_WORDS[word]
    elif word in SIZE_WORDS:
        entry.sizes.add(word)
    else:
        raise BadEntry(f'{entry.where}: no mark: {word}')


def read_line(where, text, headings, part, version, map_):
    """The entry of a line."""
    head, *rest = text.split()
    m = HEAD.match(head)
    if not m:
        raise BadEntry(f'{where}: no opcode: {head}')
    entry = Entry(where, text, headings, part, version, map_, int(m[1], 16), 'Register' if m[2] else 'Stack' if m[5] else 'No',
        int(m[3]) if m[3] else None, int(m[4], 16) if m[4] else None, 'Np' if part.kind == 'Vex' else 'Any')
    if rest and rest[0] in CLASSES:
        entry.cls = CLASSES[rest.pop(0)]
    if not rest:
        raise BadEntry(f'{where}: no name')
    entry.names = rest.pop(0).lower().split('|')
    if rest and is_operands(rest[0]):
        entry.ops = [OTHER_NAMES.get(word, word) for word in rest.pop(0).split(',')]
    if len(entry.ops) > 4:
        raise BadEntry(f'{where}: more than four operands')
    for word in rest:
        read_mark(entry, word)
    return entry


def map_heading(version, map_):
    return '---- ' + (f'version {version}, ' if version > 1 else '') + ('the one-byte map' if map_ == 'One' else f'map {map_}')


def read_part(part):
    """The entries of a part, in the order of their lines, each with the headings before it."""
    entries, map_, version, headings = [], None, 1, []
    with open(os.path.join(ROWS, part.file)) as file:
        for number, line in enumerate(file, 1):
            where, line = f'crates/row_entries/data/{part.file}:{number}', line.strip()
            if not line:
                headings = headings if map_ else []
            elif line.startswith('#'):
                headings.append(line[1:].strip())
            elif line.startswith('version '):
                if line[8:] not in VERSIONS:
                    raise BadEntry(f'{where}: no version: {line[8:]}')
                version, map_, headings = VERSIONS[line[8:]], None, []
            elif line.startswith('map '):
                if line[4:] not in MAPS:
                    raise BadEntry(f'{where}: no map: {line[4:]}')
                map_, headings = MAPS[line[4:]], [map_heading(version, line[4:])]
            elif map_ is None:
                raise BadEntry(f'{where}: an entry before any map')
            else:
                entries.append(read_line(where, line, headings, part, version, map_))
                headings = []
    return entries


def read_all():
    """The entries of all parts."""
    return [entry for part in PARTS for entry in read_part(part)]
