"""What each row does besides its operands, from the lines of crates/row_entries/data (docs/instruction-info.md says how a line is read): the
registers and memory that no operand names, the flags, and the CPUID features."""
import os
import re
from dataclasses import dataclass

from .entries import OTHER_NAMES, PLAIN_KINDS, BadEntry
from .source import with_commas, wrapped

DATA = os.path.join(os.path.dirname(os.path.dirname(os.path.dirname(os.path.abspath(__file__)))), 'crates', "row_entries", "data")
EFFECT_FILES = ["effects_integer.txt", "effects_x87.txt", "effects_vector.txt"]
FEATURE_FILE = 'features.txt'

# ------------------------------------------------------------------ words

FLAGS = {'CF': 1 << 0, 'PF': 1 << 2, 'AF': 1 << 4, 'ZF': 1 << 6, 'SF': 1 << 7, 'TF': 1 << 8, 'IF': 1 << 9, 'DF': 1 << 10, 'OF': 1 << 11, 'IOPL': 3 << 12,
    'NT': 1 << 14, 'RF': 1 << 16, 'VM': 1 << 17, 'AC': 1 << 18, 'VIF': 1 << 19, 'VIP': 1 << 20, 'ID': 1 << 21,
    'C0': 1 << 24, 'C1': 1 << 25, 'C2': 1 << 26, 'C3': 1 << 30}
GROUPS = {'status': ['OF', 'SF', 'ZF', 'AF', 'PF', 'CF'], 'all': [flag for flag in FLAGS if not flag.startswith('C') or flag == 'CF']}
FLAG_SETS = ['read', 'written', 'cleared', 'set', 'undefined', 'kept']

FEATURES = '''FPU TSC MSR CX8 SEP CMOV CLFSH MMX FXSR SSE SSE2 SSE3 PCLMULQDQ MONITOR SSSE3 FMA CX16 SSE41 SSE42 MOVBE POPCNT AES XSAVE AVX F16C RDRAND
    FSGSBASE BMI1 AVX2 BMI2 RDSEED ADX SMAP CLFLUSHOPT CET_SS CET_IBT XSAVEOPT LZCNT PREFETCHW SYSCALL RDTSCP'''.split()

ACCESS = {'r': 'Read', 'w': 'Write', 'rw': 'ReadWrite', 'cr': 'ConditionalRead', 'cw': 'ConditionalWrite', 'crw': 'ConditionalReadWrite',
    'rcw': 'ReadConditionalWrite'}

NAMES = ['AX', 'CX', 'DX', 'BX', 'SP', 'BP', 'SI', 'DI']
SEGMENTS = ['ES', 'CS', 'SS', 'DS', 'FS', 'GS']
BASE_RULES = {'DS': 'Data', 'ES': 'Extra', 'SS': 'Stack'}


def register(word):
    """The class and the number of a register word."""
    for first, name in (('r', 'Operand'), ('a', 'Address'), ('s', 'Stack'), ('w', 'Wide')):
        if word[:1] == first and word[1:] in NAMES:
            return name, NAMES.index(word[1:])
    if word in NAMES:
        return 'R16', NAMES.index(word)
    if word[:1] in ('E', 'R') and word[1:] in NAMES:
        return {'E': 'R32', 'R': 'R64'}[word[0]], NAMES.index(word[1:])
    if word in ('AL', 'CL', 'DL', 'BL'):
        return 'Low8', 'ACDB'.index(word[0])
    if word in ('AH', 'CH', 'DH', 'BH'):
        return 'High8', 'ACDB'.index(word[0])
    if word in SEGMENTS:
        return 'Segment', SEGMENTS.index(word)
    m = re.match(r'^(R|CR|ST|XMM|YMM)([0-9]+)$', word)
    return m and ({'R': 'R64', 'CR': 'Control', 'ST': 'X87', 'XMM': 'Xmm', 'YMM': 'Ymm'}[m[1]], int(m[2]))


def registers(word):
    """The registers of a word, which may name some of one class from a number to another."""
    m = re.match(r'^(ST|XMM|YMM)([0-9]+)-([0-9]+)$', word)
    return [register(f'{m[1]}{n}') for n in range(int(m[2]), int(m[3]) + 1)] if m else [register(word)]


def flags(text):
    return sum({FLAGS[flag] for word in text.split(',') for flag in GROUPS.get(word, [word])})


@dataclass(frozen=True)
class Register:
    """A register that no operand names, by its class and number, and what is done to it."""
    group: str
    number: int
    access: str


@dataclass(frozen=True)
class Memory:
    """Memory that no operand names. It begins at the base and AL where `al` says so; slots of the stack that are pushed lie below the base. It has
    `count` units, in 64-bit mode `count64`, of `unit` bytes, or of the operand size where that is 0."""
    segment: str
    group: str
    number: int
    al: bool
    below: bool
    unit: int
    count: int
    count64: int
    access: str


@dataclass(frozen=True)
class Effect:
    """What a row does besides its operands: the flags of each set, the registers, the memory, whether a repeat prefix counts, the bytes of the memory
    operand where the columns have none, what is done to it where a mask chooses its elements, and the features: of the form with memory, or of a row
    that has one form alone, and of the form without."""
    flags: tuple
    registers: tuple
    memory: tuple
    repeat: bool
    size: int
    named: str
    features: int
    register_features: int


# ------------------------------------------------------------------ lines

MMX = {'Pq', 'Qd', 'Qq', 'Nq'}


@dataclass(frozen=True)
class Line:
    """A line: the names and conditions of the rows it speaks of, and its words."""
    where: str
    names: tuple
    conditions: tuple
    words: tuple

    def speaks_of(self, row):
        return row.name in self.names and all(holds(condition, row, self.where) for condition in self.conditions)


def kind(word, where):
    if word not in OTHER_NAMES and word not in PLAIN_KINDS:
        raise BadEntry(f'{where}: no operand: {word}')
    return OTHER_NAMES.get(word, word)


def holds(condition, row, where):
    ops = [op for op in row.ops if op != 'Absent']
    if condition in ('128', '256'):
        return row.l == 'L' + condition
    sign, word = condition[0], condition[1:]
    if sign == '=':
        return len(ops) == int(word)
    if sign not in '+-':
        raise BadEntry(f'{where}: no condition: {condition}')
    if word == 'mmx':
        there = bool(MMX & set(ops))
    elif ',' in word:
        there = ops == [kind(w, where) for w in word.split(',')]
    else:
        there = kind(word, where) in ops
    return there == (sign == '+')


def read_lines(file):
    lines = []
    with open(os.path.join(DATA, file)) as opened:
        for number, text in enumerate(opened, 1):
            where, text = f'crates/row_entries/data/{file}:{number}', text.strip()
            if text and not text.startswith('#'):
                head, *rest = text.split(' : ')
                names, *conditions = head.split()
                if len(rest) != 1:
                    raise BadEntry(f'{where}: not names, a colon and words')
                lines.append(Line(where, tuple(names.split('|')), tuple(conditions), tuple(rest[0].split())))
    return lines


def the_line(lines, row, needed):
    """The one line that speaks of a row."""
    found = [line for line in lines if line.speaks_of(row)]
    if len(found) > 1 or needed and not found:
        raise BadEntry(f'{row.entry.where}: {len(found)} lines speak of {row.name} {",".join(row.ops)}' + ''.join(f'\n  {line.where}' for line in found))
    return found[0] if found else None


# ------------------------------------------------------------------ effects

def stack(word, count):
    """The stack pointer, and the slots that PUSH or POP moves."""
    outside, _, inside = count.partition('/')
    push = word == 'push'
    return Register('Stack', 4, 'ReadWrite'), Memory('Stack', 'Stack', 4, False, push, 0, int(outside), int(inside or outside), 'Write' if push else 'Read')


MEMORY = re.compile(r'^\[(DS|ES|SS):([as])([A-Z]{2})(\+AL)?\]:([a-z]+):(o|[0-9]+)$')


def memory(word):
    m = MEMORY.match(word)
    return Memory(BASE_RULES[m[1]], {'a': 'Address', 's': 'Stack'}[m[2]], NAMES.index(m[3]), bool(m[4]), False, 0 if m[6] == 'o' else int(m[6]), 1, 1,
        ACCESS[m[5]])


def sized(text, row):
    """The number of a row's operand size among three, for 16, 32 and 64 bits, or the one that there is."""
    sizes = [int(word) for word in text.split('/')]
    return sizes[0] if len(sizes) == 1 else sizes[{'O16': 0, 'O64': 2}.get(row.size, 1)]


def feature_bits(word, where):
    bits = 0
    for feature in () if word == 'none' else word.split('+'):
        if feature not in FEATURES:
            raise BadEntry(f'{where}: no feature: {feature}')
        bits |= 1 << FEATURES.index(feature)
    return bits


def feature_sets(line):
    """The features of a line, and those of the form without memory, which a second word may name. The word `nop` says that a processor without them
    executes a NOP: the program row_entries compares it with the library."""
    first, *rest = [word for word in line.words if word != 'nop']
    used = feature_bits(first, line.where)
    if not rest:
        return used, used
    if len(rest) > 1 or not rest[0].startswith('register='):
        raise BadEntry(f'{line.where}: not features, or features and register=')
    return used, feature_bits(rest[0][len('register='):], line.where)


def effect_of(line, features, row):
    sets, implied, mems, repeat, size, named = dict.fromkeys(FLAG_SETS, 0), [], [], False, 0, 'AsOperand'
    for word in (line.words if line else ()):
        key, _, value = word.partition('=')
        try:
            if word == 'none':
                pass
            elif word == 'repeat':
                repeat = True
            elif key in FLAG_SETS:
                sets[key] = flags(value)
            elif key in ('push', 'pop'):
                pointer, slots = stack(key, value)
                implied.append(pointer)
                mems.append(slots)
            elif key == 'size':
                size = sized(value, row) if row.place != 'Register' and any(op in ('M', 'Mp', 'Mf') for op in row.ops) else 0
            elif key == 'memory':
                named = ACCESS[value]
            elif word.startswith('['):
                mems.append(memory(word))
            else:
                name, access = word.split(':')
                implied += [Register(group, number, ACCESS[access]) for group, number in registers(name)]
        except (KeyError, ValueError, TypeError):
            raise BadEntry(f'{line.where}: no effect: {word}')
    sets['written'] |= sets['cleared'] | sets['set']
    used, of_register = feature_sets(features)
    return Effect(tuple(sets[name] for name in FLAG_SETS), tuple(implied), tuple(mems), repeat, size, named, used, of_register)


def effects_of(table):
    """The effect of each row."""
    lines = [line for file in EFFECT_FILES for line in read_lines(file)]
    features, spoken = read_lines(FEATURE_FILE), set()
    out = []
    for row in table:
        line = the_line(lines, row, row.part.name in ('Integer', 'X87') and row.kind == 'Legacy')
        feature = the_line(features, row, True)
        spoken |= {line, feature}
        out.append(effect_of(line, feature, row))
    for line in lines + features:
        if line not in spoken:
            raise BadEntry(f'{line.where}: it speaks of no row')
        for name in line.names:
            if not any(row.name == name and line.speaks_of(row) for row in table):
                raise BadEntry(f'{line.where}: no row is {name}')
    return out


# ------------------------------------------------------------------ output

HEAD = '''//! Generated by tools/write_tables.py, do not edit: what the rows do besides their operands, from the lines in crates/row_entries/data.
use crate::effect::{
    AccessKind, Effect, ImpliedMemory, ImpliedRegister, NamedMemory, RegisterGroup, SegmentRule,
};

macro_rules! indexes {
    ($($index:literal)*) => {
        [$($index),*]
    };
}

macro_rules! effects {
    ($($read:literal $written:literal $cleared:literal $set:literal $undefined:literal $kept:literal $features:literal $register_features:literal
        $register:literal $registers:literal $memory:literal $memories:literal $repeat:literal $size:literal $named:ident),*) => {
        [$(Effect {
            read: $read,
            written: $written,
            cleared: $cleared,
            set: $set,
            undefined: $undefined,
            kept: $kept,
            features: $features,
            register_features: $register_features,
            first_register: $register,
            registers: $registers,
            first_memory: $memory,
            memories: $memories,
            repeats: $repeat,
            size: $size,
            named: NamedMemory::$named,
        }),*]
    };
}

macro_rules! registers {
    ($($group:ident $number:literal $access:ident),*) => {
        [$(ImpliedRegister { group: RegisterGroup::$group, number: $number, access: AccessKind::$access }),*]
    };
}

macro_rules! memories {
    ($($segment:ident $group:ident $number:literal $al:literal $below:literal $unit:literal $count:literal $count64:literal $access:ident),*) => {
        [$(ImpliedMemory {
            segment: SegmentRule::$segment,
            group: RegisterGroup::$group,
            number: $number,
            al: $al,
            below: $below,
            unit: $unit,
            count: $count,
            count64: $count64,
            access: AccessKind::$access,
        }),*]
    };
}

'''


def low(flag):
    return str(flag).lower()


def pool(groups):
    """The groups one behind the other, each once, and where each begins."""
    items, places = [], {(): 0}
    for group in groups:
        if group not in places:
            places[group] = len(items)
            items += group
    return items, places


def table_text(name, doc, item, macro, words):
    return f'/// {doc}\npub static {name}: [{item}; {len(words)}] = {macro}! {{\n' + wrapped(with_commas(words) if macro != 'indexes' else words, '    ') + '};\n'


def count_text(name, what, items):
    return f'/// How many {what} there are.\npub const {name}: u16 = {len(items)};\n\n'


def files(table):
    """The file of this stage: where it stands under crates/, and its text."""
    each = effects_of(table)
    distinct = list(dict.fromkeys(each))
    registers_, register_at = pool([effect.registers for effect in distinct])
    memories, memory_at = pool([effect.memory for effect in distinct])
    lines = [' '.join(f'{n:#x}' for n in e.flags) + f' {e.features:#x} {e.register_features:#x} {register_at[e.registers]} {len(e.registers)} {memory_at[e.memory]} {len(e.memory)} '
        f'{low(e.repeat)} {e.size} {e.named}' for e in distinct]
    at = {effect: k for k, effect in enumerate(distinct)}
    text = HEAD + count_text('EFFECT_COUNT', 'effects', distinct) + count_text('REGISTER_COUNT', 'implied registers', registers_)
    text += count_text('MEMORY_COUNT', 'implied uses of memory', memories) + table_text('EFFECT_INDEXES', 'Which effect a row has, by code.', 'u16', 'indexes', [str(at[effect]) for effect in each])
    text += '\n' + table_text('EFFECTS', 'The effects: flags read, written, cleared, set, undefined and kept, features, those of the form without '
        'memory,\n/// registers, memory, whether a repeat prefix counts, the bytes of the memory operand and what is done to it.', 'Effect', 'effects', lines)
    text += '\n' + table_text('IMPLIED_REGISTERS', 'The registers that no operand names.', 'ImpliedRegister', 'registers',
        [f'{r.group} {r.number} {r.access}' for r in registers_])
    text += '\n' + table_text('IMPLIED_MEMORY', 'The memory that no operand names.', 'ImpliedMemory', 'memories',
        [f'{m.segment} {m.group} {m.number} {low(m.al)} {low(m.below)} {m.unit} {m.count} {m.count64} {m.access}' for m in memories])
    return {'instruction_info/src/generated_effects.rt': text}
