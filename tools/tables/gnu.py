"""How GNU objdump and GDB name the instructions of each row: the names in both syntaxes, whether a letter shows the size of memory, the operands that
the row does not name, and what its prefixes are called (docs/texts.md). objdump 2.40 is the authority; tools/compare_gnu.py compares with it."""
from dataclasses import dataclass

from .source import with_commas, wrapped


@dataclass(frozen=True)
class Form:
    """The form of a row. An empty name is the manual's."""
    intel: str = ''
    att: str = ''
    memory: str = ''
    lettered: bool = False
    only_64: bool = False
    repeats: bool = False
    branch: str = 'No'
    first: str = 'No'
    second: str = 'No'
    size: int = 0
    is_unsized: bool = False


# ------------------------------------------------------------------ letters

# Kinds of operands that show the size of a row's memory.
SHOWING = {'Gb', 'Gw', 'Gd', 'Gv', 'Gy', 'Zb', 'Zv', 'By', 'RaxAny', 'EaxZ', 'Al', 'Ax', 'Sw', 'Cn', 'Dn'}
MEMORY = {'Eb', 'Ew', 'Ed', 'Eq', 'Ev', 'Ez', 'Ey', 'Xv', 'M', 'Mb', 'Mw', 'Md', 'Mq', 'Mt', 'Mv', 'Ob', 'Ov'}
LETTERLESS = '''push pop call jmp prefetchw prefetchnta prefetcht0 prefetcht1 prefetcht2 clflush clflushopt invlpg sldt str lldt ltr verr verw smsw
    lmsw sgdt sidt lgdt lidt ldmxcsr stmxcsr cmpxchg8b cmpxchg16b fxsave fxrstor xsave xrstor xsaveopt fldcw fnstcw fnstsw fldenv fnstenv frstor fnsave
    fbld fbstp'''.split()
VECTOR_KINDS = ('P', 'Q', 'N', 'V', 'H', 'L', 'U', 'W')


def is_x87(row):
    return row.kind == 'Legacy' and row.map == 'One' and row.opcode // 8 == 27


def is_lettered(row):
    """A letter shows the size of the row's memory in AT&T."""
    if row.name.startswith(('movzx', 'movsx')):
        return True
    if row.kind == 'Vex' or row.name in LETTERLESS or row.name.startswith('set') or any(kind[0] in VECTOR_KINDS for kind in row.ops if kind != 'Absent'):
        return False
    return bool(set(row.ops) & MEMORY) and not set(row.ops) & SHOWING


# ------------------------------------------------------------------ names

# Names in AT&T and in the Intel syntax.
NAMES = {
    'cbw': ('cbtw', ''), 'cwde': ('cwtl', ''), 'cdqe': ('cltq', ''), 'cwd': ('cwtd', ''), 'cdq': ('cltd', ''), 'cqo': ('cqto', ''),
    'wait': ('fwait', 'fwait'), 'retf': ('lret', ''), 'callf': ('lcall', 'call'), 'jmpf': ('ljmp', 'jmp'),
    'pushf': ('pushfw', 'pushfw'), 'pushfd': ('pushf', 'pushf'), 'pushfq': ('pushf', 'pushf'), 'popf': ('popfw', 'popfw'), 'popfd': ('popf', 'popf'),
    'popfq': ('popf', 'popf'), 'pusha': ('pushaw', 'pushaw'), 'pushad': ('pusha', 'pusha'), 'popa': ('popaw', 'popaw'), 'popad': ('popa', 'popa'),
    'iret': ('iretw', 'iretw'), 'iretd': ('iret', 'iret'),
    'fsub': ('fsubr', ''), 'fsubr': ('fsub', ''), 'fdiv': ('fdivr', ''), 'fdivr': ('fdiv', ''),
    'fsubp': ('fsubrp', ''), 'fsubrp': ('fsubp', ''), 'fdivp': ('fdivrp', ''), 'fdivrp': ('fdivp', ''),
}
X87_REVERSED = {'fsub', 'fsubr', 'fdiv', 'fdivr'}
INTEGERS_OF_64 = {'fild': 'fildll', 'fistp': 'fistpll', 'fisttp': 'fisttpll'}
LETTER = {'b': 1, 'w': 2, 'd': 4, 'q': 8}
LETTERS_OF_SIZE = {'O16': 'w', 'O32': 'l', 'O64': 'q', 'W0': 'l', 'W1': 'q'}

# String instructions: the operands in the order of the Intel syntax, whether AT&T has a letter, and whether F3 is called rep.
STRINGS = {
    'movs': ('Destination', 'Source', True, True), 'cmps': ('Source', 'Destination', True, False), 'stos': ('Destination', 'Accumulator', False, True),
    'lods': ('Accumulator', 'Source', False, True), 'scas': ('Accumulator', 'Destination', False, False), 'ins': ('Destination', 'Port', True, True),
    'outs': ('Port', 'Source', True, True),
}


def string_form(row):
    """The form of a string instruction, or None."""
    name, letter = row.name[:-1], row.name[-1]
    if name not in STRINGS or letter not in LETTER or set(row.ops) != {'Absent'} or row.kind != 'Legacy' or row.map != 'One':
        return None
    first, second, has_letter, repeats = STRINGS[name]
    att = name + ('l' if letter == 'd' else letter) if has_letter else name
    return Form(intel=name, att=att, memory=att, repeats=repeats, first=first, second=second, size=LETTER[letter])


def branch(row):
    """What F2 and DS are called on the row."""
    if row.name in ('call', 'jmp') and row.ops[0] == 'Ev':
        return 'Indirect'
    is_near = row.name in ('call', 'jmp', 'ret') or row.name.startswith('j') and row.name not in ('jmpf', 'jrcxz')
    return 'Near' if is_near else 'No'


def form_of(row):
    """The form of a row."""
    name, ops = row.name, row.ops
    strings = string_form(row)
    if strings:
        return strings
    if name == 'xlat':
        return Form(first='Table', size=1)
    if name == 'nop' and ops[0] == 'Absent':
        return Form()
    if name == 'mov' and {'Ob', 'Ov'} & set(ops):
        return Form(intel='movabs', att='movabs', memory='movabs', only_64=True, is_unsized=True)
    if name == 'mov' and ops[:2] == ('Zv', 'Iv') and row.size == 'O64':
        return Form(intel='movabs', att='movabs')
    if name == 'movsxd' and row.size != 'O64':
        return Form(att='movsxd', memory='movsxd')
    if name in ('crc32',):
        letter = {'Eb': 'b'}.get(ops[1]) or LETTERS_OF_SIZE[row.size]
        return Form(att=name + letter, memory=name + letter)
    if name in ('cvtsi2ss', 'cvtsi2sd', 'vcvtsi2ss', 'vcvtsi2sd'):
        return Form(memory=name + LETTERS_OF_SIZE[row.size])
    if name in INTEGERS_OF_64 and ops[0] == 'Mq':
        return Form(memory=INTEGERS_OF_64[name])
    if name in X87_REVERSED and ops[0] != 'StI':
        return Form(lettered=is_lettered(row))
    if name in ('ret', 'retf', 'leave', 'enter') and row.size == 'O16':
        intel, att = NAMES.get(name, (name, ''))[1] or name, NAMES.get(name, (name, ''))[0] or name
        return Form(intel=intel + 'w', att=att + 'w', branch=branch(row))
    att, intel = NAMES.get(name, ('', ''))
    return Form(intel=intel, att=att, memory=att, lettered=is_lettered(row), branch=branch(row))


# ------------------------------------------------------------------ the file

HEAD = '''//! Generated by tools/write_tables.py, do not edit: how GNU objdump and GDB name the instructions of each row.
use crate::gnu_form::{Branch, Form, Implied};

macro_rules! indexes {
    ($($index:literal)*) => {
        [$($index),*]
    };
}

macro_rules! names {
    ($($name:literal)*) => {
        [$($name),*]
    };
}

macro_rules! forms {
    ($($intel:literal $att:literal $memory:literal $lettered:literal $only_64:literal $repeats:literal $branch:ident $first:ident $second:ident
        $size:literal $unsized:literal),*) => {
        [$(Form {
            intel: $intel,
            att: $att,
            memory: $memory,
            lettered: $lettered,
            only_64: $only_64,
            repeats: $repeats,
            branch: Branch::$branch,
            first: Implied::$first,
            second: Implied::$second,
            size: $size,
            is_unsized: $unsized,
        }),*]
    };
}
'''


def low(flag):
    return str(flag).lower()


def files(table):
    """The file of this stage: where it stands under crates/, and its text."""
    each = [form_of(row) for row in table]
    exchange = Form(intel='xchg', att='xchg', first='Accumulator', second='Accumulator', size=2)
    distinct = list(dict.fromkeys([Form(), exchange, *each]))
    names = list(dict.fromkeys(['', *(name for form in distinct for name in (form.intel, form.att, form.memory))]))
    lines = [f'{names.index(f.intel)} {names.index(f.att)} {names.index(f.memory)} {low(f.lettered)} {low(f.only_64)} {low(f.repeats)} {f.branch} {f.first} {f.second} '
        f'{f.size} {low(f.is_unsized)}' for f in distinct]
    nop = next(code for code, row in enumerate(table) if row.name == 'nop' and row.ops[0] == 'Absent')
    text = HEAD
    text += f'\n/// The code of NOP, the byte 90.\npub const NOP: u16 = {nop};\n'
    text += f'\n/// The form of XCHG AX, AX, which GNU calls NOP with the prefix 66.\npub const EXCHANGE_FORM: u8 = {distinct.index(exchange)};\n'
    text += f'\n/// Which form a row has, by code.\npub static GNU_INDEXES: [u8; {len(each)}] = indexes! {{\n' + wrapped([str(distinct.index(f)) for f in each], '    ') + '};\n'
    text += f'\n/// The names that are not the manual\'s; the first stands for the manual\'s.\npub const GNU_NAMES: [&str; {len(names)}] = names! {{\n'
    text += wrapped([f'"{name}"' for name in names], '    ') + '};\n'
    text += '\n/// The forms: the names in the Intel syntax, in AT&T and in AT&T with memory, whether a letter shows the size, whether the names are for\n'
    text += '/// 64-bit mode alone, whether F3 repeats, the kind of branch, the operands that no row names, their size, and whether memory has no word of size.\n'
    text += f'pub static GNU_FORMS: [Form; {len(distinct)}] = forms! {{\n' + wrapped(with_commas(lines), '    ') + '};\n'
    return {'text_options/src/generated_gnu.rt': text}
