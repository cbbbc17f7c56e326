"""Instructions of each row: one for each mode and form."""
ESCAPES = {'One': [], 'M0f': [0x0F], 'M0f38': [0x0F, 0x38], 'M0f3a': [0x0F, 0x3A]}
MAP_NUMBERS = {'M0f': 1, 'M0f38': 2, 'M0f3a': 3}
PP = {'Np': 0, 'P66': 1, 'F3': 2, 'F2': 3}
MODE_FLAGS = {16: 1, 32: 2, 64: 4}
ODD = {'Sw', 'Cn', 'Dn'}


def has_w(row):
    return row.size in ('O64', 'W1') and not row.marks & (8 | 16) or row.w == 'W1'


def size_prefix(row, bits):
    """The prefix of the operand size, if the row asks for the one that is not the default."""
    if row.kind == 'Vex':
        return []
    if row.cls == 'P66':
        return [0x66]
    other = 'O32' if bits == 16 else 'O16'
    return [0x66] if row.size == other or bits == 16 and row.size == 'O32or64' else []


def immediates(row, bits, asize):
    out = []
    size = {'O16': 2, 'O64': 8}.get(row.size, 4)
    for kind in row.ops:
        n = {'Ib': 1, 'Ibs': 1, 'Jb': 1, 'Iw': 2, 'Iz': min(size, 4), 'Iv': size, 'Jz': 2 if row.size == 'O16' else 4, 'Ap': min(size, 4) + 2,
            'Ob': asize // 8, 'Ov': asize // 8, 'Lx': 1}.get(kind, 0)
        out += [0x30] + [0] * (n - 1) if n else []
    return out


def address(row, asize, base, index=6):
    """The bytes of ModRM (without reg), SIB and displacement of a memory operand."""
    if asize == 16:
        return [0x40 | {'data': 0, 'stack': 2}[base], 0x10]
    return [0x44, 0x40 | index << 3 | {'data': 3, 'stack': 5}[base], 0x10]


def spell(row, bits, form, asize, base='data', before=()):
    """The bytes of an instruction of a row; form is mem or reg."""
    gather = row.ops[1] in ('GatherX', 'GatherL')
    reg = 3 if ODD & set(row.ops) else 1
    default = 64 if bits == 64 else bits
    out = list(before) + ([0x67] if asize != default else [])
    if row.kind == 'Legacy':
        out += size_prefix(row, bits)
        out += {'F3': [0xF3], 'F2': [0xF2]}.get(row.cls, [])
        out += [0x48] if has_w(row) and bits == 64 else []
        out += ESCAPES[row.map]
    else:
        vvvv = 3 if {'Hx', 'Ho', 'By'} & set(row.ops) else 0
        out += [0xC4, 0xE0 | MAP_NUMBERS[row.map], has_w(row) << 7 | (15 - vvvv) << 3 | (row.l == 'L256') << 2 | PP[row.cls]]
    out.append(row.opcode + (1 if row.plus == 'Register' else 0))
    if row.rule == 'Fixed':
        out.append(row.byte + (2 if row.plus == 'Stack' else 0))
    elif row.rule != 'No':
        reg = row.byte if row.rule == 'Digit' else reg
        if form == 'reg':
            out.append(0xC0 | reg << 3 | 2)
        else:
            m = address(row, asize, base, 2 if gather else 6)
            out += [m[0] | reg << 3] + m[1:]
    return out + immediates(row, bits, asize)


def forms(row):
    if row.rule in ('No', 'Fixed'):
        return ['none']
    if 'Rm' in row.ops:
        return ['reg']
    return {'Any': ['mem', 'reg'], 'Memory': ['mem'], 'Register': ['reg']}[row.place]


def samples_with(row):
    """The instructions of a row, each as a mode, its bytes and how they were made: in each mode and form; and with memory or an address size of its own
    also on the stack, with a segment prefix, with the other address size, and with each repeat prefix."""
    def made(form, asize, base='data', before=()):
        return bits, spell(row, bits, form, asize, base, before), (form, asize, base, before)
    for bits, flag in MODE_FLAGS.items():
        if not row.modes & flag:
            continue
        gather = row.ops[1] in ('GatherX', 'GatherL')
        other = {16: 32, 32: 16, 64: 32}[bits]
        for form in forms(row):
            asize = 32 if gather and bits == 16 else bits
            yield made(form, asize)
            if form == 'mem' or row.marks & 2:
                yield made(form, asize, before=(0x64,))
                yield made(form, asize, before=(0x26,))
                if not gather:
                    yield made(form, other)
            if form == 'mem':
                yield made(form, asize, base='stack')
            if row.marks & 2 and row.kind == 'Legacy' and row.cls == 'Any' and row.map == 'One' and row.ops[0] == 'Absent':
                yield made(form, asize, before=(0xF3,))
                yield made(form, asize, before=(0xF2,))
                yield made(form, other, before=(0xF3,))


def samples(row):
    """The instructions of a row, each as a mode and its bytes."""
    return [(bits, code) for bits, code, _ in samples_with(row)]
