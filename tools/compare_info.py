#!/usr/bin/env python3
"""Compares what the library reports that instructions touch with Zydis: registers, memory, flags and features.

    tools/compare_info.py               compares an instruction of each row, mode and form with Zydis
    tools/compare_info.py --llvm        compares the registers with LLVM, which has EFLAGS among them

Setup: the script uses the Python package in capi/python over the shared library. Build the library by `capi/build.sh`, which writes
capi/out/libfeddurzai.so, or set the environment variable FEDDURZAI_LIBRARY to the file of a built one. Zydis and a C compiler are needed
(Debian: libzydis-dev, gcc), or with --llvm LLVM 14 and a C++ compiler (Debian: llvm-14-dev, g++).

The script counts the differences by the kinds that docs/instruction-info.md lists. It prints each difference of no kind, and then ends with
status 1. No proof depends on this script.
"""
import argparse
import collections
import os
import re
import subprocess
import sys
import tempfile

sys.dont_write_bytecode = True
from info.kinds import KINDS  # noqa: E402
from info.llvm_kinds import KINDS as LLVM_KINDS  # noqa: E402
from info.samples import samples  # noqa: E402
from tables.effects import ACCESS, FLAGS  # noqa: E402
from tables.entries import read_all  # noqa: E402
from tables.rows import table_of  # noqa: E402

HERE = os.path.dirname(os.path.abspath(__file__))
PACKAGE = os.path.join(os.path.dirname(HERE), 'capi', 'python')

# ------------------------------------------------------------------ ours

BITS = {'Read': 1, 'Write': 2, 'ReadWrite': 3, 'ConditionalRead': 4, 'ConditionalWrite': 8, 'ConditionalReadWrite': 12, 'ReadConditionalWrite': 9}


def sets_of(numbers, flags=FLAGS):
    return [{name for name, bit in flags.items() if n & bit} for n in numbers]


class Answer:
    """Registers with their accesses, memory, six sets of flags, and features."""

    def __init__(self):
        self.registers, self.memory, self.flags, self.features = collections.Counter(), [], None, None

    def touch(self, reg, bits):
        self.registers[reg] |= bits


def our_answer(feddurzai, bits, code):
    """The library's report of the instruction at the front of some bytes, None if none begins there."""
    try:
        instr = feddurzai.decode(bits, 0, code)
    except (feddurzai.InvalidCode, feddurzai.TooShort):
        return None
    touched = instr.effects()
    answer = Answer()
    answer.name, answer.code = instr.name, instr.code
    # a memory use reads its segment register, which Zydis and LLVM leave out
    segments = collections.Counter()
    for use in touched.memory:
        segment = use.segment.name.lower()
        segments[segment] += bits != 64 or segment in ('fs', 'gs')
        base, index = ('-' if reg is None else str(reg) for reg in (use.base, use.index))
        answer.memory.append((segment, base, index, use.scale, use.displacement, use.size, int(use.access)))
    for use in touched.registers:
        reg, access = str(use.register), int(use.access)
        if segments[reg] and access in (BITS['Read'], BITS['ConditionalRead']):
            segments[reg] -= 1
            continue
        answer.touch(reg, access)
    flags = (touched.flags_read, touched.flags_written, touched.flags_cleared, touched.flags_set, touched.flags_undefined, touched.flags_kept)
    answer.flags = sets_of(map(int, flags))
    answer.features = set(touched.features)
    return answer


# ------------------------------------------------------------------ theirs

# registers that the library does not name
NAMELESS = re.compile(r'^(rip|eip|ip|flags|eflags|rflags|x87\w+|mxcsr|gdtr|idtr|ldtr|tr|xcr0|tsc|pkru|msr\w*|bnd\w*|uif|ssp|-)$')
CPU_BITS = FLAGS
FPU = {'C0': 1, 'C1': 2, 'C2': 4, 'C3': 8}


def their_answer(text):
    head, *parts = [part.split() for part in text.split(';')]
    answer = Answer()
    answer.name, answer.isa = head
    sets = [set(), set(), set(), set(), set()]
    for kind, *words in parts:
        if kind == 'reg':
            if not NAMELESS.match(words[2]):
                answer.touch(words[2], int(words[1]))
        elif kind == 'mem':
            visibility, actions, mem_type, segment, base, index, scale, disp, size, element, count = words
            for reg in (base, index):
                if reg != '-' and (not NAMELESS.match(reg) or reg in ('rip', 'eip')):
                    answer.touch(reg, 1)
            if mem_type not in ('2', '3') and int(actions):   # not an address that is only computed
                answer.memory.append((segment, base, index, int(scale) or 1, int(disp), int(size) // 8, int(actions)))
        else:
            for n, word in enumerate(words):
                names = CPU_BITS if kind == 'cpu' else FPU
                for name, bit in names.items():
                    if (name in FPU) == (kind == 'fpu') and int(word) & bit:
                        sets[n].add(name)
    tested, modified, clear, set_, undefined = sets
    answer.flags = [tested, modified | clear | set_, clear, set_, undefined]
    return answer


# the instruction sets that Zydis names, as features; the empty ones are in every processor
ISA = {'I86': '', 'I186': '', 'I286PROTECTED': '', 'I286REAL': '', 'I386': '', 'I486': '', 'I486REAL': '', 'I2186': '', 'LONGMODE': '', 'FAT_NOP': '', 'PAUSE': '', 'PPRO': '',
    'PPRO_UD0_LONG': '', 'PPRO_UD0_SHORT': '', 'LAHF': '', 'PREFETCH_NOP': '', 'RDPMC': '', 'SSE_PREFETCH': 'SSE', 'PENTIUMREAL': 'CX8', 'PENTIUMMMX': 'MMX', 'X87': 'FPU', 'FCMOV': 'FPU CMOV', 'FXSAVE': 'FXSR',
    'FXSAVE64': 'FXSR', 'CMOV': 'CMOV', 'SSE': 'SSE', 'SSE2': 'SSE2', 'SSE2MMX': 'SSE2', 'SSEMXCSR': 'SSE', 'SSE3': 'SSE3', 'SSE3X87': 'FPU SSE3', 'SSSE3': 'SSSE3',
    'SSSE3MMX': 'SSSE3', 'SSE4': 'SSE41', 'SSE42': 'SSE42', 'AES': 'AES', 'PCLMULQDQ': 'PCLMULQDQ', 'AVX': 'AVX', 'AVX2': 'AVX2', 'AVX2GATHER': 'AVX2',
    'AVXAES': 'AES AVX', 'FMA': 'FMA', 'F16C': 'F16C', 'BMI1': 'BMI1', 'BMI2': 'BMI2', 'LZCNT': 'LZCNT', 'POPCNT': 'POPCNT', 'MOVBE': 'MOVBE',
    'ADOX_ADCX': 'ADX', 'RDRAND': 'RDRAND', 'RDSEED': 'RDSEED', 'RDWRFSGS': 'FSGSBASE', 'SMAP': 'SMAP', 'CLFSH': 'CLFSH', 'CLFLUSHOPT': 'CLFLUSHOPT',
    'CMPXCHG16B': 'CX16', 'MONITOR': 'MONITOR', 'XSAVE': 'XSAVE', 'XSAVEOPT': 'XSAVEOPT', 'RDTSCP': 'RDTSCP', 'PREFETCHW': 'PREFETCHW', 'CET': 'CET'}

FLAG_WORDS = ['read', 'written', 'cleared', 'set', 'undefined']


def differences(bits, ours, theirs):
    """Yields the aspects in which two answers differ: a word, our value and theirs."""
    names = set(ours.registers) | set(theirs.registers)
    for reg in sorted(names):
        a, b = ours.registers[reg], theirs.registers[reg]
        if a != b:
            yield f'register {reg}', words(a), words(b)
    mine, their = sorted(ours.memory), sorted(theirs.memory)
    mask = (1 << bits) - 1
    where = [sorted((m[0], m[1], m[2], m[3]) for m in side) for side in (mine, their)]
    if where[0] != where[1]:
        yield 'memory', where[0], where[1]
    else:
        for m, t in zip(mine, their):
            if m[5] != t[5]:
                yield f'bytes of {m[0]}:{m[1]}', m[5], t[5]
            if m[6] != t[6]:
                yield f'access of {m[0]}:{m[1]}', words(m[6]), words(t[6])
    for word, a, b in zip(FLAG_WORDS, ours.flags, theirs.flags):
        if a != b:
            yield f'flags {word}', ' '.join(sorted(a - b)) or '-', ' '.join(sorted(b - a)) or '-'
    theirs_features = set(ISA.get(theirs.isa, theirs.isa).split())
    if ours.features != theirs_features:
        yield 'features', ' '.join(sorted(ours.features)) or '-', theirs.isa


def words(bits):
    return next((short for short, name in ACCESS.items() if BITS[name] == bits), f'{bits}' if bits else '-')


# ------------------------------------------------------------------ LLVM

# registers that the library does not name or reports otherwise: the instruction pointer, and the index of a SIB that means none
LLVM_NAMELESS = re.compile(r'^(rip|eip|ip|eiz|riz|mxcsr|fpcw|fpsw|ssp|_)$')
LLVM_SEGMENTS = {'es', 'cs', 'ss', 'ds', 'fs', 'gs'}
# EFLAGS without DF, which is a register of its own there
EFLAGS = {name for name in FLAGS if not name.startswith('C') or name == 'CF'} - {'DF'}


def llvm_answer(text):
    head, *uses = text.split()
    answer = Answer()
    answer.name = head
    for use in uses:
        how, reg = use.lower().split(':')
        if not LLVM_NAMELESS.match(reg):
            answer.touch(reg, {'r': 1, 'w': 2}[how])
    return answer


def llvm_differences(bits, ours, theirs):
    """Yields the registers in which two answers differ. LLVM has no conditions, and an address names its segment only if a prefix does."""
    mine = collections.Counter({reg: access & 3 | access >> 2 for reg, access in ours.registers.items()})
    for name, flags in (('eflags', EFLAGS), ('df', {'DF'})):
        read, written = ours.flags[0] & flags, (ours.flags[1] | ours.flags[4]) & flags
        if read or written:
            mine[name] = bool(read) + 2 * bool(written)
    segments = {m[0] for m in ours.memory}
    for reg in sorted(set(mine) | set(theirs.registers)):
        a, b = mine[reg], theirs.registers[reg]
        if reg in LLVM_SEGMENTS and reg in segments:
            b |= 1 if a & 1 else 0
            a |= b & 1
        if a != b:
            yield f'register {reg}', words(a), words(b)


def llvm_lines(lines):
    with tempfile.TemporaryDirectory() as folder:
        program = os.path.join(folder, 'llvm_info')
        flags = subprocess.run(['llvm-config-14', '--cppflags'], capture_output=True, text=True, check=True).stdout.split()
        libraries = subprocess.run(['llvm-config-14', '--ldflags', '--libs', 'x86', 'mc', 'mcdisassembler'], capture_output=True, text=True, check=True).stdout.split()
        source = os.path.join(HERE, 'info', 'llvm_info.cpp')
        subprocess.run(['c++', '-std=c++17', '-O1', '-w', '-fno-rtti', *flags, source, '-o', program, *libraries], check=True)
        return subprocess.run([program], input='\n'.join(lines) + '\n', capture_output=True, text=True, check=True).stdout.splitlines()


def their_lines(lines):
    with tempfile.TemporaryDirectory() as folder:
        program = os.path.join(folder, 'zydis_info')
        subprocess.run(['cc', '-O1', '-o', program, os.path.join(HERE, 'info', 'zydis_info.c'), '-lZydis'], check=True)
        return subprocess.run([program], input='\n'.join(lines) + '\n', capture_output=True, text=True, check=True).stdout.splitlines()


def kind_of(kinds, row, aspect, ours, theirs):
    for kind, test in kinds:
        if test(row, aspect, ours, theirs):
            return kind
    return None


def main():
    parser = argparse.ArgumentParser(description=__doc__, formatter_class=argparse.RawDescriptionHelpFormatter)
    parser.add_argument('--all', action='store_true', help='print the differences of each kind too')
    parser.add_argument('--llvm', action='store_true', help='compare with LLVM instead of Zydis')
    args = parser.parse_args()
    sys.path.insert(0, PACKAGE)
    try:
        import feddurzai
    except ImportError as missing:
        sys.exit(f'compare_info.py: {missing}')
    table = table_of(read_all())
    rows = {}
    for row in table:
        for bits, code in samples(row):
            rows.setdefault(f'{bits} {bytes(code).hex()}', row)
    ask, read, compare, named = (llvm_lines, llvm_answer, llvm_differences, LLVM_KINDS) if args.llvm else (their_lines, their_answer, differences, KINDS)
    theirs = {' '.join(line.split()[:2]): line for line in ask(list(rows))}
    kinds, open_, agree, seen = collections.Counter(), collections.OrderedDict(), 0, set()
    shown, unread = collections.defaultdict(collections.OrderedDict), collections.Counter()
    for key, row in rows.items():
        text = theirs[key]
        if args.llvm and (text.endswith('invalid') or key.startswith('16 ') and row.kind == 'Legacy' and row.cls == 'P66'):
            unread[row.name] += 1
            continue
        bits, code = int(key.split()[0]), bytes.fromhex(key.split()[1])
        ours = our_answer(feddurzai, bits, code)
        if text.endswith('invalid') or ours is None:
            word = 'invalid' if ours is None else f'{ours.name} {ours.code}'
            found = [] if ours is None and text.endswith('invalid') else [('length', word, text[len(key):][:20])]
        elif table[ours.code] is not row:
            found = [('row', ours.name, row.name)]
        else:
            seen.add(ours.code)
            found = list(compare(bits, ours, read(text[len(key):])))
        agree += not found
        for aspect, a, b in found:
            kind = kind_of(named, row, aspect, str(a), str(b))
            group = shown[kind] if kind else open_
            if kind:
                kinds[kind] += 1
            group.setdefault((row.name, aspect, str(a), str(b)), []).append(key)
    print(f'{len(rows) - sum(unread.values())} instructions of {len(seen)} rows; {agree} agree in everything')
    if unread:
        print(f'{sum(unread.values())} instructions are left out, which LLVM does not decode, or decodes with another operand size: {" ".join(sorted(unread))}')
    for kind, _ in named:
        print(f'  {kinds[kind]:6d} {kind}')
        if args.all:
            for (name, aspect, a, b), keys in shown[kind].items():
                print(f'           {name}: {aspect}: ours {a}, theirs {b}: {len(keys)}, such as {keys[0]}')
    for (name, aspect, a, b), keys in open_.items():
        print(f'{name}: {aspect}: ours {a}, theirs {b}: {len(keys)}, such as {keys[0]}')
    print(f'{sum(len(keys) for keys in open_.values())} differences of no kind')
    return 1 if open_ else 0


if __name__ == '__main__':
    sys.exit(main())
