"""The kinds of differences with LLVM that docs/instruction-info.md explains, each with a test of a row, an aspect, our value and theirs."""
import re

from .kinds import FAR, HINTS, PARTIAL, STATE, STRINGS

SEGMENTS = {'es', 'cs', 'ss', 'ds', 'fs', 'gs'}
STACK = {'sp', 'esp', 'rsp', 'bp', 'ebp', 'rbp'}
PUSHING = re.compile(r'^(push|pop|call|ret|iret|enter|leave)')
SYSTEM = {'syscall', 'sysret', 'sysenter', 'sysexit'}
LOADS = {'les', 'lds', 'lss', 'lfs', 'lgs', 'pop'}
ADDRESSES = re.compile(r'^(xlat|monitor|v?maskmov(q|dqu))$')
IN_16_BITS = {'cbw', 'cwd', 'pusha', 'popa'}
HALVES = {'aaa', 'aas', 'aam', 'mul', 'imul', 'div', 'idiv'}


def reg_of(aspect):
    return aspect.split()[-1]


def is_ignored_prefix(row, aspect, ours, theirs):
    return reg_of(aspect) in SEGMENTS and ours == '-' and theirs == 'r'


def is_stack(row, aspect, ours, theirs):
    return PUSHING.match(row.name) and reg_of(aspect) in STACK


def is_selector(row, aspect, ours, theirs):
    return row.name in LOADS | FAR | {'push'} and reg_of(aspect) in SEGMENTS


def is_base(row, aspect, ours, theirs):
    return row.name in ('swapgs', 'rdfsbase', 'rdgsbase', 'wrfsbase', 'wrgsbase') or reg_of(aspect) == 'cr0'


KINDS = [
    ('a segment prefix that 64-bit mode ignores, or of an address alone', is_ignored_prefix),
    ('x87 registers', lambda row, aspect, ours, theirs: re.match(r'^register (st|fp)[0-9]$', aspect)),
    ('registers of states that are saved, restored or zeroed', lambda row, aspect, ours, theirs: STATE.match(row.name)),
    ('EMMS', lambda row, aspect, ours, theirs: row.name == 'emms'),
    ('system calls', lambda row, aspect, ours, theirs: row.name in SYSTEM and theirs == '-'),
    ('the stack pointer', is_stack),
    ('selectors that are pushed or loaded', is_selector),
    ('flags', lambda row, aspect, ours, theirs: reg_of(aspect) in ('eflags', 'df')),
    ('string instructions', lambda row, aspect, ours, theirs: STRINGS.match(row.name) and not reg_of(aspect).startswith('xmm')),
    ('LOOP and its counter', lambda row, aspect, ours, theirs: row.name.startswith('loop')),
    ('the size of an implied address', lambda row, aspect, ours, theirs: ADDRESSES.match(row.name)),
    ('a write of a part, or under a condition, is a read and a write of an operand', lambda row, aspect, ours, theirs: (PARTIAL.match(row.name) or row.name in ('arpl', 'movss')) and (ours, theirs) == ('rw', 'w')),
    ('AX, and AH with AL', lambda row, aspect, ours, theirs: row.name in HALVES),
    ('sizes in 16-bit mode', lambda row, aspect, ours, theirs: row.name in IN_16_BITS and reg_of(aspect)[:1] != 'r'),
    ('CWD, CDQ and CQO', lambda row, aspect, ours, theirs: row.name in ('cwd', 'cdq', 'cqo') and (ours, theirs) == ('r', 'rw')),
    ('RDTSC, RDTSCP and RDPMC', lambda row, aspect, ours, theirs: row.name in ('rdtsc', 'rdtscp', 'rdpmc')),
    ('hints touch nothing', lambda row, aspect, ours, theirs: HINTS.match(row.name) and ours == '-'),
    ('a selector of 16 bits, and MOVSXD of 16 bits', lambda row, aspect, ours, theirs: row.name in ('mov', 'lar', 'lsl', 'movsxd') and {ours, theirs} == {'r', '-'}),
    ('the lengths of PCMPESTRI and PCMPESTRM', lambda row, aspect, ours, theirs: re.match('^v?pcmpestr', row.name)),
    ('CR0, and the bases of FS and GS', is_base),
    ('BOUND', lambda row, aspect, ours, theirs: row.name == 'bound'),
]
