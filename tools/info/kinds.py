"""The kinds of differences with Zydis that docs/instruction-info.md explains, each with a test of a row, an aspect, our value and theirs."""
import re

STRINGS = re.compile(r'^(ins|outs|movs|cmps|stos|lods|scas)[bwdq]$')
PARTIAL = re.compile(r'^(cmov|fcmov|mov[lh]p|mov(hl|lh)ps|sqrt|rsqrt|rcp|round|cvt|v?p?gather|vp?gather|movs[sd]$|bs[fr]$|la?sl$|lar$|sh[lr]d$|cmpxchg|rdssp|ffree$)')
INTERRUPTS = {'int', 'int1', 'int3', 'into', 'syscall'}
FAR = {'callf', 'jmpf', 'retf', 'iret', 'iretd', 'iretq', 'sysenter', 'sysexit'}
PRIVILEGE = {'IOPL', 'VM', 'VIP', 'VIF'}
STATE = re.compile(r'^(fnsave|frstor|fxsave|fxrstor|xsave|xrstor|vzero)')
OPTIONAL = re.compile(r'^(prefetch|rdssp|endbr)')
HINTS = re.compile(r'^(invlpg|prefetch\w+|nop|clflush|clflushopt|ud1)$')
MASKED = re.compile(r'^v?maskmov|^vpmaskmov|gather')
BASES = {'swapgs', 'rdfsbase', 'rdgsbase', 'wrfsbase', 'wrgsbase', 'clts', 'lmsw'}


def words(text):
    return set() if text == '-' else set(text.split())


def is_repeat(row, aspect, ours, theirs):
    return STRINGS.match(row.name) and aspect.startswith('register') and ours in ('cr', 'crw') and theirs in ('r', 'rcw')


def is_string_index(row, aspect, ours, theirs):
    return STRINGS.match(row.name) and re.match(r'^register [er]?[sd]i$', aspect) and ours == 'rw' and theirs in ('r', 'rcw')


def is_column(row, aspect, ours, theirs):
    return PARTIAL.match(row.name) and re.match('^(register|access)', aspect) and ours == 'rw' and theirs in ('w', 'cw', 'rcw', 'r', '6')


def is_privilege(row, aspect, ours, theirs):
    return aspect in ('flags read', 'flags written') and ours == '-' and words(theirs) <= PRIVILEGE


def is_interrupt(row, aspect, ours, theirs):
    return row.name in INTERRUPTS and aspect.startswith('flags')


def is_selector(row, aspect, ours, theirs):
    return row.name in FAR and aspect in ('register cs', 'register ss') and theirs == '-'


def is_page(row, aspect, ours, theirs):
    """The flags are those of the manual's page, and Zydis has others."""
    names = {
        'flags written': {'sbb', 'rol', 'ror', 'rcl', 'rcr', 'shl', 'shr', 'sar', 'popf', 'sysret', 'sysenter', 'vtestps', 'vtestpd', 'vptest', 'bextr'},
        'flags undefined': {'sbb', 'rol', 'ror', 'rcl', 'rcr', 'shl', 'shr', 'sar', 'wait', 'fnop', 'mov', 'bextr'},
        'flags cleared': {'sar', 'cli', 'sysret', 'sysenter', 'vtestps', 'vtestpd', 'vptest', 'blsi', 'bextr', 'fninit', 'fnsave'},
        'flags set': {'sti'},
        'flags read': {'pushf', 'pushfd', 'pushfq', 'fnstenv', 'fnsave', 'fnstsw'},
    }
    return row.name in names.get(aspect, ()) or aspect == 'flags cleared' and ours == 'C1' and theirs == '-' and row.part.name == 'X87'


KINDS = [
    ('a write of a part, or under a condition, is a read and a write of an operand', is_column),
    ('SI and DI are changed by every string instruction', is_string_index),
    ('under a repeat prefix all is conditional', is_repeat),
    ('REPE and REPNE test the ZF that the comparison has set', lambda row, aspect, ours, theirs: STRINGS.match(row.name) and aspect == 'flags read' and theirs == 'ZF'),
    ('tests of the privilege are no reads of flags', is_privilege),
    ('interrupts and system calls save the flags, and may clear some', is_interrupt),
    ('far transfers set CS, and some SS', is_selector),
    ('IRET pops three slots outside 64-bit mode', lambda row, aspect, ours, theirs: row.name.startswith('iret') and aspect.startswith('bytes')),
    ('the flags are those of the page', is_page),
    ('AAA, AAS and AAD: AH and AL are AX', lambda row, aspect, ours, theirs: row.name in ('aaa', 'aas', 'aad') and aspect.startswith('register')),
    ('LEAVE: the stack size, not the operand size', lambda row, aspect, ours, theirs: row.name == 'leave' and aspect.startswith('register')),
    ('XLAT: AL is the index', lambda row, aspect, ours, theirs: row.name == 'xlat'),
    ('FTST and FXAM only read', lambda row, aspect, ours, theirs: row.name in ('ftst', 'fxam') and aspect.startswith('register')),
    ('registers of states that are saved, restored or zeroed', lambda row, aspect, ours, theirs: STATE.match(row.name) and aspect.startswith('register') and theirs == '-'),
    ('a saved state has the x87 status word', lambda row, aspect, ours, theirs: STATE.match(row.name) and aspect in ('flags read', 'flags written') and theirs == '-'),
    ('the size of XSAVE\'s area is not known', lambda row, aspect, ours, theirs: row.name.startswith(('xsave', 'xrstor')) and aspect.startswith('bytes') and ours == '0'),
    ('hints touch nothing', lambda row, aspect, ours, theirs: HINTS.match(row.name) and (aspect == 'memory' or aspect.startswith('register')) and ours in ('-', '[]')),
    ('MONITOR reads a byte', lambda row, aspect, ours, theirs: row.name == 'monitor' and aspect == 'memory'),
    ('32-bit registers in 64-bit mode', lambda row, aspect, ours, theirs: row.name in ('monitor', 'mwait', 'sysexit') and aspect.startswith('register') and '-' in (ours, theirs)),
    ('CR0, and the bases of FS and GS', lambda row, aspect, ours, theirs: row.name in BASES and aspect in ('register cr0', 'register fs', 'register gs')),
    ('a mask chooses the elements', lambda row, aspect, ours, theirs: MASKED.search(row.name) and aspect.startswith('access') and ours in ('cr', 'cw')),
    ('CPUID and CMPXCHG8B read ECX or EBX conditionally', lambda row, aspect, ours, theirs: row.name in ('cpuid', 'cmpxchg8b', 'cmpxchg16b') and aspect.startswith('register')),
    ('LSL of 64 bits names its register by 64 bits', lambda row, aspect, ours, theirs: row.name == 'lsl' and aspect.startswith('register')),
    ('MOVSXD of 16 bits reads 2 bytes', lambda row, aspect, ours, theirs: row.name == 'movsxd' and aspect.startswith('bytes')),
    ('a hint needs no feature', lambda row, aspect, ours, theirs: aspect == 'features' and ours == '-' and OPTIONAL.match(row.name)),
    ('features are CPUID flags, not sets of instructions', lambda row, aspect, ours, theirs: aspect == 'features'),
]
