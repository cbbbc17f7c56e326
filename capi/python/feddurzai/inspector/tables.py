"""Jump tables, as GCC and Clang write them for a switch.

An indirect jump is resolved if the instructions before it have one of these forms, in any order of the independent ones:

    cmp reg, N; ja default; lea base, [rip+table]; movsxd index, dword [base+reg*4]; add index, base; jmp index
    cmp reg, N; ja default; jmp [table+reg*8]                   (reg*4 in 32-bit code)
    cmp reg, N; ja default; mov index, [table+reg*8]; jmp index

The table then has N + 1 entries. `and reg, N` in place of the comparison gives N + 1 entries too. A table is refused if one of its entries is not
an address in the section of the jump.
"""

from __future__ import annotations

import struct
from typing import Dict, List, NamedTuple, Optional, Sequence, Set, Tuple

import feddurzai
from feddurzai import Immediate, Instr, Memory, Register

from .elf import Function, Program
from .scan import reach

# how many instructions before the jump are read
WINDOW = 32
MOST_ENTRIES = 65536
ABOVE, ABOVE_OR_EQUAL = ("ja", "jnbe"), ("jae", "jnb")


class Table(NamedTuple):
    """A jump table: the address of the jump, that of the table, and the targets in the order of its entries."""

    jump: int
    at: int
    targets: Tuple[int, ...]


def _same(a: Optional[Register], b: Optional[Register]) -> bool:
    return a is not None and b is not None and a.full() == b.full()


def _last(before: Sequence[Instr], register: Register, names: Tuple[str, ...]) -> Optional[Instr]:
    """The last of some instructions that writes a register, if it has one of these names."""
    for item in reversed(before):
        ops = item.ops
        if ops and isinstance(ops[0], Register) and _same(ops[0], register) and item.info().access[0] & feddurzai.Access.WRITE:
            return item if item.name in names else None
    return None


def _shift(item: Instr) -> Optional[Tuple[Register, int]]:
    """The register from which an instruction makes its result, and what is subtracted, if it makes it by a constant."""
    source = item.ops[1] if len(item.ops) > 1 else None
    if item.name in ("mov", "movzx", "movsxd") and isinstance(source, Register):
        return source, 0
    if item.name in ("sub", "add") and isinstance(source, Immediate) and isinstance(item.ops[0], Register):
        value = source.value - (1 << 64) if source.value >> 63 else source.value
        return item.ops[0], value if item.name == "sub" else -value
    if item.name == "lea" and isinstance(source, Memory) and source.base is not None and source.index is None:
        value = source.displacement
        return source.base, (1 << 64) - value if value >> 63 else -value
    return None


def _bound(before: Sequence[Instr], index: Register) -> Optional[int]:
    """The number of entries of a table, from the comparison of its index, or of what it is made from by subtracting a constant."""
    aliases, shift = [index], 0
    limit: Optional[str] = None
    for item in reversed(before):
        ops = item.ops
        known = bool(ops) and isinstance(ops[0], Register) and any(_same(ops[0], it) for it in aliases)
        if item.name in ABOVE + ABOVE_OR_EQUAL:
            limit = item.name
        elif not known:
            continue
        elif item.name == "cmp":
            if limit is None or not isinstance(ops[1], Immediate):
                return None
            return ops[1].value + (limit in ABOVE) - shift
        elif item.name == "and":
            return ops[1].value + 1 - shift if isinstance(ops[1], Immediate) else None
        elif item.info().access[0] & feddurzai.Access.WRITE:
            made = _shift(item)
            if made is None:
                return None
            # an earlier comparison is of what the constant is subtracted from
            aliases, shift = [made[0]] if made[1] else [*aliases, made[0]], shift + made[1]
    return None


def _plain(memory: Memory, scale: int) -> bool:
    """Whether a memory operand is a table at a fixed address with an index."""
    return memory.base is None and memory.index is not None and memory.scale == scale and memory.displacement > 0


def _entries(program: Program, at: int, count: int, size: int) -> Optional[List[int]]:
    found = program.bytes_at(at, count * size)
    if not 0 < count <= MOST_ENTRIES or len(found) < count * size:
        return None
    if size == 4 and program.bits == 64:
        return [at + entry & (1 << 64) - 1 for (entry,) in struct.iter_unpack("<i", found)]
    words = [program.word_at(at + n * size) for n in range(count)]
    return None if None in words else [word for word in words if word is not None]


def _relative(program: Program, before: Sequence[Instr], jump: Register) -> Optional[Tuple[int, Optional[int]]]:
    """The address and the number of entries of a table of distances, from the instructions before a jump through a register."""
    add = _last(before, jump, ("add",))
    if add is None or not isinstance(add.ops[1], Register):
        return None
    earlier = before[: list(before).index(add)]
    base: Register = add.ops[1]
    load = _last(earlier, jump, ("movsxd",))
    if load is None:
        # the sum may be in the base's register: add base, index
        load, base = _last(earlier, base, ("movsxd",)), jump
    if load is None or not isinstance(load.ops[1], Memory):
        return None
    memory = load.ops[1]
    if memory.index is None or memory.scale != 4 or memory.displacement or not _same(memory.base, base):
        return None
    earlier = before[: list(before).index(load)]
    lea = _last(earlier, base, ("lea",))
    at = None if lea is None else lea.info().ip_address
    return None if at is None else (at, _bound(earlier, memory.index))


def _absolute(program: Program, before: Sequence[Instr], memory: Memory) -> Optional[Tuple[int, Optional[int]]]:
    if not _plain(memory, program.bits // 8) or memory.index is None:
        return None
    return memory.displacement & (1 << program.bits) - 1, _bound(before, memory.index)


def _table_of(program: Program, before: Sequence[Instr], jump: Instr) -> Optional[Table]:
    """The table of an indirect jump, None if it is not resolved."""
    (operand, *_) = jump.ops or (None,)
    size, found = program.bits // 8, None
    if isinstance(operand, Memory):
        found = _absolute(program, before, operand)
    elif isinstance(operand, Register):
        load = _last(before, operand, ("mov",))
        if load is not None and isinstance(load.ops[1], Memory):
            found = _absolute(program, before[: list(before).index(load)], load.ops[1])
        else:
            found, size = _relative(program, before, operand), 4
    if found is None:
        return None
    at, count = found
    if count is None:
        return None
    targets = _entries(program, at, count, size)
    section = program.section_at(jump.address or 0)
    if not targets or section is None or not all(section.contains(target) for target in targets):
        return None
    return Table(jump.address or 0, at, tuple(targets))


class Flow(NamedTuple):
    """What control reaches in a function: the reached offsets with their kinds, the resolved tables, and the unresolved indirect jumps."""

    starts: Sequence[int]
    kinds: bytes
    tables: List[Table]
    unresolved: List[int]


def _window(bits: int, start: int, code: bytes, starts: Sequence[int], upto: int) -> List[Instr]:
    """The reached instructions in front of an offset, at most WINDOW of them."""
    at = [it for it in starts if it < upto][-WINDOW:]
    found = []
    for offset in at:
        try:
            found.append(feddurzai.decode(bits, start, code, offset))
        except feddurzai.Refusal:
            found.clear()
    return found


def follow(program: Program, function: Function, entries: Sequence[int] = (0,), unlisted: bool = False) -> Flow:
    """Follows control through a function, also through its jump tables, and with `unlisted` through instructions without a row."""
    code = program.code_of(function)
    chosen: Set[int] = set(entries)
    tables: Dict[int, Optional[Table]] = {}
    while True:
        reached = reach(program.bits, function.start, code, chosen, unlisted)
        jumps = [it for it, kind in zip(reached.starts, reached.kinds) if kind == feddurzai.Flow.INDIRECT_JUMP and it not in tables]
        if not jumps:
            break
        for offset in jumps:
            before = _window(program.bits, function.start, code, reached.starts, offset)
            table = _table_of(program, before, feddurzai.decode(program.bits, function.start, code, offset))
            tables[offset] = table
            if table:
                inside = (target - function.start for target in table.targets)
                chosen.update(it for it in inside if 0 <= it < len(code))
    return Flow(
        reached.starts,
        reached.kinds,
        [it for it in tables.values() if it],
        sorted(function.start + offset for offset, table in tables.items() if table is None),
    )


