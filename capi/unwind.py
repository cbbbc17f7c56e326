#!/usr/bin/env python3
"""Gives the code of an object file unwind information: an .eh_frame, by which debuggers, profilers and backtrace() find the callers.

    unwind.py OBJECT OUT

OBJECT is a relocatable ELF file for x86-64. OUT is the same file with an .eh_frame; no byte of the code changes. If OBJECT has an .eh_frame, OUT
equals OBJECT. If it has a .debug_frame, as from the kit's compiler `rattle`, its entries are used. The entries of all other functions (with the
compiler `llvm`, of all functions) are computed from the code: the script follows each function from its entry, and tracks the distance of the stack
pointer from the caller's frame and the places of the callee-saved registers. It decodes with the library itself, which FEDDURZAI_LIBRARY in the
environment names.

A function that it cannot follow gets no entry and is named on standard error: a backtrace ends there. The last line counts the functions. The
status is 0 if OUT was written, and 1 otherwise.
"""

import bisect
import os
import struct
import sys

sys.path.insert(0, os.path.join(os.path.dirname(os.path.abspath(__file__)), "python"))

# ---- the object file

SHT_PROGBITS, SHT_SYMTAB, SHT_RELA, SHT_NOBITS = 1, 2, 4, 8
SHF_ALLOC, SHF_EXECINSTR, SHF_INFO_LINK = 2, 4, 0x40
STT_FUNC, STT_SECTION = 2, 3
SHT_GROUP, SHT_ADDRSIG = 17, 0x6FFF4C03
R_PC32, R_PLT32 = 2, 4
_HEADER = struct.Struct("<16sHHIQQQIHHHHHH")
_SECTION = struct.Struct("<IIQQQQIIQQ")
_SYMBOL = struct.Struct("<IBBHQQ")
_RELA = struct.Struct("<QQq")


class Wrong(Exception):
    """Why an object file is not taken."""


class Section:
    """A section: the fields of its header, and its bytes."""

    def __init__(self, fields, whole):
        self.name_at, self.type, self.flags, self.address, at, self.size, self.link, self.info, self.align, self.entry = fields
        self.data = b"" if self.type == SHT_NOBITS else whole[at : at + self.size]
        self.name = ""


class Object:
    """A relocatable ELF file."""

    def __init__(self, whole):
        if whole[:6] != b"\x7fELF\x02\x01" or len(whole) < _HEADER.size:
            raise Wrong("it is no ELF file of 64 bits")
        self.header = _HEADER.unpack_from(whole)
        kind, machine, sections_at, count, self.names = (self.header[n] for n in (1, 2, 6, 12, 13))
        if kind != 1 or machine != 62:
            raise Wrong("it is no relocatable file for x86-64")
        if not 0 < count < 0xFF00:
            raise Wrong(f"it has {count} sections by its header")
        self.sections = [Section(_SECTION.unpack_from(whole, sections_at + n * _SECTION.size), whole) for n in range(count)]
        for it in self.sections:
            it.name = self.text(self.names, it.name_at)
        tables = [n for n, it in enumerate(self.sections) if it.type == SHT_SYMTAB]
        if len(tables) != 1:
            raise Wrong(f"it has {len(tables)} symbol tables")
        self.table = tables[0]
        self.symbols = [_SYMBOL.unpack(it) for it in self.entries(self.table, _SYMBOL.size)]
        self.filled = {}
        for n, it in enumerate(self.sections):
            if it.type == SHT_RELA:
                for place, info, addend in map(_RELA.unpack, self.entries(n, _RELA.size)):
                    self.filled.setdefault(it.info, []).append((place, info & 0xFFFFFFFF, info >> 32, addend))

    def text(self, section, at):
        """A name in a section of names."""
        data = self.sections[section].data
        return data[at : data.index(b"\0", at)].decode("utf-8", "replace")

    def entries(self, section, size):
        """The entries of a section, of so many bytes each."""
        data = self.sections[section].data
        return (data[at : at + size] for at in range(0, len(data), size))

    def named(self, name):
        """The first section of a name that has bytes, None without one."""
        return next((n for n, it in enumerate(self.sections) if it.name == name and it.data), None)

    def relocations(self, section):
        """What the link puts into a section, by place: place, type, symbol, addend."""
        return sorted(self.filled.get(section, []))

    def symbol_name(self, number):
        """The name of a symbol."""
        return self.text(self.sections[self.table].link, self.symbols[number][0])

    def functions(self):
        """The functions that are defined: symbol, section, first byte, length. Of several names for the same bytes the first."""
        found = {}
        for number, (_, info, _, section, value, size) in enumerate(self.symbols):
            if info & 15 == STT_FUNC and 0 < section < len(self.sections) and size:
                found.setdefault((section, value), (number, section, value, size))
        return sorted(found.values(), key=lambda it: it[1:])

    def section_symbols(self, wanted):
        """The symbol of each wanted section itself, made where there is none: a link keeps it within the file."""
        table = self.sections[self.table]
        found = {it[3]: n for n, it in enumerate(self.symbols) if it[1] == STT_SECTION and it[4] == 0}
        missing = sorted(set(wanted) - set(found))
        if missing:
            # local symbols stand before the others, whose numbers rise
            first, by = table.info, len(missing)
            found.update((section, first + n) for n, section in enumerate(missing))
            self.symbols[first:first] = [(0, STT_SECTION, 0, section, 0, 0) for section in missing]
            table.data = b"".join(_SYMBOL.pack(*it) for it in self.symbols)
            table.info += by
            for it in self.sections:
                if it.type == SHT_RELA:
                    entries = (_RELA.unpack_from(it.data, at) for at in range(0, len(it.data), _RELA.size))
                    it.data = b"".join(_RELA.pack(at, info + (by << 32 if info >> 32 >= first else 0), add) for at, info, add in entries)
                elif it.type == SHT_GROUP and it.info >= first:
                    it.info += by
                elif it.type == SHT_ADDRSIG:
                    it.link = 0  # it has numbers of symbols; without a table linkers do not read it
        return found

    def append(self, name, data, **fields):
        """One more section; its number."""
        names = self.sections[self.names]
        at = len(names.data)
        names.data += name.encode() + b"\0"
        new = Section((at, 0, 0, 0, 0, 0, 0, 0, 8, 0), b"")
        new.data, new.name = data, name
        for field, value in fields.items():
            setattr(new, field, value)
        self.sections.append(new)
        return len(self.sections) - 1

    def whole(self):
        """The bytes of the file."""
        out = bytearray(_HEADER.size)
        headers = bytearray()
        for it in self.sections:
            out += bytes(-len(out) % max(it.align, 1))
            size = it.size if it.type == SHT_NOBITS else len(it.data)
            at = len(out) if it.type else 0
            headers += _SECTION.pack(
                it.name_at, it.type, it.flags, it.address, at, size, it.link, it.info, it.align, it.entry
            )
            out += it.data
        out += bytes(-len(out) % 8)
        header = list(self.header)
        header[6], header[12] = len(out), len(self.sections)
        out[: _HEADER.size] = _HEADER.pack(*header)
        return bytes(out + headers)


# ---- where the caller's frame is, from the code

RSP, RBP = 4, 5
KEPT = (3, 5, 12, 13, 14, 15)  # rbx, rbp, r12 to r15: what a call keeps
# the numbers that DWARF gives the registers
DWARF = (0, 2, 1, 3, 7, 6, 4, 5, 8, 9, 10, 11, 12, 13, 14, 15)


class Lost(Exception):
    """Why a function is not followed."""


class State:
    """What is known before an instruction.

    `below[r]` says how many bytes register r stands below the caller's frame (the address above the return address), None where that
    is not known. `saved` has for each register that a call keeps, and that was stored, its place, as bytes below the frame, and whether
    the register was changed since.
    `tables[r]` is the table of jump targets whose address register r has, or an address that was read from it.
    """

    def __init__(self, below, saved, tables):
        self.below, self.saved, self.tables = tuple(below), tuple(sorted(saved)), tuple(tables)

    @classmethod
    def at_entry(cls):
        return cls((8 if r == RSP else None for r in range(16)), (), 16 * [None])

    def key(self):
        return self.below, self.saved, self.tables

    def joined(self, other):
        """What is known where control comes from both."""
        ways, saved = (dict(self.saved), dict(other.saved)), {}
        for r in set(ways[0]) | set(ways[1]):
            places = [way.get(r) for way in ways]
            if None not in places and places[0][0] == places[1][0]:
                saved[r] = (places[0][0], places[0][1] or places[1][1])
            elif any(it is not None and it[1] for it in places):
                raise Lost("a register is changed, and saved at another place or not at all on another way")
        below, tables = ([a if a == b else None for a, b in zip(*both)] for both in ((self.below, other.below), (self.tables, other.tables)))
        return State(below, saved.items(), tables)

    def frame(self):
        """A register and how many bytes the frame is above it."""
        for r in (RSP, RBP, *(r for r in range(16) if r not in (RSP, RBP))):
            if self.below[r] is not None:
                return r, self.below[r]
        raise Lost("no register says any more where the frame is")


class Code:
    """What there is to know of each instruction, once for all that have the same bytes."""

    def __init__(self):
        import feddurzai

        self.lib = feddurzai
        self.writes = {}

    def read(self, code):
        """The instructions of some bytes by their offset; None stands for bytes that are none."""
        return {it.address: it if isinstance(it, self.lib.Instr) else None for it in self.lib.iterate(64, 0, code)}

    def written(self, instr):
        """The numbers of the general registers that an instruction may write."""
        found = self.writes.get(instr.bytes)
        if found is None:
            lib, found = self.lib, set()
            for use in instr.effects().registers:
                full = use.register.full()
                if full.reg_class is lib.RegClass.R64 and use.access & (lib.Touch.WRITE | lib.Touch.MAY_WRITE):
                    found.add(full.number)
            self.writes[instr.bytes] = found
        return found

    def general(self, op):
        """The number of a general register of 64 bits, None of any other operand."""
        is_it = isinstance(op, self.lib.Register) and op.reg_class is self.lib.RegClass.R64
        return op.number if is_it else None

    def place(self, state, op):
        """How many bytes below the frame a memory operand stands, None where that is not known."""
        if not isinstance(op, self.lib.Memory) or op.base is None or op.index is not None:
            return None
        base = self.general(op.base)
        if base is None or state.below[base] is None:
            return None
        return state.below[base] - op.displacement


class Function:
    """A function, followed from its entry."""

    def __init__(self, code, obj, section, start, size):
        self.code, self.obj, self.section, self.start, self.size = code, obj, section, start, size
        self.instrs = code.read(obj.sections[section].data[start : start + size])
        self.before = {at + it.len: it for at, it in self.instrs.items() if it}
        # the fields that the link fills, and with what: a section and an offset there
        self.fields = [(it[0] - start, it) for it in obj.relocations(section) if start <= it[0] < start + size]
        # where tables begin, so that each ends before the next
        self.tables = {self.table_at(at, it) for at, it in self.instrs.items() if it and it.name == "lea"}
        self.states = {}
        # what is known at the jumps whose table is not found
        self.unknown = {}

    def filled(self, at, instr):
        """What the link puts into an instruction, None where it puts nothing there."""
        n = bisect.bisect_left(self.fields, (at,))
        return self.fields[n][1] if n < len(self.fields) and self.fields[n][0] < at + instr.len else None

    def table_at(self, at, instr):
        """The section and the offset of data whose address an instruction takes relative to RIP, None of others."""
        filled = self.filled(at, instr)
        if filled is None or filled[1] not in (R_PC32, R_PLT32):
            return None
        place, _, symbol, addend = filled
        _, _, _, section, value, _ = self.obj.symbols[symbol]
        # the addend counts from the field, and the address from the end of the instruction
        return (section, value + addend + self.start + at + instr.len - place) if 0 < section < len(self.obj.sections) else None

    def targets(self, table):
        """What a table of jump targets has: each entry is the distance of a target from the table."""
        section, first = table
        filled = {place: (kind, symbol, addend) for place, kind, symbol, addend in self.obj.relocations(section)}
        found, place = set(), first
        while place in filled and (place == first or (section, place) not in self.tables):
            kind, symbol, addend = filled[place]
            _, _, _, to, value, _ = self.obj.symbols[symbol]
            target = value + addend - (place - first) - self.start
            if kind != R_PC32 or to != self.section or not 0 <= target < self.size:
                break
            found.add(target)
            place += 4
        return sorted(found)

    def follow(self):
        """Finds what is known before each instruction that is reached."""
        self.go(0, State.at_entry())
        while True:
            # what no jump is known to reach is reached by one whose table is not found
            left = [at for at, it in self.instrs.items() if at not in self.states and not (it and self.is_filling(it))]
            if not left or not self.unknown:
                return self.states
            if len(self.unknown) > 1:
                raise Lost("jumps through tables that are not found have several frames")
            self.go(left[0], *self.unknown.values())

    def is_filling(self, instr):
        """Whether it stands between the parts of a function, and is not run."""
        return instr.name in ("nop", "int3", "ud2") or instr.bytes == b"\xcc"

    def go(self, at, state):
        work = [(at, state)]
        while work:
            at, state = work.pop()
            if not self.instrs.get(at):
                raise Lost(f"no instruction is read at {at:#x}")
            old = self.states.get(at)
            if old is not None:
                state = old.joined(state)
                if state.key() == old.key():
                    continue
            self.states[at] = state
            work += self.behind(at, self.instrs[at], state)

    def leaves(self, at, state):
        """That the function may be left here."""
        if state.below[RSP] != 8 or any(changed for _, (_, changed) in state.saved):
            raise Lost(f"it is left at {at:#x} with its frame")

    def behind(self, at, instr, state):
        """Where control goes behind an instruction, and what is known there."""
        flow, info = self.code.lib.Flow, instr.info()
        if info.flow is flow.RETURN:
            self.leaves(at, state)
            return []
        after = self.after(at, instr, state)
        if info.flow in (flow.NEXT, flow.CALL, flow.INDIRECT_CALL, flow.INTERRUPT):
            return self.goes_on(at, instr, after)
        if info.flow is flow.EXCEPTION:
            return []
        if info.flow is flow.INDIRECT_JUMP:
            register = self.code.general(instr.ops[0])
            table = None if register is None else state.tables[register]
            targets = self.targets(table) if table else []
            if not targets:
                plain = State(after.below, after.saved, 16 * [None])
                self.unknown[plain.key()] = plain
            return [(to, after) for to in targets]
        on = self.goes_on(at, instr, self.equal(at, instr, after)) if info.flow is flow.CONDITIONAL else []
        if self.filled(at, instr) or info.target is None or not 0 <= info.target < self.size:
            self.leaves(at, after)
            return on
        return on + [(info.target, after)]

    def goes_on(self, at, instr, state):
        """Behind a call that does not come back, a function may end."""
        to = at + instr.len
        return [(to, state)] if to < self.size else []

    def equal(self, at, instr, state):
        """Behind `cmp rsp, REG` and `jne`, both are the same."""
        last = self.before.get(at)
        if instr.name != "jne" or last is None or last.name != "cmp":
            return state
        pair = [self.code.general(op) for op in last.ops]
        if RSP not in pair or None in pair:
            return state
        known = next((state.below[r] for r in pair if state.below[r] is not None), None)
        return State((known if r == RSP else it for r, it in enumerate(state.below)), state.saved, state.tables)

    def after(self, at, instr, state):
        """What is known behind an instruction that does not jump."""
        code, lib = self.code, self.code.lib
        below, saved, tables = list(state.below), dict(state.saved), list(state.tables)
        name, ops = instr.name, instr.ops
        first = code.general(ops[0]) if ops else None
        if name == "call":
            # what a call does not keep
            for r in (0, 1, 2, 6, 7, 8, 9, 10, 11):
                below[r] = tables[r] = None
            return State(below, state.saved, tables)
        value = table = None
        if name == "push":
            if below[RSP] is not None:
                below[RSP] += 8
                self.stored(at, saved, below[RSP], 8, first)
            return self.moved(at, below, saved, tables)
        if name == "pop" and first is not None:
            self.loaded(at, saved, first, below[RSP])
            below[first] = tables[first] = None
            if first != RSP and below[RSP] is not None:
                below[RSP] -= 8
            return self.moved(at, below, saved, tables)
        if name == "leave":
            self.loaded(at, saved, RBP, below[RBP])
            below[RSP] = None if below[RBP] is None else below[RBP] - 8
            below[RBP] = tables[RBP] = None
            return self.moved(at, below, saved, tables)
        written = code.written(instr)
        if name in ("sub", "add") and first is not None and isinstance(ops[1], lib.Immediate) and below[first] is not None:
            by = ops[1].value - (1 << 64 if ops[1].value >> 63 else 0)
            value = below[first] + (by if name == "sub" else -by)
        elif name == "add" and first is not None and code.general(ops[1]) is not None:
            table = tables[first] or tables[code.general(ops[1])]
        elif name == "lea" and first is not None:
            value = code.place(state, ops[1])
            table = self.table_at(at, instr) if ops[1].base and ops[1].base.reg_class is lib.RegClass.RIP else None
        elif name == "mov" and first is not None and code.general(ops[1]) is not None:
            value, table = below[code.general(ops[1])], tables[code.general(ops[1])]
        elif name == "mov" and first is not None and code.place(state, ops[1]) is not None:
            self.loaded(at, saved, first, code.place(state, ops[1]))
            below[first] = tables[first] = None
            return self.moved(at, below, saved, tables)
        for r in written:
            self.changed(at, saved, r)
            below[r] = tables[r] = None
        if first in written:
            below[first], tables[first] = value, table
        # what is stored, and where
        for op in ops[:1]:
            place = code.place(state, op)
            if place is not None and instr.info().access[0] & lib.Access.WRITE:
                value = code.general(ops[1]) if name == "mov" and len(ops) > 1 else None
                self.stored(at, saved, place, instr.info().memory_size, value)
        return self.moved(at, below, saved, tables)

    def stored(self, at, saved, place, size, register):
        """That a register, or None, is stored to a place below the frame."""
        for r, (slot, _) in list(saved.items()):
            if place > slot - 8 and slot > place - size:
                self.given_up(at, saved, r)
        if register in KEPT and register not in saved and size == 8 and place > 8:
            saved[register] = (place, False)

    def loaded(self, at, saved, register, place):
        """That a register is loaded from a place below the frame, None where that is not known."""
        if place is not None and register in saved and saved[register][0] == place:
            saved[register] = (place, False)
        else:
            self.changed(at, saved, register)

    def changed(self, at, saved, register):
        """That a register is written."""
        if register in saved:
            saved[register] = (saved[register][0], True)
        elif register in KEPT:
            raise Lost(f"at {at:#x} a register is written that a call keeps, and it was not saved")

    def given_up(self, at, saved, register):
        """That the place of a register is one no more."""
        if saved.pop(register)[1]:
            raise Lost(f"at {at:#x} the place is given up where a register is saved")

    def moved(self, at, below, saved, tables):
        """The state behind an instruction; what is saved is not below the stack pointer."""
        for r, (slot, _) in list(saved.items()):
            if below[RSP] is not None and slot > below[RSP]:
                self.given_up(at, saved, r)
        return State(below, saved.items(), tables)


# ---- the entries


def uleb(number):
    out = bytearray()
    while True:
        number, low = number >> 7, number & 127
        out.append(low | (128 if number else 0))
        if not number:
            return bytes(out)


def advance(by):
    if by < 64:
        return bytes([0x40 | by])
    return struct.pack("<BB", 2, by) if by < 256 else struct.pack("<BH", 3, by) if by < 65536 else struct.pack("<BI", 4, by)


def rules_of(states):
    """The rules of a function, from what is known before each instruction."""
    out = bytearray()
    last, frame, saved = 0, (RSP, 8), {}
    for at in sorted(states):
        now, kept = states[at].frame(), {r: slot for r, (slot, _) in states[at].saved}
        if (now, kept) == (frame, saved):
            continue
        if at > last:
            out += advance(at - last)
            last = at
        if now != frame:
            if now[0] == frame[0]:
                out += b"\x0e" + uleb(now[1])  # DW_CFA_def_cfa_offset
            else:
                out += b"\x0c" + uleb(DWARF[now[0]]) + uleb(now[1])  # DW_CFA_def_cfa
        for r in sorted(set(saved) - set(kept)):
            out.append(0xC0 | DWARF[r])  # DW_CFA_restore
        for r, slot in sorted(kept.items()):
            if saved.get(r) != slot:
                if slot % 8:
                    raise Lost("a register is saved at no multiple of 8")
                out += bytes([0x80 | DWARF[r]]) + uleb(slot // 8)  # DW_CFA_offset
        frame, saved = now, kept
    return bytes(out)


class Frames:
    """The bytes of an .eh_frame, and what the link puts into them."""

    # DW_CFA_def_cfa rsp+8, and the return address stands 8 below the frame
    AT_ENTRY = b"\x0c\x07\x08\x90\x01"

    def __init__(self):
        self.data = bytearray()
        self.places = []
        self.count = 0
        self.entry(struct.pack("<IB", 0, 1) + b"zR\0" + b"\x01\x78\x10\x01\x1b" + self.AT_ENTRY)

    def entry(self, body):
        body += bytes(-len(body) % 8 + 4 if len(body) % 8 <= 4 else 12 - len(body) % 8)
        self.data += struct.pack("<I", len(body)) + body

    def function(self, section, start, size, rules):
        """The entry of a function."""
        at = len(self.data) + 8
        self.places.append((at, section, start))
        self.entry(struct.pack("<IiIB", at - 4, 0, size, 0) + rules)
        self.count += 1

    def relocations(self, obj):
        """What the link puts in: the distance of each function from its entry."""
        symbols = obj.section_symbols({section for _, section, _ in self.places})
        return b"".join(_RELA.pack(at, symbols[section] << 32 | R_PC32, start) for at, section, start in self.places)


def take_debug_frame(frames, obj, section):
    """Takes the entries of a .debug_frame."""
    data = obj.sections[section].data
    at, symbols = 0, {place: (symbol, addend) for place, _, symbol, addend in obj.relocations(section)}
    while at < len(data):
        (length,) = struct.unpack_from("<I", data, at)
        if length >= 0xFFFFFFF0 or at + 4 + length > len(data):
            raise Wrong("its .debug_frame is of another format")
        body = data[at + 4 : at + 4 + length]
        if body[:4] == b"\xff\xff\xff\xff":
            # version 1, no augmentation, factors 1 and -8, return address in column 16, the usual rules at entry
            if body[4:9] != b"\x01\0\x01\x78\x10" or body[9:].rstrip(b"\0") != Frames.AT_ENTRY:
                raise Wrong("its .debug_frame has another header than is known")
        else:
            size = struct.unpack_from("<Q", body, 12)[0]
            symbol, addend = symbols[at + 8]
            _, _, _, function, value, _ = obj.symbols[symbol]
            frames.function(function, value + addend, size, body[20:].rstrip(b"\0"))
        at += 4 + length


def take_code(frames, obj, complain):
    """Finds the entries from the code; how many functions there are."""
    code = Code()
    taken = {it[1:] for it in frames.places}
    functions = [it for it in obj.functions() if obj.sections[it[1]].flags & SHF_EXECINSTR and it[1:3] not in taken]
    for symbol, section, start, size in functions:
        try:
            states = Function(code, obj, section, start, size).follow()
            frames.function(section, start, size, rules_of(states))
        except Lost as why:
            complain(f"{obj.symbol_name(symbol)}: {why}")
    return len(functions)


def main(file, out):
    def complain(words):
        print(f"unwind.py: {file}: {words}", file=sys.stderr)

    try:
        with open(file, "rb") as source:
            obj = Object(source.read())
        if obj.named(".eh_frame") is not None:
            said = "it has unwind information"
        else:
            frames, section = Frames(), obj.named(".debug_frame")
            if section is not None:
                take_debug_frame(frames, obj, section)
            told = frames.count
            count = take_code(frames, obj, complain)
            said = f"{told} functions by its .debug_frame, {frames.count - told} of {count} by their code"
            relocations = frames.relocations(obj)
            new = obj.append(".eh_frame", bytes(frames.data), type=SHT_PROGBITS, flags=SHF_ALLOC)
            rela = {"type": SHT_RELA, "flags": SHF_INFO_LINK, "link": obj.table, "info": new, "entry": _RELA.size}
            obj.append(".rela.eh_frame", relocations, **rela)
        with open(out, "wb") as to:
            to.write(obj.whole())
    except (OSError, Wrong, struct.error, ImportError) as why:
        complain(why)
        return 1
    print(f"{os.path.basename(file)}: {said}")
    return 0


if __name__ == "__main__":
    if sys.argv[1:] == ["--help"]:
        print(__doc__.strip())
        sys.exit(0)
    if len(sys.argv) != 3:
        sys.exit(__doc__.strip())
    sys.exit(main(*sys.argv[1:]))
