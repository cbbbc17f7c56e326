"""Which processor a file needs: the CPU features of its code, and the least x86-64 level that has them.

Two sets of code are told apart. `reached` is what control can reach from the entry points: the ELF entry, initializers, exported functions, and
functions whose address is stored or taken. A resolver of an indirect function (IFUNC) is reached, but the variants among which it chooses are not,
unless code branches to them. `all` is what control reaches from every known function, and from what that code calls or takes. Bytes that neither
reaches, such as data among code, are not taken for instructions, nor are addresses of data that code takes. Without any entry, both are the linear
listing.
"""

from __future__ import annotations

import bisect
import sys
from array import array
from typing import Any, Dict, FrozenSet, Iterable, List, NamedTuple, Optional, Sequence, Set, Tuple

import feddurzai

from .. import _native
from . import tables
from .elf import Function, Program, Section
from .frames import landing_pads
from .scan import BAD, Reached, chunks, code_of, features_of, flow_of, immediates, key_of, near_target, reach, references

# System V ABI, AMD64 supplement, table 3.1. LAHF and SAHF have no feature of their own here. XSAVE (OSXSAVE there) is left out: programs use
# XGETBV to detect features, after a CPUID test, so it says nothing about a level.
LEVELS: Tuple[FrozenSet[str], ...] = (
    frozenset("FPU TSC MSR CX8 CMOV CLFSH MMX FXSR SSE SSE2 SYSCALL".split()),
    frozenset("CX16 POPCNT SSE3 SSE41 SSE42 SSSE3".split()),
    frozenset("AVX AVX2 BMI1 BMI2 F16C FMA LZCNT MOVBE".split()),
    frozenset(["AVX512"]),
)
# what a byte begins that has no row
UNREAD = {0x62: "EVEX", 0xC4: "VEX", 0xC5: "VEX", 0x8F: "XOP", 0x0F: "0F"}
# how many bytes before an address, and a sixteenth of those after it, are looked at to see whether it is one of code
NEARBY = 4096
PREFIXES = b"\x26\x2e\x36\x3e\x64\x65\x66\x67\xf0\xf2\xf3"


def level_of(features: Iterable[str]) -> int:
    """The least x86-64 level, 1 to 4, that has those of the features that belong to a level."""
    return max([n for n, level in enumerate(LEVELS, 1) if level & set(features)], default=1)


class Use(NamedTuple):
    """The first instruction that needs a feature."""

    address: int
    function: str


class Unread(NamedTuple):
    """Reached places at which no instruction of the table starts, by what their bytes begin."""

    kind: str
    places: int
    first: int


class Part(NamedTuple):
    """What some code needs: for each feature its first use, and the places that cannot be read."""

    features: Dict[str, Use]
    unread: List[Unread]
    instructions: int

    def level(self) -> int:
        found = set(self.features)
        if any(it.kind == "EVEX" for it in self.unread):
            found.add("AVX512")
        return level_of(found)


class Needs(NamedTuple):
    """What a file needs. `resolvers` are its IFUNC resolvers, `dispatchers` the functions that execute CPUID or XGETBV."""

    bits: int
    reached: Part
    all: Part
    functions: int
    resolvers: List[str]
    dispatchers: List[str]


class _Items:
    """The linear listing of a section: what starts at each offset, the targets of its branches, and the addresses of code that it takes.

    An address is taken by LEA, and in a program with fixed addresses by an immediate that is the start of a function. `kinds` has for each offset the
    number of a kind, 0 if no instruction starts there. A kind stands for a code and the kinds of its operands, on which features and flow depend;
    `structs` has an instruction of each.
    """

    def __init__(self, program: Program, section: Section) -> None:
        self.section = section
        self.kinds = array("H", bytes(2 * len(section.code)))
        self.structs = [b""]
        self.references: List[Tuple[int, int, bool]] = []
        numbers: Dict[Tuple[int, ...], int] = {}
        takes = {number for code in feddurzai.codes_of("lea") for number in [(code & 0xFF, code >> 8)]}
        low, high, others = section.start, section.end, program.code_sections()
        for chunk in chunks(program.bits, section.start, section.code):
            offsets, keys = chunk.offsets(), chunk.keys()
            for key in set(keys).difference(numbers):
                numbers[key] = 0
                if key[1] != BAD:
                    numbers[key] = len(self.structs)
                    self.structs.append(chunk.struct_at(keys.index(key)))
            for at, key in zip(offsets, keys):
                self.kinds[at] = numbers[key]
            found = [(offsets[item], target, is_branch) for item, target, is_branch in references(chunk) if is_branch or keys[item][:2] in takes]
            if program.is_fixed:
                found += [(offsets[item], value, False) for item, value in immediates(chunk) if value in program.functions]
            self.references += [it for it in found if low <= it[1] < high or any(one.contains(it[1]) for one in others)]

    def starts(self) -> Sequence[int]:
        """The offsets of all instructions."""
        return [at for at, kind in enumerate(self.kinds) if kind]

    def places(self, wanted: Set[int]) -> List[int]:
        """The offsets of the instructions of some kinds."""
        data, found = self.kinds.tobytes() if wanted else b"", []
        for kind in wanted:
            pattern = kind.to_bytes(2, sys.byteorder)
            at = data.find(pattern)
            while at >= 0:
                if at % 2 == 0:
                    found.append(at // 2)
                at = data.find(pattern, at + 1)
        return sorted(found)


class _Survey:
    """All code sections of a program, and the functions in them."""

    def __init__(self, program: Program) -> None:
        self.program = program
        self.items = [_Items(program, it) for it in program.code_sections() if not it.name.startswith(".plt")]
        self.starts = sorted(program.functions)
        self._judged: Dict[int, bool] = {}
        # for each section the offsets at which control reaches instructions from known code
        self._live: List[Tuple[Section, bytearray]] = []
        self.cases = self._cases()
        for start, pads in landing_pads(program).items():
            self.cases.setdefault(start, []).extend(it for it in pads if self.in_code(it))
        self.all_entries = self._known()

    def function_at(self, address: int) -> Optional[Function]:
        """The function at or before an address."""
        n = bisect.bisect_right(self.starts, address)
        return self.program.functions[self.starts[n - 1]] if n else None

    def _cases(self) -> Dict[int, List[int]]:
        """For each function with jump tables their targets."""
        found: Dict[int, List[int]] = {}
        for items in self.items:
            jumps = {kind for kind, fields in enumerate(items.structs) if kind and flow_of(fields) == feddurzai.Flow.INDIRECT_JUMP}
            for at in items.places(jumps):
                function = self.program.function_around(items.section.start + at)
                if function is not None and function.start not in found and function.size <= _native.MAX_FLOW:
                    followed = tables.follow(self.program, function)
                    found[function.start] = [target for table in followed.tables for target in table.targets]
        return found

    def in_code(self, address: int) -> bool:
        return any(it.section.contains(address) for it in self.items)

    def _is_inside(self, address: int) -> bool:
        """Whether an address is inside an instruction that control reaches from known code."""
        for section, flags in self._live:
            if section.contains(address):
                at = address - section.start
                if not flags[at]:
                    for back in range(1, min(at, _native.MAX_LEN - 1) + 1):
                        if flags[at - back]:
                            return feddurzai.decode(self.program.bits, section.start, section.code, at - back).len > back
        return False

    def is_entry(self, address: int) -> bool:
        """Whether an address of a code section that the file stores, or that its code takes, is an address of code and not of data.

        It is the start of a known function, or control that starts there comes neither to a byte that begins no instruction of any kind, nor into
        an instruction of known code.
        """
        if address in self.program.functions:
            return True
        if address not in self._judged:
            section = next((it.section for it in self.items if it.section.contains(address)), None)
            if section is None:
                return False
            low = max(section.start, address - NEARBY)
            code = section.code[low - section.start : address - section.start + 16 * NEARBY]
            reached = reach(self.program.bits, low, code, (address - low,))
            jumps = (at for at, kind in zip(reached.starts, reached.kinds) if kind in (feddurzai.Flow.JUMP, feddurzai.Flow.CONDITIONAL))
            targets = (feddurzai.decode(self.program.bits, low, code, at).info().target for at in jumps)
            self._judged[address] = (
                all(kind_of(code[at : at + 15]) in ("EVEX", "VEX", "0F") for at in unread_places(reached))
                and not self._is_inside(address)
                and not any(target is not None and self._is_inside(target) for target in targets)
            )
        return self._judged[address]

    def _known(self) -> Set[int]:
        """The addresses from which all known code is followed: functions, cases of jump tables, landing pads, entry points, and what that code
        calls or takes.

        References of bytes that control does not reach from them are dropped: they are data.
        """
        entries = {it for it in self.program.functions if self.in_code(it)}
        entries.update(target for targets in self.cases.values() for target in targets)
        stored = {it for it in self.program.entries() if self.in_code(it)}
        while entries or stored:
            self._live = []
            for items in self.items:
                flags = bytearray(len(items.section.code))
                for at in instruction_starts(follow(self.program, items, entries)):
                    flags[at] = 1
                self._live.append((items.section, flags))
            new = {it for it in stored if it not in entries and self.is_entry(it)}
            for items, (_, flags) in zip(self.items, self._live):
                for at, target, is_branch in items.references:
                    if flags[at] and target not in entries and not any(it.contains(target) and own[target - it.start] for it, own in self._live):
                        if is_branch or self.is_entry(target):
                            new.add(target)
            stored = set()
            new = {it for it in new if self.in_code(it)}
            if not new:
                for items, (_, flags) in zip(self.items, self._live):
                    items.references = [it for it in items.references if flags[it[0]]]
                break
            entries |= new
        return entries

    def _variants(self) -> Set[int]:
        """The addresses among which the resolvers of indirect functions choose: those that they take.

        A function that takes the address of a variant chooses too, or lists the variants; so the other addresses that it takes count as well.
        """
        taken: Dict[int, Set[int]] = {}
        for items in self.items:
            for offset, target, is_branch in items.references:
                function = None if is_branch else self.function_at(items.section.start + offset)
                if function is not None:
                    taken.setdefault(function.start, set()).add(target)
        chosen = {target for start, targets in taken.items() if self.program.functions[start].ifunc for target in targets}
        return chosen.union(*(targets for targets in taken.values() if targets & chosen))

    def reached_entries(self) -> Set[int]:
        """The entries of the functions that control can reach from the entry points. IFUNC variants are left out, unless code branches to them."""
        variants = self._variants()
        named: Dict[int, List[int]] = {}
        for items in self.items:
            for offset, target, is_branch in items.references:
                if not is_branch and (target in variants or not self.is_entry(target)):
                    continue
                function = self.function_at(items.section.start + offset)
                if function is not None:
                    named.setdefault(function.start, []).append(target)
        for start, targets in self.cases.items():
            named.setdefault(start, []).extend(targets)
        found: Set[int] = set()
        waiting = [it for it in self.program.entries() if self.in_code(it) and it not in variants and self.is_entry(it)]
        done: Set[int] = set()
        while waiting:
            address = waiting.pop()
            if address in found:
                continue
            found.add(address)
            function = self.function_at(address)
            if function is not None and function.start not in done:
                done.add(function.start)
                waiting += named.get(function.start, ())
        return found

    def part(self, entries: Optional[Set[int]]) -> Part:
        """What the code needs that control reaches from some addresses; from None, the linear listing."""
        features: Dict[str, Use] = {}
        unread: Dict[str, Unread] = {}
        count = 0
        for items in self.items:
            section = items.section
            if entries is None:
                starts = items.starts()
            else:
                reached = follow(self.program, items, entries)
                for at in unread_places(reached):
                    kind = kind_of(section.code[at : at + 15])
                    old = unread.get(kind, Unread(kind, 0, section.start + at))
                    unread[kind] = old._replace(places=old.places + 1)
                starts = instruction_starts(reached)
            count += len(starts)
            for feature, at in _features(self.program, items, starts).items():
                address = section.start + at
                if feature not in features or address < features[feature].address:
                    features[feature] = Use(address, self._name(address))
        return Part(features, sorted(unread.values()), count)

    def _name(self, address: int) -> str:
        function = self.program.function_around(address)
        return function.name if function else ""

    def containing(self, names: Tuple[str, ...]) -> List[str]:
        """The functions that contain an instruction with one of these names."""
        codes = {code for name in names for code in feddurzai.codes_of(name)}
        found: Dict[str, None] = {}
        for items in self.items:
            wanted = {kind for kind, fields in enumerate(items.structs) if kind and code_of(fields) in codes}
            for at in items.places(wanted):
                found[self._name(items.section.start + at) or f"{items.section.start + at:#x}"] = None
        return list(found)


def _leaving(program: Program, items: _Items, low: int, step: int, reached: Reached) -> Set[int]:
    """The offsets outside a window, which begins at `low`, to which control goes from what it reaches in it."""
    section = items.section
    found = {low + at for at in reached.starts if at >= step}
    sources = {low + at for at, kind in zip(reached.starts, reached.kinds) if kind in (feddurzai.Flow.JUMP, feddurzai.Flow.CONDITIONAL) and at < step}
    targets = {target - section.start for at, target, is_branch in items.references if is_branch and at in sources}
    # branches that the linear listing reads otherwise
    for at in sources:
        if not items.kinds[at]:
            targets.add((near_target(feddurzai.decode(program.bits, section.start, section.code, at)._struct) or 0) - section.start)
    found.update(it for it in targets if 0 <= it < len(section.code) and not low <= it < low + step)
    return found


def follow(program: Program, items: _Items, entries: Set[int], most: int = _native.MAX_FLOW) -> Reached:
    """The offsets of a section that control reaches from some addresses.

    One call of the library follows `most` bytes. Larger sections are followed in windows, until no window has a new entry.
    """
    bits, start, code = program.bits, items.section.start, items.section.code
    offsets = {it - start for it in entries if items.section.contains(it)}
    if len(code) <= most:
        return reach(bits, start, code, offsets)
    # an instruction that starts in a step ends in its window
    step = most - _native.MAX_LEN
    waiting: Dict[int, Set[int]] = {}
    for offset in offsets:
        waiting.setdefault(offset // step, set()).add(offset)
    known: Dict[int, Set[int]] = {}
    found: Dict[int, Reached] = {}
    while waiting:
        n, new = waiting.popitem()
        known.setdefault(n, set()).update(new)
        low = n * step
        found[n] = reach(bits, start + low, code[low : low + most], [it - low for it in known[n]])
        for target in _leaving(program, items, low, step, found[n]):
            if target not in known.get(target // step, ()):
                waiting.setdefault(target // step, set()).add(target)
    starts, kinds = array("I"), bytearray()
    for n, reached in sorted(found.items()):
        own = bisect.bisect_left(reached.starts, step)
        starts.extend(n * step + at for at in reached.starts[:own])
        kinds += reached.kinds[:own]
    return Reached(starts, bytes(kinds))


def instruction_starts(reached: Reached) -> List[int]:
    """The reached offsets at which an instruction starts."""
    return [at for at, kind in zip(reached.starts, reached.kinds) if kind < 0xFE]


def unread_places(reached: Reached) -> List[int]:
    """The reached offsets at which no instruction of the table starts."""
    return [at for at, kind in zip(reached.starts, reached.kinds) if kind == 0xFF] if 0xFF in reached.kinds else []


def kind_of(code: bytes) -> str:
    """What bytes begin that have no row: by the first byte that is no prefix."""
    rest = code.lstrip(PREFIXES)
    return UNREAD.get(rest[0], "other") if rest else "other"


def _features(program: Program, items: _Items, starts: Sequence[int]) -> Dict[str, int]:
    """For each feature of the instructions at some offsets, in ascending order, the first offset."""
    # of the offsets of a kind the first one stays
    backwards = starts[::-1]
    first = dict(zip(map(items.kinds.__getitem__, backwards), backwards))
    apart = [at for at in starts if not items.kinds[at]] if first.pop(0, None) is not None else []
    found: Dict[str, int] = {}
    for kind, at in first.items():
        fields = items.structs[kind]
        for feature in features_of(program.bits, key_of(fields), fields):
            found[feature] = min(at, found.get(feature, at))
    # instructions that the linear listing reads otherwise
    for at in apart:
        fields = feddurzai.decode(program.bits, items.section.start, items.section.code, at)._struct
        for feature in features_of(program.bits, key_of(fields), fields):
            found[feature] = min(at, found.get(feature, at))
    return found


def needs_of(program: Program) -> Needs:
    """What a file needs."""
    survey = _Survey(program)
    functions = {it for it in program.functions if survey.in_code(it)}
    if survey.all_entries:
        everything = survey.part(survey.all_entries)
        reached = everything if program.is_object else survey.part(survey.reached_entries())
    else:
        reached = everything = survey.part(None)
    resolvers = [it.name for it in program.functions.values() if it.ifunc]
    return Needs(program.bits, reached, everything, len(functions), resolvers, survey.containing(("cpuid", "xgetbv")))


def as_json(path: str, found: Needs) -> Dict[str, Any]:
    """The needs of a file as plain data; addresses are numbers."""

    def part(it: Part) -> Dict[str, Any]:
        return {
            "level": it.level() if found.bits == 64 else None,
            "instructions": it.instructions,
            "features": {name: {"address": use.address, "function": use.function} for name, use in sorted(it.features.items())},
            "unread": [{"kind": one.kind, "places": one.places, "first": one.first} for one in it.unread],
        }

    return {
        "file": path,
        "bits": found.bits,
        "functions": found.functions,
        "reached": part(found.reached),
        "all": part(found.all),
        "resolvers": found.resolvers,
        "dispatchers": found.dispatchers,
    }


def _words(part: Part, bits: int) -> List[str]:
    width = bits // 4
    lines = []
    for name, use in sorted(part.features.items(), key=lambda it: (level_of([it[0]]), it[0])):
        level = f"v{level_of([name])}" if any(name in it for it in LEVELS) and bits == 64 else "-"
        lines.append(f"    {level:3} {name:11} {use.address:0{width}x}  {use.function}")
    for it in part.unread:
        what = "EVEX (AVX-512, v4)" if it.kind == "EVEX" else f"{it.kind} without a row"
        lines.append(f"    not read: {it.places} places, {what}, first at {it.first:0{width}x}")
    return lines


def lines(path: str, found: Needs) -> List[str]:
    """The needs of a file in words."""
    written = [f"{path}: {found.bits}-bit, {found.functions} functions known"]
    for title, part in (("reached from the entry points", found.reached), ("in all known functions", found.all)):
        level = f"x86-64-v{part.level()}" if found.bits == 64 else "no level (32-bit)"
        written.append(f"  {title}: {level}, {part.instructions} instructions")
        written += _words(part, found.bits)
        if part is found.all and found.all is found.reached:
            break
    if found.resolvers:
        written.append(f"  chosen at run time: the variants of {len(found.resolvers)} indirect functions (IFUNC) are not in the first set unless code branches to them")
    if found.dispatchers:
        names = ", ".join(found.dispatchers[:5]) + (", .." if len(found.dispatchers) > 5 else "")
        written.append(f"  not known: what code that CPUID guards is executed; CPUID or XGETBV is in {names}")
    written.append("  not known: where indirect jumps and calls go, and code that is made at run time")
    return written
