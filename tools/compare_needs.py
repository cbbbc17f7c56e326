#!/usr/bin/env python3
"""Compares what `python3 -m feddurzai needs` reports with objdump's mnemonics and with elfx86exts, file by file.

    tools/compare_needs.py FILE..           with objdump, and with elfx86exts if it is installed (Debian: elfx86exts)
    tools/compare_needs.py --of 50 FOLDER   the same for 50 files below a folder, chosen by size: the largest, and others at equal distances

The library is found as by the Python package: FEDDURZAI_LIBRARY names its file. Required: binutils and pyelftools.

objdump lists whole sections. The features of its mnemonics are those of tools/needs/mnemonics.py. Compared are the features of all code that control
reaches from a known function. A difference is of one of these kinds, which docs/inspector.md explains:

    not reached     the instruction stands where control comes from no known function
    other start     it starts inside an instruction that control reaches
    no row          the instruction has no row in the table; `needs` reports its place as not read
    tzcnt           TZCNT, which `needs` does not count

elfx86exts prints the groups of Capstone with one mnemonic each. Differences from it are of these kinds, or:

    hint            it counts an instruction that runs as a NOP elsewhere
    group           Capstone puts the instruction into another group than the manual does
    it stops        it reads a section up to the first bytes that Capstone does not know; what we report comes after them
    no such group   it has no group for the feature

A difference of no kind is printed, and the status is then 1.
"""
import argparse
import bisect
import collections
import os
import re
import shutil
import subprocess
import sys

sys.dont_write_bytecode = True
HERE = os.path.dirname(os.path.realpath(__file__))
sys.path.insert(0, os.path.join(os.path.dirname(HERE), "capi", "python"))
import feddurzai  # noqa: E402
from needs import mnemonics  # noqa: E402
from feddurzai.inspector import needs  # noqa: E402
from feddurzai.inspector.elf import BadFile, elf_files, open_program  # noqa: E402

LINE = re.compile(r"^ *([0-9a-f]+):\t((?:[0-9a-f]{2} )+) *\t(.*)$")
# the groups that stand for a feature; those of Capstone for FPU and FMA are not printed by elfx86exts
GROUPS = {
    "SSE1": "SSE", "SSE2": "SSE2", "SSE3": "SSE3", "SSSE3": "SSSE3", "SSE41": "SSE41", "SSE42": "SSE42", "AES": "AES", "PCLMUL": "PCLMULQDQ",
    "AVX": "AVX", "AVX2": "AVX2", "AVX512": "AVX512", "BMI": "BMI1", "BMI2": "BMI2", "F16C": "F16C", "FC16": "F16C", "CMOV": "CMOV", "MMX": "MMX",
    "ADX": "ADX", "FSGSBASE": "FSGSBASE", "SMAP": "SMAP",
}  # fmt: skip
# groups that say nothing of a processor, or only of instructions without a row
OTHER_GROUPS = {"MODE64", "MODE32", "NOT64BITMODE", "16BITMODE", "NOVLX", "VM", "VLX", "BWI", "DQI", "CDI", "ERI", "PFI", "SHA", "RTM", "HLE", "SGX", "XOP", "FMA4", "TBM", "SSE4A", "3DNOW"}
VIEWED = ("not reached", "other start", "no row", "tzcnt", "hint", "group", "it stops", "no such group")


class Ours:
    """What `needs` says of a file, and where."""

    def __init__(self, path):
        program = open_program(path)
        self.program, self.bits = program, program.bits
        found = needs.needs_of(program)
        self.features = set(found.all.features)
        if any(it.kind == "EVEX" for it in found.all.unread):
            self.features.add("AVX512")
        self.first = {name: use.address for name, use in found.all.features.items()}
        survey = needs._Survey(program)
        entries = survey.all_entries or None
        self.starts, self.unread, self.inside = set(), set(), set()
        for items in survey.items:
            base, code = items.section.start, items.section.code
            if entries is None:
                starts = items.starts()
            else:
                reached = needs.follow(program, items, entries)
                self.unread.update(base + at for at in needs.unread_places(reached))
                starts = needs.instruction_starts(reached)
            self.starts.update(base + at for at in starts)
        self.ordered = sorted(self.starts)

    def place(self, address):
        """Whether control reaches an address, reaches bytes around it, or neither."""
        if address in self.starts:
            return "reached"
        if address in self.unread:
            return "no row"
        n = bisect.bisect_right(self.ordered, address) - 1
        if n >= 0 and address < self.ordered[n] + 15:
            found = next(iter(self.items_at(self.ordered[n])), None)
            if found and address < self.ordered[n] + found:
                return "other start"
        return "not reached"

    def items_at(self, address):
        try:
            yield feddurzai.decode(self.bits, address, self.program.bytes_at(address, 15)).len
        except feddurzai.Refusal:
            return


def is_evex(bits, code):
    rest = code.lstrip(b"\x26\x2e\x36\x3e\x64\x65\x66\x67\xf0\xf2\xf3")
    return rest[:1] == b"\x62" and (bits == 64 or rest[1:2] >= b"\xc0")


def listed(path, bits):
    """The instructions that objdump lists: address, mnemonic, features."""
    words = ["objdump", "-d", "-w", "-M", "intel", path]
    with subprocess.Popen(words, stdout=subprocess.PIPE, stderr=subprocess.DEVNULL, text=True, errors="replace") as run:
        skips = False
        for line in run.stdout:
            if line.startswith("Disassembly of section "):
                skips = line.split()[-1].startswith(".plt")
                continue
            found = None if skips else LINE.match(line)
            if found is None:
                continue
            text = mnemonics.PREFIX.sub("", found[3].split("#")[0].strip())
            name, _, operands = text.partition(" ")
            code = bytes.fromhex(found[2]) if found[2].startswith(("62", "26", "2e", "36", "3e", "64", "65", "66", "67", "f0", "f2", "f3")) else b""
            shape = re.sub(r"0x[0-9a-f]+|<.*>|\b[er]?[a-ds][ixphl]?\b", "", operands.strip())
            yield int(found[1], 16), name, mnemonics.features_of(name, shape, bool(code) and is_evex(bits, code))


class Theirs:
    """What objdump's mnemonics need in a file: for each feature the first address that control reaches, and the first at all; where each mnemonic stands."""

    def __init__(self, path, ours):
        self.reached, self.anywhere, self.kinds = {}, {}, collections.defaultdict(collections.Counter)
        self.where, self.lines = collections.defaultdict(list), 0
        for address, name, features in listed(path, ours.bits):
            self.lines += 1
            if len(self.where[name]) < 2000:
                self.where[name].append(address)
            for feature in features:
                self.anywhere.setdefault(feature, address)
                if feature not in self.reached:
                    place = ours.place(address)
                    if place == "reached":
                        self.reached[feature] = address
                    else:
                        self.kinds[feature][place] += 1


def groups_of(path):
    """The groups that elfx86exts prints, each with its mnemonic, and None if it refuses the file."""
    done = subprocess.run(["elfx86exts", path], stdout=subprocess.PIPE, stderr=subprocess.DEVNULL, text=True, check=False)
    return dict(re.findall(r"^(\w+) \((\S+)\)$", done.stdout, re.M)) if done.returncode == 0 else None


class Comparison:
    def __init__(self):
        self.files, self.lines = 0, 0
        self.equal, self.counts, self.examples, self.strange = collections.Counter(), collections.Counter(), {}, []
        self.paths = collections.defaultdict(set)

    def note(self, tool, kind, feature, path, detail):
        self.counts[tool, kind, feature] += 1
        self.paths[tool, kind].add(path)
        self.examples.setdefault((tool, kind, feature), f"{path}: {detail}")
        if kind not in VIEWED:
            self.strange.append(f"{tool}: {path}: {feature}: {kind}: {detail}")

    def with_objdump(self, path, ours, theirs):
        before = sum(self.counts.values())
        for feature in sorted(set(theirs.anywhere) | ours.features):
            if feature in ("no row", "tzcnt"):
                if feature in theirs.anywhere:
                    where = theirs.reached.get(feature, theirs.anywhere[feature])
                    self.note("objdump", "tzcnt" if feature == "tzcnt" else "no row", feature, path, f"at {where:#x}")
                continue
            if feature == "AVX512":
                if (feature in ours.features) != (bool(theirs.kinds[feature]["no row"]) or feature in theirs.reached):
                    self.note("objdump", "AVX-512 is reported by one alone", feature, path, f"at {theirs.anywhere.get(feature, 0):#x}")
                continue
            if feature in theirs.reached and feature not in ours.features:
                self.note("objdump", "missing in needs", feature, path, f"objdump has it at {theirs.reached[feature]:#x}")
            elif feature in ours.features and feature not in theirs.reached:
                self.note("objdump", "missing in objdump's mnemonics", feature, path, f"needs has it at {ours.first.get(feature, 0):#x}")
            elif feature in theirs.reached and feature in ours.first and theirs.reached[feature] != ours.first[feature]:
                self.note("objdump", "another first address", feature, path, f"objdump {theirs.reached[feature]:#x}, needs {ours.first[feature]:#x}")
            elif feature not in theirs.reached:
                kinds = theirs.kinds[feature]
                kind = "no row" if set(kinds) == {"no row"} else "other start" if set(kinds) == {"other start"} else "not reached"
                self.note("objdump", kind, feature, path, f"{sum(kinds.values())} places, the first at {theirs.anywhere[feature]:#x}")
        self.equal["objdump"] += sum(self.counts.values()) == before

    def with_elfx86exts(self, path, ours, theirs, groups):
        before = sum(self.counts.values())
        for group, name in groups.items():
            if group in OTHER_GROUPS:
                continue
            feature = GROUPS.get(group)
            if feature is None:
                self.note("elfx86exts", "an unknown group", group, path, name)
            elif feature not in ours.features:
                self.note("elfx86exts", self.why_only_theirs(ours, theirs, feature, name), feature, path, f"{group} ({name})")
        for feature in sorted(ours.features):
            if feature not in GROUPS.values():
                self.note("elfx86exts", "no such group", feature, path, "")
            elif feature not in {GROUPS.get(it) for it in groups}:
                self.note("elfx86exts", self.why_only_ours(path, ours, feature), feature, path, f"needs has it at {ours.first.get(feature, 0):#x}")
        self.equal["elfx86exts"] += sum(self.counts.values()) == before

    @staticmethod
    def why_only_theirs(ours, theirs, feature, name):
        if mnemonics.HINTS.fullmatch(name):
            return "hint"
        if name == "tzcnt":
            return "tzcnt"
        if feature in theirs.anywhere and feature not in theirs.reached:
            return "not reached"
        places = [ours.place(it) for it in theirs.where.get(name, ())]
        if not places or "reached" not in places:
            return "not reached"
        return "group"

    @staticmethod
    def why_only_ours(path, ours, feature):
        """Whether the first bytes that Capstone does not know come before the feature's first address."""
        address = ours.first.get(feature)
        if address is None:
            return "it stops" if feature == "AVX512" else "no address"
        stop = capstone_stop(ours, address)
        if stop is None:
            return "no capstone to look with"
        return "it stops" if stop <= address else "group"


def capstone_stop(ours, address):
    """The address in the section of `address` at which Capstone stops, None without Capstone for Python."""
    try:
        import capstone
    except ImportError:
        return None
    section = ours.program.section_at(address)
    engine = capstone.Cs(capstone.CS_ARCH_X86, capstone.CS_MODE_64 if ours.bits == 64 else capstone.CS_MODE_32)
    at = section.start
    for start, size, _, _ in engine.disasm_lite(section.code, section.start):
        at = start + size
    return at


def chosen(folder, count):
    """Files below a folder: the largest ones, and others at equal distances of size."""
    files = sorted((it for it in elf_files([folder]) if not os.path.islink(it)), key=os.path.getsize, reverse=True)
    large = files[: count // 3]
    rest = files[count // 3 :]
    step = max(1, len(rest) // max(1, count - len(large)))
    return (large + rest[::step])[:count]


def main():
    asked = argparse.ArgumentParser(description=__doc__, formatter_class=argparse.RawDescriptionHelpFormatter)
    asked.add_argument("paths", nargs="+")
    asked.add_argument("--of", type=int, metavar="N", help="compare N files below the folder")
    asked = asked.parse_args()
    files = chosen(asked.paths[0], asked.of) if asked.of else elf_files(asked.paths)
    has_exts = shutil.which("elfx86exts") is not None
    done = Comparison()
    for path in files:
        try:
            ours = Ours(path)
        except BadFile as error:
            print(f"{path}: left out: {error}")
            continue
        theirs = Theirs(path, ours)
        done.files += 1
        done.lines += theirs.lines
        done.with_objdump(path, ours, theirs)
        groups = groups_of(path) if has_exts else None
        if groups is not None:
            done.with_elfx86exts(path, ours, theirs, groups)
    print(f"{done.files} files, {done.lines} instructions by objdump; without a difference: {', '.join(f'{count} from {tool}' for tool, count in sorted(done.equal.items()))}")
    for (tool, kind, feature), count in sorted(done.counts.items()):
        print(f"{tool:10}  {kind:14}  {feature:11} {count:3} files, such as {done.examples[tool, kind, feature]}")
    for (tool, kind), paths in sorted(done.paths.items()):
        print(f"{tool:10}  {kind:14}  {len(paths):3} files in all")
    for line in done.strange:
        print(f"NO KIND: {line}")
    sys.exit(bool(done.strange))


main()
