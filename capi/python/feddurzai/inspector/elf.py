"""The code of an ELF file: its mode, sections, symbols and entry points."""

from __future__ import annotations

import bisect
import os
import re
import struct
from typing import Any, BinaryIO, Dict, Iterable, List, NamedTuple, Optional, Set, Tuple

import feddurzai

# pyelftools has no type hints; without it every file is refused with a line that says what to install
try:
    from elftools.common.exceptions import ELFError  # type: ignore
    from elftools.elf.constants import SH_FLAGS  # type: ignore
    from elftools.elf.elffile import ELFFile  # type: ignore
    from elftools.elf.relocation import RelocationSection  # type: ignore
    from elftools.elf.sections import SymbolTableSection  # type: ignore
except ImportError:
    ELFFile = None

MISSING = "pyelftools is not installed: pip install 'feddurzai[elf]', or Debian's python3-pyelftools"
MACHINES = {"EM_X86_64": 64, "EM_386": 32}
FUNCTIONS = ("STT_FUNC", "STT_LOOS", "STT_GNU_IFUNC")
# relocations that store an address of the file itself: R_X86_64_RELATIVE and R_386_RELATIVE, R_X86_64_64
RELATIVE, ABSOLUTE_64 = 8, 1
# relocations that store what a resolver returns: R_X86_64_IRELATIVE, R_386_IRELATIVE
RESOLVED = {64: 37, 32: 42}


class BadFile(Exception):
    """A file that cannot be inspected; the text says why."""


class Section(NamedTuple):
    """A loaded section: its addresses, its bytes (fewer than its addresses if it has none in the file), and whether it has code."""

    name: str
    start: int
    end: int
    code: bytes
    runs: bool

    def contains(self, address: int) -> bool:
        return self.start <= address < self.end


class Function(NamedTuple):
    """A function: its address, its size in bytes, all its names, and whether it is the resolver of an indirect function."""

    start: int
    size: int
    names: Tuple[str, ...]
    ifunc: bool = False

    @property
    def name(self) -> str:
        return self.names[0]


class Program:
    """The code of an ELF file.

    The sections of an object file have no addresses; they get addresses one after another, in the order of the file, from 0 on.
    """

    def __init__(self, file: BinaryIO) -> None:
        elf = ELFFile(file)
        machine = elf["e_machine"]
        if machine not in MACHINES:
            raise BadFile(f"an ELF file for {str(machine).replace('EM_', '')}, not for x86")
        self.bits = MACHINES[machine]
        self.is_object = elf["e_type"] == "ET_REL"
        # a program whose addresses are those of the file, so that its code may have them as immediates
        self.is_fixed = elf["e_type"] == "ET_EXEC"
        self.entry: int = elf["e_entry"]
        self._bases: Dict[int, int] = {}
        self.sections = self._sections(elf)
        self._symbols: Dict[int, List[Tuple[str, int, bool]]] = {}
        self._ifuncs: Set[int] = set()
        self.exported: Set[int] = set()
        for table in elf.iter_sections():
            if isinstance(table, SymbolTableSection):
                self._take_symbols(table)
        # the symbols that the linker or loader stores at an address, and the addresses of the file that it stores
        self.relocated: Dict[int, str] = {}
        self.stored: Dict[int, int] = {}
        self._take_relocations(elf)
        if not self.is_object:
            self._take_plt()
            self._take_frames()
        self.starts = sorted(self._symbols)
        # for addresses that were looked up: the first name, the name that has a size, and where that symbol ends
        self._spans: Dict[int, Tuple[str, str, int]] = {}
        self.functions = self._functions()
        self._by_name = {name: start for start in sorted(self.functions, reverse=True) for name in self.functions[start].names}
        self._function_starts = sorted(self.functions)

    # ---- reading

    def _sections(self, elf: Any) -> List[Section]:
        found, next_base = [], 0
        for number, section in enumerate(elf.iter_sections()):
            if not section["sh_flags"] & SH_FLAGS.SHF_ALLOC:
                continue
            size, start = section["sh_size"], section["sh_addr"]
            if self.is_object:
                align = max(16, section["sh_addralign"])
                start = -(-next_base // align) * align
                next_base = start + size
            elif not start:
                continue
            self._bases[number] = start if self.is_object else 0
            code = b"" if section["sh_type"] == "SHT_NOBITS" else section.data()
            found.append(Section(section.name, start, start + size, code, bool(section["sh_flags"] & SH_FLAGS.SHF_EXECINSTR)))
        return found

    def _take_symbols(self, table: Any) -> None:
        for symbol in table.iter_symbols():
            kind, place = symbol["st_info"]["type"], symbol["st_shndx"]
            if place == "SHN_UNDEF" or not symbol.name or kind not in (*FUNCTIONS, "STT_OBJECT", "STT_NOTYPE"):
                continue
            address = symbol["st_value"] + (self._bases.get(place, 0) if isinstance(place, int) else 0)
            if not address and not self.is_object or self.section_at(address) is None:
                continue
            is_function = kind in FUNCTIONS
            self._name(address, symbol.name, symbol["st_size"], is_function)
            if is_function and kind != "STT_FUNC":
                self._ifuncs.add(address)
            if is_function and table["sh_type"] == "SHT_DYNSYM":
                self.exported.add(address)

    def _name(self, address: int, name: str, size: int, is_function: bool) -> None:
        names = self._symbols.setdefault(address, [])
        if name not in (it[0] for it in names):
            names.append((name, size, is_function))

    def _take_relocations(self, elf: Any) -> None:
        for section in elf.iter_sections():
            if not isinstance(section, RelocationSection):
                continue
            symbols, base = elf.get_section(section["sh_link"]), 0
            if self.is_object:
                if section["sh_info"] not in self._bases:
                    continue
                base = self._bases[section["sh_info"]]
            for relocation in section.iter_relocations():
                self._take_relocation(elf, symbols, relocation, base)

    def _take_relocation(self, elf: Any, symbols: Any, relocation: Any, base: int) -> None:
        place, number = base + relocation["r_offset"], relocation["r_info_sym"]
        if not number:
            addend = relocation["r_addend"] if relocation.is_RELA() else self._word_at(place)
            if addend is not None and relocation["r_info_type"] == RELATIVE:
                self.stored[place] = addend
            elif addend is not None and relocation["r_info_type"] == RESOLVED[self.bits]:
                self._ifuncs.add(addend)
                self._name(addend, f"resolver_{addend:x}", 0, True)
            return
        if not hasattr(symbols, "get_symbol"):
            return
        symbol = symbols.get_symbol(number)
        name = symbol.name
        if not name and symbol["st_info"]["type"] == "STT_SECTION" and isinstance(symbol["st_shndx"], int):
            name = elf.get_section(symbol["st_shndx"]).name
        self.relocated[place] = name
        if relocation["r_info_type"] == ABSOLUTE_64 and symbol["st_shndx"] != "SHN_UNDEF" and relocation.is_RELA() and not self.is_object:
            self.stored[place] = symbol["st_value"] + relocation["r_addend"]

    def _take_plt(self) -> None:
        """Names the entries of the PLT by the symbols to which they jump, and the slots that hold their addresses."""
        for slot, name in self.relocated.items():
            if slot not in self._symbols:
                self._name(slot, f"{name}@got", self.bits // 8, False)
        for section in self.sections:
            if not section.name.startswith(".plt") or not section.runs:
                continue
            step = 8 if section.name == ".plt.got" and section.code[:2] == b"\xff\x25" else 16
            for at in range(0, len(section.code), step):
                for item in feddurzai.iterate(self.bits, section.start + at, section.code[at : at + step]):
                    target = item.info().ip_address if isinstance(item, feddurzai.Instr) else None
                    if target is not None and target in self.relocated:
                        self._name(section.start + at, f"{self.relocated[target]}@plt", step, True)
                        break

    def _take_frames(self) -> None:
        """Adds functions without a symbol, from the table of first addresses in .eh_frame_hdr."""
        header = next((it for it in self.sections if it.name == ".eh_frame_hdr"), None)
        # version 1, and a count and a table of four bytes each, relative to the header
        if header is None or header.code[:1] != b"\x01" or header.code[2:4] != b"\x03\x3b":
            return
        (count,) = struct.unpack_from("<I", header.code, 8)
        table = header.code[12 : 12 + 8 * count]
        for start, frame in struct.iter_unpack("<ii", table[: len(table) & -8]):
            address = header.start + start
            section, frames = self.section_at(address), self.section_at(header.start + frame)
            if address not in self._symbols and section and section.runs and frames:
                # a frame's entry has its length, the offset of its rules, the first address, and the size
                at = header.start + frame - frames.start + 12
                if at + 4 <= len(frames.code):
                    (size,) = struct.unpack_from("<I", frames.code, at)
                    self._name(address, f"fn_{address:x}", size, True)

    def _functions(self) -> Dict[int, Function]:
        found = {}
        for start, symbols in self._symbols.items():
            named = [it for it in symbols if it[2]]
            section = self.section_at(start)
            if not named or section is None or not section.runs:
                continue
            names = tuple(name for name, _, _ in sorted(named, key=lambda it: it[1] == 0))
            found[start] = Function(start, max(size for _, size, _ in named), names, start in self._ifuncs)
        # a function without a size ends where the next one begins, or with its section
        starts = sorted(found)
        for n, start in enumerate(starts):
            if found[start].size == 0:
                section = self.section_at(start)
                end = section.end if section else start
                if n + 1 < len(starts):
                    end = min(end, starts[n + 1])
                found[start] = found[start]._replace(size=max(0, end - start))
        return found

    # ---- questions

    def section_at(self, address: int) -> Optional[Section]:
        """The section that contains an address, None if there is none."""
        return next((it for it in self.sections if it.start <= address < it.end), None)

    def code_sections(self) -> List[Section]:
        return [it for it in self.sections if it.runs and it.code]

    def bytes_at(self, address: int, size: int) -> bytes:
        """The bytes of the file at an address, as many of them as there are."""
        section = self.section_at(address)
        return b"" if section is None else section.code[address - section.start : address - section.start + size]

    def _word_at(self, address: int) -> Optional[int]:
        """The number of address size that the file stores at an address."""
        size = self.bits // 8
        found = self.bytes_at(address, size)
        return int.from_bytes(found, "little") if len(found) == size else None

    def word_at(self, address: int) -> Optional[int]:
        """The address that is stored at an address once the program is loaded, None if it is unknown."""
        return self.stored[address] if address in self.stored else self._word_at(address)

    def code_of(self, function: Function) -> bytes:
        return self.bytes_at(function.start, function.size)

    def names_at(self, address: int) -> List[str]:
        """The names of the symbols that start at an address, functions first."""
        return [name for name, _, _ in sorted(self._symbols.get(address, ()), key=lambda it: not it[2])]

    def symbol_of(self, address: int) -> Optional[str]:
        """`name` or `name+0x10` for an address, None if no symbol covers it."""
        n = bisect.bisect_right(self.starts, address)
        if n == 0:
            return None
        start = self.starts[n - 1]
        if start not in self._spans:
            name, size = next(((name, size) for name, size, _ in self._symbols[start] if size), ("", 0))
            self._spans[start] = self.names_at(start)[0], name, start + size
        first, name, end = self._spans[start]
        if address == start:
            return first
        return f"{name}+{address - start:#x}" if address < end else None

    def function_around(self, address: int) -> Optional[Function]:
        """The function that contains an address, None if there is none."""
        n = bisect.bisect_right(self._function_starts, address)
        if n == 0:
            return None
        function = self.functions[self._function_starts[n - 1]]
        return function if address < function.start + max(1, function.size) else None

    def find(self, name: str) -> Function:
        """The function or the section with a name, or the function that contains a hexadecimal address. Raises BadFile if there is none."""
        section = next((it for it in self.sections if it.name == name and it.runs), None)
        if section:
            return Function(section.start, len(section.code), (name,))
        if name in self._by_name:
            return self.functions[self._by_name[name]]
        if re.fullmatch(r"0x[0-9a-fA-F]+", name):
            function = self.function_around(int(name, 16))
            if function:
                return function
        raise BadFile(f"no function and no code section is named {name!r}: list the names with: python3 -m feddurzai list FILE")

    def entries(self) -> Set[int]:
        """The addresses at which control may enter from outside: the entry point, initializers, exported functions and resolvers, stored addresses of code."""
        found = {self.entry, *self.exported, *self._ifuncs}
        found.update(self.stored.values())
        for section in self.sections:
            if section.name in (".init_array", ".fini_array", ".preinit_array", ".ctors", ".dtors"):
                size = self.bits // 8
                words = (self.word_at(at) for at in range(section.start, section.end - size + 1, size))
                found.update(word for word in words if word)
            if section.name in (".init", ".fini"):
                found.add(section.start)
        runs = self.code_sections()
        return {address for address in found if any(it.contains(address) for it in runs)}


def open_program(path: str) -> Program:
    """Reads an ELF file. Raises BadFile, or OSError if the file cannot be read."""
    if ELFFile is None:
        raise BadFile(MISSING)
    with open(path, "rb") as file:
        if file.read(4) != b"\x7fELF":
            raise BadFile("not an ELF file")
        file.seek(0)
        try:
            return Program(file)
        except BadFile:
            raise
        except (OSError, feddurzai.Refusal):
            raise
        # pyelftools raises errors of many types on damaged files; the user needs one line
        except ELFError as error:
            raise BadFile(f"a damaged ELF file: {error}") from None
        except Exception as error:
            raise BadFile(f"a damaged ELF file: {type(error).__name__}: {error}") from None


def is_elf(path: str) -> bool:
    """Whether a path is a regular file that begins like an ELF file."""
    try:
        if not os.path.isfile(path):
            return False
        with open(path, "rb") as file:
            return file.read(4) == b"\x7fELF"
    except OSError:
        return False


def elf_files(paths: Iterable[str]) -> List[str]:
    """The given files, and the ELF files in the given folders, each file once, in the order of their names."""
    found: Dict[str, None] = {}
    seen: Set[str] = set()
    for path in paths:
        if not os.path.isdir(path):
            found[path] = None
            continue
        for folder, folders, names in os.walk(path):
            folders.sort()
            for name in sorted(names):
                file = os.path.join(folder, name)
                real = os.path.realpath(file)
                if real not in seen and is_elf(file):
                    seen.add(real)
                    found[file] = None
    return list(found)
