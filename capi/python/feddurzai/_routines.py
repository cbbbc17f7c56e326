"""Routines as text: instructions, labels and data, a line each."""

import dataclasses
import re
import struct
from typing import Dict, Mapping, Tuple

from . import _checks, _native
from ._numbers import Reason
from ._refusal import RoutineReport, refusal_of

_REPORT = struct.Struct("=7Q")
_ReportRoom = _native.room_of(_REPORT.size)
_LABEL = struct.Struct("=4QB7x")
_NAME = re.compile(r"[A-Za-z_.$@][A-Za-z0-9_.$@]*", re.ASCII)
_LABEL_OF = re.compile(rb"[ \t\r]*([A-Za-z_.$@][A-Za-z0-9_.$@]*):")


class Routine:
    """A routine that was assembled.

    `code` is its bytes, `labels` has the address of each label by its name, in the order of the lines, and `report` the numbers of the library. If branches go
    through slots, the last `report.slots * 8` bytes are their addresses. A label that follows 65536 instructions and bytes of data has no address.

    >>> made = assemble_code(64, 0x401000, "start: call done\\ndone: pop rax\\n ret")
    >>> made.code.hex(), made.labels
    ('e80000000058c3', {'start': 4198400, 'done': 4198405})
    """

    code: bytes
    labels: Dict[str, int]
    report: RoutineReport

    def __init__(self, code: bytes, labels: Dict[str, int], report: RoutineReport, given: Tuple[int, int, bytes, bytes, bool]) -> None:
        self.code, self.labels, self.report, self._given = code, labels, report, given

    def __repr__(self) -> str:
        return f"<Routine of {len(self.code)} bytes and {len(self.labels)} labels>"

    @property
    def lines(self) -> Dict[int, int]:
        """The address of each line with an instruction or data, by its number from 1. The routine is assembled once more for it, with a label at each of
        these lines.

        >>> assemble_code(64, 0x1000, "; a loop\\nnext: dec ecx\\n  jne next").lines
        {2: 4096, 3: 4098}
        """
        bits, base, text, names, slots = self._given
        mark = b"@"
        while mark in text:
            mark += b"@"
        lines = text.split(b"\n")
        shown = {number: _without_comment(line) for number, line in enumerate(lines, 1)}
        own = {number: label for number, line in shown.items() if (label := _LABEL_OF.match(line))}
        here = [number for number, line in shown.items() if line[own[number].end() if number in own else 0 :].strip(b" \t\r")]
        for number in here:
            if number not in own:
                lines[number - 1] = b"%b%d: %b" % (mark, number, lines[number - 1])
        address = _assembled(bits, base, b"\n".join(lines), names, slots).labels
        return {number: address[(own[number][1] if number in own else b"%b%d" % (mark, number)).decode()] for number in here}


def _without_comment(line: bytes) -> bytes:
    """A line without its comment, which begins where no quote is open."""
    quote = 0
    for at, letter in enumerate(line):
        if not quote and letter in b";#":
            return line[:at]
        if letter == quote:
            quote = 0
        elif not quote and letter in b"'\"":
            quote = letter
    return line


def _lines_of(names: Mapping[str, int]) -> bytes:
    """The names with their numbers as the library reads them, a line each."""
    lines = []
    for name, value in names.items():
        if not _NAME.fullmatch(_checks.word("each of names", name)):
            raise ValueError(f"names: {name!r} is no name: it has letters, digits, _ . $ and @, and begins with no digit")
        lines.append(f"{name} = {_checks.signed('each value of names', value):#x}\n")
    return "".join(lines).encode()


def _labels_of(text: bytes, labels: bytes) -> Dict[str, int]:
    """The address of each label by its name, which is a part of the text."""
    fields = _LABEL.iter_unpack(labels)
    return {text[offset : offset + size].decode(): address for address, offset, size, _line, has_address in fields if has_address}


def _sizes_of(room: bytes) -> RoutineReport:
    """The report by its numbers, as the library fills them."""
    size, slots, labels, line, column, at, address = _REPORT.unpack(room)
    return RoutineReport(size, slots, labels, line, column, at, address)


def _report_of(report: RoutineReport, reason: int, text: bytes, names: bytes) -> RoutineReport:
    """The report with the line that is refused and a mark under the column."""
    if not report.line:
        return report
    line = (names if reason == Reason.BAD_NAMES else text).split(b"\n")[report.line - 1].rstrip(b"\r")
    front = line[: max(report.column - 1, 0)].decode("utf-8", "replace")
    mark = "".join("\t" if letter == "\t" else " " for letter in front) + "^" if report.column else ""
    return dataclasses.replace(report, source=line.decode("utf-8", "replace"), mark=mark)


def _assembled(bits: int, base: int, text: bytes, names: bytes, slots: bool) -> Routine:
    """The routine of a text: a first call reports the sizes of the buffers for the second."""
    given = (bits, base, text, len(text), names, len(names))
    assemble = _native.assemble_code if slots else _native.assemble_code_near
    room = _ReportRoom()
    said = assemble(*given, None, 0, None, 0, room)
    sizes = _sizes_of(room.raw)
    code, labels = _native.room_of(sizes.bytes)(), _native.room_of(sizes.labels * _LABEL.size)()
    if said == Reason.NO_ROOM:
        said = assemble(*given, code, sizes.bytes, labels, sizes.labels, room)
    if said < 0:
        raise refusal_of(said, _report_of(_sizes_of(room.raw), said, text, names))
    return Routine(code.raw, _labels_of(text, labels.raw), sizes, (bits, base, text, names, slots))


def assemble_code(bits: int, base: int, text: str, names: Mapping[str, int] = {}, *, slots: bool = True) -> Routine:
    """Assembles a routine whose first byte lies at `base`. No branch is longer than it has to be.

    Each line of `text` has, each optional, a label and a colon; an instruction in Intel syntax as people write it, data (`db`, `dw`, `dd`, `dq`), or an
    alignment (`align 16`); and a comment from `;` or `#` on. A label may be named wherever a number stands. `names` are names with numbers, as the
    addresses of functions. docs/assembler.md describes the texts.

    In 64-bit mode a branch to an address that is out of reach goes through a slot of 8 bytes behind the code. Without `slots` it is refused: TOO_FAR.

    Raises Refusal with BAD_MODE, BAD_NAMES, TOO_MANY_LABELS; for the first line that is refused NO_TEXT, NO_SIZE, BAD_DATA, UNKNOWN, TWICE, UNFIT,
    BAD_ALIGNMENT, BAD_LABEL, TOO_MANY or NO_ENCODING, and the message shows that line with a mark under the column; then UNPLACED, WRAPS, TOO_FAR,
    UNSETTLED, NO_MEMORY. Raises ValueError for a name that has other characters than a label.

    >>> made = assemble_code(64, 0x401000, "again: add eax, ecx\\n dec ecx\\n jne again ; until it is 0\\n ret")
    >>> made.code.hex(), hex(made.labels["again"])
    ('01c8ffc975fac3', '0x401000')
    >>> assemble_code(64, 0x401000, "mov edi, SIZE-1\\n call puts\\n ret", {"puts": 0x401180, "SIZE": 24}).code.hex()
    'bf17000000e876010000c3'
    >>> try:
    ...     assemble_code(64, 0, "  xor eax, eax\\n  mvo ecx, 5\\n  ret")
    ... except Refusal as refusal:
    ...     print(refusal)
    no instruction has this text: line 2, column 3
      mvo ecx, 5
      ^
    """
    bits, base = _checks.number("bits", bits, _checks.U32), _checks.number("base", base)
    return _assembled(bits, base, _checks.word("text", text).encode("utf-8", "replace"), _lines_of(names), bool(slots))
