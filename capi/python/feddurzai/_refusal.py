"""Refusals: what the library reports, as exceptions with messages."""

from __future__ import annotations

from dataclasses import dataclass
from typing import Dict, Optional, Tuple, Type, Union

from ._numbers import Cause, Reason, Sight

_REASONS = {
    Reason.BAD_MODE: "bits must be 16, 32 or 64",
    Reason.BAD_SYNTAX: "syntax must be Style.INTEL, Style.ATT or Style.MASM",
    Reason.BAD_CODE: "no row of the table has this code",
    Reason.BAD_INSTR: "not an instruction: a field holds a number that means nothing",
    Reason.BAD_FORM: "the operands do not match the row of the code, or no row has the code",
    Reason.NO_ROOM: "not enough space: the block is shorter than the bytes, or the region has its maximum number of blocks",
    Reason.INVALID: "no instruction begins with these bytes, whatever follows them",
    Reason.TOO_SHORT: "the bytes end before the instruction does",
    Reason.NO_NAME: "no row has this name and number",
    Reason.NO_MEMORY: "out of memory",
    Reason.TOO_LARGE: "more bytes of code than one call takes: MAX_CODE, or for flow MAX_FLOW",
    Reason.TOO_MANY: "more than 65536 instructions",
    Reason.WRAPS: "the old or the new code extends past the address space of the mode",
    Reason.TOO_FAR: "an instruction cannot reach its target from its new address",
    Reason.NULL: "a pointer is NULL",
    Reason.NO_TEXT: "no instruction that can be encoded at this address has exactly this Intel text",
    Reason.NO_REGISTER: "no register has this class and number",
    Reason.BAD_JUMP: "form must be a member of Jump, such as Jump.NEAR",
    Reason.BAD_START: "start must be Start.MOVED or Start.HOOKED",
    Reason.SMALL: "the function is shorter than the jump",
    Reason.ENDS: "control ends within the bytes to be overwritten, and other code follows",
    Reason.ENTERED: "control may enter the bytes to be overwritten",
    Reason.BAD_BLOCK: "a block is not inside the bytes",
    Reason.BAD_REGION: "not a region: its size must be a multiple of 16 from 16 to 1048576, for 1 to 65536 blocks, and it must end in the address space",
    Reason.EMPTY: "a block must have at least 1 byte",
    Reason.FULL: "no gap of the region is long enough: release a block or ask for fewer bytes",
    Reason.NOT_LIVE: "no live block starts at this address",
    Reason.UNSEEN: "control cannot be followed through the whole function",
    Reason.OVERLAPS: "the trampoline would lie in the bytes of the function",
    Reason.CALLS: "a moved call would hand an address in the trampoline to what it calls",
    Reason.PADDING: "the padding in front of the function cannot be used",
    Reason.BAD_OPTIONS: "a number of the options names no choice",
    Reason.BAD_NAMES: "not a name with a number: it may be a word of operands, as a register is",
    Reason.TOO_MANY_LABELS: "more than 65536 labels",
    Reason.NO_SIZE: "addresses of several sizes fit: write byte, word, dword or another size",
    Reason.BAD_DATA: "not a number that fits, and not a string",
    Reason.UNKNOWN: "no line has a label of this name",
    Reason.TWICE: "an earlier line has a label of the same name",
    Reason.UNPLACED: "a label that is used follows 65536 instructions and bytes of data",
    Reason.UNFIT: "the address of a label does not fit there",
    Reason.BAD_ALIGNMENT: "an alignment is a power of two from 1 to 4096",
    Reason.UNSETTLED: "the addresses of the labels do not settle",
    Reason.BAD_LABEL: "a label is no register, no word of an operand, no mnemonic and no prefix",
}
# where a reason says less than all of an exact text or of moved code
_REASONS_OF_ROUTINES = {
    Reason.TOO_MANY: "more than 65536 instructions and bytes of data",
    Reason.WRAPS: "the routine extends past the address space of the mode",
    Reason.TOO_FAR: "an instruction cannot reach its target",
    Reason.NO_TEXT: "no instruction has this text",
}
_SIGHT_ENDS = {
    Sight.NOT_READ: "no instruction of the table begins",
    Sight.INDIRECT_JUMP: "control jumps to an address in a register or in memory",
    Sight.ENDED: "the code ends",
}
_CAUSES = {
    Cause.ROW: "no row of the table that exists in the mode has the code",
    Cause.KIND: "the row takes no operand of this kind here",
    Cause.REGISTER: "this register cannot be encoded here",
    Cause.MEMORY: "base, index and scale are not an address of the mode",
    Cause.DISPLACEMENT: "the address has no displacement of this width or value",
    Cause.IMMEDIATE: "the immediate does not fit its size",
    Cause.TARGET: "the target is out of reach",
    Cause.PREFIX: "LOCK or a repeat prefix is not allowed",
    Cause.ADDRESS_SIZE: "the address size is missing, superfluous, or not that of the operand",
    Cause.LENGTH: "the encoding would have more than 15 bytes",
}
_OF_AN_OPERAND = (Cause.KIND, Cause.REGISTER, Cause.MEMORY, Cause.DISPLACEMENT, Cause.IMMEDIATE, Cause.TARGET)


@dataclass(frozen=True)
class MoveReport:
    """The report of `move` and `move_outside`.

    `bytes` is the size of the moved code with its slots, `code_bytes` without them, and `slots_at` the offset of the first slot. `count` is
    the number of instructions. After a refusal `at` is the offset of the byte that was not decoded, or the number of the instruction that
    does not reach; `address` is its target, or the end that is past the address space. Fields that do not apply are 0.

    >>> move(64, 0x1000, bytes.fromhex("7410"), 0x2000).report.bytes
    6
    """

    bytes: int
    count: int
    at: int
    address: int
    code_bytes: int
    slots_at: int


@dataclass(frozen=True)
class DetourReport:
    """The report of `detour`.

    `taken` is the size of the patch and `bytes` that of the trampoline; `jump_back`, `slots_at` and `relay_at` are offsets in the trampoline,
    `bytes` for an absent part; `form` is a `DetourForm`. After a refusal `at` and `target` say where: the offset of a byte, the sizes of the
    function and of the jump (SMALL), the offsets that control comes from and goes to (ENTERED), the number of an instruction and its
    target (TOO_FAR), the offset of a call (CALLS), the offset at which sight ends and the `Sight` that says why (UNSEEN), or the offset at which
    no padding begins, or the sizes of the padding and of the jump (PADDING). Fields that do not apply are 0.

    >>> detour(64, 0x1000, bytes.fromhex("4883ec18 31c0 c3"), 0x2000, 0x3000).report.taken
    6
    """

    taken: int
    bytes: int
    jump_back: int
    slots_at: int
    relay_at: int
    at: int
    target: int
    form: int


@dataclass(frozen=True)
class BlocksReport:
    """The report of `move_blocks`: as of `move`, with the number of the block that fails; `at` counts within that block.

    >>> try:
    ...     move_blocks(64, [Block(0, b"\\x90", 0x100), Block(0x10, b"\\x90\\x06", 0x200)])
    ... except InvalidCode as refusal:
    ...     print(refusal.report.block, refusal.report.at)
    1 1
    """

    bytes: int
    count: int
    block: int
    at: int
    address: int


@dataclass(frozen=True)
class StepReport:
    """The report of `step`: the size of the code, the offset of its jump back, the length of the instruction, and the offset from which on it
    has happened. After a refusal `address` is the target that is out of reach, or the end that is past the address space.

    >>> try:
    ...     step(16, 0x1000, b"\\x90", 0xFFFE)
    ... except Refusal as refusal:
    ...     print(hex(refusal.report.address))
    0x10002
    """

    bytes: int
    back_at: int
    address: int
    len: int
    done_at: int


@dataclass(frozen=True)
class RoutineReport:
    """The report of `assemble_code`: the sizes of the routine and of its slots, the number of its labels. After a refusal `line` and `column` are the place
    in the text, both from 1 and columns in bytes, `source` is that line, and `mark` has a `^` under the column; for BAD_NAMES these are of the names, and for
    WRAPS it is the last line with an instruction or data. `at` is the number of the instruction that does not reach `address`, or that is UNPLACED; each byte
    of data counts as one. Fields that do not apply are 0 or empty.

    >>> try:
    ...     assemble_code(64, 0, "db 1, 256")
    ... except Refusal as refusal:
    ...     print(refusal.report.line, refusal.report.column)
    1 1
    """

    bytes: int
    slots: int
    labels: int
    line: int
    column: int
    at: int
    address: int
    source: str = ""
    mark: str = ""


Report = Union[MoveReport, DetourReport, BlocksReport, StepReport, RoutineReport]


class Refusal(Exception):
    """The library refused a call. Its message says what went wrong and where.

    `reason` is a `Reason`. If an instruction has no encoding, it is `Reason.NO_ENCODING`, `cause` is a `Cause`, and `operand` the number of
    the operand that fails, from 0, or None if the cause concerns the whole instruction. Else both are None. A refusal by `move`,
    `move_outside`, `move_blocks`, `step`, `detour` or `assemble_code` has a `report`, else None. `number` is the status of the library, below 0.

    >>> try:
    ...     Instr(code_of("inc", "FE /0"), Immediate(1)).encode(64, 0)
    ... except Refusal as refusal:
    ...     print(refusal, refusal.cause.name, refusal.operand, sep="; ")
    no encoding: operand 0: the row takes no operand of this kind here; KIND; 0
    """

    number: int
    reason: Reason
    cause: Optional[Cause]
    operand: Optional[int]
    report: Optional[Report]

    def __init__(self, number: int, report: Optional[Report] = None) -> None:
        self.number = number
        self.report = report
        self.cause = self.operand = None
        if number > -256:
            self.reason = Reason(number)
            words = _words(self.reason, report)
        else:
            self.reason = Reason.NO_ENCODING
            self.cause = Cause(-number >> 8)
            words = _CAUSES[self.cause]
            if self.cause in _OF_AN_OPERAND and not isinstance(report, RoutineReport):
                self.operand = -number & 255
                words = f"operand {self.operand}: {words}"
            words = f"no encoding: {words}"
        super().__init__(words + _where(self.reason, report))

    def __reduce__(self) -> Tuple[Type[Refusal], Tuple[int, Optional[Report]]]:
        return type(self), (self.number, self.report)


class InvalidCode(Refusal):
    """No instruction begins with the bytes, whatever follows them.

    >>> try:
    ...     decode(64, 0, b"\\x06")
    ... except InvalidCode as refusal:
    ...     print(refusal)
    no instruction begins with these bytes, whatever follows them
    """


class TooShort(Refusal):
    """The bytes end before the instruction does.

    >>> try:
    ...     decode(64, 0, b"\\x48")
    ... except TooShort as refusal:
    ...     print(refusal)
    the bytes end before the instruction does
    """


_CLASSES: Dict[int, Type[Refusal]] = {Reason.INVALID: InvalidCode, Reason.TOO_SHORT: TooShort}


def _words(reason: Reason, report: Optional[Report]) -> str:
    """What a reason means, by the call that gave the report."""
    of_routine = _REASONS_OF_ROUTINES.get(reason) if isinstance(report, RoutineReport) else None
    return of_routine or _REASONS[reason]


def _where(reason: Reason, report: Optional[Report]) -> str:
    """Where the refusal occurred, by its report."""
    if report is None:
        return ""
    if isinstance(report, RoutineReport):
        return _where_of_routine(reason, report)
    if isinstance(report, BlocksReport):
        return _where_of_blocks(reason, report)
    if isinstance(report, StepReport):
        return _where_of_step(reason, report)
    address = report.target if isinstance(report, DetourReport) else report.address
    if reason in _CLASSES or reason is Reason.ENDS:
        return f": at offset {report.at}"
    if reason is Reason.TOO_MANY and isinstance(report, MoveReport):
        return f": there are {report.count}"
    if reason is Reason.WRAPS:
        return f": it ends at {address:#x}"
    if reason is Reason.TOO_FAR:
        return f": instruction {report.at}, target {address:#x}"
    if reason is Reason.SMALL:
        return f": the function has {report.at} bytes, the jump {address}"
    if reason is Reason.ENTERED:
        return f": from offset {report.at}, to offset {address}"
    if reason is Reason.CALLS:
        return f": at offset {report.at}"
    if reason is Reason.PADDING:
        return f": it has {report.at} bytes, the jump {address}" if address else f": at offset {report.at}"
    if reason is Reason.UNSEEN:
        return f": at offset {report.at} {_SIGHT_ENDS[Sight(address)]}"
    return ""


def _where_of_blocks(reason: Reason, report: BlocksReport) -> str:
    """Where the refusal occurred, by the report of `move_blocks`."""
    if reason in _CLASSES:
        return f": at offset {report.at} of block {report.block}"
    if reason is Reason.TOO_MANY:
        return f": there are {report.count}"
    if reason is Reason.WRAPS:
        return f": a block ends at {report.address:#x}"
    if reason is Reason.TOO_FAR:
        return f": instruction {report.at} of block {report.block}, target {report.address:#x}"
    return ""


def _where_of_step(reason: Reason, report: StepReport) -> str:
    """Where the refusal occurred, by the report of `step`."""
    if reason is Reason.WRAPS:
        return f": it ends at {report.address:#x}"
    if reason is Reason.TOO_FAR:
        return f": target {report.address:#x}"
    return ""


def _where_of_routine(reason: Reason, report: RoutineReport) -> str:
    """Where the refusal occurred, by the report of `assemble_code`: the line with a mark under the column."""
    if reason is Reason.BAD_NAMES:
        return f": {report.source}"
    if not report.line:
        return ""
    more = ""
    if reason is Reason.WRAPS:
        more = f", which ends at {report.address:#x}"
    if reason is Reason.TOO_FAR:
        more = f", target {report.address:#x}"
    return f": line {report.line}, column {report.column}{more}\n{report.source}\n{report.mark}"


def refusal_of(number: int, report: Optional[Report] = None) -> Refusal:
    """The exception for a status below 0."""
    return _CLASSES.get(number, Refusal)(number, report)


def taken(number: int) -> int:
    """Returns a status of 0 or more, and raises the refusal of any other."""
    if number < 0:
        raise refusal_of(number)
    return number
