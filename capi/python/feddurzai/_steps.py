"""Displaced single stepping."""

import struct
from typing import Dict, List, NamedTuple

from . import _checks, _native
from ._checks import Buffer
from ._numbers import Reason
from ._refusal import StepReport, refusal_of, taken
from ._region import Region

_STEP_REPORT = struct.Struct("=3Q2B6x")
_StepRoom = _native.room_of(_STEP_REPORT.size)
_CodeRoom = _native.room_of(_native.MAX_STEP)


class Step(NamedTuple):
    """The code that runs an instruction at another address: its bytes, the offset of its jump back, the length of the instruction, and the
    offset from which on the instruction has happened.

    >>> step(64, 0x1000, b"\\x50", 0x2000)
    Step(code=b'P\\xe9\\xfb\\xef\\xff\\xff', back_at=1, len=1, done_at=1)
    """

    code: bytes
    back_at: int
    len: int
    done_at: int


def step(bits: int, old_ip: int, code: Buffer, place: int, at: int = 0, *, unlisted: bool = False) -> Step:
    """Makes the code with which a debugger runs one instruction at the address `place` while its breakpoint stays: the instruction, moved
    there, and a jump back to the address after it.

    The instruction is at offset `at` of `code`, whose first byte has the address `old_ip`. `code` has the program's own bytes, without the
    breakpoint. Every target stays, even if it is the instruction itself.

    At an offset of the code before `done_at` the instruction has not happened: report its address. From `done_at` on and before `back_at` it
    has happened, and only the jump to where it goes is left: step on. Never resume at its address there: LOOP, LOOPE and LOOPNE have
    decremented their counter, and would decrement it twice. At `back_at` it is complete: report the address after it.

    A CALL pushes the address after it in the code, so keep the code until the procedure returns. SYSCALL pushes nothing, but leaves that
    address in RCX.

    With `unlisted`, an instruction that the opcode table leaves out and `measure` measures is stepped too. Its bytes stay, except that its
    relative number is set so that it refers to the same address.

    Raises InvalidCode and TooShort as `decode` does, and Refusal with a report and BAD_MODE, WRAPS (the code extends past the address space),
    TOO_FAR (the instruction cannot reach its target from `place`) or NO_MEMORY.

    >>> made = step(64, 0x1000, bytes.fromhex("e8fb0f0000"), 0x1800)
    >>> made.code.hex(), made.done_at, made.back_at
    ('e8fb070000e9fbf7ffff', 5, 5)
    >>> made = step(64, 0x1000, bytes.fromhex("e20e"), 0x2000)
    >>> made.code.hex(), made.done_at, made.back_at
    ('e202eb05e907f0ffffe9f4efffff', 2, 9)
    >>> step(64, 0x1000, bytes.fromhex("62f17d48ef0510000000"), 0x2000, unlisted=True).code.hex()
    '62f17d48ef0510f0ffffe9fbefffff'
    """
    window = _checks.front_bytes("code", code, at, _native.MAX_LEN)
    bits, old_ip = _checks.number("bits", bits, _checks.U32), _checks.number("old_ip", old_ip) + at & _checks.U64
    out, room = _CodeRoom(), _StepRoom()
    given = (bits, old_ip, window, len(window), _checks.number("place", place), out, _native.MAX_STEP, room)
    said = _native.step(*given)
    if unlisted and said in (Reason.INVALID, Reason.TOO_SHORT):
        measured = _native.step_unlisted(*given)
        # without a measured instruction there the refusal stays that of the table
        if measured not in (Reason.INVALID, Reason.TOO_SHORT):
            said = measured
    report = StepReport(*_STEP_REPORT.unpack(room.raw))
    if said < 0:
        raise refusal_of(said, report)
    return Step(out.raw[:said], report.back_at, report.len, report.done_at)


def step_len(bits: int, old_ip: int, code: Buffer, base: int, at: int = 0) -> int:
    """Returns an upper bound of the bytes that `step` returns for this instruction at any place that is a multiple of 16 bytes after `base`, as
    the places of a `Region` with that base are: 1 to MAX_STEP. Raises InvalidCode, TooShort, and Refusal with BAD_MODE, as `decode` does.

    >>> step_len(64, 0x1000, bytes.fromhex("e8fb0f0000"), 0x1800)
    32
    """
    window = _checks.front_bytes("code", code, at, _native.MAX_LEN)
    bits, old_ip = _checks.number("bits", bits, _checks.U32), _checks.number("old_ip", old_ip) + at & _checks.U64
    return taken(_native.step_len(bits, old_ip, window, len(window), _checks.number("base", base)))


class StepCall(NamedTuple):
    """The code that runs a near CALL at another address and pushes the CALL's own return address: its bytes, the length of the CALL, and the
    length of the PUSH with which it begins.

    >>> step_call(64, 0x1000, b"\\xff\\xd0", 0x2000)
    StepCall(code=b'h\\x02\\x10\\x00\\x00\\xc7D$\\x04\\x00\\x00\\x00\\x00\\xff\\xe0', len=2, done_at=5)
    """

    code: bytes
    len: int
    done_at: int


def step_call(bits: int, old_ip: int, code: Buffer, place: int, at: int = 0) -> StepCall:
    """Makes the code with which a debugger runs a near CALL at the address `place`, so that the called code and an unwinder see the CALL's own
    return address: a PUSH of that address, in 64-bit mode a MOV of its high half, and a jump to the target. The arguments are those of `step`.

    There is no jump back, since the procedure returns to the program. Before `done_at` nothing has happened. From there on the CALL has begun:
    step on until control is outside the code. The jump reads its operand after the push; one at the stack pointer is raised to name the same
    memory. With shadow stacks (CET) the RET to a pushed address faults.

    Raises as `step` does, and Refusal with BAD_FORM if the instruction is no near CALL of the mode's own operand size, or one through the stack
    pointer itself or through memory below it.

    >>> made = step_call(64, 0x1000, bytes.fromhex("e8fb0f0000"), 0x1800)
    >>> made.code.hex(), made.done_at
    ('6805100000c744240400000000e9ee070000', 5)
    """
    window = _checks.front_bytes("code", code, at, _native.MAX_LEN)
    bits, old_ip = _checks.number("bits", bits, _checks.U32), _checks.number("old_ip", old_ip) + at & _checks.U64
    out, room = _CodeRoom(), _StepRoom()
    said = _native.step_call(bits, old_ip, window, len(window), _checks.number("place", place), out, _native.MAX_STEP, room)
    report = StepReport(*_STEP_REPORT.unpack(room.raw))
    if said < 0:
        raise refusal_of(said, report)
    return StepCall(out.raw[:said], report.len, report.done_at)


class StepSlot(NamedTuple):
    """A live slot: the address of its code, the address of its instruction, and the code.

    >>> slots = StepSlots(64, 0x10000, 64)
    >>> slots.step(0x1000, b"\\x50"), slots.live[0].old_ip
    (65536, 4096)
    """

    place: int
    old_ip: int
    step: Step


class StepSlots:
    """Slots for displaced single stepping, in a range of addresses within reach of the program. Each slot has an instruction of the program and
    the jump back to the address after it. `image` has the bytes of the range, CC outside the slots.

    `bits` is the mode. `base`, `size` and `most` are as for a `Region`, and the range must end inside the address space of the mode. Otherwise
    the constructor raises Refusal with BAD_MODE or BAD_REGION. Do not change the slots from two threads at once.

    >>> slots = StepSlots(64, 0x10000, 64)
    >>> place = slots.step(0x10800, bytes.fromhex("ebfe"))
    >>> hex(place), slots.image[:10].hex()
    ('0x10000', 'e9fb070000e9f8070000')
    """

    def __init__(self, bits: int, base: int, size: int, most: int = 64) -> None:
        self.bits = _checks.number("bits", bits, _checks.U32)
        if self.bits not in (16, 32, 64):
            raise refusal_of(Reason.BAD_MODE)
        self._region = Region(base, size, most)
        if self._region.base + self._region.size > 1 << self.bits:
            raise refusal_of(Reason.BAD_REGION)
        self._slots: Dict[int, StepSlot] = {}

    def __repr__(self) -> str:
        return f"<StepSlots {self._region.base:#x}: {self._region.size} bytes, {len(self._slots)} live>"

    @property
    def live(self) -> List[StepSlot]:
        """The live slots, by address.

        >>> slots = StepSlots(64, 0x10000, 64)
        >>> slots.step(0x1000, b"\\x50"), [hex(slot.old_ip) for slot in slots.live]
        (65536, ['0x1000'])
        """
        return [self._slots[block.place] for block in self._region.live]

    @property
    def image(self) -> bytes:
        """A copy of the bytes of the range.

        >>> StepSlots(64, 0x10000, 64).image == 64 * b"\\xcc"
        True
        """
        return self._region.image

    def step(self, old_ip: int, code: Buffer, at: int = 0) -> int:
        """Makes a slot for the instruction at offset `at` of `code`, whose first byte has the address `old_ip`. Returns the address of its code.

        Raises InvalidCode and TooShort as `decode` does, and Refusal with NO_ROOM (`most` slots are live), FULL (no gap has as many bytes as the
        code may take), TOO_FAR or NO_MEMORY. Then nothing is changed.

        >>> slots = StepSlots(64, 0x10000, 64)
        >>> slots.step(0x1000, b"\\x50"), slots.live[0].step.code.hex()
        (65536, '50e9fb0fffff')
        """
        reserved = step_len(self.bits, old_ip, code, self._region.base, at)
        place = self._region.reserve(reserved)
        try:
            made = step(self.bits, old_ip, code, place, at)
        except Exception:
            self._region.release(place)
            raise
        self._region.fill(place, made.code)
        self._slots[place] = StepSlot(place, old_ip + at & (1 << self.bits) - 1, made)
        return place

    def finish(self, place: int) -> None:
        """Frees the live slot whose code starts at `place`, and sets its bytes to CC. Raises Refusal with NOT_LIVE.

        >>> slots = StepSlots(64, 0x10000, 64)
        >>> slots.finish(slots.step(0x1000, b"\\x50"))
        >>> slots.live
        []
        """
        self._region.release(place)
        del self._slots[place]
