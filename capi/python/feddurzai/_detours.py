"""Hooks: the patch over the first bytes of a function, and the trampoline."""

import struct
from ctypes import Array, c_uint32
from dataclasses import replace
from typing import Iterable, NamedTuple, Optional, Tuple

from . import _checks, _native
from ._checks import Buffer
from ._numbers import DetourForm, Reason, Start
from ._refusal import DetourReport, refusal_of
from ._sight import View, shifted, view_of

_REPORT = struct.Struct("=7QB7x")
_ReportRoom = _native.room_of(_REPORT.size)
# feddurzai_hook_report: the report of a detour, a view, the number of moved instructions, and the offset of a call
_HOOK_REPORT = struct.Struct("=7QB7x6Q4B4xQQ")
_HookRoom = _native.room_of(_HOOK_REPORT.size)
_OF_DETOUR, _OF_VIEW, _OF_MOVED, _OF_CALL = slice(8), slice(8, 18), 18, 19
# feddurzai_kept_report: a hook report, and the number of kept bytes
_KEPT_REPORT = struct.Struct("=7QB7x6Q4B4x3Q")
_KeptRoom = _native.room_of(_KEPT_REPORT.size)
# feddurzai_padded_report: a hook report, the size of the near jump, and whether a refusal is about the padding
_PADDED_REPORT = struct.Struct("=7QB7x6Q4B4x4Q")
_PaddedRoom = _native.room_of(_PADDED_REPORT.size)
_OF_KEPT, _OF_JUMP = 20, 20
_RULE_WHOLE, _RULE_RETURNS, _RULE_NO_CALLS = 1, 2, 4
_MOVED = struct.Struct("=QQ")


class MovedStart(NamedTuple):
    """A moved instruction of a detour: the offset at which it begins in the function, and that of its image in the trampoline.

    >>> detour(64, 0x1000, bytes.fromhex("7405 4889c1 90 90 c3"), 0x2000, 0x3000, entries=()).moved
    (MovedStart(start=0, place=0), MovedStart(start=2, place=6))
    """

    start: int
    place: int


class _Parts(NamedTuple):
    patch: bytes
    trampoline: bytes
    form: DetourForm
    jump_back: Optional[int]
    slots: Optional[int]
    relay: Optional[int]
    report: DetourReport


class Detour(_Parts):
    """Both parts of a hook.

    Write `patch` over the first bytes of the function, and `trampoline` to the place for which it was made. Calling the trampoline is calling
    the original function. `jump_back`, `slots` and `relay` are the offsets of these parts of the trampoline, None for an absent one.

    If `detour` was called with `entries` or a rule, `moved` has a `MovedStart` for each moved instruction, in order, `view` is the `View` of the
    function, and `call` is the offset of the first call that is moved as it is, None if there is none: what it calls sees a return address in the
    trampoline. Else these are None. They are attributes alone: as a tuple a detour has the seven parts `patch` to `report`.

    `kept` is the number of first bytes of the function that stay, 4 if `keep_endbr` kept an ENDBR, else 0: write `patch` behind them. `jump` is
    empty but for a hook through padding, whose near jump it is: write it first, to the end of the padding.

    >>> made = detour(64, 0x1000, bytes.fromhex("4883ec18 31c0 c3"), 0x2000, 0x3000)
    >>> made.patch.hex(), made.trampoline.hex(), made.jump_back
    ('e9fb0f0000cc', '4883ec1831c0e9fbdfffff', 6)
    """

    moved: Optional[Tuple[MovedStart, ...]] = None
    view: Optional[View] = None
    call: Optional[int] = None
    kept: int = 0
    jump: bytes = b""

    @property
    def writes(self) -> Tuple[Tuple[int, bytes], ...]:
        """The writes that put the patch over a function that other processors may run, in order, each with its offset in the function: INT3 over the
        first byte, the bytes after it, then the first byte. Between two of them each processor has to be serialized (docs/hooks.md).

        >>> detour(64, 0x1000, bytes.fromhex("4883ec18 31c0 c3"), 0x2000, 0x3000).writes
        ((0, b'\\xcc'), (1, b'\\xfb\\x0f\\x00\\x00\\xcc'), (0, b'\\xe9'))
        """
        return ((self.kept, b"\xcc"), (self.kept + 1, self.patch[1:]), (self.kept, self.patch[:1]))


def _detour_of(patch: bytes, trampoline: bytes, report: DetourReport) -> Detour:
    jump_back, slots, relay = (None if at == report.bytes else at for at in (report.jump_back, report.slots_at, report.relay_at))
    return Detour(patch, trampoline, DetourForm(report.form), jump_back, slots, relay, report)


_Function = Tuple[int, int, bytes, int, int, int, int]


def _without_rules(function: _Function, unlisted: bool) -> Detour:
    """The detour alone: a first call reports the sizes of the buffers for the second."""
    call = _native.detour_unlisted if unlisted else _native.detour
    room = _ReportRoom()
    said = call(*function, None, 0, None, 0, room)
    report = DetourReport(*_REPORT.unpack(room.raw))
    if said != Reason.NO_ROOM:
        raise refusal_of(said, report)
    patch, trampoline = _native.room_of(report.taken)(), _native.room_of(report.bytes)()
    said = call(*function, patch, report.taken, trampoline, report.bytes, room)
    if said < 0:
        raise refusal_of(said, DetourReport(*_REPORT.unpack(room.raw)))
    return _detour_of(patch.raw, trampoline.raw, report)


def _seen(made: Detour, moved: bytes, fields: Tuple[int, ...]) -> Detour:
    """The detour with what was seen, by the fields of a hook report."""
    made.moved = tuple(MovedStart(*pair) for pair in _MOVED.iter_unpack(moved))
    made.view = view_of(fields[_OF_VIEW])
    made.call = fields[_OF_CALL] if fields[_OF_CALL] < made.report.taken else None
    return made


def _numbers(entries: Iterable[int]) -> Tuple["Array[c_uint32]", int]:
    """The entries as an array, and their number."""
    chosen = [_checks.number("each of entries", entry, _checks.U32) for entry in entries]
    return (c_uint32 * len(chosen))(*chosen), len(chosen)


def _by_rules(function: _Function, entries: Iterable[int], rules: int) -> Detour:
    """The detour with what was seen: a first call reports the sizes of the buffers for the second."""
    given = (*function, rules, *_numbers(entries))
    room = _HookRoom()
    said = _native.detour_with(*given, None, 0, None, 0, None, 0, room)
    fields = _HOOK_REPORT.unpack(room.raw)
    report, count = DetourReport(*fields[_OF_DETOUR]), fields[_OF_MOVED]
    if said != Reason.NO_ROOM:
        raise refusal_of(said, report)
    patch, trampoline, moved = (_native.room_of(size)() for size in (report.taken, report.bytes, count * _MOVED.size))
    said = _native.detour_with(*given, patch, report.taken, trampoline, report.bytes, moved, count, room)
    if said < 0:
        raise refusal_of(said, DetourReport(*_HOOK_REPORT.unpack(room.raw)[_OF_DETOUR]))
    return _seen(_detour_of(patch.raw, trampoline.raw, report), moved.raw, fields)


# the refusals whose report has offsets in the function: one, or two
_WITH_OFFSET = (Reason.INVALID, Reason.TOO_SHORT, Reason.ENDS, Reason.CALLS, Reason.UNSEEN)


def _behind(said: int, report: DetourReport, kept: int) -> DetourReport:
    """The report of a refusal that counts from the byte behind the kept ones, counted from the first byte."""
    if said in _WITH_OFFSET:
        return replace(report, at=report.at + kept)
    if said == Reason.ENTERED:
        return replace(report, at=report.at + kept, target=report.target + kept)
    return report


def _keeping_endbr(function: _Function, entries: Iterable[int], rules: int) -> Detour:
    """The detour behind an ENDBR, counted from the first byte of the function and of the trampoline."""
    given = (*function, rules, *_numbers(entries))
    room = _KeptRoom()
    said = _native.detour_endbr(*given, None, 0, None, 0, None, 0, room)
    fields = _KEPT_REPORT.unpack(room.raw)
    report, count, kept = DetourReport(*fields[_OF_DETOUR]), fields[_OF_MOVED], fields[_OF_KEPT]
    if said != Reason.NO_ROOM:
        raise refusal_of(said, _behind(said, report, kept))
    whole = report.bytes + kept
    patch, trampoline, moved = (_native.room_of(size)() for size in (report.taken, whole, count * _MOVED.size))
    said = _native.detour_endbr(*given, patch, report.taken, trampoline, whole, moved, count, room)
    if said < 0:
        raise refusal_of(said)
    made = _seen(_detour_of(patch.raw, trampoline.raw, report), moved.raw, fields)
    jump_back, slots, relay = (None if at is None else at + kept for at in (made.jump_back, made.slots, made.relay))
    shown = Detour(made.patch, made.trampoline, made.form, jump_back, slots, relay, report)
    shown.moved = tuple(MovedStart(start + kept, place + kept) for start, place in made.moved or ())
    shown.view = None if made.view is None else shifted(made.view, kept)
    shown.call = None if made.call is None else made.call + kept
    shown.kept = kept
    return shown


def _through_padding(function: _Function, padding: bytes, entries: Iterable[int], rules: int) -> Detour:
    """The detour through the padding in front of the function."""
    bits, ip, *rest = function
    given = (bits, ip, padding, len(padding), *rest, rules, *_numbers(entries))
    room = _PaddedRoom()
    said = _native.detour_padding(*given, None, 0, None, 0, None, 0, None, 0, room)
    fields = _PADDED_REPORT.unpack(room.raw)
    report, count, size = DetourReport(*fields[_OF_DETOUR]), fields[_OF_MOVED], fields[_OF_JUMP]
    if said != Reason.NO_ROOM:
        raise refusal_of(said, report)
    sizes = (size, report.taken, report.bytes, count * _MOVED.size)
    jump, patch, trampoline, moved = (_native.room_of(one)() for one in sizes)
    said = _native.detour_padding(*given, jump, size, patch, report.taken, trampoline, report.bytes, moved, count, room)
    if said < 0:
        raise refusal_of(said)
    made = _seen(_detour_of(patch.raw, trampoline.raw, report), moved.raw, fields)
    made.jump = jump.raw
    return made


def detour_len(bits: int, ip: int, code: Buffer, to: int, *, returns: bool = False) -> int:
    """Returns how many bytes are enough for the trampoline of the function's `detour` at any place, at most 400: so room for it can be reserved
    before its place is known. With `keep_endbr` reserve 4 bytes more. It is 0 if there is no detour at any place.

    Raises Refusal with BAD_MODE, TOO_LARGE (more than MAX_CODE bytes) or NO_MEMORY.

    >>> detour_len(64, 0x1000, bytes.fromhex("4883ec18 31c0 c3"), 0x2000)
    27
    """
    code = _checks.code_bytes("code", code)
    bits, ip, to = _checks.number("bits", bits, _checks.U32), _checks.number("ip", ip), _checks.number("to", to)
    said = _native.detour_len(bits, ip, code, len(code), to, Start.MOVED, _RULE_RETURNS if returns else 0)
    if said < 0:
        raise refusal_of(said)
    return said


def detour(
    bits: int,
    ip: int,
    code: Buffer,
    to: int,
    place: int,
    start: int = Start.MOVED,
    *,
    entries: Optional[Iterable[int]] = None,
    whole: bool = False,
    returns: bool = False,
    calls: bool = True,
    keep_endbr: bool = False,
    padding: Optional[Buffer] = None,
    unlisted: bool = False,
) -> Detour:
    """Makes the patch and the trampoline that hook the function at address `ip`.

    `code` has the bytes of the function from its first one. Give the whole function: a branch into the overwritten bytes is found in `code`
    alone. `to` is the address of the replacement. `place` is the address at which the trampoline will be placed; within 2 gigabytes of the
    function the jump has 5 bytes. `start` is a `Start`. Nothing is written to the function.

    The jump is the first form that reaches: a near jump; a near jump to a relay after the trampoline; 14 bytes with the address.

    With `entries` or a rule, the function is looked at too, as `look` does, and refused if control is seen to enter the overwritten bytes. An
    operand at RIP or EIP then keeps its address, even in the overwritten bytes. `entries` are further offsets at which control comes in, perhaps
    none; those outside the code are ignored. The rules: with `whole` a function is refused if not everything is seen (UNSEEN). With `returns` a
    near call that is the last moved instruction pushes its own return address and jumps, where it can. Without `calls` any other moved call is
    refused (CALLS). docs/hooks.md has more about them.

    With `keep_endbr` an ENDBR at the start of the function stays, so that calls through pointers keep working under indirect-branch tracking: the
    patch is for the byte behind it, and the trampoline begins with it too. `padding` are the bytes directly in front of a function that is too
    small for the jump: a short jump goes to a near jump over their last bytes. Both look at the function as the rules do; one of them can be asked for.

    With `unlisted` also instructions that the opcode table leaves out are taken and followed, as far as `measure` measures them: one that is taken
    is moved whole, with its number at RIP set so that it refers to the same address, or to the moved instruction that began there. It can be asked
    for without entries, rules and other forms.

    Raises Refusal with a report and BAD_MODE, BAD_START, TOO_LARGE (more than MAX_CODE bytes), SMALL, ENDS, ENTERED, WRAPS, TOO_FAR or NO_MEMORY,
    and InvalidCode or TooShort if the bytes to be overwritten are not instructions. With `entries` or a rule also with OVERLAPS,
    CALLS or UNSEEN, and with `padding` with PADDING. Raises ValueError with both `keep_endbr` and `padding`, or with `unlisted` and any of entries,
    rules and other forms.

    >>> try:
    ...     detour(64, 0x1000, bytes.fromhex("31c0 ffc0 39f8 72fa c3"), 0x2000, 0x3000)
    ... except Refusal as refusal:
    ...     print(refusal)
    control may enter the bytes to be overwritten: from offset 6, to offset 2
    >>> try:
    ...     detour(64, 0x1000, bytes.fromhex("488b07 4889c1 62f17c4828c1 ebf5 c3"), 0x2000, 0x3000, whole=True)
    ... except Refusal as refusal:
    ...     print(refusal)
    control cannot be followed through the whole function: at offset 6 no instruction of the table begins
    >>> detour(32, 0x1000, bytes.fromhex("56 e800010000 81c600200000 c3"), 0x2000, 0x9000, returns=True, calls=False).trampoline.hex()
    '566806100000e9fb80ffff'
    >>> made = detour(64, 0x1000, bytes.fromhex("f30f1efa 4883ec18 31c0 c3"), 0x2000, 0x3000, keep_endbr=True)
    >>> made.kept, made.patch.hex(), made.trampoline.hex()
    (4, 'e9f70f0000cc', 'f30f1efa4883ec1831c0e9fbdfffff')
    >>> detour(64, 0x1000, bytes.fromhex("62f17d48ef0510000000 c3"), 0x2000, 0x3000, unlisted=True).trampoline.hex()
    '62f17d48ef0510e0ffffe9fbdfffff'
    >>> try:
    ...     detour(64, 0x1000, bytes.fromhex("488b07 4889c1 62f17c4828c1 ebf5 c3"), 0x2000, 0x3000, unlisted=True)
    ... except Refusal as refusal:
    ...     print(refusal)
    control may enter the bytes to be overwritten: from offset 12, to offset 3
    >>> made = detour(64, 0x1000, bytes.fromhex("89f8 c3"), 0x2000, 0x3000, padding=b"\\xcc" * 5)
    >>> made.jump.hex(), made.patch.hex()
    ('e900100000', 'ebf9')
    """
    code = _checks.code_bytes("code", code)
    bits, ip = _checks.number("bits", bits, _checks.U32), _checks.number("ip", ip)
    to, place = _checks.number("to", to), _checks.number("place", place)
    start = _checks.number("start", start, _checks.U32)
    function = (bits, ip, code, len(code), to, place, start)
    rules = (_RULE_WHOLE if whole else 0) + (_RULE_RETURNS if returns else 0) + (0 if calls else _RULE_NO_CALLS)
    if unlisted and (entries is not None or rules or keep_endbr or padding is not None):
        raise ValueError("unlisted can be asked for without entries, rules and other forms")
    if keep_endbr and padding is not None:
        raise ValueError("keep_endbr and padding are two forms of a hook: ask for one")
    if keep_endbr:
        return _keeping_endbr(function, () if entries is None else entries, rules)
    if padding is not None:
        return _through_padding(function, _checks.code_bytes("padding", padding), () if entries is None else entries, rules)
    if entries is None and not rules:
        return _without_rules(function, unlisted)
    return _by_rules(function, () if entries is None else entries, rules)
