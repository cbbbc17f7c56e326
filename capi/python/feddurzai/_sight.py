"""What is seen of a function before a hook overwrites its first bytes."""

import struct
from ctypes import c_uint32
from typing import Iterable, NamedTuple, Optional, Tuple

from . import _checks, _native
from ._checks import Buffer
from ._numbers import Sight, StartRule
from ._refusal import taken

# feddurzai_view: sight_at, entered_from, entered_target, inside, suspect_from, suspect_target, sight, is_entered, has_inside, has_suspect
_STRUCT = struct.Struct("=6Q4B4x")
_Room = _native.room_of(_STRUCT.size)


class Passage(NamedTuple):
    """Control that goes from the instruction at one offset to another offset.

    >>> look(64, 0x1000, bytes.fromhex("488b07 4889c1 ebfb c3"), 6, [0, 3]).entered
    Passage(start=6, target=3)
    """

    start: int
    target: int


class View(NamedTuple):
    """What `look` returns. Offsets count from the first byte of the function; None stands for what is not there.

    `sight` is WHOLE, or why sight ends at the offset `sight_at`. `entered` is the first passage into the overwritten bytes, `inside` the least
    entry within them after the first one, and `suspect` the first passage into them from bytes that control was not seen to reach, which may
    be data.

    >>> view = look(64, 0x1000, bytes.fromhex("53 488d1df9ffffff c3"), 8, [0, 1])
    >>> view.sight is Sight.WHOLE, view.entered, view.inside, view.suspect
    (True, None, None, None)
    """

    sight: Sight
    sight_at: Optional[int]
    entered: Optional[Passage]
    inside: Optional[int]
    suspect: Optional[Passage]


def shifted(view: View, by: int) -> View:
    """The view with its offsets counted from a byte that lies so many bytes before the one from which they count."""

    def both(passage: Optional[Passage]) -> Optional[Passage]:
        return None if passage is None else Passage(passage.start + by, passage.target + by)

    def one(offset: Optional[int]) -> Optional[int]:
        return None if offset is None else offset + by

    return View(view.sight, one(view.sight_at), both(view.entered), one(view.inside), both(view.suspect))


def look(
    bits: int, ip: int, code: Buffer, taken_bytes: int, moved: Iterable[int], entries: Iterable[int] = (), start: int = StartRule.CLOSED
) -> View:
    """Looks at the function at address `ip` whose first `taken_bytes` bytes a hook overwrites. docs/hooks.md says what is seen.

    `code` has the bytes of the function from its first one. `moved` are the offsets at which the instructions begin that the hook moves.
    `entries` are further offsets at which control comes in; those outside the code are ignored. `start` is a `StartRule`.

    Raises Refusal with BAD_MODE, BAD_START, TOO_LARGE (more than MAX_CODE bytes) or NO_MEMORY.

    >>> view = look(64, 0x1000, bytes.fromhex("488b07 4889c1 62f17c4828c1 ebf5 c3"), 6, [0, 3])
    >>> view.sight.name, view.sight_at, view.suspect
    ('NOT_READ', 6, Passage(start=12, target=3))
    """
    code = _checks.code_bytes("code", code)
    bits, ip = _checks.number("bits", bits, _checks.U32), _checks.number("ip", ip)
    overwritten, start = _checks.number("taken_bytes", taken_bytes), _checks.number("start", start, _checks.U32)
    chosen = [_checks.number("each of entries", entry, _checks.U32) for entry in entries]
    begins = [_checks.number("each of moved", at, _checks.U32) for at in moved]
    room = _Room()
    taken(
        _native.look(
            *(bits, ip, code, len(code), (c_uint32 * len(chosen))(*chosen), len(chosen), overwritten),
            *((c_uint32 * len(begins))(*begins), len(begins), start, room),
        )
    )
    return view_of(_STRUCT.unpack(room.raw))


def view_of(fields: Tuple[int, ...]) -> View:
    """The view of a struct of the library."""
    sight_at, entered_from, entered_target, inside, suspect_from, suspect_target, sight, is_entered, has_inside, has_suspect = fields
    return View(
        Sight(sight),
        sight_at if sight else None,
        Passage(entered_from, entered_target) if is_entered else None,
        inside if has_inside else None,
        Passage(suspect_from, suspect_target) if has_suspect else None,
    )
