"""The shared library: its location, and the types of its functions."""

from __future__ import annotations

import ctypes
import os
from typing import Any, Callable, List, Tuple, Type

# the interface of the header for which this package is written
INTERFACE = 12

MAX_LEN = 15
MAX_JUMP = 16
MAX_TEXT = 161
MAX_PIECES = 40
MAX_CODE = 1 << 20
MAX_FLOW = 1 << 24
MAX_MOVED = 1 << 16
MAX_STEP = 53
NAME_ROOM = 17
NOTATION_ROOM = 65
KIND_ROOM = 6

SONAME = f"libfeddurzai.so.{INTERFACE}"
_HERE = os.path.dirname(os.path.abspath(__file__))


def _places() -> List[str]:
    """The file to load: that of FEDDURZAI_LIBRARY, else the first that exists, else the soname, which the system's loader resolves."""
    named = os.environ.get("FEDDURZAI_LIBRARY")
    if named:
        return [named]
    beside = [
        os.path.join(_HERE, SONAME),  # installed by pip
        os.path.join(_HERE, "..", "..", "out", "libfeddurzai.so"),  # in the clone, built by build.sh
        os.path.join(_HERE, "..", "..", "..", "..", "lib", SONAME),  # in a prefix, installed by install.sh
    ]
    return [os.path.normpath(place) for place in beside if os.path.exists(place)][:1] or [SONAME]


def _load() -> Tuple[ctypes.CDLL, ctypes.PyDLL]:
    (place,) = _places()
    try:
        return ctypes.CDLL(place), ctypes.PyDLL(place)
    except OSError as error:
        words = "build it with capi/build.sh, or set the environment variable FEDDURZAI_LIBRARY to its file"
        raise ImportError(f"cannot load Feddurzai's shared library ({error}): {words}") from None


def room_of(size: int) -> Type[ctypes.Array[ctypes.c_char]]:
    """The type of a buffer of `size` bytes."""
    return ctypes.c_char * size


TextRoom = room_of(MAX_TEXT)


class Rooms:
    """Buffers of one size that are used again. Who needs one takes it out and gives it back, so that no two threads have the same one."""

    def __init__(self, size: int) -> None:
        self._type = room_of(size)
        free: List[Tuple[Any, Any]] = []
        self._pop, self.give = free.pop, free.append

    def take(self) -> Tuple[Any, Any]:
        """A buffer, and a reference to it for a function of `_bare`. The buffer may hold what an earlier call left."""
        try:
            return self._pop()
        except IndexError:
            room = self._type()
            return room, ctypes.byref(room)


# short calls keep the interpreter's lock, because releasing it costs more than they take; long calls release it
_long, _short = _load()
_u8, _u32, _u64, _size, _at = ctypes.c_uint8, ctypes.c_uint32, ctypes.c_uint64, ctypes.c_size_t, ctypes.c_void_p


def _call(library: ctypes.CDLL, name: str, *types: type, result: type = ctypes.c_int32) -> Callable[..., int]:
    call = getattr(library, "feddurzai_" + name)
    call.argtypes = types
    call.restype = result
    taken: Callable[..., int] = call
    return taken


def _bare(library: ctypes.CDLL, name: str) -> Callable[..., int]:
    """A function without types of its arguments, because to check and convert these takes longer than a short call. Each argument must be an int of
    32 bits, bytes, a reference of `Rooms`, or a c_size_t."""
    call = library["feddurzai_" + name]
    call.restype = ctypes.c_int32
    taken: Callable[..., int] = call
    return taken


interface = _call(_short, "interface", result=_u32)
if interface() != INTERFACE:
    raise ImportError(
        f"Feddurzai's shared library ({_long._name}) has interface {interface()}, but this package needs {INTERFACE}: install both from one version"
    )
version = _call(_short, "version", result=_u32)
decode = _call(_short, "decode", _u32, _u64, _at, _size, _at)
decode_many = _call(_long, "decode_many", _u32, _u64, _at, _size, _at, _size, _at)
offsets = _call(_short, "offsets", _u32, _at, _size, _at)
measure = _call(_short, "measure", _u32, _at, _size, _at)
line = _call(_short, "line", _u32, _u32, _u64, _at, _size, _at, _at, _size)
text = _call(_short, "text", _u32, _u32, _at, _at, _size)
bare_text = _bare(_short, "text")
bare_pieces = _bare(_short, "pieces")
format_code = _call(_short, "format_code", _u32, _u32, _at, _at, _size, _at, _u64, _at, _size, _u64, _at, _size)
encode = _call(_short, "encode", _u32, _u64, _at, _at, _size)
encoded_len = _call(_short, "encoded_len", _u32, _u64, _at)
assemble = _call(_short, "assemble", _u32, _u64, _at, _size, _at, _size)
read_intel = _call(_short, "read_intel", _u32, _u64, _at, _size, _at)
assemble_code = _call(_long, "assemble_code", _u32, _u64, _at, _size, _at, _size, _at, _size, _at, _size, _at)
assemble_code_near = _call(_long, "assemble_code_near", _u32, _u64, _at, _size, _at, _size, _at, _size, _at, _size, _at)
jump = _call(_short, "jump", _u32, _u64, _u64, _u32, _at, _size)
bare_info = _bare(_short, "info")
bare_effects = _bare(_short, "effects")
full_register = _call(_short, "full_register", _u8, _u8)
feature_name = _call(_short, "feature_name", _u32, _at, _size)
name = _call(_short, "name", _u32, _at, _size)
notation = _call(_short, "notation", _u32, _at, _size)
row_operand = _call(_short, "row_operand", _u32, _u32, _at, _at, _size)
code_of = _call(_short, "code_of", _at, _size, _size)
register_text = _call(_short, "register_text", _u32, _u8, _u8, _at, _size)
segment_text = _call(_short, "segment_text", _u32, _u8, _at, _size)
move = _call(_long, "move", _u32, _u64, _at, _size, _u64, _at, _size, _at, _size, _at)
move_outside = _call(_long, "move_outside", _u32, _u64, _at, _size, _u64, _at, _size, _at, _size, _at)
move_unlisted = _call(_long, "move_unlisted", _u32, _u64, _at, _size, _u64, _at, _size, _at, _size, _at)
move_blocks = _call(_long, "move_blocks", _u32, _at, _size, _at, _size, _at, _size, _at, _size, _at, _size, _at)
region_reserve = _call(_short, "region_reserve", _at, _at, _size, _u64, _at)
region_release = _call(_short, "region_release", _at, _at, _size, _u64)
region_fill = _call(_short, "region_fill", _at, _at, _size, _u64, _at, _size, _at, _size)
step = _call(_short, "step", _u32, _u64, _at, _size, _u64, _at, _size, _at)
step_len = _call(_short, "step_len", _u32, _u64, _at, _size, _u64)
look = _call(_long, "look", _u32, _u64, _at, _size, _at, _size, _u64, _at, _size, _u32, _at)
step_call = _call(_short, "step_call", _u32, _u64, _at, _size, _u64, _at, _size, _at)
step_unlisted = _call(_short, "step_unlisted", _u32, _u64, _at, _size, _u64, _at, _size, _at)
detour = _call(_long, "detour", _u32, _u64, _at, _size, _u64, _u64, _u32, _at, _size, _at, _size, _at)
detour_unlisted = _call(_long, "detour_unlisted", _u32, _u64, _at, _size, _u64, _u64, _u32, _at, _size, _at, _size, _at)
detour_with = _call(
    *(_long, "detour_with", _u32, _u64, _at, _size, _u64, _u64, _u32, _u32, _at, _size),
    *(_at, _size, _at, _size, _at, _size, _at),
)
detour_len = _call(_long, "detour_len", _u32, _u64, _at, _size, _u64, _u32, _u32)
detour_endbr = _call(
    *(_long, "detour_endbr", _u32, _u64, _at, _size, _u64, _u64, _u32, _u32, _at, _size),
    *(_at, _size, _at, _size, _at, _size, _at),
)
detour_padding = _call(
    *(_long, "detour_padding", _u32, _u64, _at, _size, _at, _size, _u64, _u64, _u32, _u32, _at, _size),
    *(_at, _size, _at, _size, _at, _size, _at, _size, _at),
)
flow_from = _call(_long, "flow_from", _u32, _u64, _at, _size, _at, _size, _at, _size, _at, _size, _at, _size)
flow_unlisted = _call(_long, "flow_unlisted", _u32, _u64, _at, _size, _at, _size, _at, _size, _at, _size, _at, _size)
