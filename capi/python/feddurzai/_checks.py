"""Checks of arguments before a call: types and ranges."""

from __future__ import annotations

from operator import index
from typing import Union

Buffer = Union[bytes, bytearray, memoryview]

U8, U16, U32, U64 = ((1 << bits) - 1 for bits in (8, 16, 32, 64))


def number(what: str, value: int, most: int = U64) -> int:
    """Returns an integer from 0 to `most`."""
    if type(value) is not int:
        try:
            value = index(value)
        except TypeError:
            raise TypeError(f"{what} must be an int, not {type(value).__name__}") from None
    if not 0 <= value <= most:
        raise ValueError(f"{what} must be 0 to {most:#x}, not {value:#x}")
    return value


def code_bytes(what: str, value: Buffer) -> bytes:
    """Returns the bytes of a buffer."""
    if type(value) is bytes:
        return value
    try:
        return bytes(memoryview(value))
    except TypeError:
        raise TypeError(f"{what} must be bytes, a bytearray or a memoryview, not {type(value).__name__}") from None


def front_bytes(what: str, value: Buffer, at: int, most: int) -> bytes:
    """Returns the bytes of a buffer from an offset on, at most `most`."""
    if type(value) is not bytes:
        try:
            view = memoryview(value)
        except TypeError:
            return code_bytes(what, value)
        # a large buffer is not copied for a few of its bytes
        value = view.cast("B") if view.contiguous else bytes(view)
    at = number("at", at, len(value))
    return bytes(value[at : at + most])


def word(what: str, value: str) -> str:
    """Returns a str."""
    if not isinstance(value, str):
        raise TypeError(f"{what} must be a str, not {type(value).__name__}")
    return value


def signed(what: str, value: int) -> int:
    """Returns an integer of 64 bits, signed or unsigned."""
    if type(value) is not int:
        try:
            value = index(value)
        except TypeError:
            raise TypeError(f"{what} must be an int, not {type(value).__name__}") from None
    if not -(1 << 63) <= value <= U64:
        raise ValueError(f"{what} must be -0x8000000000000000 to {U64:#x}, not {value:#x}")
    return value
