"""Places for moved code."""

import struct
from typing import List, NamedTuple

from . import _checks, _native
from ._checks import Buffer
from ._numbers import Reason
from ._refusal import refusal_of, taken


class Live(NamedTuple):
    """A live block of a region: its address, and its size in bytes.

    >>> region = Region(0x10000, 64)
    >>> region.reserve(17), region.live
    (65536, [Live(place=65536, len=32)])
    """

    place: int
    len: int


_REGION = struct.Struct("=3Q")
_LIVE = struct.Struct("=2Q")


class Region:
    """A fixed range of addresses from which blocks of code are allocated, first fit. `image` has the bytes of the range, CC (INT3) outside the
    code of live blocks.

    `base` is the first address. `size` is a multiple of 16 from 16 to 1048576. `most` is the largest number of live blocks, 1 to 65536. The
    range ends at 2**64 or before. Otherwise the constructor raises Refusal with BAD_REGION. Do not change a region from two threads at once.

    >>> region = Region(0x10000, 64)
    >>> place = region.reserve(2)
    >>> region.fill(place, b"\\x90\\xc3")
    >>> hex(place), region.image[:4].hex()
    ('0x10000', '90c3cccc')
    """

    def __init__(self, base: int, size: int, most: int = 64) -> None:
        self.base, self.size = _checks.number("base", base), _checks.number("size", size)
        self._most = _checks.number("most", most, 65536)
        if not self.size or self.size % 16 or self.size > _native.MAX_CODE or not self._most or self.base + self.size > 1 << 64:
            raise refusal_of(Reason.BAD_REGION)
        self._region = _native.room_of(_REGION.size)()
        self._region.raw = _REGION.pack(self.base, self.size, 0)
        self._live = _native.room_of(self._most * _LIVE.size)()
        self._image = _native.room_of(self.size)()
        self._image.raw = b"\xcc" * self.size

    def __repr__(self) -> str:
        return f"<Region {self.base:#x}: {self.size} bytes, {len(self.live)} live>"

    @property
    def live(self) -> List[Live]:
        """The live blocks, by address.

        >>> region = Region(0x10000, 64)
        >>> region.reserve(17), region.live
        (65536, [Live(place=65536, len=32)])
        """
        count = _REGION.unpack(self._region.raw)[2]
        return [Live(*row) for row in _LIVE.iter_unpack(self._live.raw[: count * _LIVE.size])]

    @property
    def image(self) -> bytes:
        """A copy of the bytes of the range.

        >>> Region(0x10000, 64).image == 64 * b"\\xcc"
        True
        """
        return bytes(self._image.raw)

    def reserve(self, len: int) -> int:
        """Allocates a block of `len` bytes, rounded up to a multiple of 16, in the lowest gap that is long enough. Returns its address.

        Raises Refusal with EMPTY (`len` is 0), NO_ROOM (`most` blocks are live) or FULL.

        >>> try:
        ...     Region(0x10000, 64).reserve(65)
        ... except Refusal as refusal:
        ...     print(refusal)
        no gap of the region is long enough: release a block or ask for fewer bytes
        """
        place = _native.room_of(8)()
        taken(_native.region_reserve(self._region, self._live, self._most, _checks.number("len", len), place))
        return int.from_bytes(place.raw, "little")

    def fill(self, place: int, code: Buffer) -> None:
        """Writes code to the front of the live block that starts at `place`, and CC to the rest of the block.

        Raises Refusal with NOT_LIVE or NO_ROOM (the block has fewer bytes).

        >>> region = Region(0x10000, 64)
        >>> region.fill(region.reserve(3), b"\\xeb\\xfe")
        >>> region.image[:4].hex()
        'ebfecccc'
        """
        code = _checks.code_bytes("code", code)
        place = _checks.number("place", place)
        taken(_native.region_fill(self._region, self._live, self._most, place, code, len(code), self._image, self.size))

    def release(self, place: int) -> None:
        """Frees the live block that starts at `place`, and sets its bytes to CC. Raises Refusal with NOT_LIVE.

        >>> region = Region(0x10000, 64)
        >>> region.release(region.reserve(1))
        >>> region.live
        []
        """
        place = _checks.number("place", place)
        taken(_native.region_fill(self._region, self._live, self._most, place, b"", 0, self._image, self.size))
        taken(_native.region_release(self._region, self._live, self._most, place))
