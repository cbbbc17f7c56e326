"""The texts of instructions that the opcode table leaves out: objdump's own, where it is installed."""

from __future__ import annotations

import os
import re
import shutil
import subprocess
import tempfile
from typing import Dict, Iterable, Optional

from feddurzai import Reference, Style, Unlisted

MACHINES = {32: "i386", 64: "i386:x86-64"}
# follows each instruction in the file that objdump reads: the longest instruction has 15 bytes, so however objdump reads one, it reads the next from its
# first byte on
_APART = 15 * b"\x90"
_LINE = re.compile(r"^ *([0-9a-f]+):\t((?:[0-9a-f]{2} )+) *\t(.+)$", re.M)


def _texts_of(bits: int, style: int, codes: Iterable[bytes]) -> Dict[bytes, str]:
    """What objdump prints for some instructions, all in one run. One that objdump does not know, or reads with another length, is left out."""
    places: Dict[int, bytes] = {}
    image = bytearray()
    for code in codes:
        places[len(image)] = code
        image += code + _APART
    with tempfile.TemporaryDirectory() as folder:
        path = os.path.join(folder, "code")
        with open(path, "wb") as file:
            file.write(image)
        words = ["objdump", "-D", "-w", "-z", "-b", "binary", "-m", MACHINES[bits], "-M", "att" if style == Style.ATT else "intel", path]
        try:
            done = subprocess.run(words, env={**os.environ, "LC_ALL": "C"}, stdout=subprocess.PIPE, stderr=subprocess.DEVNULL, check=False)
        except OSError:
            return {}
    found = {}
    for at, hex_, text in _LINE.findall(done.stdout.decode("ascii", "replace")):
        code = bytes.fromhex(hex_)
        if places.get(int(at, 16)) == code and "(bad)" not in text:
            # an address after # belongs to the file that objdump reads
            found[code] = " ".join(text.partition("#")[0].split())
    return found


class Unlisteds:
    """The texts of instructions without a row, in a style; MASM has objdump's Intel texts. What objdump has read is kept.

    The text of an instruction is its kind in brackets, then what objdump prints, or without it the bytes.
    """

    def __init__(self, bits: int, style: int) -> None:
        self.bits, self.style = bits, style
        self.by_objdump = shutil.which("objdump") is not None
        self._known: Dict[bytes, Optional[str]] = {}

    def read(self, items: Iterable[object]) -> None:
        """Has objdump read those of some items that are instructions without a row, all in one run."""
        if not self.by_objdump:
            return
        new = {it.bytes: None for it in items if isinstance(it, Unlisted) and it.bytes not in self._known}
        if new:
            self._known.update(new)
            self._known.update(_texts_of(self.bits, self.style, new))

    def text(self, item: Unlisted) -> str:
        """The text of an instruction."""
        words = self._known.get(item.bytes)
        if words is None:
            return item.text()
        if item.shape.reference is Reference.BRANCH and item.target is not None:
            words = re.sub(r"0x[0-9a-f]+$", f"{item.target:#x}", words)
        return f"({item.shape.kind.name.lower()}) {words}"
