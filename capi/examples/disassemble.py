#!/usr/bin/env python3
"""Lists a file of raw machine code: address, bytes and text of each instruction, as `listing_program list` does.

    disassemble.py FILE [BITS [BASE [intel|att|masm]]]      BITS is 16, 32 or 64 (64 by default), BASE is hexadecimal
"""

import os
import sys

try:
    import feddurzai
except ImportError:
    sys.path.insert(0, os.path.join(os.path.dirname(os.path.abspath(__file__)), "..", "python"))
    import feddurzai
from feddurzai import ItemKind, Style


def byte_text(style, byte):
    """The text of a byte with which no instruction begins."""
    if style is Style.MASM:
        return f"db {'0' if byte >= 0xa0 else ''}{byte:x}h"
    return f"{'.byte' if style is Style.ATT else 'db'} {byte:#x}"


def lines_of(bits, ip, code, style):
    """Yields address, bytes and text of each line."""
    for item in feddurzai.iterate(bits, ip, code):
        if item.kind is ItemKind.INSTRUCTION:
            yield item.address, item.bytes, item.text(style)
            continue
        yield item.address, item.bytes[:1], byte_text(style, item.bytes[0])
        # after the first byte of a truncated instruction the listing continues
        if item.kind is ItemKind.TOO_SHORT:
            yield from lines_of(bits, (item.address + 1) % (1 << bits), item.bytes[1:], style)


def main(words):
    file, bits, base, style = (words + ["64", "0", "intel"][len(words) - 1 :])[:4]
    if bits not in ("16", "32", "64") or style not in ("intel", "att", "masm"):
        sys.exit(f"disassemble.py: BITS is {bits} and the style {style}: use 16, 32 or 64, and intel, att or masm")
    try:
        bits, base, style = int(bits), int(base, 16), Style[style.upper()]
        with open(file, "rb") as source:
            code = source.read()
    except (ValueError, OSError) as error:
        sys.exit(f"disassemble.py: {error}")
    for address, part, text in lines_of(bits, base, code, style):
        print(f"{address:0{bits // 4}x} {part.hex():30} {text}")


if __name__ == "__main__":
    if not 2 <= len(sys.argv) <= 5:
        sys.exit(__doc__)
    main(sys.argv[1:])
