#!/usr/bin/env python3
"""Assembles a function, places it in memory and calls it: a loop with a table of constants, which counts the bits that are 1 in some bytes.

Linux on x86-64. The program prints each line of the listing and compares the counts with Python's.
"""

import ctypes
import mmap
import os
import sys

try:
    import feddurzai
except ImportError:
    sys.path.insert(0, os.path.join(os.path.dirname(os.path.abspath(__file__)), "..", "python"))
    import feddurzai

# uint64_t ones(const uint8_t *bytes, uint64_t count), by a table of the ones in half a byte
TEXT = """
        xor eax, eax
        lea rcx, [rip+counts]
        test rsi, rsi
        jz done
next:   movzx edx, byte [rdi]
        mov r8d, edx
        and edx, 15
        shr r8d, 4
        movzx edx, byte [rcx+rdx]
        add rax, rdx
        movzx edx, byte [rcx+r8]
        add rax, rdx
        inc rdi
        dec rsi
        jnz next
done:   ret
counts: db 0, 1, 1, 2, 1, 2, 2, 3, 1, 2, 2, 3, 2, 3, 3, 4
"""


def placed(text):
    """A page that begins with the routine, and the routine."""
    page = mmap.mmap(-1, mmap.PAGESIZE, prot=mmap.PROT_READ | mmap.PROT_WRITE | mmap.PROT_EXEC)
    made = feddurzai.assemble_code(64, ctypes.addressof(ctypes.c_char.from_buffer(page)), text)
    page.write(made.code)
    return page, made


def main():
    page, made = placed(TEXT)
    base, table = ctypes.addressof(ctypes.c_char.from_buffer(page)), made.labels["counts"]
    names = {address: name for name, address in made.labels.items()}
    for item in feddurzai.iterate(64, base, made.code[: table - base]):
        print(f"{names.get(item.address, ''):6} {item}")
    ones = ctypes.CFUNCTYPE(ctypes.c_uint64, ctypes.c_char_p, ctypes.c_uint64)(base)
    samples = [b"", b"\x00", b"\xff", bytes(range(256)), b"a table of constants"]
    if any(ones(sample, len(sample)) != bin(int.from_bytes(sample, "big")).count("1") for sample in samples):
        sys.exit("a count differs")
    print(f"{len(made.code)} bytes count right")


if __name__ == "__main__":
    main()
