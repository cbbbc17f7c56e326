#!/usr/bin/env python3
"""Makes a routine of the first lines of a listing, with labels for the branches inside it.

    bench/routine_texts.py LISTING LINES asm|free

LISTING is what `listing_program list BITS 0 intel` prints. With `asm` the lines are as the listing has them, but for the names of labels; with `free` they
are as people write them: no blank after a comma, no size beside a register, other names of conditions, and three of ten in capitals.
"""
import random
import re
import sys

NAMES = {"je": "jz", "jne": "jnz", "jb": "jc", "jae": "jnc", "ja": "jnbe", "sete": "setz", "setne": "setnz", "cmove": "cmovz", "cmovne": "cmovnz"}
PREFIXES = ("lock", "rep", "repne", "o16", "o32", "o64", "a16", "a32", "a64", "cs", "ds", "es", "fs", "gs", "ss")
SIZED = ("mov", "add", "or", "adc", "sbb", "and", "sub", "xor", "cmp", "test", "xchg", "imul", "cmovz", "cmovnz", "bsf", "bsr")
REGISTER = re.compile(r"(r[a-ds]?[a-z0-9]{1,2}[dwb]?|e[a-z]{2}|[a-d][lhx]|[sd]il?|[sb]pl?)")


def free_text(text, choice):
    """The text of an instruction as people write it."""
    name, _, operands = text.partition(" ")
    if name in PREFIXES:
        return text
    name, operands = NAMES.get(name, name), operands.replace(", ", ",")
    plain = re.sub(r"\[[^\]]*\]", "", operands).split(",")
    if name in SIZED and any(REGISTER.fullmatch(word) for word in plain):
        operands = re.sub(r"\b[a-z]*(word|byte) ", "", operands)
    if choice < 0.3:
        name = name.upper()
        if ".L" not in operands:
            operands = operands.upper().replace("0X", "0x")
    return f"{name} {operands}".rstrip()


def main():
    path, count, style = sys.argv[1], int(sys.argv[2]), sys.argv[3]
    with open(path, encoding="ascii") as file:
        lines = [(int(line[:16], 16), line[48:].rstrip("\n")) for line, _ in zip(file, range(count))]
    starts = {start for start, _ in lines}
    near = [re.fullmatch(r"(?:j\w+|call|loop\w*) 0x([0-9a-f]+)", text) for _, text in lines]
    goals = {int(found[1], 16) for found in near if found} & starts
    chance = random.Random(1)
    for (start, text), found in zip(lines, near):
        if found and int(found[1], 16) in goals:
            text = f"{text.split()[0]} .L{found[1]}"
        if style == "free":
            text = free_text(text, chance.random())
        print(f".L{start:x}: {text}" if start in goals else text)


if __name__ == "__main__":
    main()
