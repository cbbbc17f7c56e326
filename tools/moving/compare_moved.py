#!/usr/bin/env python3
"""Compares moved code with the original code, by an independent disassembler (objdump).

    tools/moving/compare_moved.py PROGRAM BITS CODE OLD NEW

CODE is a file of raw code that decodes from end to end. PROGRAM moves it from the address OLD to NEW (hexadecimal). objdump disassembles the old and the
new code. For each instruction, by the map that PROGRAM prints, the target must be the new address of the old target or the same address, and the rest of
the instruction must be unchanged. Branches are counted by their new forms. No proof depends on this script.
"""
import collections
import re
import struct
import subprocess
import sys
import tempfile

LINE = re.compile(r"^\s*([0-9a-f]+):\t((?:[0-9a-f]{2} )+)\s*(?:\t(.*))?$")
BRANCH = re.compile(r"^(?:(bnd|notrack|cs|ds|data16|addr32|repz|repnz|es|ss|fs|gs|,pn|,pt|\s)+\s*)?(j\w+|call\w*|loop\w*)(?:,p[nt])?\s+0x([0-9a-f]+)$")
RIP = re.compile(r"#\s*0x([0-9a-f]+)")


def disassemble(bits, path, base):
    flags = {"64": "i386:x86-64", "32": "i386", "16": "i8086"}[bits]
    text = subprocess.run(["objdump", "-D", "-z", "-b", "binary", "-m", flags, "-M", "intel", "-w", "--insn-width=15", "--adjust-vma=%#x" % base, path],
                          check=True, capture_output=True, text=True).stdout
    code = {}
    for line in text.splitlines():
        match = LINE.match(line)
        if match:
            bytes_ = bytes.fromhex(match.group(2).replace(" ", ""))
            code[int(match.group(1), 16)] = (bytes_, (match.group(3) or "").split(";")[0].strip())
    return code


def near(bits, text):
    match = BRANCH.match(text)
    return (match.group(2), int(match.group(3), 16)) if match else None


def told(text):
    """A text without prefixes that have no meaning there and are not kept: objdump shows them in the padding between functions."""
    text = re.sub(r"^(?:(?:data16|cs|ds|es|ss|rex(?:\.\w+)?)\s+)+", "", text)
    text = re.sub(r"(PTR )(?:cs|ds|es|ss):", r"\1", text)
    text = " ".join(text.split())
    return {"xchg ax,ax": "nop"}.get(text, text)


def opposite(name):
    pairs = ["jo jno", "jb jae", "je jne", "jbe ja", "js jns", "jp jnp", "jl jge", "jle jg"]
    table = {}
    for pair in pairs:
        a, b = pair.split()
        table[a], table[b] = b, a
    return table[name]


def main():
    if len(sys.argv) != 6:
        sys.exit(__doc__)
    program, bits, path, old, new = sys.argv[1:]
    old_base, new_base = int(old, 16), int(new, 16)
    code = open(path, "rb").read()
    moved = subprocess.run([program, "move", bits, old, new], input=code, capture_output=True)
    if moved.returncode:
        print("move: status %d %s" % (moved.returncode, moved.stderr.decode().strip()))
        return moved.returncode
    lines = subprocess.run([program, "map", bits, old, new], input=code, capture_output=True, check=True).stdout.decode().splitlines()
    where = {}
    rows = []
    for line in lines:
        was, is_, form = line.split()
        where[int(was, 16)] = int(is_, 16)
        rows.append((int(was, 16), int(is_, 16), form))
    with tempfile.NamedTemporaryFile() as file:
        file.write(moved.stdout)
        file.flush()
        after = disassemble(bits, file.name, new_base)
    before = disassemble(bits, path, old_base)
    kinds, wrong, examples = collections.Counter(), 0, []

    def slot(at):
        return struct.unpack_from("<Q", moved.stdout, at - new_base)[0]

    def fault(row, why):
        nonlocal wrong
        wrong += 1
        if len(examples) < 10:
            examples.append("%x -> %x %s: %s | %s | %s" % (*row, before.get(row[0]), after.get(row[1]), why))

    for row in rows:
        was, is_, form = row
        if was not in before or is_ not in after:
            fault(row, "not an instruction's start for objdump")
            continue
        old_bytes, old_text = before[was]
        new_bytes, new_text = after[is_]
        branch = near(bits, old_text)
        if form == "itself":
            old_rip, new_rip = RIP.search(old_text), RIP.search(new_text)
            if old_rip:
                target = int(old_rip.group(1), 16)
                kinds["RIP operand, target " + ("moved" if target in where else "kept")] += 1
                if not new_rip or int(new_rip.group(1), 16) != where.get(target, target):
                    fault(row, "RIP target")
                if re.sub(r"\[[re]ip.*", "", old_text) != re.sub(r"\[[re]ip.*", "", new_text):
                    fault(row, "text")
            elif branch:
                fault(row, "a branch is itself")
            else:
                kinds["other"] += 1
                if told(old_text) != told(new_text):
                    fault(row, "text")
                elif old_text != new_text:
                    kinds["other, without a prefix that has no meaning"] += 1
            continue
        if not branch:
            fault(row, "no branch for objdump")
            continue
        name, target = branch
        goal = where.get(target, target)
        size = "short" if old_bytes[-2 if len(old_bytes) < 4 else 0] in range(0x70, 0x80) or len(old_bytes) <= 3 and old_bytes[-2] in (*range(0x70, 0x80), 0xeb, *range(0xe0, 0xe4)) else "near"
        grown = "" if form == size else " from " + size
        kinds["branch " + form + grown + (", target moved" if target in where else ", target kept")] += 1
        if form in ("short", "near"):
            image = near(bits, new_text)
            if image != (name, goal):
                fault(row, "near image, goal %x" % goal)
        elif form == "far":
            at = is_
            if name not in ("jmp", "call"):
                image = near(bits, new_text)
                if not image or image[0] != opposite(name) or image[1] != is_ + 8:
                    fault(row, "condition")
                at += 2
                new_bytes, new_text = after.get(at, (b"", ""))
            rip = RIP.search(new_text)
            if not rip or slot(int(rip.group(1), 16)) != goal or new_bytes[:2] != (b"\xff\x15" if name == "call" else b"\xff\x25"):
                fault(row, "slot")
        else:
            image = near(bits, new_text)
            over = is_ + len(new_bytes)
            if not image or image[0] != name or image[1] != over + 2:
                fault(row, "bridge")
            onto_bytes, onto_text = after.get(over + 2, (b"", ""))
            if form == "bridge" and near(bits, onto_text) != ("jmp", goal):
                fault(row, "bridge's jump")
            if form == "farbridge":
                rip = RIP.search(onto_text)
                if not rip or slot(int(rip.group(1), 16)) != goal:
                    fault(row, "bridge's slot")
    print("%d instructions, %d bytes, moved %d bytes" % (len(rows), len(code), len(moved.stdout)))
    for kind, count in sorted(kinds.items()):
        print("  %8d %s" % (count, kind))
    print("%d differ" % wrong)
    for example in examples:
        print("  " + example)
    return wrong != 0


if __name__ == "__main__":
    sys.exit(main())
