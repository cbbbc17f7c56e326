#!/usr/bin/env python3
"""Reports the general registers and flags that are dead at each address of a function: their values there are never read again.

    liveness.py FILE [BITS [BASE]]      FILE has the bytes of the function; BITS is 16, 32 or 64, BASE is hexadecimal
    liveness.py FILE FUNCTION           a function of an ELF file, by name or by an address such as 0x401000 (needs pyelftools)

A hook or an instrumentation may use what is dead at an address without saving it. If in doubt, the program reports a register or flag as
live:

 - Everything is live at a call, a return, an interrupt, a system call, and where control leaves the bytes or goes to an unknown target. No
   calling convention is assumed. (So a flag is dead only if a later instruction certainly overwrites it.)
 - A register is overwritten by a write of the whole register. In 64-bit code this includes a write of its low 32 bits. A write of a part
   does not count, nor a write that a condition, a mask or a counter may suppress. A flag is overwritten if it always receives a value or
   becomes undefined.
 - An instruction reads what its operands name, even if the result does not depend on it, as in `xor eax, eax`.

Control is followed from the first byte. Code that only an indirect jump reaches is not analysed, and everything is live at that jump. Reads by
a debugger or a signal handler are not considered.
"""

import os
import sys
from dataclasses import dataclass

try:
    import feddurzai
except ImportError:
    sys.path.insert(0, os.path.join(os.path.dirname(os.path.abspath(__file__)), "..", "python"))
    import feddurzai
from feddurzai import Flags, Flow, Instr, RegClass, Register, Touch

FLAGS = {name: Flags[name] for name in ("OF", "DF", "SF", "ZF", "AF", "PF", "CF")}
LEAVES = (Flow.CALL, Flow.INDIRECT_CALL, Flow.RETURN, Flow.INDIRECT_JUMP, Flow.INTERRUPT, Flow.EXCEPTION)


def places_of(bits):
    """All registers and flags that are tracked: general registers as their widest registers, and flags."""
    return {Register(RegClass.R64, n) for n in range(16 if bits == 64 else 8)} | set(FLAGS)


@dataclass(frozen=True)
class Step:
    """An instruction: what it reads, what it certainly overwrites, and its successors; a successor of None leaves the code."""

    item: Instr
    reads: frozenset
    overwrites: frozenset
    behind: tuple


def step_of(item, reached, everything):
    """The step for an item."""
    if not isinstance(item, Instr):
        return Step(item, everything, frozenset(), ())
    about, told = item.info(), item.effects()
    whole = (RegClass.R64, RegClass.R32) if item.bits == 64 else (RegClass.R32,)
    reads = {use.register.full() for use in told.registers if use.access & (Touch.READ | Touch.MAY_READ)}
    overwrites = {use.register.full() for use in told.registers if use.access & Touch.WRITE and use.register.reg_class in whole}
    reads |= {name for name, flag in FLAGS.items() if told.flags_read & flag}
    surely = (told.flags_written | told.flags_undefined) & ~told.flags_kept
    overwrites |= {name for name, flag in FLAGS.items() if surely & flag}
    if about.flow in LEAVES:
        return Step(item, everything, frozenset(), ())
    behind = [] if about.flow is Flow.JUMP else [(item.address + item.len) % (1 << item.bits)]
    if about.target is not None:
        behind.append(about.target)
    return Step(item, everything & reads, everything & overwrites, tuple(to if to in reached else None for to in behind))


def liveness(bits, start, code):
    """The steps of a function in ascending order, each with the registers and flags that are dead before it."""
    everything = frozenset(places_of(bits))
    items = {}
    for reached in feddurzai.flow(bits, start, code):
        item = next(feddurzai.iterate(bits, (start + reached.start) % (1 << bits), code[reached.start : reached.start + 15]))
        items[item.address] = item
    steps = {address: step_of(item, items, everything) for address, item in items.items()}
    live = {address: frozenset() for address in steps}
    changed = True
    while changed:
        changed = False
        for address in sorted(steps, reverse=True):
            step = steps[address]
            after = frozenset().union(*(everything if to is None else live[to] for to in step.behind))
            before = step.reads | (after - step.overwrites)
            changed |= before != live[address]
            live[address] = before
    return [(steps[address], everything - live[address]) for address in sorted(steps)]


def name_of(register, bits):
    """The name of a general register, as wide as the mode."""
    return str(register if bits == 64 else Register(RegClass.R32, register.number))


def main(words):
    file, *rest = words
    if rest and rest[0] not in ("16", "32", "64"):
        from feddurzai.inspector.elf import BadFile, open_program

        try:
            program = open_program(file)
            function = program.find(rest[0])
        except BadFile as error:
            raise LookupError(f"{file}: {error}") from None
        bits, start, code = program.bits, function.start, program.code_of(function)
    else:
        bits, start = int((rest or ["64"])[0]), int(rest[1], 16) if len(rest) > 1 else 0
        with open(file, "rb") as source:
            code = source.read()
    for step, dead in liveness(bits, start, code):
        registers = sorted((it for it in dead if isinstance(it, Register)), key=lambda it: it.number)
        flags = [name for name in FLAGS if name in dead]
        free = " ".join([*(name_of(it, bits) for it in registers), *flags])
        print(f"{step.item.address:0{bits // 4}x}  {step.item.text():40} {free}".rstrip())


if __name__ == "__main__":
    if not 2 <= len(sys.argv) <= 4:
        sys.exit(__doc__)
    try:
        main(sys.argv[1:])
    except (OSError, ValueError, LookupError, feddurzai.Refusal) as error:
        sys.exit(f"liveness.py: {error.args[0] if isinstance(error, LookupError) else error}")
