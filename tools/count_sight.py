#!/usr/bin/env python3
"""Counts what a hook of each function of a library could not see, and what else could break it.

    tools/count_sight.py [FILE ..]

The files are ELF files for x86-64 with symbols of functions, by default the C library and the C++ library. For each function that a near jump of five
bytes can overwrite, the script follows control from the first byte, and counts the functions

  - with whole sight: no indirect jump is reached, and no byte where no instruction begins;
  - with a suspect: sight is not whole, and an instruction that is read at an offset that was not reached branches into the overwritten bytes behind the
    first instruction. It need not be code;
  - with a back edge: a branch behind the overwritten instructions that goes to the start;
  - with a call, or with an operand in the overwritten bytes, among the overwritten instructions.

The script uses the Python package in capi/python over the shared library: run capi/build.sh, or set the environment variable FEDDURZAI_LIBRARY to the
file of a built library. It also needs pyelftools (Debian: python3-pyelftools).
"""

import os
import sys
from typing import Iterator, NamedTuple, Set

if "--help" in sys.argv or "-h" in sys.argv:
    print(__doc__.strip())
    sys.exit(0)

sys.path.insert(0, os.path.dirname(os.path.abspath(__file__)))
from count_hooks import ELFFile, Function, feddurzai, functions_of  # noqa: E402  (it finds the package)
from feddurzai import Flow, Reason, Refusal  # noqa: E402

FILES = ["/lib/x86_64-linux-gnu/libc.so.6", "/lib/x86_64-linux-gnu/libstdc++.so.6"]
BRANCHES = {Flow.JUMP, Flow.CONDITIONAL, Flow.CALL}
ENDS = {Flow.JUMP, Flow.INDIRECT_JUMP, Flow.RETURN, Flow.EXCEPTION}


class Branch(NamedTuple):
    at: int
    to: int
    is_call: bool


def branch_at(function: Function, at: int) -> Iterator[Branch]:
    """The direct branch that is read at an offset of the function, if there is one."""
    try:
        instr = feddurzai.decode(64, function.address + at, function.code[at : at + 15])
    except Refusal:
        return
    about = instr.info()
    if about.flow in BRANCHES and about.target is not None:
        yield Branch(at, about.target - function.address, about.flow is Flow.CALL)


def counts_of(function: Function) -> Set[str]:
    """The counts of which a function is one, or none if it cannot be hooked."""
    try:
        made = feddurzai.detour(64, function.address, function.code, function.address + 0x1000_0000, function.address + 0x1100_0000)
    except Refusal:
        return set()
    taken = made.report.taken
    reached = feddurzai.flow(64, function.address, function.code)
    counts = {"hooked"}
    whole = all(each.kind not in (Reason.INVALID, Reason.TOO_SHORT, Flow.INDIRECT_JUMP) for each in reached)
    if whole:
        counts.add("whole sight")
    else:
        starts = {each.start for each in reached}
        missed = (at for at in range(len(function.code)) if at not in starts)
        if any(0 < branch.to < taken for at in missed for branch in branch_at(function, at)):
            counts.add("a suspect")
    behind = [each.start for each in reached if each.start >= taken and each.kind in BRANCHES]
    if any(branch.to == 0 and not branch.is_call for at in behind for branch in branch_at(function, at)):
        counts.add("a back edge")
    at = 0
    while at < taken:
        instr = feddurzai.decode(64, function.address + at, function.code[at : at + 15])
        about = instr.info()
        if instr.name.startswith("call"):
            counts.add("a call")
        if about.ip_address is not None and 0 <= about.ip_address - function.address < taken:
            counts.add("an operand inside")
        if about.flow in ENDS:
            break
        at += instr.len
    return counts


def main() -> None:
    columns = ["hooked", "whole sight", "a suspect", "a back edge", "a call", "an operand inside"]
    print("| Library | Functions | " + " | ".join(column[0].upper() + column[1:] for column in columns) + " |")
    print("|" + "---|" * (len(columns) + 2))
    for path in sys.argv[1:] or FILES:
        with open(path, "rb") as file:
            elf = ELFFile(file)
            if elf["e_machine"] != "EM_X86_64":
                sys.exit(f"count_sight.py: {path} is an ELF file for {elf['e_machine']}, not for x86-64")
            functions = list(functions_of(elf))
        counts = dict.fromkeys(columns, 0)
        for function in functions:
            for count in counts_of(function):
                counts[count] += 1
        print(f"| {os.path.basename(path)} | {len(functions)} | " + " | ".join(str(counts[column]) for column in columns) + " |")


if __name__ == "__main__":
    main()
