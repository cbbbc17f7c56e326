"""Which functions of a file can be hooked: what the patch would replace, what was seen of the function, and why a function is refused."""

from __future__ import annotations

import bisect
from typing import Any, Dict, Iterator, List, NamedTuple, Optional

import feddurzai

from . import tables
from .elf import Function, Program
from .scan import Xrefs

MASK = (1 << 64) - 1


class Answer(NamedTuple):
    """What is known of hooking a function.

    `taken` is the number of bytes that the patch replaces, and `form` the form of its jump; both are None if `cause` says why the function is
    refused. `sight` is "whole", or why and where control could not be followed. `warning` says which other code branches into the patch.
    """

    function: Function
    taken: Optional[int]
    form: Optional[str]
    cause: Optional[str]
    sight: str
    warning: Optional[str]


def sight_of(program: Program, flow: tables.Flow, function: Function) -> str:
    """"whole", or the first place at which control could not be followed."""
    limits = [(at - function.start, "an indirect jump") for at in flow.unresolved]
    for at, kind in zip(flow.starts, flow.kinds):
        if kind >= 0xFE:
            limits.append((at, "no instruction is read" if kind == 0xFF else "the bytes end"))
            break
    if not limits:
        return "whole"
    at, why = min(limits)
    return f"{why} at {at:#x}"


class Hooker:
    """Tries to hook the functions of a file."""

    def __init__(self, program: Program, xrefs: Xrefs) -> None:
        self.program, self.xrefs = program, xrefs
        self.targets = sorted(xrefs.branches)

    def _into(self, start: int, end: int) -> List[int]:
        """The targets of branches from `start` up to `end`."""
        return self.targets[bisect.bisect_left(self.targets, start) : bisect.bisect_left(self.targets, end)]

    def _warning(self, function: Function, taken: int, flow: tables.Flow) -> Optional[str]:
        """Who branches into the patch although the function's own flow does not: other functions, and cases of jump tables."""
        for target in self._into(function.start + 1, function.start + taken):
            for at in self.xrefs.branches[target]:
                if not function.start <= at < function.start + function.size:
                    return f"entered at {target - function.start:#x} from {self.program.symbol_of(at) or hex(at)}"
        for table in flow.tables:
            for target in table.targets:
                if 0 < target - function.start < taken:
                    return f"entered at {target - function.start:#x} by the jump table at {table.at:#x}"
        return None

    def answer(self, function: Function) -> Answer:
        """Whether a function can be hooked with a near trampoline."""
        code = self.program.code_of(function)
        if not code:
            return Answer(function, None, None, "no bytes in the file", "whole", None)
        if len(code) > feddurzai.MAX_CODE:
            return Answer(function, None, None, f"more than {feddurzai.MAX_CODE} bytes", "whole", None)
        flow = tables.follow(self.program, function)
        sight = sight_of(self.program, flow, function)
        mask = (1 << self.program.bits) - 1
        place = function.start + 0x1000000 & mask & ~15
        try:
            made = feddurzai.detour(self.program.bits, function.start, code, place + 0x100000 & mask, place)
        except feddurzai.Refusal as refusal:
            return Answer(function, None, None, str(refusal), sight, None)
        taken = len(made.patch)
        return Answer(function, taken, made.form.name.lower(), None, sight, self._warning(function, taken, flow))

    def answers(self) -> Iterator[Answer]:
        """The answers for all functions, by address. PLT entries are left out."""
        for _, function in sorted(self.program.functions.items()):
            if not function.name.endswith("@plt"):
                yield self.answer(function)


def as_json(answer: Answer) -> Dict[str, Any]:
    """An answer as plain data."""
    return {
        "address": answer.function.start,
        "size": answer.function.size,
        "names": list(answer.function.names),
        "taken": answer.taken,
        "form": answer.form,
        "cause": answer.cause,
        "sight": answer.sight,
        "warning": answer.warning,
    }


def line(program: Program, answer: Answer) -> str:
    """An answer as a line: address, bytes taken and form or a dash, sight, name, and the cause or warning."""
    taken = f"{answer.taken:3} {answer.form}" if answer.cause is None else "  -"
    why = answer.cause or answer.warning
    sight = "" if answer.sight == "whole" else f"  [{answer.sight}]"
    return f"{answer.function.start:0{program.bits // 4}x} {taken:13} {answer.function.name}{sight}{'' if why is None else '  ' + why}"


class Summary:
    """Counts of answers."""

    def __init__(self) -> None:
        self.functions = self.hookable = self.whole = self.warned = 0
        self.causes: Dict[str, int] = {}

    def add(self, answer: Answer) -> None:
        self.functions += 1
        self.whole += answer.sight == "whole"
        if answer.cause is None:
            self.hookable += 1
            self.warned += answer.warning is not None
        else:
            cause = answer.cause.split(":")[0]
            self.causes[cause] = self.causes.get(cause, 0) + 1

    def text(self) -> str:
        causes = "; ".join(f"{count} {cause}" for cause, count in sorted(self.causes.items(), key=lambda it: -it[1]))
        seen = f"{self.whole} seen whole"
        warned = f", {self.warned} of them entered from elsewhere" if self.warned else ""
        return f"{self.functions} functions, {self.hookable} hookable{warned}, {seen}{'; refused: ' + causes if causes else ''}"
