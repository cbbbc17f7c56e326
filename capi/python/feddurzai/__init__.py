"""Decodes, encodes, prints, analyses and relocates x86 machine code (16, 32 and 64-bit).

    >>> import feddurzai
    >>> code = bytes.fromhex("48895c2410 e8f60f0000 c3")
    >>> for item in feddurzai.iterate(64, 0x401000, code):
    ...     print(hex(item.address), item.bytes.hex(), item)
    0x401000 48895c2410 mov qword [rsp+0x10], rbx
    0x401005 e8f60f0000 call 0x402000
    0x40100a c3 ret

`decode` decodes one instruction, and `iterate` all instructions of some bytes. An `Instr` has an address, bytes, operands, a text and its pieces;
`info` reports its flow and operand access, and `effects` everything that it touches. `Instr(code, operands..)` constructs one, and `encode`
returns its bytes. `assemble_code` assembles a routine of lines with labels. `move` relocates code, `flow` follows control, `detour` makes both
parts of a hook, and `StepSlots` makes slots for displaced single stepping. `Code` has the codes of common instructions.

`measure` returns the length of an instruction that the opcode table leaves out, such as one of AVX-512.

`bits`, the mode, is 16, 32 or 64. Addresses are 0 to 2**64 - 1. A number out of range raises ValueError, and a value of another type
TypeError, before the library is called. If the library refuses a call, it raises `Refusal`, whose `reason` says why. Enumerations print their
names: `str(Flow.NEXT)` is `Flow.NEXT`. The functions keep no state, so several threads may call them.
"""

from ._blocks import Block, MovedBlock, move_blocks
from ._calls import (
    Moved,
    MovedCode,
    Reached,
    RowOperand,
    assemble,
    code_of,
    codes_of,
    decode,
    effects,
    encode,
    encoded_len,
    flow,
    info,
    is_proved,
    iterate,
    jump,
    line,
    move,
    move_outside,
    name,
    notation,
    read_intel,
    row_operand,
    segment_text,
    text,
    version,
)
from ._codes import Code
from ._detours import Detour, MovedStart, detour, detour_len
from ._effects import Effects, MemoryUse, RegisterUse
from ._format import GNU, GNU_ATT, Options
from ._items import BadByte, Instr, Item, Rest
from ._native import INTERFACE, MAX_CODE, MAX_FLOW, MAX_STEP
from ._numbers import (
    Access,
    Cause,
    DetourForm,
    Digits,
    Flags,
    Flow,
    Form,
    ItemKind,
    Jump,
    Letters,
    OperandKind,
    PieceKind,
    Reason,
    Reference,
    RegClass,
    Repeat,
    Role,
    Segment,
    Sight,
    Start,
    StartRule,
    Style,
    SymbolPlace,
    Touch,
    UnlistedKind,
)
from ._offsets import Offsets, Part, offsets
from ._operands import Far, Immediate, Memory, Near, Operand, Register, register, registers
from ._pieces import Piece
from ._refusal import BlocksReport, DetourReport, InvalidCode, MoveReport, Refusal, RoutineReport, StepReport, TooShort
from ._region import Live, Region
from ._routines import Routine, assemble_code
from ._sight import Passage, View, look
from ._steps import Step, StepCall, StepSlot, StepSlots, step, step_call, step_len
from ._info import About, Use
from ._unlisted import Shape, Unlisted, measure

__all__ = [
    "About",
    "Access",
    "BadByte",
    "Block",
    "BlocksReport",
    "Cause",
    "Code",
    "Detour",
    "DetourForm",
    "DetourReport",
    "Digits",
    "Effects",
    "Far",
    "Flags",
    "Flow",
    "Form",
    "GNU",
    "GNU_ATT",
    "INTERFACE",
    "Immediate",
    "Instr",
    "InvalidCode",
    "Item",
    "ItemKind",
    "Jump",
    "Letters",
    "Live",
    "MAX_CODE",
    "MAX_FLOW",
    "MAX_STEP",
    "Memory",
    "MemoryUse",
    "MoveReport",
    "Moved",
    "MovedBlock",
    "MovedCode",
    "MovedStart",
    "Near",
    "Offsets",
    "Operand",
    "OperandKind",
    "Options",
    "Part",
    "Passage",
    "Piece",
    "PieceKind",
    "Reached",
    "Reason",
    "Reference",
    "Refusal",
    "RegClass",
    "Region",
    "Register",
    "RegisterUse",
    "Repeat",
    "Rest",
    "Role",
    "Routine",
    "RoutineReport",
    "RowOperand",
    "Segment",
    "Shape",
    "Sight",
    "Start",
    "StartRule",
    "Step",
    "StepCall",
    "StepReport",
    "StepSlot",
    "StepSlots",
    "Style",
    "SymbolPlace",
    "TooShort",
    "Touch",
    "Unlisted",
    "UnlistedKind",
    "Use",
    "View",
    "assemble",
    "assemble_code",
    "code_of",
    "codes_of",
    "decode",
    "detour",
    "detour_len",
    "effects",
    "encode",
    "encoded_len",
    "flow",
    "info",
    "is_proved",
    "iterate",
    "jump",
    "line",
    "look",
    "measure",
    "move",
    "move_blocks",
    "move_outside",
    "name",
    "notation",
    "offsets",
    "read_intel",
    "register",
    "registers",
    "row_operand",
    "segment_text",
    "step",
    "step_call",
    "step_len",
    "text",
    "version",
]

# public names belong to this module, whichever file defines them
for _name in __all__:
    _public = globals()[_name]
    if callable(_public) and getattr(_public, "__module__", "").startswith(__name__):
        _public.__module__ = __name__
del _name, _public
