"""The numbers of feddurzai.h as enumerations."""

from enum import EnumMeta, IntEnum, IntFlag
from typing import List

# a format of one of these types prints the number; any other prints the name
_NUMERIC = tuple("bcdeEfFgGnoxX%")


class _Listed(EnumMeta):
    """The metaclass of enumerations: help() shows their members, and not all methods of an integer."""

    def __dir__(cls) -> List[str]:
        return ["__class__", "__doc__", "__members__", "__module__", *cls.__members__]


class Named(IntEnum, metaclass=_Listed):
    """A number of feddurzai.h. It prints as its name, such as `Flow.NEXT`; `int(..)` and formats such as `:d` give the number."""

    def __str__(self) -> str:
        return f"{type(self).__name__}.{self.name}"

    def __format__(self, spec: str) -> str:
        return int.__format__(self, spec) if spec.endswith(_NUMERIC) else format(str(self), spec)


class _Bits(IntFlag, metaclass=_Listed):
    """A set of bits of feddurzai.h. It prints as the names of its members, such as `Flags.CF|ZF`, and `Flags(0)` if it is empty."""

    def __str__(self) -> str:
        kind, rest = type(self), int(self)
        names = []
        for name, member in kind.__members__.items():
            if rest & member == member:
                names.append(name)
                rest &= ~int(member)
        if not names:
            return f"{kind.__name__}({rest:#x})" if rest else f"{kind.__name__}(0)"
        return f"{kind.__name__}.{'|'.join([*names, hex(rest)] if rest else names)}"

    def __format__(self, spec: str) -> str:
        return int.__format__(self, spec) if spec.endswith(_NUMERIC) else format(str(self), spec)


class Style(Named):
    """The style of a text. docs/texts.md describes the three.

    >>> mov = decode(64, 0, bytes.fromhex("48895c2410"))
    >>> [mov.text(style) for style in Style]
    ['mov qword [rsp+0x10], rbx', 'movq %rbx, 0x10(%rsp)', 'mov qword ptr [rsp+10h], rbx']
    """

    INTEL = 0
    ATT = 1
    MASM = 2


class PieceKind(Named):
    """What a piece of a text is.

    PREFIX is a word before the mnemonic. REGISTER is also a segment before an address; in AT&T style it has its `%`. KEYWORD is any other word of
    an operand, such as `dword`. OPERATOR is `+`, `-` or `*` of an address, and in AT&T style `$` and `*` before an operand. PUNCTUATION is a comma,
    a colon, a bracket or a parenthesis.

    >>> [piece.kind.name for piece in decode(64, 0, bytes.fromhex("83c005")).pieces()]
    ['MNEMONIC', 'SPACE', 'REGISTER', 'PUNCTUATION', 'SPACE', 'NUMBER']
    """

    PREFIX = 0
    MNEMONIC = 1
    REGISTER = 2
    KEYWORD = 3
    NUMBER = 4
    OPERATOR = 5
    PUNCTUATION = 6
    SPACE = 7


class Role(Named):
    """What a number of a text is there for.

    DISPLACEMENT stands beside a base or an index. TARGET is that of a near branch. ADDRESS is that of an operand with neither base nor index, or at
    RIP or EIP. SELECTOR and OFFSET are the parts of a far pointer.

    >>> decode(64, 0x1000, bytes.fromhex("7410")).pieces()[-1].role.name
    'TARGET'
    """

    IMMEDIATE = 1
    DISPLACEMENT = 2
    SCALE = 3
    TARGET = 4
    ADDRESS = 5
    SELECTOR = 6
    OFFSET = 7


class Letters(Named):
    """Which words of a text are in upper case: see `Options`.

    >>> decode(64, 0, bytes.fromhex("c3")).format(Options(letters=Letters.UPPER_NAMES))
    'RET'
    """

    LOWER = 0
    UPPER_NAMES = 1
    UPPER_REGISTERS = 2
    UPPER_KEYWORDS = 3
    UPPER = 4


class Digits(Named):
    """How numbers of a text are written: see `Options`. STYLE writes them as the style does, the others as `0x2a`, `2Ah` and `42`.

    >>> decode(64, 0, bytes.fromhex("83c02a")).format(Options(digits=Digits.HEX_SUFFIX))
    'add eax, 2Ah'
    """

    STYLE = 0
    HEX_PREFIX = 1
    HEX_SUFFIX = 2
    DECIMAL = 3


class SymbolPlace(Named):
    """Where the symbol of a target or an address is written: see `Options`. GNU writes that of a target BEHIND, and that of memory as a COMMENT.

    >>> decode(64, 0x1000, bytes.fromhex("e8fb0f0000")).format(Options(symbol_place=SymbolPlace.INSTEAD), {0x2000: "main"})
    'call main'
    """

    BEHIND = 0
    INSTEAD = 1
    COMMENT = 2
    GNU = 3


class Flow(Named):
    """Where control goes after an instruction.

    CONDITIONAL goes to a target in the instruction or to the next one. CALL, which SYSCALL and SYSENTER are too, goes to a procedure and
    later to the next instruction. INTERRUPT is INT, INT1, INT3 and INTO; EXCEPTION is UD1 and UD2.

    >>> print(decode(64, 0, bytes.fromhex("7410")).info().flow)
    Flow.CONDITIONAL
    """

    NEXT = 0
    JUMP = 1
    INDIRECT_JUMP = 2
    CONDITIONAL = 3
    RETURN = 4
    CALL = 5
    INDIRECT_CALL = 6
    INTERRUPT = 7
    EXCEPTION = 8


class Access(Named):
    """How an instruction accesses the whole of an operand or register. A write of a part counts as a read and a write.

    >>> decode(64, 0, bytes.fromhex("4889c3")).info().access
    (<Access.WRITE: 2>, <Access.READ: 1>)
    """

    NONE = 0
    READ = 1
    WRITE = 2
    READ_WRITE = 3


class Touch(_Bits):
    """How `effects` reports the access of a register or of memory.

    MAY_READ and MAY_WRITE are for an access that a condition, a mask, or a repeat prefix with a counter of 0 may suppress.

    >>> [str(use.access) for use in decode(64, 0, bytes.fromhex("f3ab")).effects().registers]
    ['Touch.MAY_READ', 'Touch.MAY_READ|MAY_WRITE', 'Touch.READ|MAY_WRITE']
    """

    READ = 1
    WRITE = 2
    MAY_READ = 4
    MAY_WRITE = 8


class Flags(_Bits):
    """Flags. Those of EFLAGS have their bits of that register; C0 to C3 of the x87 status word have their bits of that word plus 16. IOPL
    has two bits.

    >>> decode(64, 0, bytes.fromhex("11d8")).effects().flags_read == Flags.CF
    True
    >>> print(Flags.CF | Flags.ZF, Flags(0))
    Flags.CF|ZF Flags(0)
    """

    CF = 0x1
    PF = 0x4
    AF = 0x10
    ZF = 0x40
    SF = 0x80
    TF = 0x100
    IF = 0x200
    DF = 0x400
    OF = 0x800
    IOPL = 0x3000
    NT = 0x4000
    RF = 0x10000
    VM = 0x20000
    AC = 0x40000
    VIF = 0x80000
    VIP = 0x100000
    ID = 0x200000
    C0 = 0x1000000
    C1 = 0x2000000
    C2 = 0x4000000
    C3 = 0x40000000


class OperandKind(Named):
    """The kind of an operand: the `kind` of each of `Register`, `Memory`, `Immediate`, `Near` and `Far`.

    >>> [op.kind.name for op in decode(64, 0, bytes.fromhex("83c005")).ops]
    ['REGISTER', 'IMMEDIATE']
    """

    NONE = 0
    REGISTER = 1
    MEMORY = 2
    IMMEDIATE = 3
    NEAR = 4
    FAR = 5


class RegClass(Named):
    """The class of a register. The numbers of a class begin at 0; feddurzai.h lists them.

    >>> decode(64, 0, bytes.fromhex("4889c3")).ops[0].reg_class
    <RegClass.R64: 5>
    """

    NONE = 0
    LOW8 = 1
    HIGH8 = 2
    R16 = 3
    R32 = 4
    R64 = 5
    SEG = 6
    CR = 7
    DR = 8
    ST = 9
    MM = 10
    XMM = 11
    YMM = 12
    EIP = 13
    RIP = 14


class Segment(Named):
    """A segment prefix, NONE without one. These are not the numbers of the class `RegClass.SEG`, which begin at 0.

    >>> decode(64, 0, bytes.fromhex("64488b0425 28000000")).segment
    <Segment.FS: 5>
    """

    NONE = 0
    ES = 1
    CS = 2
    SS = 3
    DS = 4
    FS = 5
    GS = 6


class Repeat(Named):
    """A repeat prefix, NONE without one.

    >>> decode(64, 0, bytes.fromhex("f3a4")).rep
    <Repeat.REP: 243>
    """

    NONE = 0
    REPNE = 0xF2
    REP = 0xF3


class ItemKind(Named):
    """The kind of an item of `iterate`.

    >>> [item.kind.name for item in iterate(64, 0, bytes.fromhex("90 06 48"))]
    ['INSTRUCTION', 'INVALID', 'TOO_SHORT']
    """

    INSTRUCTION = 0
    INVALID = 1
    TOO_SHORT = 2
    UNLISTED = 3


class UnlistedKind(Named):
    """The kind of an instruction that the opcode table leaves out, by its encoding. docs/unlisted.md lists the bytes of each.

    >>> print(measure(64, bytes.fromhex("0f0fc19e")).kind)
    UnlistedKind.NOW3D
    """

    EVEX = 0
    MASK = 1
    VEX = 2
    XOP = 3
    NOW3D = 4
    LEGACY = 5


class Reference(Named):
    """What the relative number of such an instruction refers to: memory at RIP or EIP, or the branch of XBEGIN; NONE if there is no number.

    >>> print(measure(64, bytes.fromhex("c7f810000000")).reference)
    Reference.BRANCH
    """

    NONE = 0
    RIP = 1
    EIP = 2
    BRANCH = 3


class Form(Named):
    """The form of a moved instruction: the instruction itself, or one of the forms of a branch. docs/moving.md lists the bytes of each.

    >>> move(64, 0x1000, bytes.fromhex("7410"), 0x7fff00000000).places[0].form
    <Form.FAR: 3>
    """

    ITSELF = 0
    SHORT = 1
    NEAR = 2
    FAR = 3
    BRIDGE = 4
    FAR_BRIDGE = 5


class Jump(Named):
    """The form of a jump or a call, for `jump`. FAR and CALL_FAR exist in 64-bit mode alone and hold the target in the 8 bytes that follow.

    >>> [jump(64, 0x1000, 0x1010, form).hex() for form in (Jump.SHORT, Jump.NEAR)]
    ['eb0e', 'e90b000000']
    """

    SHORT = 1
    NEAR = 2
    FAR = 3
    CALL_NEAR = 4
    CALL_FAR = 5


class Start(Named):
    """The target of a moved branch that went to the function's own start, for `detour`.

    MOVED: the moved first instruction, so a loop stays in the trampoline. HOOKED: the start, and so the replacement.

    >>> loop = bytes.fromhex("85c9 75fc 31c0 90 c3")
    >>> [detour(64, 0x1000, loop, 0x2000, 0x3000, start).trampoline.hex() for start in Start]
    ['85c975fc31c0e9fbdfffff', '85c90f85f8dfffff31c0e9f7dfffff']
    """

    MOVED = 0
    HOOKED = 1


class StartRule(Named):
    """Whether control after the overwritten bytes may go back to the start of the function, for `look`.

    OPEN: it may. CLOSED: only calls may, since a loop to the start would reach the replacement.

    >>> loop = bytes.fromhex("803f00 7405 48ffc7 ebf6 c3")
    >>> [look(64, 0x1000, loop, 5, [0, 3], start=rule).entered for rule in StartRule]
    [None, Passage(start=8, target=0)]
    """

    OPEN = 0
    CLOSED = 1


class Sight(Named):
    """Why sight of a function ends, for `look`. WHOLE: it does not. docs/hooks.md has the others.

    >>> print(look(64, 0x1000, bytes.fromhex("ffe0 909090"), 5, [0]).sight)
    Sight.INDIRECT_JUMP
    """

    WHOLE = 0
    NOT_READ = 1
    INDIRECT_JUMP = 2
    ENDED = 3


class DetourForm(Named):
    """The form of the jump of a detour: a near jump, a near jump to a relay, or 14 bytes with the address.

    >>> detour(64, 0x1000, bytes.fromhex("4883ec18 31c0 c3"), 0x2000, 0x3000).form
    <DetourForm.NEAR: 1>
    """

    NEAR = 1
    RELAY = 2
    ABSOLUTE = 3


class Reason(Named):
    """Why the library refuses a call: its statuses.

    >>> try:
    ...     decode(17, 0, b"")
    ... except Refusal as refusal:
    ...     print(refusal.reason)
    Reason.BAD_MODE
    """

    BAD_MODE = -1
    BAD_SYNTAX = -2
    BAD_CODE = -3
    BAD_INSTR = -4
    BAD_FORM = -5
    NO_ROOM = -6
    INVALID = -7
    TOO_SHORT = -8
    NO_NAME = -9
    NO_MEMORY = -10
    TOO_LARGE = -11
    TOO_MANY = -12
    WRAPS = -13
    TOO_FAR = -14
    NULL = -15
    NO_TEXT = -16
    NO_REGISTER = -17
    BAD_JUMP = -18
    BAD_START = -19
    SMALL = -20
    ENDS = -21
    ENTERED = -22
    BAD_BLOCK = -23
    BAD_REGION = -24
    EMPTY = -25
    FULL = -26
    NOT_LIVE = -27
    UNSEEN = -28
    OVERLAPS = -29
    CALLS = -30
    PADDING = -31
    BAD_OPTIONS = -32
    BAD_NAMES = -33
    TOO_MANY_LABELS = -34
    NO_SIZE = -35
    BAD_DATA = -36
    UNKNOWN = -37
    TWICE = -38
    UNPLACED = -39
    UNFIT = -40
    BAD_ALIGNMENT = -41
    UNSETTLED = -42
    BAD_LABEL = -43
    NO_ENCODING = -256


class Cause(Named):
    """Why an instruction has no encoding: the first of ten conditions that fails.

    >>> try:
    ...     Instr(code_of("inc", "FE /0"), Immediate(1)).encode(64, 0)
    ... except Refusal as refusal:
    ...     print(refusal.cause)
    Cause.KIND
    """

    ROW = 1
    KIND = 2
    REGISTER = 3
    MEMORY = 4
    DISPLACEMENT = 5
    IMMEDIATE = 6
    TARGET = 7
    PREFIX = 8
    ADDRESS_SIZE = 9
    LENGTH = 10
