"""Commands for GDB over the library for C: `source capi/gdb.py` in GDB.

    feddurzai-list [/COUNT] [START [LENGTH]] [intel|att|masm]   lists code of the inferior
    feddurzai-flow [START [LENGTH]] [intel|att|masm]            lists what control reaches from START, block by block

START and LENGTH are expressions of GDB, such as `main 40` or `$pc 0x80`; quote an expression with spaces, and write a symbol that is no expression
as it is: printf@plt. `START,+LENGTH` and `START,END` mean what they mean for `disassemble`. Without LENGTH the commands list the function at START,
and without START the function at $pc; where GDB finds no function, ten instructions. /COUNT or /COUNTi lists so many instructions from START, or
from $pc. `=>` marks the instruction at $pc. Without a style, the list has GDB's `disassembly-flavor`.

The mode is that of the inferior's architecture. `set feddurzai-bits 16`, 32 or 64 overrides it, and 0 restores it.

With `set feddurzai-effects on` the list reports what the instruction that ran last has read and written, and marks it with ` >`. With `all` it
reports what each instruction reads and writes, and with `off` neither.

On a terminal the lists have the colours of GDB's own styles (`show style`).

An instruction that the opcode table leaves out, such as one with EVEX, is listed as one line with GDB's own text, dimmed on a terminal. `set
feddurzai-unlisted off` lists its bytes one by one instead.
"""

import os
import re
import sys

import gdb

sys.path.insert(0, os.path.join(os.path.dirname(os.path.abspath(__file__)), "python"))
import feddurzai

STYLES = {style.name.lower(): style for style in feddurzai.Style}
MODES = (16, 32, 64)
LONGEST = 15
# how many instructions are listed at a place in no function
SOME = 10


class Bits(gdb.Parameter):
    """The mode of the code that feddurzai lists: 16, 32 or 64, or 0 for the mode of the inferior's architecture."""

    set_doc = "Set the mode of the code that feddurzai lists."
    show_doc = "Show the mode of the code that feddurzai lists."

    def __init__(self):
        super().__init__("feddurzai-bits", gdb.COMMAND_DATA, gdb.PARAM_ZUINTEGER)
        self.value = self.kept = 0

    def get_set_string(self):
        asked, self.value = self.value, self.kept
        if asked not in (0, *MODES):
            raise gdb.GdbError(f"feddurzai-bits must be 16, 32 or 64, or 0 for the mode of the architecture, not {asked}: it stays {self.kept}")
        self.value = self.kept = asked
        return ""

    def get_show_string(self, value):
        return f"The mode of the code that feddurzai lists is {value if self.kept else f'that of the architecture, {bits_now()}'}."


BITS = Bits()


class EffectsShown(gdb.Parameter):
    """The instructions whose reads and writes feddurzai-list reports: off for none, on for the one that ran last, all for each.

    The one that ran last is known if the last two stops were one instruction apart, as after stepi."""

    set_doc = "Set the instructions whose reads and writes feddurzai-list reports."
    show_doc = "Show the instructions whose reads and writes feddurzai-list reports."
    WORDS = {"off": "no instruction", "on": "the instruction that ran last", "all": "each instruction"}

    def __init__(self):
        # GDB itself refuses any other value and keeps the old one
        super().__init__("feddurzai-effects", gdb.COMMAND_DATA, gdb.PARAM_ENUM, list(self.WORDS))
        self.value = "off"

    def get_set_string(self):
        return ""

    def get_show_string(self, value):
        return f"feddurzai-list reports the reads and writes of {self.WORDS[value]} (feddurzai-effects is {value})."


EFFECTS = EffectsShown()


class UnlistedShown(gdb.Parameter):
    """Whether feddurzai-list shows an instruction that the opcode table leaves out as one line, with GDB's own text."""

    set_doc = "Set whether feddurzai-list shows instructions that the opcode table leaves out."
    show_doc = "Show whether feddurzai-list shows instructions that the opcode table leaves out."

    def __init__(self):
        super().__init__("feddurzai-unlisted", gdb.COMMAND_DATA, gdb.PARAM_BOOLEAN)
        self.value = True

    def get_set_string(self):
        return ""

    def get_show_string(self, value):
        shown = "as one line" if self.value else "byte by byte"
        return f"feddurzai-list shows instructions that the opcode table leaves out {shown} (feddurzai-unlisted is {value})."


UNLISTED = UnlistedShown()


class Stops:
    """The thread and its address at the last two stops."""

    def __init__(self):
        self.before = self.now = None
        gdb.events.stop.connect(self.take)
        gdb.events.exited.connect(self.forget)

    def take(self, event):
        """Records a stop."""
        try:
            place = (gdb.selected_thread().ptid, gdb.newest_frame().pc())
        except (gdb.error, AttributeError):
            place = None
        self.before, self.now = self.now, place

    def forget(self, event):
        """Forgets both stops: the program has ended."""
        self.before = self.now = None


STOPS = Stops()


def frame_now():
    """The selected frame, None if no process is running."""
    try:
        return gdb.selected_frame()
    except gdb.error:
        return None


def architecture_now():
    """The architecture of the selected frame, or of the program if no process is running."""
    frame = frame_now()
    return frame.architecture() if frame else gdb.selected_inferior().architecture()


def bits_now():
    """The mode to list in."""
    return BITS.kept or bits_of_architecture()


def bits_of_architecture():
    """The mode of the inferior's architecture."""
    name = architecture_now().name()
    if name.startswith("i8086"):
        return 16
    if not name.startswith("i386"):
        raise gdb.GdbError(f"the architecture is {name}, which is not x86: to list its code as x86 code, set feddurzai-bits")
    # x64-32 is 64-bit code with short pointers
    return 64 if "x86-64" in name or "x64" in name else 32


def pc_now():
    """The pc of the selected frame, None if no process is running."""
    frame = frame_now()
    return frame.pc() if frame else None


def symbol_of(address):
    """` <name+offset>` for an address, empty if it has no symbol."""
    if hasattr(gdb, "format_address"):  # GDB 13
        return gdb.format_address(address)[len(f"{address:#x}") :]
    words = gdb.execute(f"info symbol {address:#x}", to_string=True).split(" in section")[0].strip()
    if words.startswith("No symbol"):
        return ""
    return f" <{words.replace(' + ', '+')}>"


def number_of(expression):
    """The value of an expression of GDB as an unsigned number; for a function its address. A word that is no expression may be a symbol."""
    try:
        return unsigned(expression)
    except (gdb.error, TypeError, ValueError) as error:
        try:
            return unsigned(f"'{expression}'")
        except (gdb.error, TypeError, ValueError):
            raise gdb.GdbError(f"{expression}: {error}")


def unsigned(expression):
    """The value of an expression as an unsigned number."""
    value = gdb.parse_and_eval(expression)
    if value.type.code == gdb.TYPE_CODE_FUNC:
        value = value.address
    return int(value) & (1 << 64) - 1


def style_now():
    """The style of GDB's own listings."""
    return feddurzai.Style.ATT if gdb.parameter("disassembly-flavor") == "att" else feddurzai.Style.INTEL


def function_at(address):
    """The first address of the function at an address, and its length; None where GDB finds no function. If the function has several parts,
    these are of the part at the address.

    They come from GDB's disassembly, which finds the end of a function with or without debug information."""
    try:
        text = gdb.execute(f"disassemble {address:#x}", to_string=True)
    except gdb.error:
        return None
    for part in re.findall(r"^Address range (0x[0-9a-f]+) to (0x[0-9a-f]+):$", text, re.M):
        start, end = (int(it, 16) for it in part)
        if start <= address < end:
            return start, end - start
    starts = [int(it, 16) for it in re.findall(r"^(?:=>)?\s+(0x[0-9a-f]+)", text, re.M)]
    if not starts:
        return None
    return starts[0], starts[-1] - starts[0] + architecture_now().disassemble(starts[-1])[0]["length"]


def read_front(start, length):
    """The bytes from an address on, up to the first that cannot be read."""
    if length == 0:
        return b""
    try:
        return bytes(gdb.selected_inferior().read_memory(start, length))
    except (gdb.error, OverflowError):
        if length == 1:
            return b""
    half = length // 2
    front = read_front(start, half)
    return front + read_front(start + half, length - half) if len(front) == half else front


def ranged(words):
    """Takes `START,END` or `START,+LENGTH` apart, if that is the only word. Returns END; LENGTH becomes the second word."""
    if len(words) != 1:
        return None
    depth, comma = 0, None
    for at, character in enumerate(words[0]):
        depth += (character in "([<") - (character in ")]>")
        if character == "," and depth == 0:
            comma = at
    if comma is None:
        return None
    start, rest = words[0][:comma], words[0][comma + 1 :].strip()
    words[:] = [start, rest[1:]] if rest.startswith("+") else [start]
    return None if rest.startswith("+") else rest


class Asked:
    """The arguments of a command: the start, the readable bytes from there, the count of instructions, and the style."""

    def __init__(self, words, usage, counts):
        words = gdb.string_to_argv(words)
        self.count = None
        if counts and words and words[0].startswith("/"):
            number = words[0][1:].removesuffix("i")
            if not number.isdigit():
                raise gdb.GdbError(f"{words[0]} is not a count of instructions: write /20, for example")
            self.count = int(number)
            words.pop(0)
        self.style = STYLES[words.pop()] if words and words[-1] in STYLES else style_now()
        end = ranged(words)
        if len(words) > 2 or len(words) == 2 and self.count is not None:
            raise gdb.GdbError(f"usage: {usage}")
        self.start = number_of(words[0]) if words else pc_now()
        if self.start is None:
            raise gdb.GdbError("no process is running, so there is no $pc: give a START")
        length = max(number_of(end) - self.start, 0) if end else self.length_of(words)
        if length > feddurzai.MAX_CODE:
            raise gdb.GdbError(f"{length} bytes are more than {feddurzai.MAX_CODE}, the limit of one command: give a smaller LENGTH")
        self.code = read_front(self.start, length)
        self.faults = len(self.code) < length
        if self.faults and not self.code:
            raise gdb.GdbError(f"{self.start:#x}: no memory can be read there")

    def length_of(self, words):
        """How many bytes are asked for. Without words that say it, the start becomes that of the function, if there is one."""
        if len(words) == 2:
            return number_of(words[1])
        if self.count is None:
            function = function_at(self.start)
            if function is not None:
                self.start, length = function
                return length
            self.count = SOME
        return self.count * LONGEST

    def fault(self):
        """The line that says where readable memory ends."""
        return f"   {self.start + len(self.code):#x}: no memory can be read from here on"


FOREGROUNDS = ("black", "red", "green", "yellow", "blue", "magenta", "cyan", "white")
# the style of a piece by its kind; the style of a number depends on its role
PIECE_STYLES = {
    feddurzai.PieceKind.PREFIX: "disassembler mnemonic",
    feddurzai.PieceKind.MNEMONIC: "disassembler mnemonic",
    feddurzai.PieceKind.REGISTER: "disassembler register",
    feddurzai.PieceKind.NUMBER: "disassembler immediate",
}
PLACES = (feddurzai.Role.TARGET, feddurzai.Role.ADDRESS)


class Painter:
    """Paints words in the styles of GDB (`show style`), where GDB's own output is styled. It is made anew for each command."""

    def __init__(self):
        self.on = gdb.parameter("style enabled") and os.isatty(1) and os.environ.get("TERM", "dumb") != "dumb"
        self.known = {}
        try:
            self.pieces = self.on and gdb.parameter("style disassembler enabled")
        except RuntimeError:  # GDB 12
            self.pieces = self.on

    def start_of(self, style):
        """The escape sequence that begins a style, empty if the style changes nothing or this GDB has no such style."""
        if style not in self.known:
            codes = []
            try:
                intensity = gdb.parameter(f"style {style} intensity")
                codes += [{"bold": 1, "dim": 2}[intensity]] if intensity != "normal" else []
                for ground, first in ("foreground", 30), ("background", 40):
                    colour = gdb.parameter(f"style {style} {ground}")
                    codes += [first + FOREGROUNDS.index(colour)] if colour in FOREGROUNDS else []
            except (RuntimeError, KeyError):
                pass
            self.known[style] = f"\x1b[{';'.join(map(str, codes))}m" if codes else ""
        return self.known[style]

    def paint(self, style, words):
        """Words in a style."""
        start = self.start_of(style) if self.on else ""
        return f"{start}{words}\x1b[m" if start else words

    def piece(self, piece):
        """A piece of an instruction's text. GDB has a setting of its own for these."""
        style = "address" if piece.role in PLACES else PIECE_STYLES.get(piece.kind)
        return self.paint(style, piece.text) if style else piece.text

    def symbol(self, words):
        """The words of `symbol_of`, whose first two and last are ` <` and `>`."""
        return words[:2] + self.paint("function", words[2:-1]) + words[-1:] if words else ""

    def dimmed(self, words):
        """Words in another shade."""
        return f"\x1b[2m{words}\x1b[m" if self.on else words


def text_by_gdb(item, address, style):
    """GDB's own text of an instruction, None if GDB reads another length there."""
    if BITS.kept not in (0, bits_of_architecture()):
        return None
    before = gdb.parameter("disassembly-flavor")
    gdb.execute(f"set disassembly-flavor {'att' if style is feddurzai.Style.ATT else 'intel'}")
    try:
        told = architecture_now().disassemble(address)[0]
    except gdb.error:
        return None
    finally:
        gdb.execute(f"set disassembly-flavor {before}")
    return told["asm"] if told["length"] == item.len and "(bad)" not in told["asm"] else None


def unlisted_text(item, address, style, painter):
    """The text of an instruction that the opcode table leaves out: GDB's own, or else its kind and its bytes."""
    return painter.dimmed(text_by_gdb(item, address, style) or item.text())


def text_of(item, style, painter):
    """The text of an item, followed by the symbol of the address that an instruction names."""
    if item.kind is not feddurzai.ItemKind.INSTRUCTION:
        return item.text()
    pieces = item.pieces(style)
    address = next((piece.value for piece in pieces if piece.role in PLACES), None)
    words = "".join(map(painter.piece, pieces)) if painter.pieces else item.text(style)
    return words if address is None else words + painter.symbol(symbol_of(address))


def last_run():
    """The instruction that ran last, None if it is unknown because the last two stops are not one instruction apart."""
    if STOPS.before is None or STOPS.now is None or STOPS.before[0] != STOPS.now[0]:
        return None
    before, now = STOPS.before[1], STOPS.now[1]
    item = next(feddurzai.iterate(bits_now(), before, read_front(before, LONGEST)), None)
    if item is None or item.kind is not feddurzai.ItemKind.INSTRUCTION:
        return None
    about, behind = item.info(), {item.address + item.len, before if item.rep else None}
    if about.flow in (feddurzai.Flow.RETURN, feddurzai.Flow.INDIRECT_JUMP, feddurzai.Flow.INDIRECT_CALL):
        return item
    if about.flow in (feddurzai.Flow.JUMP, feddurzai.Flow.CALL):
        behind = set()
    return item if now in behind | {about.target} else None


# the classes of general registers, each with its lowest bit and its width in the widest register
PARTS = {
    feddurzai.RegClass.LOW8: (0, 8),
    feddurzai.RegClass.HIGH8: (8, 8),
    feddurzai.RegClass.R16: (0, 16),
    feddurzai.RegClass.R32: (0, 32),
    feddurzai.RegClass.R64: (0, 64),
}


def value_of(register):
    """`=0x5` for a general register, by its present value; empty for any other."""
    if register.reg_class not in PARTS:
        return ""
    shift, bits = PARTS[register.reg_class]
    widest = feddurzai.RegClass.R64 if register.reg_class is feddurzai.RegClass.R64 or bits_now() == 64 else feddurzai.RegClass.R32
    try:
        value = int(gdb.parse_and_eval(f"${feddurzai.Register(widest, register.full().number)}"))
    except (gdb.error, ValueError):
        return ""
    return f"={value >> shift & (1 << bits) - 1:#x}"


def touched_words(told, surely, maybe, values):
    """The registers and the memory whose access has one of two bits, with `?` after those that a condition may suppress."""
    words = {}
    for use in told.registers:
        if use.access & (surely | maybe):
            mark = "" if use.access & surely else "?"
            words[str(use.register)] = mark + (value_of(use.register) if values else "")
    found = [name + mark for name, mark in words.items()]
    for memory in told.memory:
        if memory.access & (surely | maybe):
            size = f" {memory.size} bytes" if memory.size else ""
            found.append(f"{memory}{size}{'' if memory.access & surely else '?'}")
    return found


def flag_words(flags, kept=feddurzai.Flags(0), value=None):
    """The names of flags, with their values if EFLAGS is given, and with `?` after those that may be kept."""
    found = []
    for name, flag in feddurzai.Flags.__members__.items():
        if flags & flag:
            known = value is not None and not name.startswith("C") or value is not None and name == "CF"
            found.append(name + ("?" if kept & flag else "") + (f"={(value & flag) // (flag & -flag)}" if known else ""))
    return found


def effects_text(instr, ran):
    """A line with what an instruction reads and writes; for one that ran, with the values that it left in general registers and in EFLAGS."""
    told = instr.effects()
    eflags = None
    if ran:
        try:
            eflags = int(gdb.parse_and_eval("$eflags"))
        except gdb.error:
            pass
    reads = touched_words(told, feddurzai.Touch.READ, feddurzai.Touch.MAY_READ, False) + flag_words(told.flags_read)
    writes = touched_words(told, feddurzai.Touch.WRITE, feddurzai.Touch.MAY_WRITE, ran)
    writes += flag_words(told.flags_written, told.flags_kept, eflags)
    undefined = flag_words(told.flags_undefined, told.flags_kept)
    parts = [f"{'read' if ran else 'reads'} {', '.join(reads)}"] if reads else []
    parts += [f"{'wrote' if ran else 'writes'} {', '.join(writes)}"] if writes else []
    parts += [f"undefined {', '.join(undefined)}"] if undefined else []
    return "      " + ("; ".join(parts) or "touches nothing")


class ListCommand(gdb.Command):
    """List code of the inferior: feddurzai-list [/COUNT] [START [LENGTH]] [intel|att|masm].

    Without LENGTH it lists the function at START, and without START the function at $pc. /COUNT lists so many instructions. With `set
    feddurzai-effects on` it reports what the instruction that ran last has read and written, and with `all` what each reads and writes."""

    def __init__(self):
        super().__init__("feddurzai-list", gdb.COMMAND_DATA, gdb.COMPLETE_EXPRESSION)

    def invoke(self, words, from_tty):
        asked = Asked(words, "feddurzai-list [/COUNT] [START [LENGTH]] [intel|att|masm]", True)
        # GDB's addresses, which for 16-bit code may exceed 65,535
        pc, address = pc_now(), asked.start
        ran = last_run() if EFFECTS.value == "on" else None
        at = STOPS.before[1] if ran else None
        rows, ended = [], True
        for n, item in enumerate(feddurzai.iterate(bits_now(), asked.start, asked.code, unlisted=UNLISTED.value)):
            if n == asked.count:
                ended = False
                break
            mark = "=>" if address == pc else " >" if address == at else "  "
            effects = EFFECTS.value == "all" and item.kind is feddurzai.ItemKind.INSTRUCTION
            rows.append(Row(mark, address, item, effects_text(item, address == at) if effects or address == at else None))
            if address == at:
                ran = None
            address += item.len
        tell(rows, asked.style)
        if ended and asked.faults:
            print(asked.fault())
        # the instruction that ran last is outside the list
        if ran:
            tell([Row(" >", at, ran, effects_text(ran, True))], asked.style)


class Row:
    """A line of a listing: its mark, its address and its item, and the line below it with what the instruction reads and writes."""

    def __init__(self, mark, address, item, effects):
        self.item, self.mark, self.address, self.effects = item, mark, address, effects
        self.symbol = symbol_of(address)

    def width(self):
        """How many characters stand before the bytes."""
        return len(f"{self.mark} {self.address:#x}{self.symbol}:")

    def place(self, painter):
        """What stands before the bytes."""
        return f"{self.mark} {painter.paint('address', f'{self.address:#x}')}{painter.symbol(self.symbol)}:"


def tell(rows, style):
    """Prints the lines of a listing, in columns."""
    painter = Painter()
    width = max((row.width() for row in rows), default=0)
    for row in rows:
        unlisted = row.item.kind is feddurzai.ItemKind.UNLISTED
        text = unlisted_text(row.item, row.address, style, painter) if unlisted else text_of(row.item, style, painter)
        print(f"{row.place(painter)}{' ' * (width - row.width())} {row.item.bytes.hex():30} {text}")
        if row.effects is not None:
            print(row.effects)


def unresolved(item):
    """A note at an indirect jump, whose targets are not followed."""
    instruction = item.kind is feddurzai.ItemKind.INSTRUCTION
    return "  (targets unknown)" if instruction and item.info().flow is feddurzai.Flow.INDIRECT_JUMP else ""


class FlowCommand(gdb.Command):
    """List what control reaches, block by block: feddurzai-flow [START [LENGTH]] [intel|att|masm].

    Without LENGTH it lists the function at START, and without START the function at $pc. Indirect jumps are not followed."""

    def __init__(self):
        super().__init__("feddurzai-flow", gdb.COMMAND_DATA, gdb.COMPLETE_EXPRESSION)

    def invoke(self, words, from_tty):
        asked = Asked(words, "feddurzai-flow [START [LENGTH]] [intel|att|masm]", False)
        bits, pc, painter = bits_now(), pc_now(), Painter()
        for at, leader, _ in feddurzai.flow(bits, asked.start, asked.code):
            address = asked.start + at
            item = next(feddurzai.iterate(bits, address, asked.code[at : at + LONGEST]))
            if at == leader:
                print(f"block {painter.paint('address', f'{address:#x}')}{painter.symbol(symbol_of(address))}")
            mark = "=>" if address == pc else "  "
            beside = "" if at == leader else f"  of {asked.start + leader:#x}"
            print(f"{mark} {painter.paint('address', f'{address:#x}')}: {text_of(item, asked.style, painter)}{unresolved(item)}{beside}")
        if asked.faults:
            print(asked.fault())


ListCommand()
FlowCommand()
