"""The functions: decode, print, analyse, encode, move and follow code."""

import struct
from ctypes import byref, c_char_p, c_size_t, c_uint8, c_uint32, c_void_p, cast, string_at
from itertools import accumulate, chain, repeat
from typing import Callable, Dict, Iterable, Iterator, List, NamedTuple, Optional, Sequence, Tuple, Type, Union

from . import _checks, _native
from ._checks import Buffer
from ._effects import Effects, effects_of
from ._items import HIGH_AT, LEN_AT, LOW_AT, SIZE, BadByte, Instr, Item, Rest
from ._numbers import Access, Flow, Form, Jump, Reason, Style
from ._refusal import MoveReport, refusal_of, taken
from ._info import About, encode_of, info_of, name_of, text_of
from ._unlisted import measured_item

_InstrRoom = _native.room_of(SIZE)
# how many instructions one call decodes, and the buffer for them: few at first, because a caller may stop, and never so many that the garbage
# collector looks for garbage among them
_CHUNKS = tuple((most, _native.room_of(most * SIZE)) for most in (16, 128, 512))
_ONE = struct.Struct(f"{SIZE}s")
_BytesRoom = _native.room_of(_native.MAX_LEN)
_JumpRoom = _native.room_of(_native.MAX_JUMP)
_NotationRoom = _native.room_of(_native.NOTATION_ROOM)
_KindRoom = _native.room_of(_native.KIND_ROOM)
_MOVED = struct.Struct("=QQBB6x")
_REPORT = struct.Struct("=6Q")
_ReportRoom = _native.room_of(_REPORT.size)


# The bit of the library's number that is set if nothing was proved.
_UNPROVED = 0x80000000


def version() -> Tuple[int, int, int]:
    """Returns the version of the library: major, minor, patch.

    >>> version() >= (0, 1, 0)
    True
    """
    number = _native.version() & ~_UNPROVED
    return (number >> 16, number >> 8 & 255, number & 255)


def is_proved() -> bool:
    """Returns whether the library was built from proved crates: `capi/build.sh --unproved` builds it without proofs, for whoever changes a binding.

    >>> isinstance(is_proved(), bool)
    True
    """
    return not _native.version() & _UNPROVED


_new: Callable[[Type[Instr]], Instr] = Instr.__new__


def _read(bits: int, address: int, code: bytes, struct_: bytes) -> Instr:
    """The instruction of a struct that the library has filled."""
    instr = _new(Instr)
    instr._struct, instr.bits, instr.address, instr.bytes = struct_, bits, address, code
    return instr


def _window(bits: int, ip: int, code: Buffer, at: int) -> Tuple[int, int, bytes]:
    """The mode, the address at an offset of some bytes, and the bytes there, at most as many as an instruction has."""
    window = _checks.front_bytes("code", code, at, _native.MAX_LEN)
    return _checks.number("bits", bits, _checks.U32), _checks.number("ip", ip) + at & _checks.U64, window


def decode(bits: int, ip: int, code: Buffer, at: int = 0) -> Instr:
    """Decodes the instruction at offset `at` of `code`.

    `bits` is the mode, 16, 32 or 64. `ip` is the address of the first byte of `code`, taken modulo 2**bits. Intel SDM volume 2, chapter 2.

    Raises InvalidCode if no instruction begins there, TooShort if the bytes end before it does, and Refusal with BAD_MODE.

    >>> decode(64, 0x1000, bytes.fromhex("90 48895c2410"), 1)
    <Instr 0x1001: 48895c2410 mov qword [rsp+0x10], rbx>
    """
    bits, address, window = _window(bits, ip, code, at)
    room = _InstrRoom()
    length = taken(_native.decode(bits, address, window, len(window), room))
    return _read(bits, address & (1 << bits) - 1, window[:length], room.raw)


def line(bits: int, ip: int, code: Buffer, syntax: int = Style.INTEL, at: int = 0) -> Tuple[Instr, str]:
    """Decodes an instruction as `decode` does, and returns its text in a `Style` too, by a single call of the library.

    Raises what `decode` raises, and Refusal with BAD_SYNTAX.

    >>> line(64, 0x1000, bytes.fromhex("7410"))
    (<Instr 0x1000: 7410 je 0x1012>, 'je 0x1012')
    """
    bits, address, window = _window(bits, ip, code, at)
    syntax = _checks.number("syntax", syntax, _checks.U32)
    room, letters = _InstrRoom(), _native.TextRoom()
    length = taken(_native.line(bits, syntax, address, window, len(window), room, letters, _native.MAX_TEXT))
    return _read(bits, address & (1 << bits) - 1, window[:length], room.raw), str(letters.value, "ascii")


def iterate(bits: int, ip: int, code: Buffer, *, unlisted: bool = False) -> Iterator[Item]:
    """Iterates over the instructions of `code`, whose first byte has the address `ip`.

    Each item is an `Instr`, a `BadByte` or a `Rest`. A byte with which no instruction begins is a `BadByte`, and the next item begins after
    it. If the bytes end before an instruction does, the bytes that are left are one `Rest`, the last item. With `unlisted`, an instruction that
    `measure` measures is an `Unlisted`, and the next item begins after it. Raises Refusal with BAD_MODE.

    >>> for item in iterate(64, 0x1000, bytes.fromhex("4883ec08 06 c3 4883c4")):
    ...     print(hex(item.address), item)
    0x1000 sub rsp, 0x8
    0x1004 (bad)
    0x1005 ret
    0x1006 (the bytes end here)
    >>> [str(item) for item in iterate(64, 0x1000, bytes.fromhex("62f17c4858c1 c3"), unlisted=True)]
    ['(evex) 62f17c4858c1', 'ret']
    """
    # checked before the first item is requested
    bits, ip = _checks.number("bits", bits, _checks.U32), _checks.number("ip", ip)
    code = _checks.code_bytes("code", code)
    if bits not in (16, 32, 64):
        raise refusal_of(Reason.BAD_MODE)
    return chain.from_iterable(_items(bits, ip, code, unlisted))


def _instrs(bits: int, ip: int, code: bytes, offsets: List[int], structs: bytes) -> List[Instr]:
    """The instructions of consecutive structs, whose offsets in `code` are given, and that after the last one."""
    mask = (1 << bits) - 1
    address = ip + offsets[0] & mask
    addresses: Iterable[int] = accumulate(structs[LEN_AT::SIZE], initial=address)
    if address + offsets[-1] - offsets[0] > mask:
        addresses = [it & mask for it in addresses]
    instrs = list(map(_new, repeat(Instr, len(offsets) - 1)))
    instr: Instr
    # the loop itself sets two fields, which is faster than by names of their own
    for instr, instr.address, start, end, (instr._struct,) in zip(instrs, addresses, offsets, offsets[1:], _ONE.iter_unpack(structs)):
        instr.bytes = code[start:end]
        instr.bits = bits
    return instrs


def _items(bits: int, ip: int, code: bytes, unlisted: bool) -> Iterator[Sequence[Item]]:
    """The items for `iterate`, some at a time."""
    at, chunks = 0, iter(_CHUNKS)
    # the address stays valid as long as `code` is alive
    where, count = cast(c_char_p(code), c_void_p).value or 0, c_size_t()
    while at < len(code):
        chunk = next(chunks, None)
        if chunk is not None:
            most, room = chunk[0], chunk[1]()
        taken(_native.decode_many(bits, ip + at & _checks.U64, where + at, len(code) - at, room, most, byref(count)))
        structs = string_at(room, count.value * SIZE)
        offsets = list(accumulate(structs[LEN_AT::SIZE], initial=at))
        at = offsets[-1]
        # the high byte of the code tells items apart: no row has 255
        highs = structs[HIGH_AT::SIZE]
        n = highs.find(0xFF)
        if n < 0:
            yield _instrs(bits, ip, code, offsets, structs)
            continue
        items: List[Item] = [*_instrs(bits, ip, code, offsets, structs)]
        while n >= 0:
            start = offsets[n]
            address = ip + start & (1 << bits) - 1
            if structs[n * SIZE + LOW_AT] != 0xFF:
                yield [*items[:n], Rest(address, code[start:])]
                return
            item = measured_item(bits, address, code, start) if unlisted else None
            if item is not None:
                # the items after the first byte are not those after the instruction
                items[n:] = [item]
                at, chunks = start + item.len, iter(_CHUNKS)
                break
            items[n] = BadByte(address, code[start : start + 1])
            n = highs.find(0xFF, n + 1)
        yield items
        # freed before others are made
        del items


def text(bits: int, instr: Instr, syntax: int = Style.INTEL) -> str:
    """Returns the text of an instruction in a `Style`. Raises Refusal with BAD_MODE, BAD_SYNTAX, BAD_INSTR or BAD_FORM.

    >>> text(64, decode(64, 0, bytes.fromhex("48895c2410")), Style.ATT)
    'movq %rbx, 0x10(%rsp)'
    """
    return text_of(_checks.number("bits", bits, _checks.U32), _struct_of(instr), syntax)


def encode(bits: int, ip: int, instr: Instr) -> bytes:
    """Encodes an instruction: returns the shortest bytes that decode to it at the address `ip`.

    Raises Refusal with BAD_MODE, BAD_INSTR, or NO_ENCODING with its cause and operand. Some decoded instructions have no encoding: the
    shortest form of a branch with needless prefixes may no longer reach.

    >>> encode(64, 0, Instr(code_of("mov", "REX.W + 89 /r"), Memory(register("rsp"), displacement=16), register("rbx"))).hex()
    '48895c2410'
    """
    return encode_of(bits, ip, _struct_of(instr))


def encoded_len(bits: int, ip: int, instr: Instr) -> int:
    """Returns the number of bytes that `encode` returns, and raises what it raises.

    >>> encoded_len(64, 0x1000, decode(64, 0x1000, bytes.fromhex("c4e17877")))
    3
    """
    bits, ip = _checks.number("bits", bits, _checks.U32), _checks.number("ip", ip)
    return taken(_native.encoded_len(bits, ip, _struct_of(instr)))


def assemble(bits: int, ip: int, text: str) -> bytes:
    """Assembles an Intel text: returns the bytes that it stands for at the address `ip`.

    The text must be exactly as `Instr.text` prints it, with the same spaces and sizes: `push 5` and `jz` are refused. If several
    instructions have the text, the bytes are those of the one with the shortest encoding. Raises Refusal with BAD_MODE or NO_TEXT.

    >>> assemble(64, 0x1000, "mov qword [rsp+0x10], rbx").hex()
    '48895c2410'
    """
    letters = _checks.word("text", text).encode("utf-8", "replace")
    bits, ip = _checks.number("bits", bits, _checks.U32), _checks.number("ip", ip)
    room = _BytesRoom()
    length = taken(_native.assemble(bits, ip, letters, len(letters), room, _native.MAX_LEN))
    return room.raw[:length]


def read_intel(bits: int, ip: int, text: str) -> Instr:
    """Returns the instruction whose bytes `assemble` returns, and raises what it raises.

    >>> read_intel(64, 0x1000, "je 0x1010")
    <Instr 0x1000: 740e je 0x1010>
    """
    letters = _checks.word("text", text).encode("utf-8", "replace")
    bits, ip = _checks.number("bits", bits, _checks.U32), _checks.number("ip", ip)
    room = _InstrRoom()
    taken(_native.read_intel(bits, ip, letters, len(letters), room))
    return _read(bits, ip & (1 << bits) - 1, encode_of(bits, ip, room.raw), room.raw)


def jump(bits: int, at: int, target: int, form: int = Jump.NEAR) -> bytes:
    """Returns the code of a jump to `target`, or of a call of it, for the address `at`. `form` is a `Jump`.

    Raises Refusal with BAD_MODE, BAD_JUMP, or NO_ENCODING if the target is out of reach or the mode does not have the form.

    >>> jump(64, 0x1000, 0x7fff00000000, Jump.FAR).hex()
    'ff250000000000000000ff7f0000'
    """
    bits, at, target = _checks.number("bits", bits, _checks.U32), _checks.number("at", at), _checks.number("target", target)
    form, room = _checks.number("form", form, _checks.U32), _JumpRoom()
    length = taken(_native.jump(bits, at, target, form, room, _native.MAX_JUMP))
    return room.raw[:length]


def info(instr: Instr) -> About:
    """Reports flow, operand access, memory size and named registers of an instruction. Raises Refusal with BAD_INSTR or BAD_FORM.

    >>> info(decode(64, 0x1000, bytes.fromhex("488b0510000000"))).ip_address
    4119
    """
    return info_of(_struct_of(instr))


def effects(bits: int, instr: Instr) -> Effects:
    """Reports the registers, memory, flags and CPUID features of an instruction in a mode, named and implied. Raises Refusal with BAD_MODE,
    BAD_INSTR or BAD_FORM.

    >>> sete = effects(64, decode(64, 0, bytes.fromhex("0f94c0")))
    >>> [str(use.register) for use in sete.registers], str(sete.flags_read)
    (['al'], 'Flags.ZF')
    """
    return effects_of(_checks.number("bits", bits, _checks.U32), _struct_of(instr))


def _struct_of(instr: Instr) -> bytes:
    if not isinstance(instr, Instr):
        raise TypeError(f"instr must be an Instr, not {type(instr).__name__}")
    return instr._struct


def name(code: int) -> str:
    """Returns the name of a row of the table: its mnemonic in lower case. Raises Refusal with BAD_CODE.

    >>> name(0)
    'add'
    """
    return name_of(_checks.number("code", code, _checks.U32))


def notation(code: int) -> str:
    """Returns the notation of a row of the table (Intel SDM volume 2, 3.1.1.1). Raises Refusal with BAD_CODE.

    >>> notation(decode(64, 0, bytes.fromhex("48895c2410")).code)
    'REX.W + 89 /r'
    """
    room = _NotationRoom()
    taken(_native.notation(_checks.number("code", code, _checks.U32), room, _native.NOTATION_ROOM))
    return str(room.value, "ascii")


class RowOperand(NamedTuple):
    """An operand of a row: the code word of its kind, and its access.

    The words follow Intel SDM volume 2, A.2: an upper-case letter for the addressing method and lower-case letters for the operand type, as
    in `Eb` or `Gv`. feddurzai_row_operand in feddurzai.h lists the words that A.2 does not have. The word is empty, and the access NONE, if
    the row does not have the operand.

    >>> row_operand(code_of("shl", "D0 /4"), 1)
    RowOperand(kind='1', access=<Access.READ: 1>)
    """

    kind: str
    access: Access


def row_operand(code: int, index: int) -> RowOperand:
    """Returns an operand of a row of the table, by its index from 0 to 3. Raises Refusal with BAD_CODE.

    >>> [row_operand(decode(64, 0, bytes.fromhex("4889c3")).code, index) for index in (0, 1)]
    [RowOperand(kind='Ev', access=<Access.WRITE: 2>), RowOperand(kind='Gv', access=<Access.READ: 1>)]
    >>> row_operand(0, 2)
    RowOperand(kind='', access=<Access.NONE: 0>)
    """
    room, access = _KindRoom(), c_uint8()
    code, index = _checks.number("code", code, _checks.U32), _checks.number("index", index, 3)
    taken(_native.row_operand(code, index, byref(access), room, _native.KIND_ROOM))
    return RowOperand(str(room.value, "ascii"), Access(access.value))


def code_of(name: str, which: Union[int, str] = 0) -> Optional[int]:
    """Returns the code of a row, None if there is no such row. `which` is its notation, or its number among the rows of the name, from 0.

    >>> code_of("lea", "REX.W + 8D /r") == code_of("lea", 2), code_of("mow")
    (True, None)
    """
    letters = _checks.word("name", name).encode("utf-8", "replace")
    if isinstance(which, str):
        return next((code for code in codes_of(name) if notation(code) == which), None)
    number = _native.code_of(letters, len(letters), _checks.number("which", which))
    return None if number == Reason.NO_NAME else taken(number)


def codes_of(name: str) -> List[int]:
    """Returns the codes of all rows of a name, in ascending order.

    >>> [notation(code) for code in codes_of("leave")]
    ['o16 C9', 'o32 C9', 'o64 C9']
    """
    found: List[int] = []
    while (code := code_of(name, len(found))) is not None:
        found.append(code)
    return found


def segment_text(segment: int, syntax: int = Style.INTEL) -> str:
    """Returns the name of the segment register of a prefix. Raises Refusal with BAD_SYNTAX or NO_REGISTER.

    >>> segment_text(Segment.FS), segment_text(Segment.FS, Style.ATT)
    ('fs', '%fs')
    """
    segment, syntax = _checks.number("segment", segment, _checks.U8), _checks.number("syntax", syntax, _checks.U32)
    room = _native.TextRoom()
    taken(_native.segment_text(syntax, segment, room, _native.MAX_TEXT))
    return str(room.value, "ascii")


class Moved(NamedTuple):
    """The old and the new address of a moved instruction, its old length in bytes, and its form.

    >>> move(64, 0x1000, bytes.fromhex("90"), 0x2000).places
    [Moved(old_ip=4096, new_ip=8192, len=1, form=<Form.ITSELF: 0>)]
    """

    old_ip: int
    new_ip: int
    len: int
    form: Form


class MovedCode(NamedTuple):
    """Moved code: its bytes, a `Moved` for each instruction, and the report with its sizes.

    >>> move(64, 0x1000, bytes.fromhex("7410"), 0x7fff00000000).code.hex()
    '7506ff25000000001210000000000000'
    """

    code: bytes
    places: List[Moved]
    report: MoveReport


def _moved_by(call: Callable[..., int], *arguments: Union[int, bytes]) -> MovedCode:
    """Moves code by a function of the library: a first call reports the sizes of the buffers for the second."""
    room = _ReportRoom()
    said = call(*arguments, None, 0, None, 0, room)
    report = MoveReport(*_REPORT.unpack(room.raw))
    if said not in (0, Reason.NO_ROOM):
        raise refusal_of(said, report)
    code = _native.room_of(report.bytes)()
    places = _native.room_of(report.count * _MOVED.size)()
    said = call(*arguments, code, report.bytes, places, report.count, room)
    if said < 0:
        raise refusal_of(said, MoveReport(*_REPORT.unpack(room.raw)))
    moved = [Moved(old, new, length, Form(form)) for old, new, length, form in _MOVED.iter_unpack(places.raw)]
    return MovedCode(code.raw, moved, report)


def move(bits: int, old_ip: int, code: Buffer, new_ip: int, *, unlisted: bool = False) -> MovedCode:
    """Moves code from address `old_ip` to address `new_ip`. Near branches and operands at RIP or EIP keep their targets, and a target that
    is the start of a moved instruction is followed to its new address. Branches grow as far as the least closed layout requires.

    Control leaves the last instruction at offset `report.code_bytes`; slots begin at `report.slots_at`. There is space for a jump back if
    there are no slots. Because targets are followed, a loop of one instruction stays a loop at the new address.

    With `unlisted`, an instruction that the opcode table leaves out and `measure` measures is moved too. Its bytes stay, except that its number
    that is relative to the address after it is set so that it refers to the same address, or to the moved instruction that began there.

    Raises Refusal with a report and BAD_MODE, TOO_LARGE (more than MAX_CODE bytes), WRAPS, TOO_MANY, TOO_FAR or NO_MEMORY, and InvalidCode or
    TooShort if the bytes are not instructions from end to end.

    >>> moved = move(64, 0x1000, bytes.fromhex("e80b000000 c3"), 0x2000)
    >>> moved.code.hex(), [hex(place.new_ip) for place in moved.places]
    ('e80bf0ffffc3', ['0x2000', '0x2005'])
    >>> move(64, 0x1000, bytes.fromhex("62f17d48ef0510000000 ebf4"), 0x2000, unlisted=True).code.hex()
    '62f17d48ef0510f0ffffebf4'
    """
    code = _checks.code_bytes("code", code)
    bits, old_ip = _checks.number("bits", bits, _checks.U32), _checks.number("old_ip", old_ip)
    call = _native.move_unlisted if unlisted else _native.move
    return _moved_by(call, bits, old_ip, code, len(code), _checks.number("new_ip", new_ip))


def move_outside(bits: int, old_ip: int, code: Buffer, new_ip: int) -> MovedCode:
    """Moves code as `move` does, but every target stays, even one that is moved itself. Use it for single stepping and hooks, because the
    rest of the program still goes to the old address. Raises what `move` raises.

    >>> loop = bytes.fromhex("ebfe")
    >>> [call(64, 0x1000, loop, 0x1080).code.hex() for call in (move, move_outside)]
    ['ebfe', 'e97bffffff']
    """
    code = _checks.code_bytes("code", code)
    bits, old_ip = _checks.number("bits", bits, _checks.U32), _checks.number("old_ip", old_ip)
    return _moved_by(_native.move_outside, bits, old_ip, code, len(code), _checks.number("new_ip", new_ip))


class Reached(NamedTuple):
    """A reached instruction: its offset, the offset of the first instruction of its basic block, and its flow. The flow is a `Flow`, or
    `Reason.INVALID` or `Reason.TOO_SHORT` if no instruction is decoded there.

    >>> flow(64, 0, bytes.fromhex("90c3"))[1]
    Reached(start=1, leader=0, kind=<Flow.RETURN: 4>)
    """

    start: int
    leader: int
    kind: Union[Flow, Reason]


_KINDS: Dict[int, Union[Flow, Reason]] = {**{int(kind): kind for kind in Flow}, 0xFE: Reason.TOO_SHORT, 0xFF: Reason.INVALID}


def flow(
    bits: int, base: int, code: Buffer, entries: Union[int, Iterable[int]] = 0, *, unlisted: bool = False
) -> List[Reached]:
    """Follows control from the first byte of `code`, which has the address `base`, or from the offsets `entries`. Returns the reached
    instructions in ascending order.

    Each entry begins a basic block; entries outside the code are ignored. Calls are followed to targets in the code, and every call is
    assumed to return. Indirect targets are unknown. With `unlisted`, control also goes through instructions that `measure` measures: to the
    end of each, and from XBEGIN also to its target. Raises Refusal with BAD_MODE, TOO_LARGE (more than MAX_FLOW bytes) or NO_MEMORY.

    >>> [(reached.start, reached.leader) for reached in flow(64, 0x1000, bytes.fromhex("7401 90 c3 90"))]
    [(0, 0), (2, 2), (3, 3)]
    >>> [reached.start for reached in flow(64, 0x1000, bytes.fromhex("7401 90 c3 90"), [2, 4])]
    [2, 3, 4]
    >>> [reached.start for reached in flow(64, 0x1000, bytes.fromhex("62f17c4858c1 c3"), unlisted=True)]
    [0, 6]
    """
    code = _checks.code_bytes("code", code)
    bits, base = _checks.number("bits", bits, _checks.U32), _checks.number("base", base)
    if isinstance(entries, Iterable):
        chosen = [_checks.number("each of entries", entry, _checks.U32) for entry in entries]
    else:
        chosen = [_checks.number("entries", entries, _checks.U32)]
    # at most one entry for each byte; above the limit the library decodes none
    room = min(len(code), _native.MAX_FLOW)
    starts, leaders, kinds = (c_uint32 * room)(), (c_uint32 * room)(), bytearray(room)
    call = _native.flow_unlisted if unlisted else _native.flow_from
    count = taken(
        call(
            *(bits, base, code, len(code), (c_uint32 * len(chosen))(*chosen), len(chosen)),
            *(starts, room, leaders, room, (c_uint8 * room).from_buffer(kinds), room),
        )
    )
    return list(map(Reached, starts[:count], leaders[:count], map(_KINDS.__getitem__, kinds[:count])))
