"""Tests the Python package: its documented examples, each function with a value from the manual, each kind of refusal, and invalid values.

    calls.py [FOLDER]       FOLDER has the package; omit it if the package is installed
"""

import ctypes
import dataclasses
import doctest
import inspect
import pickle
import pydoc
import random
import sys
import threading

if len(sys.argv) > 1:
    sys.path.insert(0, sys.argv[1])
import feddurzai as f

tried = 0


def check(got, want):
    global tried
    tried += 1
    assert got == want, f"{got!r} is not {want!r}"


def raised(kind, call, *arguments, **named):
    """What a call raises, of this very class."""
    global tried
    tried += 1
    try:
        made = call(*arguments, **named)
        if inspect.isgenerator(made):
            next(made)
    except Exception as error:
        assert type(error) is kind, f"{call.__name__}{arguments} raises {error!r}"
        return error
    raise AssertionError(f"{call.__name__}{arguments} raises nothing")


def refused(reason, call, *arguments, kind=f.Refusal, **named):
    refusal = raised(kind, call, *arguments, **named)
    check(refusal.reason, reason)
    return refusal


def code(text):
    return bytes.fromhex(text)


def read_instructions():
    mov = f.decode(64, 0x1000, code("48895c2410"))
    check(f.text(64, mov), "mov qword [rsp+0x10], rbx")
    check(f.text(64, mov, f.Style.ATT), "movq %rbx, 0x10(%rsp)")
    check(f.text(64, mov, f.Style.MASM), "mov qword ptr [rsp+10h], rbx")
    check(f.encode(64, 0x1000, mov), code("48895c2410"))
    rsp, rbx = f.register("rsp"), f.register("rbx")
    check(mov.ops, (f.Memory(rsp, None, 1, 16, 8), rbx))
    check((mov.name, f.name(mov.code), f.notation(mov.code)), ("mov", "mov", "REX.W + 89 /r"))
    check((mov.address, mov.bytes, mov.len, len(mov), mov.bits, mov.asize), (0x1000, code("48895c2410"), 5, 5, 64, 64))
    check((mov.lock, mov.rep, mov.segment, bool(mov)), (False, f.Repeat.NONE, f.Segment.NONE, True))
    check((repr(mov), str(mov)), ("<Instr 0x1000: 48895c2410 mov qword [rsp+0x10], rbx>", "mov qword [rsp+0x10], rbx"))
    check(mov.code in f.codes_of("mov"), True)
    check(f.line(64, 0x1000, code("9048895c2410"), f.Style.MASM, 1), (mov, "mov qword ptr [rsp+10h], rbx"))
    check([f.row_operand(mov.code, index) for index in (0, 1)], [("Ev", f.Access.WRITE), ("Gv", f.Access.READ)])
    check(f.row_operand(mov.code, 2), f.RowOperand("", f.Access.NONE))
    check((f.code_of("mow"), f.codes_of("mow"), f.code_of("m\u00f6v")), (None, [], None))
    check((f.code_of("mov", "REX.W + 89 /r"), f.code_of("mov", "REX.W + 90"), f.code_of("mov", 99)), (mov.code, None, None))
    # an address is taken modulo 2 to the power of bits
    check(f.decode(16, 0x12345, b"\x90").address, 0x2345)
    check(f.decode(64, (1 << 64) - 1, code("90ebfe"), 1).ops, (f.Near(0),))
    # an instruction holds neither its address nor its bytes
    check(mov == f.decode(64, 0, code("3e48895c2410"), 0).replace(segment=0), True)
    check(mov == f.decode(64, 0, code("48895c2411")), False)
    check(mov == "mov", False)
    check(len({mov, f.decode(64, 5, code("48895c2410"))}), 1)
    check(f.decode(64, 0, code("f04883000a")).lock, True)
    check(pickle.loads(pickle.dumps(mov)), mov)
    for kind in (bytes, bytearray, memoryview):
        check(f.decode(64, 0x1000, kind(code("48895c2410"))), mov)
        check(f.decode(64, 0x1000, kind(code("9048895c2410")), 1), mov)
    check(f.decode(64, 0x1000, memoryview(code("480089005c00240010"))[::2]), mov)
    check(str(next(f.iterate(64, 0, memoryview(code("c300"))[::2]))), "ret")


def shown_in_pieces():
    add = f.decode(64, 0, code("f0658305fe0f0000ff"))
    kinds, roles = f.PieceKind, f.Role
    words = [(piece.text, piece.kind, piece.operand) for piece in add.pieces() if piece.kind is not kinds.SPACE]
    check(words[:4], [("lock", kinds.PREFIX, None), ("add", kinds.MNEMONIC, None), ("dword", kinds.KEYWORD, 0), ("gs", kinds.REGISTER, 0)])
    check(words[4:8], [(":", kinds.PUNCTUATION, 0), ("[", kinds.PUNCTUATION, 0), ("rel", kinds.KEYWORD, 0), ("0x1007", kinds.NUMBER, 0)])
    check(words[8:], [("]", kinds.PUNCTUATION, 0), (",", kinds.PUNCTUATION, None), ("0xffffffff", kinds.NUMBER, 1)])
    numbers = [(piece.role, piece.value, piece.width) for piece in add.pieces() if piece.role is not None]
    check(numbers, [(roles.ADDRESS, 0x1007, 8), (roles.IMMEDIATE, 0xFFFFFFFF, 4)])
    movzx = f.decode(64, 0, code("0fb647f8"))
    check([piece[1:] for piece in movzx.pieces(f.Style.ATT) if piece.role], [(kinds.NUMBER, 1, roles.DISPLACEMENT, (1 << 64) - 8, 8)])
    source = 40 * b"\x90" + code("48895c2410 e8f60f0000 c3 8b049d08000000 660f1f840000000000 f3a4 d8c1 6417 cd80 ea")
    for bits in (16, 32, 64):
        for style in f.Style:
            for item in f.iterate(bits, 0x1000, source):
                if item.kind is f.ItemKind.INSTRUCTION:
                    check("".join(piece.text for piece in item.pieces(style)), item.text(style))
                    check(all(piece.text for piece in item.pieces(style)), True)
    made = f.Instr(f.code_of("nop", "NF3 90"))
    check([str(piece) for piece in made.pieces(bits=64)], ["nop"])
    raised(ValueError, made.pieces)
    refused(f.Reason.BAD_SYNTAX, add.pieces, 3)
    refused(f.Reason.BAD_MODE, add.pieces, f.Style.ATT, 17)


def shown_by_options():
    lea, call = f.decode(64, 0x401000, code("488d3dbd2e0000")), f.decode(64, 0x401000, code("e8fb0f0000"))
    check(lea.format(), str(lea))
    check([item.format(f.GNU_ATT, syntax=f.Style.ATT) for item in (lea, call)], ["lea    0x2ebd(%rip),%rdi        # 403ec4", "call   0x402000"])
    names = {0x402000: "puts@plt", 0x403EC4: ("message", 4)}
    check(call.format(f.GNU, names, f.Style.MASM), "call   0x402000 <puts@plt>")
    check(call.format(symbols=names.get), "call 0x402000 <puts@plt>")
    check(lea.format(f.Options(symbol_place=f.SymbolPlace.INSTEAD), names), "lea rdi, [rel message+0x4]")
    check(lea.format(f.Options(rip_distance=True), end=0x403EC0), "lea rdi, [rip+0x4]")
    long = "n" * 5000
    check(call.format(symbols={0x402000: long}), f"call 0x402000 <{long}>")
    asked = []
    check(f.decode(64, 0, code("83c005")).format(symbols=asked.append), "add eax, 0x5")
    check(asked, [])
    check(call.format(symbols=asked.append), "call 0x402000")
    check(asked, [0x402000])
    refused(f.Reason.BAD_OPTIONS, call.format, f.Options(letters=9))
    refused(f.Reason.BAD_SYNTAX, call.format, syntax=3)
    raised(ValueError, call.format, f.Options(operand_column=256))
    raised(ValueError, f.Instr(f.Code.RET).format)
    raised(TypeError, call.format, symbols={0x402000: b"main"})


def told_what_it_does():
    about = f.info(f.decode(64, 0x1000, code("48895c2410")))
    check(about.access, (f.Access.WRITE, f.Access.READ))
    check((about.memory_size, about.flow, len(about.uses)), (8, f.Flow.NEXT, 2))
    check((about.target, about.ip_address), (None, None))
    check(f.decode(64, 0x1000, code("488b0510000000")).info().ip_address, 0x1017)
    check(f.decode(64, 0x1000, code("7410")).info().target, 0x1012)
    # lock cmpxchg [rcx], rdx: the accumulator is an operand of its own in no text
    check([use.access for use in f.decode(64, 0, code("f0480fb111")).info().uses], [f.Access.READ, f.Access.READ])


def told_what_it_touches():
    status = f.Flags.OF | f.Flags.SF | f.Flags.ZF | f.Flags.AF | f.Flags.PF | f.Flags.CF
    rw, may = f.Touch.READ | f.Touch.WRITE, f.Touch.MAY_READ | f.Touch.MAY_WRITE

    def registers(bits, text):
        told = f.decode(bits, 0, code(text)).effects()
        return {str(use.register): use.access for use in told.registers}

    check(registers(64, "53"), {"rbx": f.Touch.READ, "rsp": rw})
    check(registers(32, "53"), {"ebx": f.Touch.READ, "ss": f.Touch.READ, "esp": rw})
    check(registers(64, "f3a4"), {"rsi": may, "rdi": may, "rcx": f.Touch.READ | f.Touch.MAY_WRITE})
    check(registers(64, "67f3a4"), {"esi": may, "edi": may, "ecx": f.Touch.READ | f.Touch.MAY_WRITE})
    cpuid = registers(64, "0fa2")
    check(sorted(cpuid), ["eax", "ebx", "ecx", "edx"])
    check((cpuid["ebx"], cpuid["eax"]), (f.Touch.WRITE, rw))
    check({str(f.register(name).full()) for name in ("al", "ah", "ax", "eax", "rax")}, {"rax"})
    check((str(f.register("spl").full()), str(f.register("xmm3").full()), str(f.register("eip").full())), ("rsp", "ymm3", "rip"))
    refused(f.Reason.NO_REGISTER, f.Register(f.RegClass.SEG, 6).full)

    # a far call of 32-bit code pushes CS and EIP: 8 bytes below ESP
    told = f.effects(32, f.decode(32, 0, code("9a 78563412 2300")))
    (memory,) = told.memory
    check((memory.segment, memory.base, memory.index, memory.displacement, memory.size), (f.Segment.SS, f.register("esp"), None, -8, 8))
    check((memory.access, str(memory)), (f.Touch.WRITE, "ss:[esp-0x8]"))
    check(str(f.decode(64, 0, code("d7")).effects().memory[0]), "ds:[rbx+al]")
    check(str(f.decode(64, 0x1000, code("488b0510000000")).effects().memory[0]), "ds:[0x1017]")
    check(str(f.decode(64, 0, code("64488b0425 28000000")).effects().memory[0]), "fs:[0x28]")
    check([str(m) for m in f.decode(64, 0, code("ff74cb10")).effects().memory], ["ds:[rbx+rcx*8+0x10]", "ss:[rsp-0x8]"])
    check([str(m) for m in f.decode(16, 0, code("53")).effects().memory], ["ss:[sp-0x2]"])
    check(f.decode(64, 0, code("4c8d00")).effects().memory, ())

    # flags: add; adc, which reads the carry; shl by CL, where a count of 0 keeps them; inc; test; ja
    add, adc = (f.decode(64, 0, code(text)).effects() for text in ("01d8", "11d8"))
    check((add.flags_read, add.flags_written, add.flags_undefined, add.flags_kept), (f.Flags(0), status, f.Flags(0), f.Flags(0)))
    check(adc.flags_read, f.Flags.CF)
    shl = f.decode(64, 0, code("d3e0")).effects()
    check((shl.flags_written | shl.flags_undefined, shl.flags_kept), (status, status))
    check(f.decode(64, 0, code("ffc0")).effects().flags_written, status & ~f.Flags.CF)
    test = f.decode(64, 0, code("85c0")).effects()
    check((test.flags_cleared, test.flags_undefined, test.flags_set), (f.Flags.CF | f.Flags.OF, f.Flags.AF, f.Flags(0)))
    check(f.decode(64, 0, code("7710")).effects().flags_read, f.Flags.CF | f.Flags.ZF)
    check(f.decode(64, 0, code("f9")).effects().flags_set, f.Flags.CF)
    check(bool(f.decode(64, 0, code("dbf1")).effects().flags_cleared & f.Flags.C1), True)

    # features, of which those of two forms of a row can differ
    for text, want in (("90", ""), ("dbf1", "FPU CMOV"), ("c4e27d1801", "AVX"), ("c4e27d18c1", "AVX2"), ("0f05", "SYSCALL")):
        check(f.decode(64, 0, code(text)).effects().features, frozenset(want.split()))
    made = f.decode(64, 0, code("53")).replace()
    raised(ValueError, made.effects)
    check(made.effects(64), f.effects(64, made))
    refused(f.Reason.BAD_MODE, f.effects, 17, made)
    refused(f.Reason.BAD_FORM, f.effects, 64, made.replace(ops=[]))
    refused(f.Reason.BAD_INSTR, f.effects, 64, made.replace(rep=5))


def effects_differ_in_displacements():
    """Effects of instructions that differ in a displacement alone, which are copies of each other: they are the values that a constructor makes."""
    far, one = f.Touch.READ, f.Segment.DS

    def memory(bits, ip, text, value, *rest):
        told = f.decode(bits, ip, code(text)).effects()
        check((told.memory[1:], told.registers[:1], told.flags_read), (rest, first.setdefault((bits, text[:4]), told).registers[:1], f.Flags(0)))
        want = dataclasses.replace(told, memory=(dataclasses.replace(told.memory[0], displacement=value), *rest))
        for made, kin in ((told, want), (told.memory[0], want.memory[0])):
            check((made, hash(made), repr(made), vars(made)), (kin, hash(kin), repr(kin), vars(kin)))
            check(pickle.loads(pickle.dumps(made)), made)
            raised(dataclasses.FrozenInstanceError, setattr, made, "displacement", 1)
        return told.memory[0]

    first = {}
    rbx, ebx, bx, rip = (f.register(name) for name in ("rbx", "ebx", "bx", "rip"))
    for value in (0x10, -0x10, 0, 0x7FFFFFFF, -0x80000000, 0x10, 5):
        disp = (value & 0xFFFFFFFF).to_bytes(4, "little").hex()
        check(memory(64, 0, "8b83" + disp, value), f.MemoryUse(one, rbx, None, 1, value, 4, far))
        check(memory(32, 0, "8b83" + disp, value), f.MemoryUse(one, ebx, None, 1, value, 4, far))
        check(memory(64, 0, "678b83" + disp, value), f.MemoryUse(one, ebx, None, 1, value, 4, far))
        # without a base an address is unsigned, and so is that at RIP
        check(memory(64, 0, "8b0425" + disp, value & (1 << 64) - 1), f.MemoryUse(one, None, None, 1, value & (1 << 64) - 1, 4, far))
        check(memory(32, 0, "8b05" + disp, value & 0xFFFFFFFF), f.MemoryUse(one, None, None, 1, value & 0xFFFFFFFF, 4, far))
        check(memory(64, 0x1000, "8b05" + disp, 0x1006 + value & (1 << 64) - 1).base, rip)
        stack = f.MemoryUse(f.Segment.SS, f.register("rsp"), None, 1, -8, 8, f.Touch.WRITE)
        check(memory(64, 0, "ffb3" + disp, value, stack), f.MemoryUse(one, rbx, None, 1, value, 8, far))
    for value in (0x10, -0x10, 0x7FFF, -0x8000):
        check(memory(16, 0, "8b87" + (value & 0xFFFF).to_bytes(2, "little").hex(), value), f.MemoryUse(one, bx, None, 1, value, 2, far))


def made_instructions():
    rax, rbx, rcx = (f.register(name) for name in ("rax", "rbx", "rcx"))
    lea = f.code_of("lea", "REX.W + 8D /r")
    for memory, want in (
        (f.Memory(rbx), "488d03"),
        (f.Memory(rbx, displacement=-8), "488d43f8"),
        (f.Memory(rbx, displacement=127), "488d437f"),
        (f.Memory(rbx, displacement=128), "488d8380000000"),
        (f.Memory(f.register("rbp")), "488d4500"),
        (f.Memory(f.register("r13"), rcx, 4, 0), "498d448d00"),
        (f.Memory(None, rcx, 4, 0x10), "488d048d10000000"),
        (f.Memory(f.register("rip"), displacement=0x1017), "488d0510000000"),
        (f.Memory(f.register("ebx")), "67488d03"),
    ):
        made = f.Instr(lea, rax, memory)
        check(made.encode(64, 0x1000).hex(), want)
        check(f.decode(64, 0x1000, code(want)), made)
    nop = f.decode(64, 0, b"\x90")
    check((nop.replace().encode(64, 0), nop.replace(), nop.replace().address), (b"\x90", nop, None))
    made = f.Instr(nop.code, *nop.ops)
    check((made.bytes, made.len, made.bits, bool(made)), (b"", 0, None, True))
    check(str(made), repr(made))
    raised(ValueError, made.text)
    check(made.text(bits=64), "nop")


def items_say_what_they_are():
    def kinds(bits, text):
        return [(item.kind.name, item.address, item.bytes.hex()) for item in f.iterate(bits, 0x10, code(text))]

    check(kinds(64, "9006c3"), [("INSTRUCTION", 0x10, "90"), ("INVALID", 0x11, "06"), ("INSTRUCTION", 0x12, "c3")])
    check(kinds(64, "904883c4"), [("INSTRUCTION", 0x10, "90"), ("TOO_SHORT", 0x11, "4883c4")])
    check(kinds(64, "0f8799"), [("TOO_SHORT", 0x10, "0f8799")])
    check(kinds(64, ""), [])
    rest, bad = next(f.iterate(64, 0x10, code("4883c4"))), next(f.iterate(64, 0x10, b"\x06"))
    check((repr(rest), repr(bad)), ("<Rest 0x10: 4883c4>", "<BadByte 0x10: 06>"))
    check((rest.len, len(bad), rest == bad, rest == next(f.iterate(64, 0x10, code("4883c4")))), (3, 1, False, True))
    # more than one call of the library reads in
    many = list(f.iterate(64, 0, 5000 * b"\x90\x06\x66\x90" + b"\x48"))
    check((len(many), many[-1], many[-2].address, many[-3].address), (15001, f.Rest(20000, b"\x48"), 19998, 19997))
    check([item.address for item in f.iterate(16, 0xFFFF, b"\x90\x90")], [0xFFFF, 0])
    # what is changed behind an item's back does not reach it
    source = bytearray(b"\x90\xc3")
    items = f.iterate(64, 0, source)
    source[1] = 0x90
    check([str(item) for item in items], ["nop", "ret"])


def items_are_those_of_decode():
    """Random bytes, read by `iterate` in chunks and one by one by `decode`."""
    rng = random.Random(908)
    for bits, ip in ((16, 0xF000), (32, 0xFFFFFF00), (64, 0x401000), (64, (1 << 64) - 700)):
        source = b"".join(rng.choice((b"\x90", b"\x48\x8b\x05", b"\xc3", bytes([rng.randrange(256)]))) for _ in range(9000))
        for unlisted in (False, True):
            at, items = 0, f.iterate(bits, ip, source, unlisted=unlisted)
            for item in items:
                address = ip + at & (1 << bits) - 1
                try:
                    want = f.decode(bits, ip, source, at)
                    assert item._struct == want._struct and item.bits == bits, (at, item)
                except f.TooShort:
                    want = f.Rest(address, source[at:])
                except f.InvalidCode:
                    want = f.BadByte(address, source[at : at + 1])
                    try:
                        shape = f.measure(bits, source, at) if unlisted else None
                    except f.Refusal:
                        shape = None
                    if shape is not None:
                        want = f.Unlisted(address, source[at : at + shape.len], shape, shape.target(bits, address))
                assert (item, item.address, item.bytes, item.kind) == (want, address, want.bytes, want.kind), (at, item, want)
                # the method finds a near branch by another's effects, the function does not
                assert item.kind is not f.ItemKind.INSTRUCTION or item.effects() == f.effects(bits, item), (at, item)
                at += item.len
            check(at, len(source))


def branches_have_equal_effects():
    """Near branches of one form to several targets, by the method, which leaves out the target, and by the function."""
    forms = [f"{opcode:02x}" for opcode in (*range(0x70, 0x80), 0xE0, 0xE1, 0xE2, 0xE3, 0xE8, 0xE9, 0xEB)] + [f"0f{opcode:02x}" for opcode in range(0x80, 0x90)]
    for bits in (16, 32, 64):
        for form in forms:
            for prefix in ("", "66", "67", "6667", "f2", "2e", "48"):
                for rest in ("00000000", "7f000000", "80ffffff", "00800000", "ffffff7f"):
                    try:
                        branch = f.decode(bits, 0x8000, code(prefix + form + rest))
                    except f.Refusal:
                        continue
                    if branch.ops and isinstance(branch.ops[0], f.Near):
                        check(branch.effects(), f.effects(bits, branch))


def texts_are_read():
    check(f.assemble(64, 0x1000, "mov qword [rsp+0x10], rbx"), code("48895c2410"))
    made = f.read_intel(64, 0x1000, "je 0x1010")
    check((made.bytes, made.address, made.bits, made.ops), (code("740e"), 0x1000, 64, (f.Near(0x1010),)))
    check(made, f.decode(64, 0x1000, code("740e")))
    for call in (f.assemble, f.read_intel):
        refused(f.Reason.NO_TEXT, call, 64, 0, "mow rax, rbx")
        refused(f.Reason.NO_TEXT, call, 64, 0, "nop\u00e9")
        refused(f.Reason.NO_TEXT, call, 64, 0, "nop\0")
        refused(f.Reason.BAD_MODE, call, 17, 0, "nop")


def routines_are_assembled():
    made = f.assemble_code(64, 0x401000, "next: dec ecx\n jne next\n  call puts ; of the C library\n end:", {"puts": 0x401180})
    check((made.code, made.labels), (code("ffc975fce877010000"), {"next": 0x401000, "end": 0x401009}))
    check((made.report.bytes, made.report.slots, made.report.labels), (9, 0, 2))
    check(made.lines, {1: 0x401000, 2: 0x401002, 3: 0x401004})
    check(f.assemble_code(64, 0, "@@: db ';@', 1 ; @\n \n# @\n\tx:\n nop # it's").lines, {1: 0, 5: 3})
    check(f.assemble_code(64, 0, "").code, b"")
    check(f.assemble_code(64, 0, "x:").labels, {"x": 0})
    check(f.assemble_code(32, 0, "dq MINUS\ndb 'a'", names={"MINUS": -1}).code, 8 * b"\xff" + b"a")
    # what the text of one instruction gives is the same
    for text in ("mov qword [rsp+0x10], rbx", "je 0x1010", "vpaddd xmm1, xmm2, xmm15"):
        check(f.assemble_code(64, 0x1000, text).code, f.assemble(64, 0x1000, text))
    # a branch that does not reach its label in 8 bits is near, and no longer than that
    for count in (126, 127, 128):
        made = f.assemble_code(64, 0, "jmp end\n" + count * "nop\n" + "end:")
        check((len(made.code), made.labels["end"]), 2 * (count + (2 if count < 128 else 5),))
    # a table of addresses, aligned by the manual's NOP of 3 bytes; the address of a label is where it stands
    made = f.assemble_code(64, 0x401000, "ret\n align 4\n t: dd t+4, end\n end:")
    check((made.code.hex(), made.labels["t"]), ("c30f1f00081040000c104000", 0x401004))
    for reason, line, column, text in (
        (f.Reason.NO_TEXT, 2, 3, "ret\n  mvo eax, 1"),
        (f.Reason.NO_SIZE, 1, 4, "x: inc [rbx]"),
        (f.Reason.BAD_DATA, 1, 1, "db 256"),
        (f.Reason.UNKNOWN, 3, 1, "nop\n\njmp there"),
        (f.Reason.TWICE, 2, 2, "x: nop\n x: nop"),
        (f.Reason.BAD_ALIGNMENT, 2, 1, "nop\nalign 3"),
        (f.Reason.BAD_LABEL, 2, 2, "nop\n CL: nop"),
        (f.Reason.UNFIT, 2, 4, "db 0, 0, 0, 0, 0, 0, 0, 0\nx: db x+248"),
        (f.Reason.TOO_MANY, 65537, 1, 65537 * "nop\n"),
    ):
        refusal = refused(reason, f.assemble_code, 64, 0, text)
        check((refusal.report.line, refusal.report.column), (line, column))
        check(str(refusal).split("\n")[1:], [text.split("\n")[line - 1], (column - 1) * " " + "^"])
        copy = pickle.loads(pickle.dumps(refusal))
        check((type(copy), copy.report, str(copy)), (f.Refusal, refusal.report, str(refusal)))
    # columns count bytes, and the mark stands under the letter
    check(str(refused(f.Reason.NO_TEXT, f.assemble_code, 64, 0, "\tmvo eax, '\u00e9'")).split("\n")[1:], ["\tmvo eax, '\u00e9'", "\t^"])
    check(str(refused(f.Reason.BAD_NAMES, f.assemble_code, 64, 0, "nop", {"a": 1, "rax": 2})).endswith(": rax = 0x2"), True)
    wraps = refused(f.Reason.WRAPS, f.assemble_code, 64, (1 << 64) - 1, "nop\n nop")
    check(str(wraps).split("\n")[1:], [" nop", " ^"])
    check((wraps.report.line, wraps.report.column, wraps.report.address), (2, 2, 1))
    far = refused(f.Reason.TOO_FAR, f.assemble_code, 64, 0x80001000, "nop\n db 1, 2\nx: lea rax, [rel 0x1007]")
    check(str(far).split("\n")[1:], ["x: lea rax, [rel 0x1007]", "   ^"])
    check((far.report.line, far.report.column, far.report.at, far.report.address), (3, 4, 3, 0x1007))
    # a branch whose target only the first byte reaches: through a slot, or refused
    given = (64, 0x80000000, "nop\n jmp back", {"back": 5})
    made = f.assemble_code(*given)
    check((made.code.hex(), made.report.slots, f.assemble_code(*given, slots=True).code), ("90ff2501000000cc0500000000000000", 1, made.code))
    far = refused(f.Reason.TOO_FAR, f.assemble_code, *given, slots=False)
    check(str(far).split("\n")[1:], [" jmp back", " ^"])
    check((far.report.line, far.report.column, far.report.at, far.report.address, far.report.slots), (2, 2, 1, 5, 0))
    near = f.assemble_code(64, 0x80000000, "jmp back\n nop", {"back": 5}, slots=False)
    check((near.code.hex(), near.report.slots, near.lines), ("e90000008090", 0, {1: 0x80000000, 2: 0x80000005}))
    refused(f.Reason.BAD_MODE, f.assemble_code, 17, 0, "nop")
    for name in ("", "1a", "a b", "a = 1\nb", "a;", "\u00e9"):
        raised(ValueError, f.assemble_code, 64, 0, "nop", {name: 1})
    raised(ValueError, f.assemble_code, 64, 0, "nop", {"a": 1 << 64})
    raised(TypeError, f.assemble_code, 64, 0, "nop", {1: 1})


def jumps_have_forms():
    def jump(*arguments):
        return f.jump(*arguments).hex()

    check((jump(64, 0x1000, 0x1010, f.Jump.SHORT), jump(64, 0x1000, 0x1010)), ("eb0e", "e90b000000"))
    check(jump(64, 0x1000, 0x7FFF00000000, f.Jump.FAR), "ff250000000000000000ff7f0000")
    check((jump(32, 0x1000, 0x1010, f.Jump.CALL_NEAR), jump(16, 0x1000, 0x1010, 2)), ("e80b000000", "e90d00"))
    check(jump(64, 0x1000, 0x7FFF00000000, f.Jump.CALL_FAR), "ff1502000000eb0800000000ff7f0000")
    refused(f.Reason.BAD_JUMP, f.jump, 64, 0, 0, 6)
    check(refused(f.Reason.NO_ENCODING, f.jump, 64, 0, 0x1000, f.Jump.SHORT).cause, f.Cause.TARGET)
    check(refused(f.Reason.NO_ENCODING, f.jump, 32, 0, 0x1000, f.Jump.FAR).cause, f.Cause.ROW)


def moved_as_blocks():
    # a function and its cold part, which jump to each other
    hot, cold = f.Block(0x1000, code("0f85fa000000c3"), 0x2000), f.Block(0x1100, code("e901ffffff"), 0x2020)
    moved = f.move_blocks(64, [hot, cold])
    check([(block.new_ip, block.code.hex(), block.code_bytes) for block in moved], [(0x2000, "0f851a000000c3", 7), (0x2020, "e9e1ffffff", 5)])
    check(moved[1].places, [f.Moved(0x1100, 0x2020, 5, f.Form.NEAR)])
    check(f.move_blocks(64, []), [])
    bad = refused(f.Reason.INVALID, f.move_blocks, 64, [hot, f.Block(0, code("9006"), 0x3000)], kind=f.InvalidCode)
    check((bad.report.block, bad.report.at), (1, 1))
    refused(f.Reason.WRAPS, f.move_blocks, 64, [f.Block((1 << 64) - 1, b"\x90\x90", 0)])
    raised(TypeError, f.move_blocks, 64, [b"\x90"])
    raised(ValueError, f.Block, -1, b"", 0)
    raised(TypeError, f.Block, 0, "nop", 0)


def placed_in_a_region():
    region = f.Region(0x10000, 64, 2)
    first, second = region.reserve(17), region.reserve(1)
    check((first, second), (0x10000, 0x10020))
    region.fill(second, code("90c3"))
    check(region.image[30:36].hex(), "cccc90c3cccc")
    refused(f.Reason.NO_ROOM, region.reserve, 1)
    refused(f.Reason.NOT_LIVE, region.release, 0x10010)
    refused(f.Reason.NO_ROOM, region.fill, second, bytes(17))
    region.release(second)
    check((region.image, region.live), (64 * b"\xcc", [f.Live(0x10000, 32)]))
    refused(f.Reason.FULL, region.reserve, 33)
    refused(f.Reason.EMPTY, region.reserve, 0)
    refused(f.Reason.BAD_REGION, f.Region, 0, 40)
    refused(f.Reason.BAD_REGION, f.Region, (1 << 64) - 32, 64)
    raised(ValueError, region.reserve, -1)
    raised(TypeError, region.fill, first, "nop")


def stepped_elsewhere():
    call = code("e8fb0f0000")
    # a call and a jump back, worked out manually; the same at an offset of more bytes
    for given in ((0x1000, call), (0xFFF, b"\x90" + call, 1)):
        made = f.step(64, given[0], given[1], 0x1800, *given[2:])
        check(made, f.Step(code("e8fb070000e9fbf7ffff"), 5, 5, 5))
        check(f.step_len(64, given[0], given[1], 0x1800, *given[2:]), 32)
    # loop 0x1010: e2 over a jump to the end, and a jump; the counter is decremented after 2 of its 9 bytes
    check(f.step(64, 0x1000, code("e20e"), 0x2000), f.Step(code("e202eb05e907f0ffffe9f4efffff"), 9, 2, 2))
    check(f.step(16, 0x5FFFF, b"\x50", 0x10).code, code("50e9ecff"))
    check(max(f.step_len(64, 0, kind, base) for kind in (call, code("e200")) for base in range(16)) <= f.MAX_STEP, True)
    refused(f.Reason.BAD_MODE, f.step, 17, 0, call, 0)
    refused(f.Reason.INVALID, f.step, 64, 0, b"\x06", 0, kind=f.InvalidCode)
    refused(f.Reason.TOO_SHORT, f.step, 64, 0, b"\xe8", 0, kind=f.TooShort)
    wraps = refused(f.Reason.WRAPS, f.step, 16, 0x1000, b"\x90", 0xFFFE)
    check(str(wraps), "the old or the new code extends past the address space of the mode: it ends at 0x10002")
    far = refused(f.Reason.TOO_FAR, f.step, 64, 0x1000, code("8b0500000000"), 0x7F0000000000)
    check((str(far), far.report.address), ("an instruction cannot reach its target from its new address: target 0x1006", 0x1006))
    check(pickle.loads(pickle.dumps(far)).report, far.report)
    refused(f.Reason.BAD_MODE, f.step_len, 17, 0, call, 0)
    refused(f.Reason.INVALID, f.step_len, 64, 0, b"\x06", 0, kind=f.InvalidCode)
    refused(f.Reason.TOO_SHORT, f.step_len, 64, 0, b"\xe8", 0, kind=f.TooShort)

    # a call that pushes its own return address: push, mov of the high half, jmp
    for given in ((0x1000, call), (0xFFF, b"\x90" + call, 1)):
        made = f.step_call(64, given[0], given[1], 0x1800, *given[2:])
        check(made, f.StepCall(code("6805100000c744240400000000e9ee070000"), 5, 5))
    check(f.step_call(16, 0x1000, code("e8fd0f"), 0x1800), f.StepCall(code("680310e9fa07"), 3, 3))
    check(f.step_call(64, 0x1000, code("ff142424"), 0x2000).code, code("6803100000c744240400000000ff642408"))
    refused(f.Reason.BAD_FORM, f.step_call, 64, 0, b"\x90", 0)
    refused(f.Reason.BAD_FORM, f.step_call, 64, 0, code("ffd4"), 0)
    refused(f.Reason.BAD_MODE, f.step_call, 17, 0, call, 0)
    refused(f.Reason.TOO_SHORT, f.step_call, 64, 0, b"\xe8", 0, kind=f.TooShort)

    # slots: 16 bytes for a push, 32 for a call; what is finished is free again
    slots = f.StepSlots(64, 0x10000, 64, 2)
    check((slots.step(0x1000, b"\x50"), slots.step(0x10FFF, b"\x90" + call, 1)), (0x10000, 0x10010))
    check([(slot.place, slot.old_ip, slot.step.len) for slot in slots.live], [(0x10000, 0x1000, 1), (0x10010, 0x11000, 5)])
    check(slots.image, code("50e9fb0fffff") + 10 * b"\xcc" + code("e8eb1f0000e9eb0f0000") + 38 * b"\xcc")
    refused(f.Reason.NO_ROOM, slots.step, 0x1000, b"\x50")
    refused(f.Reason.NOT_LIVE, slots.finish, 0x10020)
    slots.finish(0x10000)
    refused(f.Reason.FULL, slots.step, 0x1000, call)
    check([slot.place for slot in slots.live], [0x10010])
    high = f.StepSlots(64, 0x7F0000000000, 64)
    refused(f.Reason.TOO_FAR, high.step, 0x1000, code("8b0500000000"))
    refused(f.Reason.INVALID, high.step, 0x1000, b"\x06", kind=f.InvalidCode)
    check((high.live, high.image, repr(high)), ([], 64 * b"\xcc", "<StepSlots 0x7f0000000000: 64 bytes, 0 live>"))
    refused(f.Reason.BAD_MODE, f.StepSlots, 17, 0, 64)
    refused(f.Reason.BAD_REGION, f.StepSlots, 16, 0xFFF0, 32)
    refused(f.Reason.BAD_REGION, f.StepSlots, 64, 0, 8)


def codes_have_names():
    check(len(f.Code), 179)
    check([code for code in f.Code if f.name(code) != code.name.split("_")[0].lower()], [])
    check(f.Instr(f.Code.RET).encode(64, 0), b"\xc3")
    check((f.Code.JMP_REL32, f.Code.MOV_RM64_R64), (f.code_of("jmp", "o64 E9 cd"), f.code_of("mov", "REX.W + 89 /r")))
    check(f.decode(64, 0, b"\xcc").code is f.Code.INT3, False)
    check(f.decode(64, 0, b"\xcc").code == f.Code.INT3, True)


def moved_and_followed():
    # je over 16 bytes, moved beyond the reach of 32 bits: an inverted jump over one through a slot
    moved = f.move(64, 0x1000, code("7410"), 0x7FFF00000000)
    check(moved.code.hex(), "7506ff25000000001210000000000000")
    check(moved.places, [f.Moved(0x1000, 0x7FFF00000000, 2, f.Form.FAR)])
    check((moved.report.bytes, moved.report.count), (16, 1))
    # the jump through the slot is 6 bytes behind 2; the slot stands behind both
    check((moved.report.code_bytes, moved.report.slots_at), (8, 8))
    check(f.move(64, 0, b"", 0x1000)[:2], (b"", []))
    # a loop on itself: it goes along, or back to where it was
    check([call(64, 0x1000, code("ebfe"), 0x1080).code.hex() for call in (f.move, f.move_outside)], ["ebfe", "e97bffffff"])
    # vpxord zmm0, zmm0, [rip+0x10], and a jump back to it
    moved = f.move(64, 0x1000, code("62f17d48ef0510000000 ebf4"), 0x2000, unlisted=True)
    check(moved.code.hex(), "62f17d48ef0510f0ffffebf4")
    check(moved.places, [f.Moved(0x1000, 0x2000, 10, f.Form.NEAR), f.Moved(0x100A, 0x200A, 2, f.Form.SHORT)])
    refused(f.Reason.INVALID, f.move, 64, 0x1000, code("62f17d48ef0510000000 ebf4"), 0x2000, kind=f.InvalidCode)
    found = f.flow(64, 0, code("740190c3"))
    check(found, [(0, 0, f.Flow.CONDITIONAL), (2, 2, f.Flow.NEXT), (3, 3, f.Flow.RETURN)])
    check(f.flow(64, 0, code("740190c3"), [0]), found)
    check(f.flow(64, 0, code("740190c3"), 2), [(2, 2, f.Flow.NEXT), (3, 2, f.Flow.RETURN)])
    check([(at, leader) for at, leader, _ in f.flow(64, 0, code("9090c3c3"), (3, 1, 1, 4))], [(1, 1), (2, 1), (3, 3)])
    check([reached.kind for reached in f.flow(64, 0, code("9006e8"), {2, 0})], [f.Flow.NEXT, f.Reason.INVALID, f.Reason.TOO_SHORT])
    check(f.flow(64, 0, code("90"), []), [])
    check(f.flow(64, 0, b""), [])
    check(str(f.move(64, 0x1000, code("ebfe"), 0x2000).places[0]), "Moved(old_ip=4096, new_ip=8192, len=2, form=<Form.SHORT: 1>)")


def hooks_are_made():
    # sub rsp, 0x18; xor eax, eax; ret: two of them have six bytes, the jump five
    small = code("4883ec18 31c0 c3")
    near = f.detour(64, 0x1000, small, 0x2000, 0x3000)
    check((near.patch.hex(), near.trampoline.hex()), ("e9fb0f0000cc", "4883ec1831c0e9fbdfffff"))
    check((near.form, near.jump_back, near.slots, near.relay), (f.DetourForm.NEAR, 6, None, None))
    check(near.report, f.DetourReport(6, 11, 6, 11, 11, 0, 0, 1))
    # the replacement is far: by the relay behind the trampoline, at 0x300b
    relay = f.detour(64, 0x1000, small, 0x7FFF00000000, 0x3000)
    check((relay.patch.hex(), relay.trampoline.hex()), ("e906200000cc", "4883ec1831c0e9fbdfffffff250000000000000000ff7f0000"))
    check((relay.form, relay.jump_back, relay.slots, relay.relay), (f.DetourForm.RELAY, 6, None, 11))
    # the trampoline is far too: 14 bytes, of which this function has but 7
    few = refused(f.Reason.SMALL, f.detour, 64, 0x1000, small, 0x7FFF00000000, 0x7FFE00000000)
    check((few.report.at, few.report.target), (7, 14))
    check(str(few), "the function is shorter than the jump: the function has 7 bytes, the jump 14")
    long = 7 * code("31c0") + code("c3")
    far = f.detour(64, 0x1000, long, 0x7FFF00000000, 0x7FFE00000000)
    check((far.patch.hex(), far.form), ("ff250000000000000000ff7f0000", f.DetourForm.ABSOLUTE))
    # jmp [rip] of 6 bytes behind the 14, a gap up to 24 and the slot with the way back
    check((far.trampoline.hex(), far.jump_back, far.slots), (7 * "31c0" + "ff2504000000" + "cccccccc" + "0e10000000000000", 14, 24))
    # of the other modes
    check(f.detour(32, 0x1000, small, 0x2000, 0x3000).patch.hex()[:10], "e9fb0f0000")
    check(f.detour(16, 0x1000, code("31c0 40 c3"), 0x2000, 0x3000).patch.hex(), "e9fd0f")
    # a lone return with padding, and with another function behind it
    check(f.detour(64, 0x1000, code("c3 0f1f4000"), 0x2000, 0x3000)[:4], (code("e9fb0f0000"), code("c3"), f.DetourForm.NEAR, None))
    ends = refused(f.Reason.ENDS, f.detour, 64, 0x1000, code("c3 90 90 90 31c0 c3"), 0x2000, 0x3000)
    check((ends.report.at, str(ends).endswith(": at offset 4")), (4, True))
    entered = refused(f.Reason.ENTERED, f.detour, 64, 0x1000, code("31c0 ffc0 39f8 72fa c3"), 0x2000, 0x3000)
    check((entered.report.at, entered.report.target), (6, 2))
    # a loop to the very start
    loop = code("83ef03 7ffb 8d470a c3")
    check([f.detour(64, 0x1000, loop, 0x2000, 0x3000, start).trampoline.hex() for start in f.Start],
          ["83ef037ffbe9fbdfffff", "83ef030f8ff7dfffffe9f7dfffff"])
    # vpxord zmm0, zmm0, [rip+0x10], which is 0x101a; ret
    evex = code("62f17d48ef0510000000 c3")
    refused(f.Reason.INVALID, f.detour, 64, 0x1000, evex, 0x2000, 0x3000, kind=f.InvalidCode)
    check(f.detour(64, 0x1000, evex, 0x2000, 0x3000, unlisted=True).trampoline.hex(), "62f17d48ef0510e0ffff" + "e9fbdfffff")
    for other in ({"entries": ()}, {"whole": True}, {"keep_endbr": True}, {"padding": b"\xcc"}):
        raised(ValueError, f.detour, 64, 0x1000, evex, 0x2000, 0x3000, unlisted=True, **other)
    refused(f.Reason.BAD_START, f.detour, 64, 0x1000, loop, 0x2000, 0x3000, 2)
    refused(f.Reason.BAD_MODE, f.detour, 17, 0x1000, loop, 0x2000, 0x3000)
    refused(f.Reason.TOO_LARGE, f.detour, 64, 0, bytes(f.MAX_CODE + 1), 0, 0)
    bad = refused(f.Reason.INVALID, f.detour, 64, 0x1000, code("90 06 909090"), 0x2000, 0x3000, kind=f.InvalidCode)
    check(bad.report.at, 1)
    refused(f.Reason.TOO_SHORT, f.detour, 64, 0x1000, code("90 48"), 0x2000, 0x3000, kind=f.TooShort)
    rip = refused(f.Reason.TOO_FAR, f.detour, 64, 0x1000, code("90 488b0510000000 c3"), 0x2000, 0x7FFE00000000)
    check((rip.report.at, rip.report.target, str(rip).endswith(": instruction 1, target 0x1018")), (1, 0x1018, True))
    wraps = refused(f.Reason.WRAPS, f.detour, 32, 0x1000, small, 0x2000, 0xFFFFFFFC)
    check(str(wraps).endswith(": it ends at 0x100000007"), True)
    copy = pickle.loads(pickle.dumps(few))
    check((type(copy), copy.number, copy.report, str(copy)), (f.Refusal, few.number, few.report, str(few)))


def hooks_are_made_by_rules():
    # mov rax, [rdi]; mov rcx, rax; vsubps zmm0, zmm0, zmm1, which has no row; jmp to the second one; ret
    unread = code("488b07 4889c1 62f17c4828c1 ebf5 c3")
    made = f.detour(64, 0x1000, unread, 0x2000, 0x3000, entries=())
    alone = f.detour(64, 0x1000, unread, 0x2000, 0x3000)
    check((made, made.moved), (alone, (f.MovedStart(0, 0), f.MovedStart(3, 3))))
    check(made.view, f.View(f.Sight.NOT_READ, 6, None, None, f.Passage(12, 3)))
    check((alone.moved, alone.view, len(alone)), (None, None, 7))
    copy = pickle.loads(pickle.dumps(made))
    check((type(copy), copy, copy.moved, copy.view, copy.call), (f.Detour, made, made.moved, made.view, None))
    unseen = refused(f.Reason.UNSEEN, f.detour, 64, 0x1000, unread, 0x2000, 0x3000, whole=True)
    check((unseen.report.at, unseen.report.target), (6, f.Sight.NOT_READ))
    # mov rax, [rdi]; jmp [8*rax+0x2000]; inc rdi; jmp to the first jump; ret: with the case at 10 known, and without
    by_table = code("488b07 ff24c500200000 48ffc7 ebf4 c3")
    unseen = refused(f.Reason.UNSEEN, f.detour, 64, 0x1000, by_table, 0x2000, 0x3000, whole=True)
    check((unseen.report.at, unseen.report.target), (3, f.Sight.INDIRECT_JUMP))
    check(str(unseen).endswith(": at offset 3 control jumps to an address in a register or in memory"), True)
    entered = refused(f.Reason.ENTERED, f.detour, 64, 0x1000, by_table, 0x2000, 0x3000, entries=iter([10]), whole=True)
    check((entered.report.at, entered.report.target), (13, 3))
    # cmp byte [rdi], 0; je to the end; inc rdi; jmp to the start; ret
    loop = code("803f00 7405 48ffc7 ebf6 c3")
    entered = refused(f.Reason.ENTERED, f.detour, 64, 0x1000, loop, 0x2000, 0x3000, entries=[])
    check(str(entered), "control may enter the bytes to be overwritten: from offset 8, to offset 0")
    hooked = f.detour(64, 0x1000, loop, 0x2000, 0x3000, f.Start.HOOKED, whole=True)
    check((hooked.moved, hooked.view), ((f.MovedStart(0, 0), f.MovedStart(3, 3)), f.View(f.Sight.WHOLE, None, None, None, None)))
    inside = refused(f.Reason.ENTERED, f.detour, 64, 0x1000, loop, 0x2000, 0x3000, f.Start.HOOKED, entries=[11, 4, 3])
    check((inside.report.at, inside.report.target), (3, 3))
    overlaps = refused(f.Reason.OVERLAPS, f.detour, 64, 0x1000, loop, 0x2000, 0x100A, f.Start.HOOKED, entries=())
    check(str(overlaps), "the trampoline would lie in the bytes of the function")
    refused(f.Reason.BAD_START, f.detour, 64, 0x1000, loop, 0x2000, 0x3000, 2, whole=True)
    # push esi; call of a thunk; add esi, 0x2000; ret: the call pushes its own return address, or is moved as it is, or refused
    thunk = code("56 e800010000 81c600200000 c3")
    own = f.detour(32, 0x1000, thunk, 0x2000, 0x9000, returns=True, calls=False)
    check((own.trampoline, own.call, own.jump_back), (code("56 6806100000 e9fb80ffff"), None, None))
    check(f.detour(32, 0x1000, thunk, 0x2000, 0x9000, whole=True).call, 1)
    calls = refused(f.Reason.CALLS, f.detour, 32, 0x1000, thunk, 0x2000, 0x9000, calls=False)
    check(str(calls), "a moved call would hand an address in the trampoline to what it calls: at offset 1")
    # the code ends within an instruction, after what is overwritten
    ended = refused(f.Reason.UNSEEN, f.detour, 64, 0x1000, code("31c0 31c0 90 48"), 0x2000, 0x3000, whole=True)
    check(str(ended), "control cannot be followed through the whole function: at offset 5 the code ends")
    raised(ValueError, f.detour, 64, 0, loop, 0, 0, entries=[1 << 32])
    raised(TypeError, f.detour, 64, 0, loop, 0, 0, entries=["0"])


def hooks_take_other_forms():
    # endbr64; cmp byte [rdi], 0; je to the end; inc rdi; a jump back to the first byte, or to the one behind the ENDBR; ret
    to_first, to_fifth = code("f30f1efa 803f00 7405 48ffc7 ebf2 c3"), code("f30f1efa 803f00 7405 48ffc7 ebf6 c3")
    entered = refused(f.Reason.ENTERED, f.detour, 64, 0x1000, to_first, 0x2000, 0x3000, keep_endbr=True)
    check((entered.report.at, entered.report.target), (12, 0))
    entered = refused(f.Reason.ENTERED, f.detour, 64, 0x1000, to_fifth, 0x2000, 0x3000, keep_endbr=True)
    check((entered.report.at, entered.report.target), (12, 4))
    kept = f.detour(64, 0x1000, to_first, 0x2000, 0x3000, f.Start.HOOKED, whole=True, keep_endbr=True)
    check((kept.kept, kept.patch, kept.trampoline[:7]), (4, code("e9f70f0000"), to_first[:7]))
    check((kept.moved, kept.view.sight), ((f.MovedStart(4, 4), f.MovedStart(7, 7)), f.Sight.WHOLE))
    check(kept.writes, ((4, b"\xcc"), (5, kept.patch[1:]), (4, b"\xe9")))
    copy = pickle.loads(pickle.dumps(kept))
    check((copy, copy.kept, copy.moved), (kept, 4, kept.moved))
    inside = refused(f.Reason.ENTERED, f.detour, 64, 0x1000, to_fifth, 0x2000, 0x3000, f.Start.HOOKED, entries=[14, 2], keep_endbr=True)
    check((inside.report.at, inside.report.target), (2, 2))
    # sub rsp, 0x18; xor eax, eax; ret: no ENDBR
    plain = code("4883ec18 31c0 c3")
    check(f.detour(64, 0x1000, plain, 0x2000, 0x3000, keep_endbr=True).kept, 0)
    # mov eax, edi; ret, behind NOPs and INT3
    small, padding = code("89f8 c3"), code("90 cccc 6690 cccccc")
    made = f.detour(64, 0x1000, small, 0x2000, 0x3000, padding=padding)
    check((made.jump, made.patch, made.trampoline), (code("e900100000"), code("ebf9"), code("89f8 e9fbdfffff")))
    check((made.form, f.detour(64, 0x1000, small, 0x7FFF00000000, 0x3000, padding=padding).form), (f.DetourForm.NEAR, f.DetourForm.RELAY))
    short = refused(f.Reason.PADDING, f.detour, 64, 0x1000, small, 0x2000, 0x3000, padding=padding[4:])
    check(str(short), "the padding in front of the function cannot be used: it has 4 bytes, the jump 5")
    other = refused(f.Reason.PADDING, f.detour, 64, 0x1000, small, 0x2000, 0x3000, padding=code("cccc 31c0 cccccc"))
    check(str(other), "the padding in front of the function cannot be used: at offset 2")
    entered = refused(f.Reason.ENTERED, f.detour, 64, 0x1000, code("89f8 ebf9"), 0x2000, 0x3000, padding=padding)
    check((entered.report.at, entered.report.target), (10, 5))
    refused(f.Reason.TOO_FAR, f.detour, 64, 0x1000, small, 0x7FFF00000000, 0x7FFE00000000, padding=padding)
    refused(f.Reason.SMALL, f.detour, 64, 0x1000, b"\xc3", 0x2000, 0x3000, padding=padding)
    refused(f.Reason.OVERLAPS, f.detour, 64, 0x1000, small, 0x2000, 0xFF4, padding=padding)
    raised(ValueError, f.detour, 64, 0, small, 0, 0, padding=padding, keep_endbr=True)
    check([f.detour_len(64, 0x1000, each, to) for each in (small, plain) for to in (0x2000, 0x7FFF00000000)], [0, 0, 27, 41])
    refused(f.Reason.BAD_MODE, f.detour_len, 17, 0, small, 0)


def refusals_say_why():
    mov = f.decode(64, 0x1000, code("48895c2410"))
    refused(f.Reason.BAD_MODE, f.decode, 17, 0, b"\x90")
    refused(f.Reason.BAD_MODE, f.iterate, 17, 0, b"\x90")
    refused(f.Reason.BAD_SYNTAX, f.text, 64, mov, 9)
    refused(f.Reason.BAD_SYNTAX, f.line, 64, 0, b"\x90", 9)
    refused(f.Reason.TOO_SHORT, f.line, 64, 0, b"\x48", kind=f.TooShort)
    refused(f.Reason.BAD_CODE, f.name, 5000)
    refused(f.Reason.BAD_CODE, f.notation, 5000)
    refused(f.Reason.BAD_CODE, f.row_operand, 5000, 0)
    refused(f.Reason.INVALID, f.decode, 64, 0, b"\x06", kind=f.InvalidCode)
    refused(f.Reason.TOO_SHORT, f.decode, 64, 0, b"\x48", kind=f.TooShort)
    refused(f.Reason.TOO_SHORT, f.decode, 64, 0, b"\x90", 1, kind=f.TooShort)
    far = refused(f.Reason.TOO_FAR, f.move, 64, 0x1000, code("90488b0510000000"), 0x7FFF00000000)
    check((far.report.at, far.report.address), (1, 0x1018))
    check(str(far), "an instruction cannot reach its target from its new address: instruction 1, target 0x1018")
    bad = refused(f.Reason.INVALID, f.move, 64, 0, code("9006"), 0x1000, kind=f.InvalidCode)
    check((bad.report.at, str(bad).endswith(": at offset 1"), repr(bad.report).startswith("MoveReport(bytes=0, count=0, at=1")), (1, True, True))
    wraps = refused(f.Reason.WRAPS, f.move, 32, 0xFFFFFFFF, code("9090"), 0x1000)
    check(str(wraps).endswith(": it ends at 0x100000001"), True)
    refused(f.Reason.TOO_LARGE, f.move, 64, 0, bytes(f.MAX_CODE + 1), 0)
    refused(f.Reason.TOO_LARGE, f.flow, 64, 0, bytes(f.MAX_FLOW + 1))
    check(str(refused(f.Reason.TOO_MANY, f.move, 64, 0, 65537 * b"\x90", 0)).endswith(": there are 65537"), True)
    copy = pickle.loads(pickle.dumps(far))
    check((type(copy), copy.number, copy.report, str(copy)), (f.Refusal, far.number, far.report, str(far)))


def encodings_say_their_cause():
    rax, rbx = f.register("rax"), f.register("rbx")
    mov = f.decode(64, 0x1000, code("48895c2410"))

    def cause(instr, want, operand, words):
        refusal = refused(f.Reason.NO_ENCODING, f.encode, 64, 0x1000, instr)
        check((refusal.cause, refusal.operand), (want, operand))
        assert words in str(refusal), str(refusal)
        check(refusal.number, -(want << 8 | (operand or 0)))

    cause(mov.replace(code=5000), f.Cause.ROW, None, "no row of the table that exists in the mode has the code")
    cause(mov.replace(ops=[mov.ops[0], f.Immediate(5)]), f.Cause.KIND, 1, "operand 1: the row takes no operand of this kind")
    cause(mov.replace(ops=[mov.ops[0], f.register("xmm1")]), f.Cause.REGISTER, 1, "operand 1: this register cannot be encoded here")
    lea = f.decode(64, 0, code("488d03"))
    cause(lea.replace(ops=[rax, f.Memory(rbx, f.register("rsp"), 4)]), f.Cause.MEMORY, 1, "operand 1: base, index and scale")
    cause(lea.replace(ops=[rax, f.Memory(rbx, None, 1, 5, 16)]), f.Cause.DISPLACEMENT, 1, "operand 1: the address has no displacement of this width or value")
    add = f.decode(64, 0, code("83c005"))
    cause(add.replace(ops=[add.ops[0], f.Immediate(0x1234)]), f.Cause.IMMEDIATE, 1, "operand 1: the immediate does not fit its size")
    je = f.decode(64, 0, code("7410"))
    cause(je.replace(ops=[f.Near(1 << 40)]), f.Cause.TARGET, 0, "operand 0: the target is out of reach")
    cause(lea.replace(ops=[rax, f.Memory(f.register("rip"), displacement=1 << 40)]), f.Cause.TARGET, 1, "operand 1: the target")
    cause(add.replace(lock=True), f.Cause.PREFIX, None, "LOCK or a repeat prefix is not allowed")
    cause(add.replace(asize=32), f.Cause.ADDRESS_SIZE, None, "the address size is missing, superfluous")
    refused(f.Reason.BAD_INSTR, f.text, 64, mov.replace(rep=5))
    refused(f.Reason.BAD_FORM, f.info, mov.replace(ops=[]))
    # a branch with padding, whose shortest form does not reach
    cause(f.decode(64, 0x1000, code("662e2e747f")), f.Cause.TARGET, 0, "out of reach")


def values_are_looked_at_first():
    nop = f.decode(64, 0, b"\x90")
    for call, arguments in (
        (f.decode, (64, -1, b"\x90")),
        (f.decode, (64, 1 << 64, b"\x90")),
        (f.decode, (-64, 0, b"\x90")),
        (f.decode, (1 << 32, 0, b"\x90")),
        (f.decode, (64, 0, b"\x90", -1)),
        (f.decode, (64, 0, b"\x90", 2)),
        (f.line, (64, 0, b"\x90", -1)),
        (f.line, (64, 0, b"\x90", 0, 2)),
        (f.iterate, (64, -1, b"\x90")),
        (f.text, (64, nop, -1)),
        (f.effects, (-1, nop)),
        (f.encode, (64, -1, nop)),
        (f.name, (-1,)),
        (f.notation, (1 << 32,)),
        (f.row_operand, (1 << 32, 0)),
        (f.row_operand, (0, 4)),
        (f.row_operand, (0, -1)),
        (f.code_of, ("mov", -1)),
        (f.assemble, (64, -1, "nop")),
        (f.read_intel, (64, -1, "nop")),
        (f.assemble_code, (64, -1, "nop")),
        (f.jump, (64, -1, 0)),
        (f.jump, (64, 0, 1 << 64)),
        (f.jump, (64, 0, 0, -1)),
        (f.encoded_len, (64, -1, nop)),
        (f.segment_text, (-1,)),
        (f.move_outside, (64, 0, b"\x90", -1)),
        (f.move, (64, -1, b"\x90", 0)),
        (f.move, (64, 0, b"\x90", 1 << 64)),
        (f.flow, (64, -1, b"\x90")),
        (f.flow, (64, 0, b"\x90", -1)),
        (f.flow, (64, 0, b"\x90", [1 << 32])),
        (f.step, (64, -1, b"\x90", 0)),
        (f.step, (64, 0, b"\x90", 1 << 64)),
        (f.step, (64, 0, b"\x90", 0, 2)),
        (f.step_len, (64, 0, b"\x90", -1)),
        (f.step_call, (64, -1, b"\xff\xd0", 0)),
        (f.step_call, (64, 0, b"\xff\xd0", 1 << 64)),
        (f.StepSlots, (64, -1, 64)),
        (f.detour, (64, 0, b"\x90", -1, 0)),
        (f.detour, (64, 0, b"\x90", 0, 1 << 64)),
        (f.detour, (64, 0, b"\x90", 0, 0, -1)),
        (f.register, ("raxx",)),
        (f.Instr, (-1,)),
        (f.Instr, (0, *(5 * [f.Immediate(0)]))),
        (f.Near, (-1,)),
        (f.Immediate, (1 << 64,)),
        (f.Far, (1 << 16, 0)),
        (f.Register, (15, 0)),
        (f.Register, (f.RegClass.R64, 256)),
        (f.Memory, (None, None, 256)),
    ):
        raised(ValueError, call, *arguments)
    words = {
        "instr must be an Instr, not NoneType": [(f.text, (64, None)), (f.encode, (64, 0, None)), (f.info, (None,)), (f.effects, (64, None))],
        "instr must be an Instr, not int": [(f.text, (64, 5))],
        "instr must be an Instr, not bytes": [(f.info, (b"",))],
        "code must be bytes, a bytearray or a memoryview, not NoneType": [
            (f.decode, (64, 0, None)),
            (f.iterate, (64, 0, None)),
            (f.move, (64, 0, None, 0)),
            (f.flow, (64, 0, None)),
            (f.step, (64, 0, None, 0)),
            (f.detour, (64, 0, None, 0, 0)),
        ],
        "code must be bytes, a bytearray or a memoryview, not int": [(f.decode, (64, 0, 5))],
        "code must be bytes, a bytearray or a memoryview, not str": [(f.iterate, (64, 0, "90"))],
        "ip must be an int, not str": [(f.decode, (64, "0", b"\x90"))],
        "bits must be an int, not float": [(f.decode, (64.0, 0, b"\x90"))],
        "code must be an int, not NoneType": [(f.name, (None,)), (f.notation, (None,)), (f.Instr, (None,))],
        "name must be a str, not NoneType": [(f.code_of, (None,)), (f.codes_of, (None,)), (f.register, (None,))],
        "name must be a str, not bytes": [(f.code_of, (b"mov",))],
        "which must be an int, not NoneType": [(f.code_of, ("mov", None))],
        "text must be a str, not bytes": [(f.assemble, (64, 0, b"nop")), (f.read_intel, (64, 0, b"nop")), (f.assemble_code, (64, 0, b"nop"))],
        "operand 0 must be a Register, Memory, Immediate, Near or Far, not int": [(f.Instr, (0, 5))],
        "base must be a Register or None, not str": [(f.Memory, ("rbx",))],
        "an instruction has no opcode: replace takes code, ops, lock, rep, segment and asize": [(lambda: nop.replace(opcode=5), ())],
    }
    for want, calls in words.items():
        for call, arguments in calls:
            check(str(raised(TypeError, call, *arguments)), want)


def registers_have_names():
    check([str(f.Register(f.RegClass.R64, n)) for n in (0, 3, 8)], ["rax", "rbx", "r8"])
    check((f.register("ah"), f.register("spl")), (f.Register(f.RegClass.HIGH8, 0), f.Register(f.RegClass.LOW8, 4)))
    check(f.register("rax").name(f.Style.ATT), "%rax")
    # 16 of each size of general registers and 4 high bytes, 6 segment, 16 control, 8 debug, 8 x87 and 8 MMX registers, 32 vector registers, EIP and RIP
    check(len(f.registers()), 4 * 16 + 4 + 6 + 16 + 8 + 8 + 8 + 32 + 2)
    refused(f.Reason.NO_REGISTER, f.Register(f.RegClass.SEG, 6).name)
    refused(f.Reason.NO_REGISTER, f.segment_text, 0)


def enumerations_print_names():
    check((str(f.Flow.NEXT), f"{f.Flow.NEXT}", f"{f.Flow.JUMP:d}", f.Flow.JUMP == 1), ("Flow.NEXT", "Flow.NEXT", "1", True))
    check((str(f.Code.RET), str(f.Reason.BAD_MODE), f"{f.Style.ATT:>10}"), ("Code.RET", "Reason.BAD_MODE", " Style.ATT"))
    check([str(f.Flags(bits)) for bits in (0, 0x41, 0x3000, 0x1000, 0x3)], ["Flags(0)", "Flags.CF|ZF", "Flags.IOPL", "Flags(0x1000)", "Flags.CF|0x2"])
    check((str(f.Touch.READ | f.Touch.MAY_WRITE), f"{f.Flags.CF | f.Flags.ZF:#x}"), ("Touch.READ|MAY_WRITE", "0x41"))
    check(str(refused(f.Reason.BAD_MODE, f.decode, 17, 0, b"").reason), "Reason.BAD_MODE")


def documents_are_true():
    """The examples in docstrings: each public function, class, method and property has one. And what help() shows."""
    global tried
    names = {name: getattr(f, name) for name in f.__all__}
    runner = doctest.DocTestRunner()
    for name in ("__doc__", *f.__all__):
        it = f if name == "__doc__" else names[name]
        if not (it is f or inspect.isclass(it) or inspect.isfunction(it)):
            continue
        # what an enumeration or a named tuple has of its own class is no document of this package
        tests = doctest.DocTestFinder(recurse=it is not f).find(it, name, module=False, globs=names)
        own = [test for test in tests if not test.name.split(".")[-1].startswith("_") and (test.docstring or "").strip()]
        for test in own:
            if test.name == name or type(it) is type:
                check((test.name, bool(test.examples)), (test.name, True))
            tried += len(test.examples)
            runner.run(test)
    check(runner.failures, 0)
    help_text = pydoc.render_doc(f, renderer=pydoc.plaintext)
    check([word for word in ("ctypes", "Structure", "c_uint", "ForwardRef") if word in help_text], [])
    check([name for name in f.__all__ if name not in help_text], [])
    check(f.version(), (0, 2, 0))


def threads_at_once():
    """The same answers from several threads."""
    source = 3000 * code("48895c2410e8f60f0000c39006")
    want = [str(item) for item in f.iterate(64, 0x1000, source)]
    answers = []
    threads = [threading.Thread(target=lambda: answers.append([str(it) for it in f.iterate(64, 0x1000, source)])) for _ in range(4)]
    for thread in threads:
        thread.start()
    for thread in threads:
        thread.join()
    check([answer == want for answer in answers], 4 * [True])


for test in (
    read_instructions,
    shown_in_pieces,
    shown_by_options,
    told_what_it_does,
    told_what_it_touches,
    effects_differ_in_displacements,
    made_instructions,
    items_say_what_they_are,
    items_are_those_of_decode,
    branches_have_equal_effects,
    texts_are_read,
    routines_are_assembled,
    jumps_have_forms,
    moved_as_blocks,
    placed_in_a_region,
    stepped_elsewhere,
    codes_have_names,
    moved_and_followed,
    hooks_are_made,
    hooks_are_made_by_rules,
    hooks_take_other_forms,
    refusals_say_why,
    encodings_say_their_cause,
    values_are_looked_at_first,
    registers_have_names,
    enumerations_print_names,
    documents_are_true,
    threads_at_once,
):
    test()
print(f"{tried} calls of the Python package")
