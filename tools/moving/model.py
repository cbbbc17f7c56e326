#!/usr/bin/env python3
"""Compares moving with a model that is written independently of the library, on random code.

    tools/moving/model.py PROGRAM [RUNS [SEED]]

Each run makes one to three blocks of random code in a random mode: jumps, calls and loops of all kinds, with effective and ineffective prefixes, operands
at RIP and EIP, and other instructions. Targets are in the same block, in other blocks, in the middle of instructions and outside. Old and new addresses are
random, some of them at the ends of the address space. PROGRAM moves the code (`move`, `map` or `blocks`), and so does the model. Status, bytes, map and the
line on standard error must be the same. No proof depends on this script.
"""
import random
import subprocess
import sys

NAMES = {"itself": "itself", "short": "short", "near": "near", "far": "far", "bridge": "bridge", "farbridge": "farbridge"}


def wrap(bits, x):
    return x % (1 << bits)


def signed(x, bits):
    return -(1 << (bits - 1)) <= x < 1 << (bits - 1)


class Item:
    """An instruction: a branch, an operand at the instruction pointer, or bytes that stay as they are."""

    def __init__(self, kind, old, plain=b"", size=0, opcode=0, a67=False, pointer=0):
        self.kind, self.old, self.plain, self.size, self.opcode, self.a67, self.pointer = kind, old, plain, size, opcode, a67, pointer
        self.target = None
        self.ip = None


class TooFar(Exception):
    pass


def prefix(bits, size, a67=False):
    """The needed 66 and 67 of a branch."""
    default = {16: 16, 32: 32, 64: 64}[bits]
    return (b"\x66" if size != default else b"") + (b"\x67" if a67 else b"")


def short_bytes(bits, size, opcode, place, goal, a67=False):
    lead = prefix(bits, size, a67)
    end = wrap(bits, place + len(lead) + 2)
    offset = (goal - end) % (1 << size)
    if offset >= 1 << (size - 1):
        offset -= 1 << size
    if goal >= 1 << size or not signed(offset, 8):
        raise TooFar
    return lead + bytes([opcode, offset % 256])


def near_lead(bits, kind, opcode, size):
    lead = prefix(bits, size)
    return lead + (bytes([0x0F, 0x80 + opcode % 16]) if kind == "jcc" else b"\xe8" if kind == "call" else b"\xe9")


def near_bytes(bits, kind, opcode, size, place, goal):
    lead = near_lead(bits, kind, opcode, size)
    width = 2 if size == 16 else 4
    end = wrap(bits, place + len(lead) + width)
    offset = (goal - end) % (1 << size)
    if goal >= 1 << size:
        raise TooFar
    if size == 64:
        if offset >= 1 << 63:
            offset -= 1 << 64
        if not signed(offset, 32):
            raise TooFar
    return lead + (offset % (1 << 8 * width)).to_bytes(width, "little")


def slot_bytes(kind, place, slot):
    return (b"\xff\x15" if kind == "call" else b"\xff\x25") + ((slot - place - 6) % (1 << 32)).to_bytes(4, "little")


def forms(bits, item):
    if item.kind in ("plain", "rip"):
        return ["itself"]
    far = ["far"] if bits == 64 else []
    if item.kind == "loop":
        return ["short", "bridge"] + (["farbridge"] if bits == 64 else [])
    if item.kind == "call" or item.opcode in (0xE9,) or item.opcode >= 0x80 and item.kind == "jcc":
        return ["near"] + far
    return ["short", "near"] + far


def length(bits, item, form):
    if form == "itself":
        return len(item.plain)
    if form == "short":
        return len(prefix(bits, item.size, item.a67)) + 2
    near = len(near_lead(bits, "jmp" if item.kind == "loop" else item.kind, item.opcode, item.size)) + (2 if item.size == 16 else 4)
    if form == "near":
        return near
    if form == "far":
        return 8 if item.kind == "jcc" else 6
    lead = len(prefix(bits, item.size, item.a67)) + 2
    return lead + 2 + (near if form == "bridge" else 6)


def reaches(bits, item, form, place, goal):
    size = length(bits, item, form)
    distance = goal - (place + size)
    if form == "short":
        return signed(distance, 8)
    if form in ("far", "farbridge", "itself"):
        return True
    if bits == 64:
        return signed(distance, 32)
    if form == "near":
        return goal < 1 << item.size
    inner = len(prefix(bits, item.size, item.a67)) + 4
    return goal < 1 << item.size and place + inner < 1 << item.size


def move(bits, blocks):
    """Status, bytes and map of blocks, each (old, new, items)."""
    items, owner, firsts = [], [], []
    for b, (old, new, block) in enumerate(blocks):
        firsts.append(len(items))
        at = old
        for item in block:
            item.ip = at
            at += len(item.old)
            items.append(item)
            owner.append(b)
        if at > 1 << bits and block:
            return 7, "end %#x passes the address space\n" % at, None, None
    starts = {}
    for k, item in enumerate(items):
        starts.setdefault(item.ip, k)
    own = {(owner[k], item.ip): k for k, item in reversed(list(enumerate(items)))}

    def aim(k):
        target = items[k].target
        return own.get((owner[k], target), starts.get(target))

    aims = [aim(k) if item.target is not None else None for k, item in enumerate(items)]
    choices = [forms(bits, item) for item in items]

    def places(layout):
        out, at, last = [], None, None
        for k, item in enumerate(items):
            if owner[k] != last:
                last, at = owner[k], blocks[owner[k]][1]
            out.append(at)
            at += length(bits, item, choices[k][layout[k]])
        return out

    layout = [0] * len(items)
    first = places(layout)
    while True:
        now = places(layout)
        grown = False
        for k, item in enumerate(items):
            if item.target is None or item.kind == "rip" or layout[k] + 1 == len(choices[k]):
                continue
            form = choices[k][layout[k]]
            if aims[k] is None:
                closed = all(reaches(bits, item, form, p, item.target) for p in (now[k], first[k]))
            elif owner[aims[k]] == owner[k]:
                closed = reaches(bits, item, form, now[k], now[aims[k]])
            else:
                closed = all(reaches(bits, item, form, p, g) for p in (now[k], first[k]) for g in (now[aims[k]], first[aims[k]]))
            if not closed:
                layout[k] += 1
                grown = True
                break
        if not grown:
            break
    now = places(layout)
    goals = [None if item.target is None else item.target if aims[k] is None else now[aims[k]] for k, item in enumerate(items)]
    chosen = [choices[k][layout[k]] for k in range(len(items))]
    slot_starts, slots, ends = [], [], []
    for b, (old, new, block) in enumerate(blocks):
        ks = [k for k in range(len(items)) if owner[k] == b]
        end = new + sum(length(bits, items[k], chosen[k]) for k in ks)
        mine = []
        for k in ks:
            if chosen[k] in ("far", "farbridge") and goals[k] not in mine:
                mine.append(goals[k])
        start = end if not mine else end + -end % 8
        slot_starts.append(start)
        slots.append(mine)
        ends.append(end)
        if start + 8 * len(mine) > 1 << bits:
            return 7, "end %#x passes the address space\n" % (start + 8 * len(mine)), None, None
    out, lines, last = b"", "", None
    for b, (old, new, block) in enumerate(blocks):
        for k in [k for k in range(len(items)) if owner[k] == b]:
            item, form, place, goal = items[k], chosen[k], now[k], goals[k]
            try:
                if form == "itself" and item.kind == "rip":
                    distance = goal - (place + len(item.plain))
                    if not (signed(distance, 32) if item.pointer == 64 else goal < 1 << 32):
                        raise TooFar
                    image = item.plain[:-4] + (distance % (1 << 32)).to_bytes(4, "little")
                elif form == "itself":
                    image = item.plain
                else:
                    if not reaches(bits, item, form, place, goal):
                        raise TooFar
                    image = image_of(bits, item, form, place, goal, None if form not in ("far", "farbridge") else
                                     slot_starts[b] + 8 * slots[b].index(goal))
            except TooFar:
                return 8, "instruction %d cannot reach %#x\n" % (k, goal), None, None
            assert len(image) == length(bits, item, form)
            out += image
            digits = bits // 4
            lines += "%0*x %0*x %s\n" % (digits, wrap(bits, item.ip), digits, place, form)
        out += b"\xcc" * (slot_starts[b] - ends[b]) + b"".join(g.to_bytes(8, "little") for g in slots[b])
    return 0, "", out, lines


def image_of(bits, item, form, place, goal, slot):
    if form == "short":
        return short_bytes(bits, item.size, item.opcode, place, goal, item.a67)
    if form == "near":
        return near_bytes(bits, item.kind, item.opcode, item.size, place, goal)
    if form == "far":
        if item.kind == "jcc":
            return bytes([0x70 + (item.opcode % 16 ^ 1), 6]) + slot_bytes("jmp", place + 2, slot)
        return slot_bytes(item.kind, place, slot)
    lead = prefix(bits, item.size, item.a67)
    inner = len(lead) + 4
    onto = near_bytes(bits, "jmp", 0xE9, item.size, place + inner, goal) if form == "bridge" else slot_bytes("jmp", place + inner, slot)
    image = short_bytes(bits, item.size, item.opcode, place, place + inner, item.a67)
    return image + bytes([0xEB, len(onto)]) + onto


def made(random_, bits, targets):
    """A random instruction, whose target is put in later as an offset."""
    pick = random_.random()
    if pick < 0.35:
        plain = random_.choice([b"\x90", b"\xc3", b"\x01\xc8", b"\xb0\x05", b"\x0f\xaf\xc1", b"\xf3\x90", b"\xf0\x01\x00" if bits != 64 else b"\x48\x89\xc8", b"\xcc"])
        return Item("plain", plain, plain)
    if pick < 0.42 and bits == 64:
        pointer = random_.choice([64, 64, 32])
        lead = b"\x67" if pointer == 32 else b""
        plain = lead + b"\x48\x8b\x05\0\0\0\0"
        item = Item("rip", random_.choice([b"", b"\x66"]) + plain, plain, pointer=pointer)
        item.target = True
        return item
    size, lead = {16: 16, 32: 32, 64: 64}[bits], b""
    if random_.random() < 0.2:
        lead += b"\x66"
        size = {16: 32, 32: 16, 64: 64}[bits]
    if random_.random() < 0.1:
        lead += random_.choice([b"\x2e", b"\x3e", b"\x65"])
    kind = random_.choice(["jmp", "jcc", "jcc", "loop", "near jmp", "call", "near jcc"])
    width = 1
    a67 = False
    if kind == "loop":
        opcode = 0xE0 + random_.randrange(4)
        a67 = random_.random() < 0.3
        lead += b"\x67" if a67 else b""
        body = bytes([opcode])
    elif kind == "jmp":
        opcode, body = 0xEB, b"\xeb"
    elif kind == "jcc":
        opcode = 0x70 + random_.randrange(16)
        body = bytes([opcode])
    else:
        width = 2 if size == 16 else 4
        if kind == "near jcc":
            opcode = 0x80 + random_.randrange(16)
            body = bytes([0x0F, opcode])
        else:
            opcode = 0xE9 if kind == "near jmp" else 0xE8
            body = bytes([opcode])
        kind = kind.replace("near ", "")
    item = Item(kind, lead + body + b"\0" * width, size=size, opcode=opcode, a67=a67)
    item.target = True
    return item


def offsets(random_, bits, blocks):
    """Puts targets into the branches, as far as their offsets go."""
    starts = []
    for old, new, block in blocks:
        at = old
        for item in block:
            item.ip = at
            starts.append(at)
            at += len(item.old)
    for old, new, block in blocks:
        for item in block:
            if item.target is None:
                continue
            size = item.pointer if item.kind == "rip" else item.size
            field = 4 if item.kind == "rip" else 2 if size == 16 and (item.kind == "call" or item.opcode >= 0x80 and item.kind != "loop" and item.opcode != 0xEB) else 4
            if item.kind == "loop" or item.opcode == 0xEB or item.kind == "jcc" and item.opcode < 0x80:
                field = 1
            end = wrap(bits, item.ip + len(item.old))
            wish = random_.choice(starts) if random_.random() < 0.75 else random_.choice([old, new, end + random_.randrange(-300, 300), random_.randrange(1 << size)])
            offset = wish - end
            if not signed(offset, 8 * field) or random_.random() < 0.05:
                offset = random_.randrange(-128, 128)
            modulus = 1 << (32 if item.kind == "rip" and item.pointer == 32 else size)
            item.target = (end + offset) % modulus
            bytes_ = (offset % (1 << 8 * field)).to_bytes(field, "little")
            item.old = item.old[:-field] + bytes_
    return blocks


def base(random_, bits):
    top = 1 << bits
    return random_.choice([0, 0x100, 0x1000, random_.randrange(top), max(0, top - 1 - random_.randrange(400)), 0x1000 + random_.randrange(4000),
                           min(top - 1, 0x7FFF0000 + random_.randrange(0x20000)), min(top - 1, 0x80001000), 0xFF00])


def compare(program, words, code, want, whole):
    got = subprocess.run([program, *words], input=code, capture_output=True)
    status, line, out = want
    if (got.returncode, got.stderr.decode()) != (status, line) or got.stdout != (out if status == 0 else b""):
        print("DIFFERS: %s <<< %s" % (" ".join(words), code.hex(" ")))
        print("  wanted %d %r %s" % (status, line, (out or b"").hex(" ")))
        print("  got    %d %r %s" % (got.returncode, got.stderr.decode(), got.stdout.hex(" ")))
        return 1
    return 0


def main():
    if len(sys.argv) < 2 or sys.argv[1] in ("-h", "--help"):
        sys.exit(__doc__)
    program = sys.argv[1]
    runs = int(sys.argv[2]) if len(sys.argv) > 2 else 2000
    random_ = random.Random(int(sys.argv[3]) if len(sys.argv) > 3 else 1)
    wrong, instructions, statuses, kinds = 0, 0, {}, {}
    for _ in range(runs):
        bits = random_.choice([16, 32, 64, 64])
        count = random_.choice([1, 1, 1, 2, 3])
        blocks = []
        for _ in range(count):
            old = base(random_, bits)
            if blocks and random_.random() < 0.7:
                old = min((1 << bits) - 1, blocks[0][0] + random_.randrange(400))
            new = base(random_, bits)
            if random_.random() < 0.4:
                new = wrap(bits, (blocks[0][1] if blocks else old) + random_.randrange(-2000, 2000))
            block = [made(random_, bits, None) for _ in range(random_.choice([0, 1, 2, 5, 20, 60, 150]))]
            blocks.append((old, new, block))
        blocks = offsets(random_, bits, blocks)
        code = b"".join(item.old for old, new, block in blocks for item in block)
        status, line, out, lines = move(bits, blocks)
        instructions += sum(len(block) for old, new, block in blocks)
        statuses[status] = statuses.get(status, 0) + 1
        for text in (lines or "").split("\n")[:-1]:
            kinds[text.split()[2]] = kinds.get(text.split()[2], 0) + 1
        words = ["blocks", str(bits)]
        for old, new, block in blocks:
            words += ["%x" % old, "%x" % new, "%x" % sum(len(item.old) for item in block)]
        wrong += compare(program, words[:-1], code, (status, line, out), True)
        if count == 1:
            wrong += compare(program, ["move", *words[1:4]], code, (status, line, out), True)
            wrong += compare(program, ["map", *words[1:4]], code, (status, line, (lines or "").encode()), True)
    print("%d runs, %d instructions, statuses %s, forms %s: %d differ" % (runs, instructions, statuses, kinds, wrong))
    return wrong != 0


if __name__ == "__main__":
    sys.exit(main())
