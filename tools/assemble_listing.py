#!/usr/bin/env python3
"""Passes the AT&T texts of a listing through the GNU assembler and compares the resulting bytes.

    tools/assemble_listing.py 64 code.bin [PROGRAM]
    tools/assemble_listing.py 64 code.bin --listing listing.txt

The listing is the output of PROGRAM (by default the repository's built listing_program) for `list BITS 0 att` over the file, or the file that
--listing names. Each text goes to `as` on a line of its own; single bytes (`.byte`) are left out. Two numbers are rewritten, because the assembler
would resolve them differently: the target of a near branch, and the address of an operand relative to RIP or EIP. Both are absolute in the listing
and become `.` plus the distance from the instruction's address. So their distances are compared and not their digits.

Bytes that differ go to objdump, with those of the file at the same places. The kinds of results:

    same bytes
    same instruction, same or other length    objdump shows both alike, except for spellings that the assembler chooses (`folded`, below)
    same but for idle prefixes                objdump shows both alike without leading words such as data16, cs or rex.W
    refused                                   the assembler refuses the text: by its message, for a name that is not its own or another cause
    different                                 another instruction

The script needs Debian's binutils. No proof depends on it.
"""
import argparse
import collections
import os
import re
import subprocess
import sys
import tempfile

SLOT = 32  # bytes from one instruction to the next in the assembler's source; an instruction has at most 15
CHUNK = 40000  # instructions in one source
EXAMPLES = 3
MACHINES = {"16": (["-m", "i8086"], "--32"), "32": (["-m", "i386"], "--32"), "64": (["-m", "i386:x86-64", "-M", "intel64"], "--64")}
NEAR = re.compile(r"^(.*\b(?:j[a-z]+|call|loop[a-z]*) )(0x[0-9a-f]+)$")
RELATIVE = re.compile(r"(?<![\w$])(0x[0-9a-f]+)(\(%[re]ip\))")
PREFIX_WORDS = {"lock", "rep", "repne", "es", "cs", "ss", "ds", "fs", "gs", "a16", "a32", "a64", "o16", "o32", "o64"}
# words before a text of objdump; objdump shows a segment or an address size that a memory operand uses at the operand instead
PREFIX = re.compile(r"(?:(?:data16|data32|addr16|addr32|cs|ds|es|ss|fs|gs|lock|repz|repnz|rex(?:\.[WRXB]+)?)(?: ;)? )+")

Item = collections.namedtuple("Item", "code text source moved")


def distance(bits, target, address):
    """`.` plus the distance from an address to another, which wraps."""
    span = 1 << int(bits)
    way = (int(target, 16) - address) % span
    way = way - span if way >= span // 2 else way
    return f".{way:+d}"


def item_of(bits, line):
    """An item of the listing; None for a single byte."""
    address, digits, text = line.rstrip("\n").split(None, 2)
    if text.startswith(".byte "):
        return None
    address = int(address, 16)
    source, near = NEAR.subn(lambda it: it.group(1) + distance(bits, it.group(2), address), text)
    source, relative = RELATIVE.subn(lambda it: distance(bits, it.group(1), address) + it.group(2), source)
    moved = "near target" if near else "relative address" if relative else ""
    return Item(bytes.fromhex(digits), text, source, moved)


def assemble(bits, items, folder):
    """The bytes of each item by the assembler, or its message."""
    messages = {}
    while True:
        lines = [f".code{bits}", ".text"]
        line_of = {}
        for n, item in enumerate(items):
            if n not in messages:
                lines.append(f".balign {SLOT}, 0x90")
                lines.append(f".Lbegin{n}:")
                lines.append(item.source)
                line_of[len(lines)] = n
                lines.append(f".Lend{n}:")
        kept = [n for n in range(len(items)) if n not in messages]
        lines += [f".balign {SLOT}, 0x90", '.section .lengths, "", @progbits']
        lines += [f".byte .Lend{n} - .Lbegin{n}" for n in kept]
        with open(f"{folder}/texts.s", "w", encoding="ascii") as file:
            file.write("\n".join(lines) + "\n")
        ran = subprocess.run(["as", MACHINES[bits][1], "-o", f"{folder}/texts.o", f"{folder}/texts.s"], stderr=subprocess.PIPE, text=True)
        errors = re.findall(r"texts\.s:(\d+): Error: (.*)", ran.stderr)
        for line, message in errors:
            messages.setdefault(line_of[int(line)], message)
        if ran.returncode == 0:
            break
        if not errors:
            sys.exit(f"assemble_listing.py: as failed: {ran.stderr}")
    for section in ("text", "lengths"):
        command = ["objcopy", "-O", "binary", "--set-section-flags", f".{section}=alloc,contents", f"--only-section=.{section}"]
        subprocess.run([*command, f"{folder}/texts.o", f"{folder}/{section}"], check=True)
    code = open(f"{folder}/text", "rb").read()
    lengths = open(f"{folder}/lengths", "rb").read()
    made = [code[SLOT * at:SLOT * at + length] for at, length in enumerate(lengths)]
    return dict(zip(kept, made)), messages


def shown(bits, codes, folder):
    """The text of objdump for each byte string."""
    if not codes:
        return []
    with open(f"{folder}/codes", "wb") as file:
        file.write(b"".join(code.ljust(SLOT, b"\x90") for code in codes))
    command = ["objdump", "-D", "-b", "binary", *MACHINES[bits][0], "--no-show-raw-insn", "-w", f"{folder}/codes"]
    texts = [[] for _ in codes]
    for line in subprocess.run(command, stdout=subprocess.PIPE, check=True, text=True).stdout.splitlines():
        match = re.match(r"\s*([0-9a-f]+):\t(.*)", line)
        if match:
            at = int(match.group(1), 16)
            if at % SLOT < len(codes[at // SLOT]):
                texts[at // SLOT].append(" ".join(match.group(2).split()))
    return [" ; ".join(it) for it in texts]


def folded(text):
    """A text of objdump without the assembler's choices: a displacement of 0, an index that means none, the distance beside an address,
    the order of registers in XCHG and TEST, and the byte of a shift by 1. objdump shows NOP with 66 as an XCHG."""
    text = re.sub(r"\bxchg %ax,%ax$", "data16 nop", text)
    text = re.sub(r"-?0x[0-9a-f]+(\(%[re]ip\).*# 0x)", r"\1", text)
    text = re.sub(r"-0x([0-9a-f]+)\(,%riz,\d\)", lambda it: hex(2**64 - int(it.group(1), 16)), text)
    text = re.sub(r"-0x([0-9a-f]+)\(,%eiz,\d\)", lambda it: hex(2**32 - int(it.group(1), 16)), text)
    text = re.sub(r"\(,%[re]iz,\d\)", "", text)
    text = re.sub(r",%[re]iz,\d\)", ")", text)
    text = re.sub(r"(?<![\w$])0x0\(", "(", text)
    text = re.sub(r"\b((?:ro|rc|sh|sa)[lr][bwlq]?) \$0x1,", r"\1 ", text)
    return re.sub(r"\b(xchg|test) (%\w+),(%\w+)$", lambda it: " ".join([it.group(1), *sorted(it.group(2, 3))]), text)


def without_idle(text):
    """A text without leading words that change nothing. An address size counts before LOOP, and a repeat before a string instruction."""
    front = PREFIX.match(text)
    if not front:
        return text
    rest = text[front.end():]
    counting = {"lock"}
    if rest.startswith("loop"):
        counting |= {"addr16", "addr32"}
    if rest.startswith(("cmps", "scas", "movs", "stos", "lods", "ins", "outs")):
        counting |= {"repz", "repnz"}
    return " ".join([*dict.fromkeys(it for it in front.group().split() if it in counting), rest])


def name_of(text):
    words = text.split()
    while len(words) > 1 and words[0] in PREFIX_WORDS:
        words = words[1:]
    return words[0]


def kind_of_refusal(item, message):
    name = name_of(item.text)
    words = re.findall(r"`([^']*)'", message)
    if message.startswith("no such instruction"):
        first = item.text.split()[0]
        return f"refused, no such name: {first if words[0].startswith(first + ' ') and first in PREFIX_WORDS else name}"
    if message.startswith("invalid instruction") and len(words) == 2:
        return f"refused, the word {words[1]} before an instruction that does not take it"
    if words and words[0] in PREFIX_WORDS:
        return f"refused, the word {words[0]}: {message}"
    return "refused, " + re.sub(r"`[^']*'", "..", message) + f": {name}"


def main():
    parser = argparse.ArgumentParser(description=__doc__, formatter_class=argparse.RawDescriptionHelpFormatter)
    parser.add_argument("bits", choices=MACHINES)
    parser.add_argument("code")
    top = os.path.dirname(os.path.dirname(os.path.abspath(__file__)))
    parser.add_argument("program", nargs="?", default=f"{top}/crates/listing_program/out/listing_program")
    parser.add_argument("--listing")
    said = parser.parse_args()
    bits = said.bits
    if said.listing:
        listing = open(said.listing, encoding="ascii").read()
    else:
        with open(said.code, "rb") as code:
            listing = subprocess.run([said.program, "list", bits, "0", "att"], stdin=code, stdout=subprocess.PIPE, check=True).stdout.decode("ascii")
    lines = listing.splitlines()
    number = collections.Counter(item for item in (item_of(bits, line) for line in lines) if item)
    items = list(number)
    counts, examples = collections.Counter(), collections.defaultdict(list)

    def count(kind, item, more):
        counts[kind] += number[item]
        if len(examples[kind]) < EXAMPLES:
            examples[kind].append(f"    {item.code.hex()}: {item.text}{more}")

    with tempfile.TemporaryDirectory() as folder:
        for start in range(0, len(items), CHUNK):
            some = items[start:start + CHUNK]
            made, messages = assemble(bits, some, folder)
            for n, message in messages.items():
                count(kind_of_refusal(some[n], message), some[n], "")
            others = [n for n, code in made.items() if code != some[n].code]
            counts["same bytes"] += sum(number[some[n]] for n, code in made.items() if code == some[n].code)
            ours = shown(bits, [some[n].code for n in others], folder)
            theirs = shown(bits, [made[n] for n in others], folder)
            for n, our, their in zip(others, ours, theirs):
                item, more = some[n], f" | as: {made[n].hex()}"
                if folded(our) == folded(their):
                    count(f"same instruction, {'same' if len(made[n]) == len(item.code) else 'other'} length", item, more)
                elif without_idle(folded(our)) == without_idle(folded(their)):
                    count("same but for idle prefixes", item, f"{more} | objdump: {our}")
                else:
                    count(f"different: {name_of(item.text)}", item, f"{more} | objdump: {our} | {their}")
    total = sum(number.values())
    moved = collections.Counter()
    for item in items:
        moved[item.moved] += number[item]
    print(f"{len(lines)} items, {len(lines) - total} single bytes left out, {total} instructions, {len(items)} different ones")
    print(f"{moved['near target']} near targets and {moved['relative address']} addresses relative to RIP or EIP written as distances")
    for kind in ("refused", "different"):
        print(f"{sum(n for it, n in counts.items() if it.startswith(kind)):9} {kind}, in total")
    for kind, n in counts.most_common():
        print(f"{n:9} {kind}")
        for example in examples[kind]:
            print(example)


if __name__ == "__main__":
    main()
