#!/usr/bin/python3
"""Passes the Intel texts of a listing through NASM and compares the resulting bytes.

    nasm_texts.py 64 code.bin [PROGRAM]
    nasm_texts.py 64 code.bin --listing listing.txt

The listing is the output of PROGRAM (by default the repository's built listing_program) for `list BITS 0 intel` over the file, or the file that --listing names.
Its texts go to NASM in their order, after three lines:

    %define xmmword oword
    %define ymmword yword
    %define tbyte tword

Two numbers are rewritten. NASM encodes a near target that is a plain number in the longest form, and it reads `[rel 0x1007]` with a plain number as `[0x1007]`. So
both become `$` plus the distance from the instruction's address, and their distances are compared and not their digits. `--as-they-stand` leaves them as they are.
Bytes that differ are listed again, at the address of the instruction. The kinds of results:

    same bytes
    same text        the listing shows NASM's bytes with the same text: another spelling of the same, shorter, longer or equally long
    another text     the listing shows them with another text
    refused          NASM refuses the text

The script needs Debian's nasm. No proof depends on it.
"""
import argparse
import collections
import os
import re
import subprocess
import sys
import tempfile

NAMES = "%define xmmword oword\n%define ymmword yword\n%define tbyte tword\n"
EXAMPLES = 3
NEAR = re.compile(r"^(.*\b(?:j[a-z]+|call|loop[a-z]*) )(0x[0-9a-f]+)$")
RELATIVE = re.compile(r"\[rel (0x[0-9a-f]+)\]")
FAR = 16  # an instruction has at most 15 bytes
PREFIX_WORDS = {"lock", "rep", "repne", "es", "cs", "ss", "ds", "fs", "gs", "a16", "a32", "a64", "o16", "o32", "o64"}

Item = collections.namedtuple("Item", "address code text source")


def distance(bits, target, address):
    """`$` plus the distance from an address to another, which wraps."""
    span = 1 << int(bits)
    way = (int(target, 16) - address) % span
    way = way - span if way >= span // 2 else way
    return f"${way:+d}"


def source_of(bits, address, text):
    text = NEAR.sub(lambda it: it.group(1) + distance(bits, it.group(2), address), text)
    return RELATIVE.sub(lambda it: f"[rel {distance(bits, it.group(1), address)}]", text)


def items_of(bits, listing, as_they_stand=False):
    found = []
    for line in listing.splitlines():
        address, digits, text = line.split(None, 2)
        address = int(address, 16)
        found.append(Item(address, bytes.fromhex(digits), text, text if as_they_stand else source_of(bits, address, text)))
    return found


def nasm(lines, folder):
    """NASM's bytes for each line, and its message for each line that it refuses. Lines count from 1. The list file gives the offset and the number of the bytes;
    numbers in it may not be final, so the bytes are taken from the code."""
    with open(f"{folder}/texts.asm", "w", encoding="ascii") as file:
        file.write("\n".join(lines) + "\n")
    command = ["nasm", "-f", "bin", "-w-all", "-o", f"{folder}/texts.bin", "-l", f"{folder}/texts.lst", f"{folder}/texts.asm"]
    ran = subprocess.run(command, stderr=subprocess.PIPE, text=True, check=False)
    messages = {}
    for number, message in re.findall(r"texts\.asm:(\d+): error: (.*)", ran.stderr):
        messages.setdefault(int(number), message)
    if ran.returncode != 0:
        if not messages:
            sys.exit(f"nasm_texts.py: nasm failed: {ran.stderr[:2000]}")
        return None, messages
    code = open(f"{folder}/texts.bin", "rb").read()
    made = collections.defaultdict(bytes)
    with open(f"{folder}/texts.lst", encoding="ascii") as file:
        for line in file:
            match = re.match(r" *(\d+) ([0-9A-F]{8}) ([0-9A-F()\[\]-]+)", line)
            if match:
                at, length = int(match.group(2), 16), len(re.sub(r"[^0-9A-F]", "", match.group(3))) // 2
                made[int(match.group(1))] += code[at:at + length]
    return made, messages


def assembled(bits, items, folder):
    """NASM's bytes for each item, or its message."""
    messages = {}
    while True:
        lines = NAMES.rstrip().split("\n") + [f"bits {bits}"]
        first = len(lines) + 1
        lines += ["" if n in messages else item.source for n, item in enumerate(items)]
        made, refused = nasm(lines, folder)
        messages.update({number - first: message for number, message in refused.items()})
        if made is not None:
            return {n: made[first + n] for n in range(len(items)) if n not in messages}, messages


def spread(items, chosen):
    """Items in their order, in groups in which each begins 16 bytes or more after the one before it."""
    groups = []
    for n in chosen:
        for group in groups:
            if items[n].address - items[group[-1]].address >= FAR:
                group.append(n)
                break
        else:
            groups.append([n])
    return groups


def listed(program, bits, items, chosen, made):
    """The listing's texts of NASM's bytes for some items, each at its address."""
    texts = {}
    for group in spread(items, chosen):
        base = items[group[0]].address
        image = bytearray(b"\x90" * (items[group[-1]].address - base + FAR))
        for n in group:
            image[items[n].address - base:items[n].address - base + len(made[n])] = made[n]
        ran = subprocess.run([program, "list", bits, f"{base:x}", "intel"], input=bytes(image), stdout=subprocess.PIPE, check=True)
        shown = {item.address: item for item in items_of(bits, ran.stdout.decode("ascii"))}
        for n in group:
            at, end, found = items[n].address, items[n].address + len(made[n]), []
            while at < end and at in shown:
                found.append(shown[at].text)
                at += len(shown[at].code)
            texts[n] = " ; ".join(found)
    return texts


def name_of(text):
    words = text.split()
    while len(words) > 1 and words[0] in PREFIX_WORDS:
        words = words[1:]
    return words[0]


def kind_of_refusal(item, message):
    words = item.text.split()
    if words[0] in PREFIX_WORDS and len(words) > 1 and "instruction expected" in message:
        return f"refused, the word {words[0]}: {message}: {name_of(item.text)}"
    return f"refused, {re.sub(r'`[^`]*.', '..', message)}: {name_of(item.text)}"


def main():
    parser = argparse.ArgumentParser(description=__doc__, formatter_class=argparse.RawDescriptionHelpFormatter)
    parser.add_argument("bits", choices=["16", "32", "64"])
    parser.add_argument("code")
    top = os.path.dirname(os.path.dirname(os.path.abspath(__file__)))
    parser.add_argument("program", nargs="?", default=f"{top}/crates/listing_program/out/listing_program")
    parser.add_argument("--listing")
    parser.add_argument("--as-they-stand", action="store_true")
    said = parser.parse_args()
    if said.listing:
        listing = open(said.listing, encoding="ascii").read()
    else:
        with open(said.code, "rb") as code:
            listing = subprocess.run([said.program, "list", said.bits, "0", "intel"], stdin=code, stdout=subprocess.PIPE, check=True).stdout.decode("ascii")
    items = items_of(said.bits, listing, said.as_they_stand)
    texts = {item.text for item in items}
    counts, different, examples = collections.Counter(), collections.defaultdict(set), collections.defaultdict(list)

    def count(kind, item, more=""):
        counts[kind] += 1
        different[kind].add(item.text)
        if len(examples[kind]) < EXAMPLES and not any(item.text in it for it in examples[kind]):
            examples[kind].append(f"    {item.address:x} {item.code.hex()}: {item.text}{more}")

    with tempfile.TemporaryDirectory() as folder:
        made, messages = assembled(said.bits, items, folder)
        for n, message in messages.items():
            count(kind_of_refusal(items[n], message), items[n])
        unlike = [n for n, code in made.items() if code != items[n].code]
        for n, code in made.items():
            if code == items[n].code:
                count("same bytes", items[n])
        shown = listed(said.program, said.bits, items, sorted(unlike), made)
        for n in sorted(unlike):
            item, code = items[n], made[n]
            length = "shorter" if len(code) < len(item.code) else "longer" if len(code) > len(item.code) else "as long"
            if shown[n] == item.text:
                count(f"same text, {length}: {name_of(item.text)}", item, f" | nasm: {code.hex()}")
            else:
                count(f"another text: {name_of(item.text)}", item, f" | nasm: {code.hex()}: {shown[n]}")
    print(f"{len(items)} lines, {len(texts)} different texts")
    for front_word in ("same text", "another text", "refused"):
        chosen = [it for it in counts if it.startswith(front_word)]
        print(f"{sum(counts[it] for it in chosen):9} {front_word}, of {len(set().union(*[different[it] for it in chosen]))} texts")
    for kind, n in counts.most_common():
        print(f"{n:9} {kind}, of {len(different[kind])} texts")
        for example in examples[kind]:
            print(example)


if __name__ == "__main__":
    main()
