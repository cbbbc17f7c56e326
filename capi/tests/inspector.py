#!/usr/bin/env python3
"""Tests the inspector (python3 -m feddurzai) on programs that a C compiler makes here, against nm, objdump and what their source says.

Usage: inspector.py PACKAGE LIBRARY, the folder of the Python package and the shared library. Required: gcc, binutils, pyelftools.
"""

import json
import os
import random
import re
import shutil
import subprocess
import sys
import tempfile

PACKAGE, LIBRARY = sys.argv[1:3]
os.environ["FEDDURZAI_LIBRARY"] = LIBRARY
sys.path.insert(0, PACKAGE)
import feddurzai  # noqa: E402
from feddurzai.inspector import needs, scan  # noqa: E402
from feddurzai.inspector.elf import open_program  # noqa: E402

CC = os.environ.get("CC", "gcc")
checks = 0

SOURCE = """
#include <stdio.h>
static int table[256];
int first(int x) { return x * 3 + 1; }
int second(int x) __attribute__((alias("first")));
__attribute__((noinline)) int choose(int n, int x)
{
    switch (n) {
    case 0: return x + 5;
    case 1: return x * 7;
    case 2: return x - 9;
    case 3: return x ^ 3;
    case 4: return table[x & 255];
    case 5: return x << 4;
    case 6: return -x;
    case 7: puts("seven"); return 7;
    default: return n;
    }
}
__attribute__((noinline)) int loop(int n)
{
    int sum = 0;
    do { sum += n; } while (--n);
    return sum;
}
__attribute__((target("avx2"), noinline)) static void wide(int *p) { for (int i = 0; i < 8; i++) p[i] += i; }
__attribute__((noinline)) static void narrow(int *p) { for (int i = 0; i < 8; i++) p[i] += i; }
static void (*resolve(void))(int *) { __builtin_cpu_init(); return __builtin_cpu_supports("avx2") ? wide : narrow; }
void chosen(int *p) __attribute__((ifunc("resolve")));
int main(int argc, char **argv)
{
    int some[8] = {argc};
    chosen(some);
    return choose(argc, first(argc)) + second(some[3]) + loop(argc);
}
"""


THROWS = """
#include <stdexcept>
int risky(int);
int __attribute__((noinline)) catches(int n)
{
    try { return risky(n); }
    catch (const std::runtime_error &) { return n + 1; }
    catch (...) { return n + 2; }
}
int risky(int n) { if (n > 3) throw std::runtime_error("much"); return n; }
int main(int argc, char **) { return catches(argc); }
"""
# 4096 bytes after a function of a section of code, whose address it takes: a table, and not code
TABLE = """
    .text
    .globl main
    .type main, @function
main:
    lea table(%rip), %rax
    mov (%rax,%rdi,4), %eax
    ret
    .size main, .-main
    .balign 64
table:
    .rept 256
    .byte 0xc6, 0x63, 0x63, 0xa5, 0x0f, 0x58, 0xc1, 0x7c, 0xc5, 0xfd, 0x6f, 0x00, 0xf8, 0x7c, 0x7c, 0x84
    .endr
    .section .note.GNU-stack,"",@progbits
"""
# instructions that the opcode table leaves out, with the kinds that the inspector names, and some that it has
UNLISTED = """
    .text
    .globl main
    .type main, @function
main:
    vpxord constant(%rip), %zmm1, %zmm0
    vaddps %zmm1, %zmm0, %zmm0
    xor %eax, %eax
    kmovw %eax, %k1
    femms
    xbegin aborted
    xend
    nop
aborted:
    lea constant(%rip), %rcx
    vaddps %zmm1, %zmm0, %zmm0
    ret
    .size main, .-main
    .section .rodata
    .globl constant
    .type constant, @object
constant:
    .fill 64
    .size constant, 64
    .section .note.GNU-stack,"",@progbits
"""
KINDS = ["evex", "evex", "mask", "now3d", "legacy", "legacy", "evex"]


def check(holds, words):
    global checks
    checks += 1
    if not holds:
        sys.exit(f"inspector.py: {words}")


def run(*words, path=None):
    """Runs the inspector: its status, output and errors. `path` is the folder of all commands that it finds."""
    environment = {**os.environ, "PYTHONPATH": PACKAGE, "FEDDURZAI_LIBRARY": LIBRARY, "PATH": path or os.environ["PATH"]}
    done = subprocess.run([sys.executable, "-m", "feddurzai", *words], env=environment, stdout=subprocess.PIPE, stderr=subprocess.PIPE, check=False)
    return done.returncode, done.stdout.decode(errors="replace"), done.stderr.decode(errors="replace")


def output(*words, path=None):
    """The output of the inspector, which succeeds."""
    status, out, err = run(*words, path=path)
    check(status == 0 and not err, f"{' '.join(words)} ended with {status}: {err}")
    return out


def refused(wanted, *words):
    """The inspector refuses with one line."""
    status, out, err = run(*words)
    check(status == 1 and err.count("\n") == 1 and re.search(wanted, err), f"{' '.join(words)} ended with {status}, {err!r}, not with {wanted}")


def tool(*words):
    return subprocess.run(words, stdout=subprocess.PIPE, stderr=subprocess.DEVNULL, check=True).stdout.decode(errors="replace")


def instructions(file, name):
    """The addresses of the instructions of a function, by objdump."""
    found = tool("objdump", "-d", "--no-show-raw-insn", f"--disassemble={name}", file)
    return [int(it, 16) for it in re.findall(r"^ +([0-9a-f]+):\t(?!nop|xchg +%ax,%ax|data16|cs nop|lea +0x0\(%esi)", found, re.M)]


def tries_names(program, stripped, obj):
    symbols = {}
    for line in tool("nm", program).splitlines():
        words = line.split()
        if len(words) == 3 and words[1] in "tTiW":
            symbols.setdefault(words[2], int(words[0], 16))
    listed = {name: it["address"] for it in json.loads(output("list", program, "--json")) for name in it["names"]}
    for name in ("first", "second", "choose", "loop", "main", "resolve"):
        check(listed.get(name) == symbols[name], f"list has {name} at {listed.get(name)}, nm at {symbols[name]}")
    for name in ("first", "second"):
        check("<second>:" in output("list", program, name), f"list {name} does not show the alias")
    for name in ("choose", "main"):
        ours = [int(it, 16) for it in re.findall(r"^  ([0-9a-f]{16}) ", output("list", program, name), re.M)]
        check(set(instructions(program, name)) <= set(ours), f"list {name} lacks instructions of objdump")
    check("<puts>" in output("list", obj, "choose"), "the object file's call of puts has no name")
    check("called from main" in output("list", program, "choose", "--callers"), "choose has no caller main")
    at = f"{symbols['loop']:#x}"
    check(len(output("list", stripped, at).splitlines()) >= len(instructions(program, "loop")), "the stripped file does not list a function by address")


def tries_tables(program, name, where):
    graph = json.loads(output("graph", program, name, "--json"))
    check(not graph["unresolved"] and len(graph["tables"]) == 1, f"{where}: the jump table of {name} is not resolved: {graph['unresolved']}")
    check(len(graph["tables"][0]["targets"]) == 8, f"{where}: the table has {len(graph['tables'][0]['targets'])} entries, not 8")
    spans = [(it["start"], it["end"]) for it in graph["blocks"]]
    for address in instructions(program, name):
        check(any(start <= address < end for start, end in spans), f"{where}: {address:#x} is in no block")


def tries_needs(program, folder):
    found = json.loads(output("needs", program, "--json"))
    check("AVX2" not in found["reached"]["features"], "the IFUNC variant counts as reached")
    check(found["all"]["features"]["AVX2"]["function"] == "wide", "AVX2 is not found in the variant")
    check((found["reached"]["level"], found["all"]["level"]) == (1, 3), f"the levels are {found['reached']['level']}, {found['all']['level']}")
    check(found["resolvers"] == ["chosen"] or "resolve" in found["resolvers"], f"the resolvers are {found['resolvers']}")
    tables = [output("needs", folder, "--csv", "--jobs", jobs) for jobs in ("1", "2", "3")]
    check(tables[0] == tables[1] == tables[2], "the rows depend on the number of processes")
    rows = tables[0].splitlines()
    check(len(rows) > 4, f"needs of the folder has {len(rows)} rows")
    check(sum(",damaged" in it or "a damaged ELF file" in it or "ELF file for" in it for it in rows) >= 1, "no row says what is wrong with a bad file")


def tries_windows(*programs):
    """Control is followed through a large section in windows: small windows reach what one window reaches."""
    for path in programs:
        program = open_program(path)
        survey = needs._Survey(program)
        entries = survey.reached_entries()
        for items in survey.items:
            whole = needs.follow(program, items, entries)
            for most in (16, 17, 64, 1000, len(items.section.code) - 1):
                found = needs.follow(program, items, entries, max(16, most))
                where = f"{path}, {items.section.name}, windows of {most} bytes"
                check(list(found.starts) == list(whole.starts) and found.kinds == whole.kinds, f"{where}: control reaches other places")


def tries_exceptions(folder):
    """Control comes to the handlers of exceptions by the tables of the file."""
    source, program = os.path.join(folder, "throws.cc"), os.path.join(folder, "throws")
    with open(source, "w", encoding="utf-8") as file:
        file.write(THROWS)
    try:
        subprocess.run(["g++", "-O2", source, "-o", program], check=True)
    except FileNotFoundError:
        print("skipped exceptions: g++ is not installed")
        return
    listed = tool("objdump", "-d", "--no-show-raw-insn", program)
    begins = [int(it, 16) for it in re.findall(r"^ +([0-9a-f]+):\tcall .*<__cxa_begin_catch@plt>", listed, re.M)]
    check(len(begins) == 2, f"objdump finds {len(begins)} handlers")
    survey = needs._Survey(open_program(program))
    for entries in (survey.all_entries, survey.reached_entries()):
        reached = {it.section.start + at for it in survey.items for at in needs.follow(survey.program, it, entries).starts}
        check(set(begins) <= reached, "a handler of an exception is not reached")


def tries_data(folder):
    """A table in a section of code is not taken for instructions, although code takes its address."""
    source, program = os.path.join(folder, "table.s"), os.path.join(folder, "table")
    with open(source, "w", encoding="utf-8") as file:
        file.write(TABLE)
    for flags in ([], ["-no-pie"]):
        subprocess.run([CC, *flags, source, "-o", program], check=True)
        found = json.loads(output("needs", program, "--json"))
        for part in ("reached", "all"):
            check(not {"AVX", "SSE2", "FPU"} & set(found[part]["features"]), f"needs takes data for instructions: {found[part]}")
            check(not found[part]["unread"], f"needs reads data: {found[part]['unread']}")


def tries_fixed(program):
    """Code of a program with fixed addresses takes the address of main by an immediate."""
    survey = needs._Survey(open_program(program))
    (main,) = (start for start, it in survey.program.functions.items() if "main" in it.names)
    check(main in survey.reached_entries(), "main of a program with fixed addresses is not reached")


def tries_chunks():
    """Large code is read in chunks as `iterate` reads it, also where instructions without a row begin in what others end in."""
    rng = random.Random(79)
    pieces = [bytes.fromhex(it) for it in ("62f17c4858c1", "62f17d48ef0510000000", "c5fc41c0", "0f0fc19e", "4883ec08", "c3", "0f1f8000000000", "c7f810000000", "06")]
    for bits in (32, 64):
        for count in (0, 1, 40, 3000, 9000):
            some = (rng.choice(pieces) if rng.random() < 0.9 else bytes(rng.randrange(256) for _ in range(rng.randrange(1, 9))) for _ in range(count))
            code = b"".join(some)
            wanted = [it for it in feddurzai.iterate(bits, 0x1000, code, unlisted=True) if not isinstance(it, feddurzai.Rest)]
            at, found = 0, []
            for chunk in scan.chunks(bits, 0x1000, code, unlisted=True):
                offsets = chunk.offsets()
                check(offsets[0] == at and len(chunk.highs) > 0, f"{bits}-bit: a chunk begins at {offsets[0]}, not at {at}")
                at = offsets[-1]
                found += [(0x1000 + one, end - one, chunk.unlisted.get(n)) for n, (one, end) in enumerate(zip(offsets, offsets[1:]))]
            check(at == len(code), f"{bits}-bit: the chunks end at {at}, not at {len(code)}")
            for ours, item in zip(found, wanted):
                same = item if isinstance(item, feddurzai.Unlisted) else None
                check(ours == (item.address, item.len, same), f"{bits}-bit: a chunk has {ours}, and not {item!r}")


def tries_unlisted(folder):
    """Instructions without a row are one line each: with objdump's text where it is installed, which runs once, and else with their bytes."""
    source, program, bare, counted, ran = (os.path.join(folder, it) for it in ("unlisted.s", "unlisted", "bare", "counted", "ran"))
    with open(source, "w", encoding="utf-8") as file:
        file.write(UNLISTED)
    subprocess.run([CC, source, "-o", program], check=True)
    subprocess.run([CC, "-c", source, "-o", program + ".o"], check=True)
    # a folder of commands without objdump, and one with an objdump that counts its runs
    for path in (bare, counted):
        os.mkdir(path)
        if shutil.which("dot"):
            os.symlink(shutil.which("dot"), os.path.join(path, "dot"))
    with open(os.path.join(counted, "objdump"), "w", encoding="utf-8") as file:
        file.write(f"#!/bin/sh\necho run >>'{ran}'\nexec '{shutil.which('objdump')}' \"$@\"\n")
    os.chmod(os.path.join(counted, "objdump"), 0o755)

    def runs():
        """How often objdump ran since the last call."""
        if not os.path.exists(ran):
            return 0
        with open(ran, encoding="utf-8") as file:
            number = len(file.readlines())
        os.unlink(ran)
        return number

    def lines(*words, path=None):
        """The lines of a listing: address, bytes, text."""
        found = re.findall(r"^  ([0-9a-f]+)  ([0-9a-f]+) +(.*)$", output("list", *words, path=path), re.M)
        return [(int(at, 16), code, text) for at, code, text in found]

    def theirs(style):
        """What objdump prints of main: for each address the text, without the address or the symbol after it."""
        found = tool("objdump", "-d", "-w", "-M", style, "--no-show-raw-insn", "--disassemble=main", program)
        texts = re.findall(r"^ +([0-9a-f]+):\t(.+)$", found, re.M)
        return {int(at, 16): " ".join(re.split(" *#| <", text)[0].split()) for at, text in texts}

    for style in ("att", "intel"):
        wanted, ours = theirs(style), lines(program, "main", "--style", style, path=counted)
        check(runs() == 1, f"{style}: objdump did not run once")
        check([it[0] for it in ours] == sorted(wanted), f"{style}: list has other addresses than objdump: {ours}")
        marked = [it for it in ours if it[2].startswith("(")]
        check([it[2][1:].split(")")[0] for it in marked] == KINDS, f"{style}: the kinds are those of {marked}")
        for at, _, text in marked:
            # objdump prints the target of XBEGIN without 0x where it knows a symbol
            words = re.sub("^(xbegin) 0x", r"\1 ", text.split(") ")[1].split(" <")[0])
            check(words == wanted[at], f"{style}: list has {text!r}, objdump {wanted[at]!r}")
        check(marked[0][2].endswith(" <constant>") and marked[4][2].endswith(" <aborted>"), f"{style}: symbols are missing: {marked}")
    check(lines(program + ".o", "main")[0][2].endswith(" <constant>"), "the object file's relocation has no symbol")

    plain = lines(program, "main", path=bare)
    check([it[:2] for it in plain] == [it[:2] for it in ours], f"without objdump list has other instructions: {plain}")
    texts = [f"({kind}) {code}" for kind, (_, code, _) in zip(KINDS, marked)]
    check([it[2].split(" <")[0] for it in plain if it[2].startswith("(")] == texts, f"without objdump list has {plain}")
    coloured = output("list", program, "main", "--colour", "always")
    check(coloured.count("\x1b[2m(") == len(KINDS), "instructions without a row have no shade of their own on a terminal")
    items = json.loads(output("list", program, "main", "--json"))
    check([it["unlisted"] for it in items if "unlisted" in it] == KINDS, f"the JSON has {items}")

    # control goes through them, and from XBEGIN to its target too
    graph = json.loads(output("graph", program, "main", "--json"))
    edges = [[it["how"] for it in block["edges"]] for block in graph["blocks"]]
    check(edges == [["taken", "not taken"], ["next"], []], f"the graph of main is {graph}")
    if not shutil.which("dot"):
        print("skipped the page of instructions without a row: Graphviz is not installed")
        return
    runs()
    for path, text in ((counted, "(evex) vaddps zmm0,zmm0,zmm1"), (bare, texts[1])):
        page = os.path.join(folder, "unlisted.html")
        output("page", program, "main", "-o", page, path=path)
        check(runs() == (path == counted), "objdump did not run once for a page")
        with open(page, encoding="utf-8") as file:
            html = file.read()
        check(html.count(f'<span class="unlisted">{text}</span>') == 2, f"the page has not {text!r} twice")
        check('class="bad"' not in html and 'apart"' not in html, "the page has bytes without an instruction, or lines that are not reached")


def tries_hooks(program):
    answers = {it["names"][0]: it for it in json.loads(output("hookable", program, "--json"))}
    check(answers["choose"]["taken"] >= 5 and answers["choose"]["sight"] == "whole", f"choose: {answers['choose']}")
    check(answers["loop"]["cause"] is not None or answers["loop"]["taken"] >= 5, f"loop: {answers['loop']}")


def tries_refusals(program, folder):
    with open(program, "rb") as file:
        good = file.read()
    kept = os.path.join(folder, "kept.svg")
    with open(kept, "w", encoding="utf-8") as file:
        file.write("kept")
    refused("no function and no code section is named 'nowhere'", "graph", program, "nowhere", "-o", kept)
    with open(kept, encoding="utf-8") as file:
        check(file.read() == "kept", "a refused graph has overwritten its file")
    refused(r"a graph is written as \.svg", "graph", program, "main", "-o", os.path.join(folder, "x.gif"))
    refused("No such file", "list", os.path.join(folder, "absent"))
    refused("not an ELF file", "list", __file__)
    refused("Is a directory", "list", folder)

    def put(name, data):
        path = os.path.join(folder, name)
        with open(path, "wb") as file:
            file.write(data)
        return path

    refused("an ELF file for AARCH64", "list", put("other", good[:18] + b"\xb7\x00" + good[20:]))
    refused(".", "needs", put("short", good[:70]))
    rng = random.Random(55)
    for n in range(100):
        spoiled = bytearray(good if n % 4 else good[: rng.randrange(len(good))])
        for _ in range(rng.randrange(1, 20)):
            at = rng.randrange(64) if n % 3 == 0 else rng.randrange(len(spoiled)) if spoiled else 0
            if at < len(spoiled) and at >= 4:
                spoiled[at] = rng.randrange(256)
        status, _, err = run(("list", "needs", "hookable")[n % 3], put(f"spoiled{n}", bytes(spoiled)))
        check(status in (0, 1) and "Traceback" not in err and err.count("\n") == (status == 1), f"spoiled file {n}: status {status}, {err[-300:]}")
        os.unlink(os.path.join(folder, f"spoiled{n}"))


def main():
    with tempfile.TemporaryDirectory() as folder:
        source = os.path.join(folder, "source.c")
        with open(source, "w", encoding="utf-8") as file:
            file.write(SOURCE)

        def built(name, *flags):
            path = os.path.join(folder, name)
            subprocess.run([CC, "-O2", "-w", *flags, source, "-o", path], check=True)
            return path

        program, fixed, static = built("pie", "-fPIE", "-pie"), built("fixed", "-fno-pie", "-no-pie"), built("static", "-static")
        obj = built("part.o", "-c")
        stripped = os.path.join(folder, "stripped")
        subprocess.run(["strip", "-o", stripped, program], check=True)
        tries_names(program, stripped, obj)
        tries_tables(program, "choose", "position-independent")
        tries_tables(fixed, "choose", "fixed address")
        try:
            tries_tables(built("wide32", "-m32", "-fno-pie", "-no-pie"), "choose", "32-bit")
        except subprocess.CalledProcessError:
            print("skipped the 32-bit program: this compiler has no -m32")
        tries_windows(program, fixed)
        tries_exceptions(folder)
        tries_data(folder)
        tries_chunks()
        with tempfile.TemporaryDirectory() as other:
            tries_unlisted(other)
        tries_fixed(fixed)
        tries_fixed(static)
        tries_hooks(program)
        tries_refusals(program, folder)
        tries_needs(program, folder)
        check("x86-64-v" in output("needs", static), "needs of a static program")
    print(f"{checks} checks of the inspector, 100 spoiled files among them")


if __name__ == "__main__":
    main()
