#!/usr/bin/env python3
"""Tests an installed inspector on files of a Debian system, against nm, objdump, readelf and file headers.

Usage: inspect_files.py OUT COMMAND..

COMMAND is the inspector, for example `feddurzai-inspect` or `python3 -m feddurzai`. The graphs and pages that it draws are left in the folder OUT.
The files are gdb, the C library, libcrypto, a stripped program (ls), and what a C compiler makes here: an object file, a position-independent program
and a static one; with them a 32-bit C library, a C library of another machine, a truncated file and 100 spoiled ones. Files that are not on the
system are named and left out. Required: gcc, binutils, Graphviz, pyelftools.
"""

import glob
import json
import os
import random
import re
import resource
import shutil
import subprocess
import sys

OUT, COMMAND = sys.argv[1], sys.argv[2:]
SOURCE = """
#include <stdio.h>
__attribute__((noinline)) int choose(int n, int x)
{
    switch (n) {
    case 0: return x + 5;
    case 1: return x * 7;
    case 2: return x - 9;
    case 3: return x ^ 3;
    case 4: return x << 4;
    case 5: puts("five"); return 5;
    default: return n;
    }
}
int main(int argc, char **argv) { return choose(argc, argc) + !argv; }
"""
checks = 0


def check(holds, words):
    global checks
    checks += 1
    if not holds:
        sys.exit(f"inspect_files.py: {words}")


def run(*words):
    done = subprocess.run([*COMMAND, *words], stdout=subprocess.PIPE, stderr=subprocess.PIPE, check=False)
    return done.returncode, done.stdout.decode(errors="replace"), done.stderr.decode(errors="replace")


def output(*words):
    status, out, err = run(*words)
    check(status == 0 and not err, f"{' '.join(words)} ended with {status}: {err[-500:]}")
    check("\x1b" not in out, f"{' '.join(words)} wrote colours into a pipe")
    return out


def refused(wanted, *words):
    status, _, err = run(*words)
    check(status == 1 and err.count("\n") == 1 and re.search(wanted, err), f"{' '.join(words)} ended with {status}, {err[-300:]!r}, not with {wanted}")


def tool(*words):
    """The output of a tool of binutils. nm fails on files without symbols."""
    return subprocess.run(words, stdout=subprocess.PIPE, stderr=subprocess.DEVNULL, check=words[0] != "nm").stdout.decode(errors="replace")


def exported(path):
    """The functions that nm knows: (address, name)."""
    found = set()
    for line in (tool("nm", "-D", "--defined-only", path) + tool("nm", "--defined-only", path)).splitlines():
        words = line.split()
        if len(words) == 3 and words[1] in "Tti":
            found.add((int(words[0], 16), words[2].partition("@")[0]))
    return found


def tries_list(path):
    """Each function of nm is listed, with all its names. The sections of an object file have addresses of the inspector's own, so its names alone count."""
    functions = json.loads(output("list", path, "--json"))
    is_object = "REL (" in tool("readelf", "-W", "-h", path)
    names = {(0 if is_object else it["address"], name.partition("@")[0]) for it in functions for name in it["names"]}
    typed = {int(line.split()[1], 16) for line in tool("readelf", "-W", "-s", path).splitlines() if re.search(r" (FUNC|IFUNC) ", line) and " UND " not in line}
    missing = [it for it in exported(path) if (0 if is_object else it[0], it[1]) not in names and it[0] in typed]
    check(not missing, f"list {path} lacks {missing[:3]}")
    check(len(output("list", path).splitlines()) >= len(functions), f"list {path} has fewer lines than functions")
    return functions


def tries_text(path, most):
    """The listing of .text starts where objdump's does, with the same addresses up to the first byte that one of them cannot read."""
    ours = [int(it, 16) for it in re.findall(r"^  ([0-9a-f]+)  [0-9a-f]", output("list", path, ".text"), re.M)]
    theirs = tool("objdump", "-d", "-j", ".text", "-w", path)
    starts = [int(it, 16) for it in re.findall(r"^ *([0-9a-f]+):\t", theirs, re.M)]
    check(len(ours) > 0 and ours[0] == starts[0], f"list {path} .text starts at {ours[:1]}")
    share = len(set(ours) & set(starts)) / len(starts)
    check(share > most, f"list {path} .text has only {share:.4f} of the starts of objdump")
    return len(ours)


def tries_pictures(path, name, stem):
    """A graph in each format, and a page with the listing and the graph."""
    for form, magic in ((".svg", b"<?xml"), (".png", b"\x89PNG"), (".pdf", b"%PDF"), (".dot", b"digraph")):
        out = os.path.join(OUT, stem + form)
        output("graph", path, name, "-o", out)
        with open(out, "rb") as file:
            check(file.read(8).startswith(magic), f"graph {path} {name}: {out} is no {form}")
    blocks = json.loads(output("graph", path, name, "--json"))["blocks"]
    with open(os.path.join(OUT, stem + ".svg"), encoding="utf-8") as file:
        check(file.read().count('class="node"') == len(blocks), f"graph {path} {name}: the picture has not {len(blocks)} blocks")
    out = os.path.join(OUT, stem + ".html")
    output("page", path, name, "-o", out)
    with open(out, encoding="utf-8") as file:
        page = file.read()
    lines = [it for it in output("list", path, name).splitlines() if it.startswith("  ")]
    check("<svg" in page and f"<title>{name}</title>" in page, f"page {path} {name} has no graph or no title")
    missing = [it for it in lines if f'id="a{int(it.split()[0], 16):x}"' not in page]
    check(len(lines) > 1 and not missing, f"page {path} {name} lacks {missing[:1]} of the listing")


def tries_needs(path, bits):
    found = json.loads(output("needs", path, "--json"))
    check(found["bits"] == bits, f"needs {path}: {found['bits']}-bit")
    reached, everything = found["reached"], found["all"]
    check(set(reached["features"]) <= set(everything["features"]), f"needs {path}: reached code needs more than all code")
    if bits == 64:
        check(1 <= reached["level"] <= everything["level"] <= 4, f"needs {path}: levels {reached['level']}, {everything['level']}")
        check(f"x86-64-v{reached['level']}" in output("needs", path), f"needs {path} does not report its level")
    return found


def tries_hooks(path, functions):
    """An answer for each function but the entries of the PLT; at least the bytes of a near jump are replaced, and whole instructions."""
    answers = json.loads(output("hookable", path, "--json"))
    wanted = {it["address"] for it in functions if not it["names"][0].endswith("@plt")}
    check({it["address"] for it in answers} == wanted, f"hookable {path} has {len(answers)} answers for {len(wanted)} functions")
    check(all((it["cause"] is None) == (it["taken"] is not None) for it in answers), f"hookable {path}: a function with neither or both")
    check(all(it["taken"] >= 2 for it in answers if it["taken"] is not None), f"hookable {path}: a patch is shorter than a jump")
    check(any(it["taken"] for it in answers), f"hookable {path}: no function can be hooked")
    return sum(it["taken"] is not None for it in answers), len(answers)


def processor_seconds(*words):
    before = resource.getrusage(resource.RUSAGE_CHILDREN)
    subprocess.run(words, stdout=subprocess.DEVNULL, stderr=subprocess.DEVNULL, check=True)
    after = resource.getrusage(resource.RUSAGE_CHILDREN)
    return after.ru_utime + after.ru_stime - before.ru_utime - before.ru_stime


def tries_speed(path):
    """A listing of .text takes at most twice the processor time of objdump."""
    ours = min(processor_seconds(*COMMAND, "list", path, ".text") for _ in range(2))
    theirs = min(processor_seconds("objdump", "-d", "-M", "intel", "-j", ".text", path) for _ in range(2))
    check(ours <= 2 * theirs, f"list {path} .text takes {ours:.2f} s, objdump {theirs:.2f}")
    return f"{ours:.1f} s, objdump {theirs:.1f} s"


def spoiled(good, folder):
    """100 spoiled copies of a file: a clear line or an answer, and no trace of Python."""
    rng, refusals = random.Random(2026), 0
    for n in range(100):
        data = bytearray(good if n % 4 else good[: rng.randrange(len(good))])
        for _ in range(rng.randrange(1, 30)):
            at = rng.randrange(4, 64) if n % 3 == 0 else rng.randrange(4, max(5, len(data)))
            if at < len(data):
                data[at] = rng.randrange(256)
        path = os.path.join(folder, "spoiled")
        with open(path, "wb") as file:
            file.write(data)
        words = (["list"], ["needs"], ["hookable"], ["list"], ["page"])[n % 5]
        words = [*words, path, ".text", "-o", os.path.join(folder, "spoiled.html")] if words == ["page"] else [*words, path]
        status, _, err = run(*words)
        check(status in (0, 1) and "Traceback" not in err and err.count("\n") == (status == 1), f"spoiled file {n}, {words[0]}: status {status}, {err[-300:]}")
        refusals += status
    return refusals


def made(folder, name, *flags):
    source, path = os.path.join(folder, "source.c"), os.path.join(folder, name)
    with open(source, "w", encoding="utf-8") as file:
        file.write(SOURCE)
    subprocess.run(["gcc", "-O2", "-w", *flags, source, "-o", path], check=True)
    return path


def whole(path, function, stem, bits=64, share=0.999, hooks=True):
    """All commands on a file."""
    functions = tries_list(path)
    lines = tries_text(path, share)
    name = function or max((it for it in functions if it["size"] < 600 and not it["names"][0].endswith("@plt")), key=lambda it: it["size"])["names"][0]
    tries_pictures(path, name, stem)
    needed = tries_needs(path, bits)
    hooked = tries_hooks(path, functions) if hooks else None
    level = f"x86-64-v{needed['reached']['level']}, all code v{needed['all']['level']}" if bits == 64 else "32-bit"
    more = "" if hooked is None else f", {hooked[0]} of {hooked[1]} hookable"
    print(f"{stem}: {path}: {len(functions)} functions, {lines} lines of .text, {level}{more}", flush=True)
    return needed


def first(*patterns):
    return next((os.path.realpath(it) for pattern in patterns for it in sorted(glob.glob(pattern))), None)


def main():
    os.makedirs(OUT, exist_ok=True)
    skipped = []

    def on_system(what, *patterns):
        path = first(*patterns)
        if path is None:
            skipped.append(what)
        return path

    ls = os.path.realpath(shutil.which("ls"))
    check(".symtab" not in tool("readelf", "-W", "-S", ls), f"{ls} is not stripped")
    whole(ls, None, "stripped")
    libc = on_system("the C library", "/lib/x86_64-linux-gnu/libc.so.6")
    if libc:
        needed = whole(libc, "qsort", "libc", share=0.95)
        check((needed["reached"]["level"], needed["all"]["level"]) == (1, 4), "the C library needs not v1, with all code v4")
    crypto = on_system("libcrypto", "/usr/lib/x86_64-linux-gnu/libcrypto.so.3")
    if crypto:
        whole(crypto, "AES_cbc_encrypt", "libcrypto", share=0.9)
    gdb = on_system("gdb", "/usr/bin/gdb")
    if gdb:
        functions = tries_list(gdb)
        tries_pictures(gdb, max((it for it in functions if it["size"] < 500), key=lambda it: it["size"])["names"][0], "gdb")
        needed = tries_needs(gdb, 64)
        print(f"gdb: {gdb}: {len(functions)} functions, x86-64-v{needed['reached']['level']}; .text listed in {tries_speed(gdb)}", flush=True)
    folder = os.path.join(OUT, "made")
    os.makedirs(folder, exist_ok=True)
    for stem, flags in (("object", ["-c"]), ("pie", ["-fPIE", "-pie"]), ("static", ["-static"])):
        path = made(folder, f"{stem}.bin", *flags)
        whole(path, "choose", stem, share=0.95 if stem == "static" else 0.999, hooks=stem != "static")
        tables = json.loads(output("graph", path, "choose", "--json"))["tables"]
        check(stem == "object" or [len(it["targets"]) for it in tables] == [6], f"{stem}: the jump table of choose has not 6 entries: {tables}")
        check("puts" in output("list", path, "choose"), f"{stem}: the call of puts has no name")
    old = on_system("a 32-bit library", "/lib32/libc.so.6", "/usr/lib32/libc.so.6", "/lib/i386-linux-gnu/libc.so.6")
    if old:
        functions = tries_list(old)
        tries_pictures(old, "qsort", "32bit")
        tries_needs(old, 32)
        print(f"32-bit: {old}: {len(functions)} functions", flush=True)
    other = on_system("a library of another machine", "/usr/aarch64-linux-gnu/lib/libc.so.6", "/usr/*-linux-gnu*/lib/libc.so.6")
    if other:
        for words in (["list"], ["needs"], ["hookable"], ["graph", "main"]):
            refused("an ELF file for [A-Z0-9]+, not for x86", words[0], other, *words[1:])
        print(f"another machine: {other}: refused", flush=True)
    with open(ls, "rb") as file:
        good = file.read()
    short = os.path.join(folder, "short")
    with open(short, "wb") as file:
        file.write(good[:5000])
    refused("short: ", "list", short)
    refused("not an ELF file", "needs", __file__)
    print(f"spoiled: {spoiled(good, folder)} of 100 refused with a line, the others answered", flush=True)
    if skipped:
        print(f"left out: {', '.join(skipped)}")
    print(f"{checks} checks of the inspector on files of a system")


main()
