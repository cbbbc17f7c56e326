#!/usr/bin/env python3
"""Moves the machine code of some C functions, runs it, and compares its results with those of the original code.

    tools/moving/run_moved.py PROGRAM

PROGRAM is the built listing_program. gcc compiles two files for x86-64, linked at a fixed address. functions.c has constants that are read relative to
RIP, and is moved to an address within 2 GiB. far_functions.c has none; it is moved beyond the reach of a near branch, and calls a function that stays
outside. A runner in C maps the old code (and its constants) at its address and the moved code at the new one, calls each function at both with many
arguments, and compares the results. The script needs gcc and binutils. No proof depends on it.
"""
import os
import subprocess
import sys
import tempfile

HERE = os.path.dirname(os.path.abspath(__file__))
FLAGS = ["-fno-jump-tables", "-fcf-protection=none", "-fno-stack-protector", "-fno-asynchronous-unwind-tables", "-fno-pic", "-mcmodel=small",
         "-fno-tree-vectorize", "-ffreestanding", "-nostdlib", "-static"]
OLD = 0x20000000
OUTSIDE = 0x2100_0000

RUNNER = r"""
#include <stdio.h>
#include <string.h>
#include <sys/mman.h>

typedef unsigned long u64;
struct function { const char *name; int takes; u64 old, new; };
%(arrays)s

/* outside(x) = 3 * x + 7, as machine code that stays at its address */
static const unsigned char outside_code[] = { 0x48, 0x8d, 0x44, 0x7f, 0x07, 0xc3 };

static void put(u64 at, const unsigned char *bytes, u64 len)
{
    u64 page = at & ~0xfffUL;
    void *got = mmap((void *)page, (at + len - page + 0xfff) & ~0xfffUL, PROT_READ | PROT_WRITE | PROT_EXEC,
                     MAP_PRIVATE | MAP_ANONYMOUS | MAP_FIXED_NOREPLACE, -1, 0);
    if (got != (void *)page) { fprintf(stderr, "cannot map %%#lx\n", page); _Exit(2); }
    memcpy((void *)at, bytes, len);
}

int main(void)
{
    u64 calls = 0, wrong = 0;
    %(puts)s
    if (%(outside)s) put(%(outside_at)#x, outside_code, sizeof outside_code);
    for (unsigned f = 0; f < sizeof functions / sizeof *functions; f++)
        for (u64 a = 0; a < %(arguments)d; a++)
            for (u64 b = 0; b < (functions[f].takes == 2 ? 4 : 1); b++) {
                u64 was, is;
                if (functions[f].takes == 2) {
                    was = ((u64 (*)(u64, u64))functions[f].old)(b, a);
                    is = ((u64 (*)(u64, u64))functions[f].new)(b, a);
                } else {
                    was = ((u64 (*)(u64))functions[f].old)(a);
                    is = ((u64 (*)(u64))functions[f].new)(a);
                }
                calls++;
                if (was != is) { wrong++; printf("%%s(%%lu, %%lu): %%lx, moved %%lx\n", functions[f].name, b, a, was, is); }
            }
    printf("%%u functions, %%lu calls, %%lu differ\n", (unsigned)(sizeof functions / sizeof *functions), calls, wrong);
    return wrong != 0;
}
"""


def run(*words, **more):
    return subprocess.run(words, check=True, **more)


def build(folder, source, level):
    """The ELF file of a source at a fixed address."""
    name = os.path.join(folder, os.path.basename(source) + level + ".elf")
    run("gcc", level, *FLAGS, "-Wl,-Ttext=%#x" % OLD, "-Wl,--defsym,outside=%#x" % OUTSIDE, "-Wl,-e,0", "-Wl,--build-id=none", "-o", name, source)
    return name


def section(folder, elf, name):
    """The address and the bytes of a section, if there is one."""
    for line in run("objdump", "-h", elf, capture_output=True, text=True).stdout.splitlines():
        words = line.split()
        if len(words) > 5 and words[1] == name:
            path = os.path.join(folder, "section")
            run("objcopy", "-O", "binary", "--only-section=" + name, elf, path)
            return int(words[3], 16), open(path, "rb").read()
    return None


def symbols(elf):
    table = {}
    for line in run("nm", elf, capture_output=True, text=True).stdout.splitlines():
        at, kind, name = line.split()
        if kind in "Tt":
            table[name] = int(at, 16)
    return table


def array(name, bytes_):
    return "static const unsigned char %s[] = { %s };" % (name, ",".join(map(str, bytes_)))


def try_out(program, folder, source, level, new, doubles, takes_two, arguments):
    elf = build(folder, source, level)
    old, text = section(folder, elf, ".text")
    moved = run(program, "move", "64", "%x" % old, "%x" % new, input=text, capture_output=True).stdout
    lines = run(program, "map", "64", "%x" % old, "%x" % new, input=text, capture_output=True).stdout.decode().splitlines()
    where, forms = {}, {}
    for line in lines:
        was, is_, form = line.split()
        where[int(was, 16)] = int(is_, 16)
        forms[form] = forms.get(form, 0) + 1
    # (the linker's own symbols, such as the end of the section, are no functions)
    functions = [(name, at) for name, at in sorted(symbols(elf).items())
                 if name not in doubles and name != "outside" and old <= at < old + len(text)]
    arrays = [array("old_text", text), array("new_text", moved)]
    puts = ["put(%#x, old_text, sizeof old_text);" % old, "put(%#x, new_text, sizeof new_text);" % new]
    for name in (".rodata", ".data"):
        found = section(folder, elf, name)
        if found:
            arrays.append(array("s" + name[1:], found[1]))
            puts.append("put(%#x, s%s, sizeof s%s);" % (found[0], name[1:], name[1:]))
    arrays.append("static const struct function functions[] = {\n%s\n};" % "\n".join(
        '    { "%s", %d, %#xUL, %#xUL },' % (name, 2 if name in takes_two else 1, at, where[at]) for name, at in functions))
    runner = os.path.join(folder, "runner.c")
    outside = "far" in source
    with open(runner, "w") as file:
        file.write(RUNNER % {"arrays": "\n".join(arrays), "puts": "\n    ".join(puts), "outside": int(outside), "outside_at": OUTSIDE,
                             "arguments": arguments})
    binary = os.path.join(folder, "runner")
    run("gcc", "-O1", "-w", "-o", binary, runner)
    answer = subprocess.run([binary], capture_output=True, text=True)
    print("%s %s to %#x: %d bytes, moved %d, %s: %s" % (os.path.basename(source), level, new, len(text), len(moved),
          ", ".join("%d %s" % (n, form) for form, n in sorted(forms.items())), (answer.stdout + answer.stderr).strip() or answer.returncode))
    return answer.returncode


def main():
    if len(sys.argv) != 2 or sys.argv[1] in ("-h", "--help"):
        sys.exit(__doc__)
    program = os.path.abspath(sys.argv[1])
    failed = 0
    with tempfile.TemporaryDirectory() as folder:
        near = os.path.join(HERE, "functions.c")
        far = os.path.join(HERE, "far_functions.c")
        for level in ("-O0", "-O1", "-O2", "-Os", "-O3"):
            for new in (0x30000000, 0x5fff0123, 0x20000000 - 0x1000000):
                failed |= try_out(program, folder, near, level, new, {"poly", "root"}, {"add", "gcd", "power", "ackermann"}, 3 if level == "-O0" else 9)
            for new in (0x7ff000000000, 0x10_0000_0003):
                failed |= try_out(program, folder, far, level, new, set(), {"add", "gcd"}, 24)
    return failed


if __name__ == "__main__":
    sys.exit(main())
