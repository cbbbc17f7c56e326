#!/usr/bin/env python3
"""Single-steps the machine code of some C functions in slots, and compares its results and writes with those of the code at its own address.

    tools/stepping/run_slots.py PROGRAM

PROGRAM is the built listing_program. gcc compiles the two files of tools/moving for x86-64, linked at a fixed address: functions.c gets slots within 2 GiB,
far_functions.c beyond the reach of a near branch. A runner in C calls each function with many arguments, first in the original code. Then it replaces every
byte of that code by INT3, maps the slots, and calls each function again at its old address. A handler catches each INT3 and continues in the slot of the
instruction that was there; the slot runs it and jumps back to the next INT3. An independent model finds the slots: each begins at the first place after the
slot before it, and has the length of its longest images. The script needs gcc and binutils. No proof depends on it.
"""
import os
import re
import subprocess
import sys
import tempfile

HERE = os.path.dirname(os.path.abspath(__file__))
MOVING = os.path.join(os.path.dirname(HERE), "moving")
sys.path.insert(0, MOVING)
from run_moved import OUTSIDE, array, build, run, section, symbols  # noqa: E402

SIZE = 0x100000

RUNNER = r"""
#define _GNU_SOURCE
#include <signal.h>
#include <stdio.h>
#include <string.h>
#include <sys/mman.h>
#include <ucontext.h>

typedef unsigned long u64;
struct function { const char *name; int takes; u64 at; };
%(arrays)s

/* outside(x) = 3 * x + 7, as machine code that stays at its address */
static const unsigned char outside_code[] = { 0x48, 0x8d, 0x44, 0x7f, 0x07, 0xc3 };
/* the slot of the instruction at each offset of the code, or 0 */
static u64 slot_at[sizeof old_text];
static u64 steps, results[200000];

static void put(u64 at, const unsigned char *bytes, u64 len)
{
    u64 page = at & ~0xfffUL;
    void *got = mmap((void *)page, (at + len - page + 0xfff) & ~0xfffUL, PROT_READ | PROT_WRITE | PROT_EXEC,
                     MAP_PRIVATE | MAP_ANONYMOUS | MAP_FIXED_NOREPLACE, -1, 0);
    if (got != (void *)page) { fprintf(stderr, "cannot map %%#lx\n", page); _Exit(2); }
    memcpy((void *)at, bytes, len);
}

static void on_trap(int signal, siginfo_t *info, void *context)
{
    greg_t *rip = &((ucontext_t *)context)->uc_mcontext.gregs[REG_RIP];
    u64 at = (u64)*rip - 1 - %(old)#xUL;
    if (at >= sizeof old_text || !slot_at[at]) { fprintf(stderr, "INT3 at %%#llx\n", *rip - 1); _Exit(3); }
    *rip = (greg_t)slot_at[at];
    steps++;
}

/* the results of all calls, in order; each that differs from its first result is reported */
static u64 call_all(int again, u64 *wrong)
{
    u64 calls = 0;
    for (unsigned f = 0; f < sizeof functions / sizeof *functions; f++)
        for (u64 a = 0; a < %(arguments)d; a++)
            for (u64 b = 0; b < (functions[f].takes == 2 ? 4 : 1); b++) {
                u64 is = functions[f].takes == 2 ? ((u64 (*)(u64, u64))functions[f].at)(b, a) : ((u64 (*)(u64))functions[f].at)(a);
                if (!again) results[calls] = is;
                else if (results[calls] != is) { ++*wrong; printf("%%s(%%lu, %%lu): %%lx, stepped %%lx\n", functions[f].name, b, a, results[calls], is); }
                calls++;
            }
    return calls;
}

int main(void)
{
    u64 calls, wrong = 0;
    struct sigaction action;
    memset(&action, 0, sizeof action);
    action.sa_sigaction = on_trap;
    action.sa_flags = SA_SIGINFO;
    sigaction(SIGTRAP, &action, 0);
    %(puts)s
    if (%(outside)s) put(%(outside_at)#x, outside_code, sizeof outside_code);
    for (unsigned k = 0; k < sizeof starts / sizeof *starts; k++) slot_at[starts[k] - %(old)#xUL] = slots[k];
    call_all(0, &wrong);
    memset((void *)%(old)#xUL, 0xcc, sizeof old_text);
    put(%(region)#xUL, image, sizeof image);
    calls = call_all(1, &wrong);
    printf("%%u functions, %%lu calls, %%lu steps, %%lu differ\n", (unsigned)(sizeof functions / sizeof *functions), calls, steps, wrong);
    return wrong != 0;
}
"""


def up(number, unit):
    return (number + unit - 1) // unit * unit


def reserved(length, flow, target, back):
    """The size of a slot of 64-bit code in bytes: the longest image, a jump back through 8 bytes, and the 8 bytes of each goal."""
    goals = {back}
    if target is not None:
        goals.add(target)
        length = {"UnconditionalBranch": 6, "Call": 6}.get(flow, 8)
    return up(up(length + 6, 8) + 8 * len(goals), 16)


def slots_of(program, text, old, region):
    """The address of each instruction, and the address of its slot."""
    lines = run(program, "info", "64", "%x" % old, input=text, capture_output=True).stdout.decode().splitlines()
    starts = [int(line.split()[0], 16) for line in lines]
    place, slots = region, []
    for line, start, back in zip(lines, starts, starts[1:] + [old + len(text)]):
        found = re.search(r"-> 0x([0-9a-f]+)", line)
        slots.append(place)
        place += reserved(back - start, line.split()[1], int(found.group(1), 16) if found else None, back)
    return starts, slots


def try_out(program, folder, source, level, region, doubles, takes_two, arguments):
    elf = build(folder, source, level)
    old, text = section(folder, elf, ".text")
    image = run(program, "slots", "64", "%x" % old, "%x" % region, "%x" % SIZE, input=text, capture_output=True).stdout
    starts, slots = slots_of(program, text, old, region)
    functions = [(name, at) for name, at in sorted(symbols(elf).items())
                 if name not in doubles and name != "outside" and old <= at < old + len(text)]
    arrays = [array("old_text", text), array("image", image),
              "static const u64 starts[] = { %s };" % ",".join("%#xUL" % n for n in starts),
              "static const u64 slots[] = { %s };" % ",".join("%#xUL" % n for n in slots)]
    puts = ["put(%#x, old_text, sizeof old_text);" % old]
    for name in (".rodata", ".data"):
        found = section(folder, elf, name)
        if found:
            arrays.append(array("s" + name[1:], found[1]))
            puts.append("put(%#x, s%s, sizeof s%s);" % (found[0], name[1:], name[1:]))
    arrays.append("static const struct function functions[] = {\n%s\n};" % "\n".join(
        '    { "%s", %d, %#xUL },' % (name, 2 if name in takes_two else 1, at) for name, at in functions))
    runner = os.path.join(folder, "runner.c")
    with open(runner, "w") as file:
        file.write(RUNNER % {"arrays": "\n".join(arrays), "puts": "\n    ".join(puts), "outside": int("far" in source), "outside_at": OUTSIDE,
                             "old": old, "region": region, "arguments": arguments})
    binary = os.path.join(folder, "runner")
    run("gcc", "-O1", "-w", "-o", binary, runner)
    answer = subprocess.run([binary], capture_output=True, text=True)
    print("%s %s, slots at %#x: %d instructions, %s" % (os.path.basename(source), level, region, len(starts),
          (answer.stdout + answer.stderr).strip() or answer.returncode))
    return answer.returncode


def main():
    if len(sys.argv) != 2 or sys.argv[1] in ("-h", "--help"):
        sys.exit(__doc__)
    program = os.path.abspath(sys.argv[1])
    failed = 0
    with tempfile.TemporaryDirectory() as folder:
        near = os.path.join(MOVING, "functions.c")
        far = os.path.join(MOVING, "far_functions.c")
        for level in ("-O0", "-O1", "-O2", "-Os", "-O3"):
            failed |= try_out(program, folder, near, level, 0x30000000, {"poly", "root"}, {"add", "gcd", "power", "ackermann"}, 5)
            failed |= try_out(program, folder, far, level, 0x7FF0_0000_0000, set(), {"add", "gcd"}, 24)
    return failed


if __name__ == "__main__":
    sys.exit(main())
