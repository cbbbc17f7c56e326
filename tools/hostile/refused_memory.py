#!/usr/bin/env python3
"""Runs the commands that allocate memory while some requests fail, and checks that each run is right or reports that it is out of memory.

    tools/hostile/refused_memory.py PROGRAM [STEP]

PROGRAM is the built listing_program. The first part runs `move` and `map` of two far jumps, whose block ends with two slots of eight bytes. In each run one
request for memory fails: the first, the second, and so on to the last (by a library that `cc` builds and that is loaded before the C library). The second part
moves two thousand growing branches and calls out of reach, under limits on the address space. The limit falls by STEP bytes (4096 by default) from what the
command needs to what the program needs to start, so that another request fails each time. A run passes if it ends with status 0 and the whole output, or with
status 5, its line, and no output. Runs in which the system could not start the program are counted separately. No proof depends on this script.
"""
import os
import resource
import subprocess
import sys
import tempfile

# two jumps through slots, as in the tests of `move` and `map`
SLOTS = bytes.fromhex("e905000000e900000000")
SLOT_COMMANDS = [["move", "64", "1000", "7fff00000000"], ["map", "64", "1000", "7fff00000000"]]

# fails the request with the number REFUSED, counted from 1, and reports it by a byte on the descriptor REFUSED_FD
REFUSING = r"""
#include <stddef.h>
#include <stdlib.h>
#include <unistd.h>
extern void *__libc_malloc(size_t), *__libc_calloc(size_t, size_t), *__libc_realloc(void *, size_t), *__libc_memalign(size_t, size_t);
static long asked, wanted = -1;
static int refused(void) {
    if (wanted < 0) { const char *n = getenv("REFUSED"); wanted = n ? atol(n) : 0; }
    if (++asked != wanted) return 0;
    const char *fd = getenv("REFUSED_FD");
    return fd ? (int)write(atoi(fd), "r", 1) : 1;
}
void *malloc(size_t n) { return refused() ? NULL : __libc_malloc(n); }
void *calloc(size_t n, size_t m) { return refused() ? NULL : __libc_calloc(n, m); }
void *realloc(void *p, size_t n) { return refused() ? NULL : __libc_realloc(p, n); }
void *aligned_alloc(size_t a, size_t n) { return refused() ? NULL : __libc_memalign(a, n); }
int posix_memalign(void **p, size_t a, size_t n) { return (refused() || !(*p = __libc_memalign(a, n))) ? 12 : 0; }
"""

CODE = b"".join(bytes([0xEB, k % 128]) + bytes([0xE8, k % 256, 0, 0, 0]) + b"\x75\x80" for k in range(700)) + b"\x90" * 200
COMMANDS = [["move", "64", "1000", "7fff00000000"], ["map", "64", "1000", "7fff00000000"], ["move", "64", "1000", "100000"],
            ["blocks", "64", "1000", "7fff00000000", "1f8", "9000", "100000"], ["flow", "64", "1000"], ["slots", "64", "1000", "100000", "100000"]]


def limited(limit):
    def set_limit():
        resource.setrlimit(resource.RLIMIT_AS, (limit, limit))
    return set_limit


def run(program, words, limit=None):
    done = subprocess.run([program, *words], input=CODE, capture_output=True, preexec_fn=limited(limit) if limit else None)
    return done.returncode, done.stdout, done.stderr


def least_start(program):
    """The least limit under which the program prints its version."""
    low, high = 1 << 12, 1 << 30
    while low + 4096 < high:
        middle = (low + high) // 2
        low, high = (low, middle) if run(program, ["--version"], middle)[0] == 0 else (middle, high)
    return high


def run_refused(program, words, library, number):
    """One run in which the request with this number fails: whether there was one, and the result of the run."""
    said, saying = os.pipe()
    env = dict(os.environ, LD_PRELOAD=library, REFUSED=str(number), REFUSED_FD=str(saying))
    done = subprocess.run([program, *words], input=SLOTS, capture_output=True, env=env, pass_fds=[saying])
    os.close(saying)
    with os.fdopen(said, "rb") as told:
        return bool(told.read()), (done.returncode, done.stdout, done.stderr)


def refuse_each(program, words, library):
    """The number of failed runs among those in which each request in turn fails."""
    plain = subprocess.run([program, *words], input=SLOTS, capture_output=True)
    wanted = (plain.returncode, plain.stdout, plain.stderr)
    counts = {"right": 0, "out of memory": 0}
    failed, number = 0, 1
    while True:
        was_refused, got = run_refused(program, words, library, number)
        if not was_refused:
            break
        if got == wanted:
            counts["right"] += 1
        elif got == (5, b"", b"out of memory\n"):
            counts["out of memory"] += 1
        else:
            failed += 1
            print("FAILED", " ".join(words), "without request", number, "status", got[0], got[2])
        number += 1
    if got != wanted or number == 1:
        failed += 1
        print("FAILED", " ".join(words), "requests no memory, or differs when no request fails: status", got[0], got[2])
    print(" ".join(words), "with slots, one request fails:", ", ".join("%d %s" % (n, what) for what, n in counts.items()))
    return failed


def refuse_requests(program):
    """The runs with one failing request, over a library that is built for them."""
    with tempfile.TemporaryDirectory() as folder:
        source, library = os.path.join(folder, "refusing.c"), os.path.join(folder, "refusing.so")
        with open(source, "w") as file:
            file.write(REFUSING)
        subprocess.run([os.environ.get("CC", "cc"), "-O1", "-shared", "-fPIC", "-fno-builtin", "-o", library, source], check=True)
        return sum(refuse_each(program, words, library) for words in SLOT_COMMANDS)


def main():
    if len(sys.argv) < 2 or sys.argv[1] in ("-h", "--help"):
        sys.exit(__doc__)
    program = os.path.abspath(sys.argv[1])
    step = int(sys.argv[2]) if len(sys.argv) > 2 else 4096
    start = least_start(program)
    failed = refuse_requests(program)
    for words in COMMANDS:
        wanted = run(program, words)
        if wanted[0] == 1:
            continue
        counts = {"right": 0, "out of memory": 0, "not started": 0}
        limit, right_in_a_row = start, 0
        while right_in_a_row < 64:
            got = run(program, words, limit)
            if got == wanted:
                counts["right"] += 1
                right_in_a_row += 1
            else:
                right_in_a_row = 0
                if got == (5, b"", b"out of memory\n"):
                    counts["out of memory"] += 1
                elif got[0] in (127, -11, -6) and not got[1]:
                    counts["not started"] += 1
                else:
                    failed += 1
                    print("FAILED", " ".join(words), "under", limit, "bytes: status", got[0], got[2])
            limit += step
        print(" ".join(words), ", ".join("%d %s" % (n, what) for what, n in counts.items()))
    print("%d failed" % failed)
    sys.exit(failed != 0)


main()
