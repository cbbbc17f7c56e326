#!/usr/bin/env python3
"""Runs every command of the program on random words and input, and checks that each run ends by itself with a status and its line.

    tools/hostile/random_runs.py PROGRAM [RUNS [SEED]]

PROGRAM is the built listing_program. RUNS is the number of runs of each command, 20000 by default. Words are right, almost right or random. Input is
random bytes, or code of PROGRAM itself with flipped bits. In some runs the input is closed, or nobody reads the output. A run passes if it exits within
ten seconds and not by a signal, with a status of the table below, and with exactly the line of that status on standard error. Commands that read their
whole input first must leave standard output empty at every status except success and `write fault`. No proof depends on this script.
"""
import os
import random
import re
import subprocess
import sys
from concurrent.futures import ThreadPoolExecutor

LINES = {
    0: r"",
    1: r"usage: word \d+\n",
    2: r"bad code at \d+: (invalid|too short)\n",
    3: r"read fault\n",
    4: r"write fault\n",
    5: r"out of memory\n",
    6: r"input over (1048576|16777216) bytes\n",
    7: r"end 0x[0-9a-f]+ passes the address space\n",
    8: r"instruction \d+ cannot reach 0x[0-9a-f]+\n",
    9: r"region full: need \d+, largest \d+\n",
    10: r"\d+ instructions are too many\n",
    11: r"bad text in line \d+\n",
}
STREAMS = {"list", "info", "recode"}


def mode(r):
    return r.choice(["16", "32", "64"])


def address(r, bits):
    width = int(bits) if bits in ("16", "32", "64") else 64
    near = r.choice([0, 1, 0x1000, (1 << width) - 1, (1 << width) - 16, 1 << (width - 1), 1 << width, r.randrange(1 << width)])
    return "%x" % near


def command_words(r, name):
    """Right words for a command."""
    bits = mode(r)
    if name == "list":
        return [name, bits, address(r, bits), r.choice(["intel", "att", "masm"])]
    if name in ("info", "flow"):
        return [name, bits, address(r, bits)]
    if name == "recode":
        to = mode(r)
        return [name, bits, address(r, bits), to, address(r, to)]
    if name in ("move", "map"):
        return [name, bits, address(r, bits), address(r, bits)]
    if name == "blocks":
        words = [name, bits]
        for _ in range(r.randrange(4)):
            words += [address(r, bits), address(r, bits), "%x" % r.choice([0, 1, 2, 5, 16, 1 << 40])]
        return words + [address(r, bits), address(r, bits)]
    if name == "slots":
        return [name, bits, address(r, bits), address(r, bits), "%x" % r.choice([0, 8, 16, 32, 256, 4096, 1 << 20, 1 << 21])]
    if name == "sample":
        return [name, "%x" % r.choice([0, 1, 2, 16, 256, 0x10001])]
    return [name]


def spoiled(r, words):
    """Words that are almost right."""
    words = list(words)
    for _ in range(r.choice([0, 0, 0, 1, 1, 2])):
        at = r.randrange(len(words) + 1)
        what = r.randrange(5)
        junk = r.choice(["", "0", "64", "intel", "10000000000000000", "zz", "-1", "0x10", "é", "list", "a" * 400])
        if what == 0:
            words.insert(at, junk)
        elif what == 1 and at < len(words):
            del words[at]
        elif what == 2 and at < len(words):
            words[at] = junk
        elif what == 3 and at < len(words):
            words[at] = words[at].upper()
        else:
            words.append(junk)
    return words


def some_input(r, code):
    kind = r.randrange(4)
    if kind == 0:
        return b""
    if kind == 1:
        return r.randbytes(r.randrange(1, 200))
    at = r.randrange(max(1, len(code) - 400))
    taken = bytearray(code[at:at + r.randrange(1, 400)])
    if kind == 2:
        for _ in range(r.randrange(1, 4)):
            taken[r.randrange(len(taken))] ^= 1 << r.randrange(8)
    return bytes(taken)


def one(job):
    program, words, given, ports = job
    stdin, stdout = subprocess.PIPE, subprocess.PIPE
    closed = []
    if ports == 1:
        stdin = os.open("/", os.O_RDONLY)  # a folder: each read of it fails
        closed.append(stdin)
    if ports == 2:
        stdout = os.open("/dev/full", os.O_WRONLY)
        closed.append(stdout)
    try:
        run = subprocess.Popen([program, *words], stdin=stdin, stdout=stdout, stderr=subprocess.PIPE)
        out, err = run.communicate(given if ports != 1 else None, timeout=10)
    except subprocess.TimeoutExpired:
        run.kill()
        return None, "no end within ten seconds"
    finally:
        for handle in closed:
            os.close(handle)
    status = run.returncode
    if status not in LINES:
        return status, "ended by %d" % status
    if not re.fullmatch(LINES[status], err.decode("utf-8", "replace")):
        return status, "status %d with the line %r" % (status, err)
    if out and status not in (0, 4) and words and words[0] not in STREAMS:
        return status, "status %d and %d bytes written" % (status, len(out))
    return status, None


def main():
    if len(sys.argv) < 2 or sys.argv[1] in ("-h", "--help"):
        sys.exit(__doc__)
    program = os.path.abspath(sys.argv[1])
    runs = int(sys.argv[2]) if len(sys.argv) > 2 else 20000
    r = random.Random(int(sys.argv[3]) if len(sys.argv) > 3 else 1)
    code = open(program, "rb").read()
    helped = subprocess.run([program, "--help"], capture_output=True).stdout.decode()
    names = sorted(set(re.findall(r"listing_program (\S+)", helped)))
    failed = 0
    with ThreadPoolExecutor(os.cpu_count()) as pool:
        for name in names:
            jobs = []
            for _ in range(runs):
                words = spoiled(r, command_words(r, name))
                jobs.append((program, words, some_input(r, code), r.choice([0] * 18 + [1, 2])))
            seen = {}
            for job, (status, fault) in zip(jobs, pool.map(one, jobs)):
                seen[status] = seen.get(status, 0) + 1
                if fault:
                    failed += 1
                    print("FAILED", " ".join(job[1]), job[2][:40].hex(), fault)
            print(name, " ".join("%s:%d" % pair for pair in sorted(seen.items(), key=str)))
    print("%d failed" % failed)
    sys.exit(failed != 0)


main()
