#!/usr/bin/env python3
"""Tests list, info and recode with long and slow inputs.

usage: tools/hostile/streams.py PROGRAM

The script sends inputs of about the limit of 16,777,216 bytes and counts the output. It sends code piece by piece through a pipe, and checks that the lines of
all instructions from whose start 15 bytes were sent arrive before the next piece. It prints the peak of resident memory for a short and a long input. The exit
status is 1 if a check fails.
"""

import os
import select
import subprocess
import sys
import tempfile
import time

LIMIT = 16_777_216
NOP = "%016x 90                             nop\n"


def counted(program, words, data):
    """The exit status and the number of bytes written."""
    with tempfile.TemporaryFile() as code:
        code.write(data)
        code.seek(0)
        run = subprocess.Popen([program, *words], stdin=code, stdout=subprocess.PIPE, stderr=subprocess.DEVNULL)
        total = 0
        while piece := run.stdout.read(1 << 20):
            total += len(piece)
        return run.wait(), total


def peak(program, words, data):
    """The peak of resident memory in KiB, read after all input was sent and before it is closed."""
    run = subprocess.Popen([program, *words], stdin=subprocess.PIPE, stdout=subprocess.DEVNULL)
    run.stdin.write(data)
    run.stdin.flush()
    time.sleep(0.2)
    with open(f"/proc/{run.pid}/status") as status:
        most = next(int(line.split()[1]) for line in status if line.startswith("VmHWM"))
    run.stdin.close()
    run.wait()
    return most


def piece_by_piece(program, words, pieces):
    """Sends each piece and returns what can be read before the next one is sent."""
    run = subprocess.Popen([program, *words], stdin=subprocess.PIPE, stdout=subprocess.PIPE, bufsize=0)
    got = []
    for piece in pieces:
        run.stdin.write(piece)
        text = b""
        while select.select([run.stdout], [], [], 0.3)[0]:
            part = os.read(run.stdout.fileno(), 1 << 16)
            if not part:
                break
            text += part
        got.append(text.decode())
    run.stdin.close()
    got.append(run.stdout.read().decode())
    return run.wait(), got


def main():
    if len(sys.argv) != 2 or sys.argv[1] in ("-h", "--help"):
        sys.exit(__doc__)
    program = os.path.abspath(sys.argv[1])
    failed = 0

    def check(what, got, wanted):
        nonlocal failed
        print("ok  " if got == wanted else "BAD ", what, got)
        failed += got != wanted

    listing = ["list", "64", "0", "intel"]
    line = len(NOP % 0)
    ready = LIMIT - 14
    check("a byte past the limit", counted(program, listing, b"\x90" * (LIMIT + 1)), (6, ready * line))
    check("as many bytes as the limit", counted(program, listing, b"\x90" * LIMIT), (0, LIMIT * line))
    check("bad code far below the limit", counted(program, ["info", "64", "0"], b"\x90\x06" + b"\x90" * LIMIT)[0], 2)
    check("prefixes without an instruction", counted(program, listing, b"\x66" * 65536), (0, 3_670_016))

    status, got = piece_by_piece(program, listing, [b"\x90" * 64, b"\x90" * 64, b"\x90"])
    lines = [NOP % k for k in range(129)]
    wanted = ["".join(lines[:50]), "".join(lines[50:114]), lines[114], "".join(lines[115:])]
    check("lines before the next piece", (status, [len(text) for text in got]), (0, [len(text) for text in wanted]))
    check("and they are the right ones", got == wanted, True)

    short, long = peak(program, listing, b"\x48\x89\xe5\x90" * 4096), peak(program, listing, b"\x48\x89\xe5\x90" * 4_194_304)
    print("peak of resident memory in KiB: 16 KiB", short, "- 16 MiB", long)
    print(failed, "failed")
    sys.exit(failed != 0)


main()
