#!/usr/bin/env python3
"""Measures the time of a line of text in `asm`, in GNU as and in NASM: the same instructions, each in the style of its assembler.

    bench/assemblers.py FILE [BITS] [PROGRAM]

FILE is raw code. PROGRAM (by default the repository's built listing_program) lists its first 500,000 bytes. The first 20,000 lines of the listing (LINES=n
for another number) are passed to each assembler, and then half of them. The difference is the time of the second half, so the start of a program does not
count. Processor time is the least of five runs. Machine instructions are counted if valgrind is installed. For GNU as and NASM, targets are written as
distances, as tools/assemble_listing.py and tools/nasm_texts.py do. Lines that an assembler refuses are left out for it.

The script needs Debian's binutils and nasm. No proof depends on it.
"""
import importlib.util
import os
import re
import resource
import shutil
import subprocess
import sys
import tempfile

TOP = os.path.realpath(f"{os.path.dirname(os.path.realpath(__file__))}/..")
RUNS = 5


def tool(name):
    spec = importlib.util.spec_from_file_location(name, f"{TOP}/tools/{name}.py")
    made = importlib.util.module_from_spec(spec)
    spec.loader.exec_module(made)
    return made


def listing(program, bits, code, style):
    return subprocess.run([program, "list", bits, "0", style], input=code, stdout=subprocess.PIPE, check=True).stdout.decode("ascii").splitlines()


def of_ours(program, bits, intel, _, folder):
    """The texts as the listing writes them, on standard input."""
    return "\n".join(line[48:] for line in intel) + "\n", [program, "asm", bits, "0"], True


def of_gnu(program, bits, _, att, folder):
    """AT&T texts after the directives that GNU as needs."""
    made = tool("assemble_listing")
    items = [made.item_of(bits, line) for line in att]
    lines = [f".code{bits}", ".text", *(item.source for item in items if item)]
    return "\n".join(lines) + "\n", ["as", made.MACHINES[bits][1], "-o", f"{folder}/out.o", f"{folder}/texts.s"], False


def of_nasm(program, bits, intel, _, folder):
    """Intel texts after the lines that define the size words for NASM."""
    made = tool("nasm_texts")
    lines = [made.NAMES.rstrip(), f"bits {bits}", *(item.source for item in made.items_of(bits, "\n".join(intel)))]
    return "\n".join(lines) + "\n", ["nasm", "-f", "bin", "-w-all", "-o", f"{folder}/out.bin", f"{folder}/texts.s"], False


def without_refused(text, command, folder):
    """The text without the lines that the assembler refuses."""
    for _ in range(20):
        with open(f"{folder}/texts.s", "w", encoding="ascii") as file:
            file.write(text)
        ran = subprocess.run(command, stderr=subprocess.PIPE, text=True, check=False)
        refused = {int(number) for number in re.findall(r"texts\.s:(\d+): (?:Error|error): ", ran.stderr)}
        if not refused:
            return text
        text = "\n".join("" if number in refused else line for number, line in enumerate(text.split("\n"), 1))
    return text


def run(command, text, is_input, folder, before=()):
    """The processor time of a command in seconds, and what it wrote to standard error."""
    with open(f"{folder}/texts.s", "w", encoding="ascii") as file:
        file.write(text)
    with open(f"{folder}/texts.s", encoding="ascii") as given:
        started = resource.getrusage(resource.RUSAGE_CHILDREN)
        ran = subprocess.run([*before, *command], stdin=given if is_input else subprocess.DEVNULL, stdout=subprocess.DEVNULL, stderr=subprocess.PIPE, text=True, check=False)
        ended = resource.getrusage(resource.RUSAGE_CHILDREN)
    return ended.ru_utime - started.ru_utime + ended.ru_stime - started.ru_stime, ran.stderr


def count(command, text, is_input, folder):
    wrote = run(command, text, is_input, folder, ["valgrind", "--tool=cachegrind", "--cache-sim=no", "--cachegrind-out-file=/dev/null"])[1]
    return int(re.search(r"I *refs: *([\d,]+)", wrote)[1].replace(",", ""))


def main():
    if not 2 <= len(sys.argv) <= 4:
        sys.exit("usage: bench/assemblers.py FILE [BITS] [PROGRAM], with FILE raw code and BITS 16, 32 or 64")
    bits = sys.argv[2] if len(sys.argv) > 2 else "64"
    program = os.path.realpath(sys.argv[3] if len(sys.argv) > 3 else f"{TOP}/crates/listing_program/out/listing_program")
    with open(sys.argv[1], "rb") as file:
        code = file.read(500_000)
    number = int(os.environ.get("LINES") or 20_000)
    intel, att = (listing(program, bits, code, style)[:number] for style in ("intel", "att"))
    for name, make in (("feddurzai asm", of_ours), ("GNU as", of_gnu), ("NASM", of_nasm)):
        with tempfile.TemporaryDirectory() as folder:
            text, command, is_input = make(program, bits, intel, att, folder)
            if not shutil.which(command[0]):
                print(f"{name}: not installed")
                continue
            text = text if is_input else without_refused(text, command, folder)
            lines = text.split("\n")
            half = "\n".join(lines[: len(lines) // 2]) + "\n"
            more = len(lines) - len(lines) // 2
            times = [min(run(command, it, is_input, folder)[0] for _ in range(RUNS)) for it in (text, half)]
            told = f"{name:<16} {(times[0] - times[1]) * 1e9 / more:9.0f} ns per line"
            if shutil.which("valgrind"):
                told += f" {(count(command, text, is_input, folder) - count(command, half, is_input, folder)) / more:9.0f} machine instructions per line"
            print(told, flush=True)


if __name__ == "__main__":
    main()
