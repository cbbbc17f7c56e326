#!/usr/bin/env python3
"""Compares the counts of bench/counts.sh with those that bench/counted.txt keeps.

  bench/compare_counts.py [--program P] [--library FOLDER] [--folder FOLDER] [--write] FILE

FILE is the code that the kept counts were made from, named in bench/counted.txt by its SHA-256. A line that takes over two percent more machine
instructions than it did is an error, and is named. One that takes over two percent fewer is named too: write the new counts then, with --write, so
that they cannot grow again without a word.

The status is 0 if no line grew, 1 if one did, and 77 if the file is other code, so that there is nothing to compare.
"""
import argparse
import hashlib
import os
import shutil
import subprocess
import sys
import tempfile

HERE = os.path.dirname(os.path.abspath(__file__))
KEPT = f"{HERE}/counted.txt"
ALLOWED = 0.02
BYTES = 100_000


def kept():
    """What the file keeps: the words of its head, and the counts by the name of their line."""
    head, counts = {}, {}
    with open(KEPT, encoding="utf-8") as lines:
        for line in lines:
            words = line.rsplit(maxsplit=1)
            if line.startswith("# "):
                head[words[0][2:].strip()] = words[1]
            elif words:
                counts[words[0].strip()] = int(words[1])
    return head, counts


def counted(asked, folder):
    """The counts of this clone, by the name of their line."""
    if asked.program:
        shutil.copy(asked.program, f"{folder}/listing_program")
    if asked.library:
        shutil.copytree(asked.library, f"{folder}/capi", ignore=lambda _, names: [it for it in names if not it.startswith("libfeddurzai")])
    environment = {**os.environ, "BENCH_FOLDER": folder, "COUNTED": str(BYTES), "ASM_LINES": "2000"}
    run = subprocess.run([f"{HERE}/counts.sh", asked.file], env=environment, capture_output=True, text=True)
    if run.returncode:
        sys.exit(f"{run.stdout}{run.stderr}compare_counts.py: counts.sh failed")
    return {words[0].strip(): int(words[1]) for words in (line.rsplit(maxsplit=1) for line in run.stdout.splitlines()) if len(words) == 2}


def main():
    reader = argparse.ArgumentParser(description=__doc__, formatter_class=argparse.RawDescriptionHelpFormatter)
    reader.add_argument("file", metavar="FILE")
    reader.add_argument("--program", help="a built listing_program")
    reader.add_argument("--library", help="the folder of a built library for C")
    reader.add_argument("--folder", help="where builds are kept")
    reader.add_argument("--write", action="store_true", help="keep the counts of this clone")
    asked = reader.parse_args()
    with open(asked.file, "rb") as file:
        code = hashlib.sha256(file.read(BYTES)).hexdigest()
    head, before = kept()
    if not asked.write and code != head.get("code"):
        print(f"not compared: the kept counts are of other code, {head.get('code', 'none')[:16]}, and this is {code[:16]}")
        sys.exit(77)
    with tempfile.TemporaryDirectory() as work:
        folder = os.path.abspath(asked.folder) if asked.folder else work
        os.makedirs(folder, exist_ok=True)
        now = counted(asked, folder)
    if asked.write:
        commit = subprocess.run(["git", "-C", HERE, "rev-parse", "--short", "HEAD"], capture_output=True, text=True, check=True).stdout.strip()
        with open(KEPT, "w", encoding="utf-8") as file:
            file.write(f"# commit {commit}\n# bytes {BYTES}\n# code {code}\n")
            file.writelines(f"{name:<28} {count:>9}\n" for name, count in now.items())
        print(f"{len(now)} counts written")
        return
    if now.keys() != before.keys():
        sys.exit(f"compare_counts.py: other lines than kept: {', '.join(sorted(now.keys() ^ before.keys()))}")
    grew = 0
    for name, count in now.items():
        share = count / before[name] - 1
        if abs(share) > ALLOWED:
            print(f"{name}: {before[name]} before, {count} now: {share:+.1%}")
            grew += share > 0
    if grew:
        sys.exit(1)
    print(f"{len(now)} counts, none over two percent above that of {head['commit']}")


main()
