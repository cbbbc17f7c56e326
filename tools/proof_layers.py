#!/usr/bin/env python3
"""Lists the places where a crate's proofs cite a lemma of another crate of this repository.

Usage: tools/proof_layers.py [CRATE ..]     for the named crates; by default those whose proofs may use only public contracts
       tools/proof_layers.py --others       for all other crates
       tools/proof_layers.py --count        prints a line for each crate that cites some, and the sum

A line is `FILE:LINE: CRATE.MODULE {LEMMAS}`. Citations of `Rattle.CRATE.proofs` in an .antt file and of `CRATE::proofs` in an
attribute of an .rt file count. Citations of definitions in specs/ and of the kit's libraries do not. The exit status is 1 if a
crate that may use only contracts cites a lemma.
"""
import re
import sys
from pathlib import Path

ROOT = Path(__file__).resolve().parent.parent

# their proofs use only definitions and the public contracts of the crates below
BY_CONTRACTS = [
    "branch_sizes", "move_goals", "block_encoder", "code_assembler", "assembly_text", "code_items", "code_region", "step_slots", "flow_graph", "detour", "byte_ports",
    "sweep", "moving_run", "listing_run", "listing_program",
]

IN_PROOF = re.compile(r"\bRattle\.([a-z_0-9]+)\.proofs\.([A-Za-z_0-9.]+?)(?:\.\{([^}]*)\}| as \S+)?\s*$")
IN_CODE = re.compile(r"(?<![:\w])([a-z_0-9]+)::proofs::([A-Za-z_0-9:]+)")


def crates():
    """The names in crates.txt."""
    lines = (ROOT / "crates.txt").read_text().splitlines()
    return [re.split(r"[ :]", line, maxsplit=1)[0] for line in lines if line and not line.startswith("#")]


def citations(name, names):
    """The lemmas of other crates that a crate cites: file, line, crate and lemmas."""
    for path in sorted((ROOT / "crates" / name).rglob("*")):
        if path.suffix not in (".antt", ".rt") or "out" in path.relative_to(ROOT / "crates" / name).parts:
            continue
        for number, line in enumerate(path.read_text().splitlines(), 1):
            if path.suffix == ".antt":
                if not line.startswith("use ") and not line.startswith("pub use "):
                    continue
                found = [(m[1], m[2], m[3]) for m in IN_PROOF.finditer(line)]
            else:
                found = [(m[1], m[2].replace("::", "."), None) for m in IN_CODE.finditer(line)]
            for crate, module, lemmas in found:
                if crate != name and crate in names:
                    yield path.relative_to(ROOT), number, f"{crate}.{module}", lemmas


def main(words):
    """Prints the requested lines and returns the exit status."""
    if "--help" in words or "-h" in words:
        print(__doc__.strip())
        return 0
    names = crates()
    count_only = "--count" in words
    others = "--others" in words
    chosen = [word for word in words if not word.startswith("--")]
    unknown = [word for word in chosen if word not in names]
    if unknown:
        print(f"proof_layers.py: crates.txt has no crate {' '.join(unknown)}", file=sys.stderr)
        return 2
    if not chosen:
        chosen = [name for name in names if (name in BY_CONTRACTS) != others]
    total = 0
    wrong = False
    for name in chosen:
        found = list(citations(name, set(names)))
        total += len(found)
        wrong = wrong or (bool(found) and name in BY_CONTRACTS)
        if count_only and found:
            print(f"{name}: {len(found)}")
        if not count_only:
            for path, number, module, lemmas in found:
                print(f"{path}:{number}: {module}" + (f" {{{lemmas}}}" if lemmas else ""))
    print(f"{total} citations of lemmas of other crates")
    return 1 if wrong else 0


if __name__ == "__main__":
    sys.exit(main(sys.argv[1:]))
