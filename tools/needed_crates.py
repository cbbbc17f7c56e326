#!/usr/bin/env python3
"""Lists the crates that a user of the library needs, by crates.txt.

Usage: tools/needed_crates.py [CRATE]     the crates of this repository that CRATE (by default feddurzai) needs, each after those that it needs
       tools/needed_crates.py --kit       the crates of the kit that they use
       tools/needed_crates.py --lines     their lines of crates.txt
       tools/needed_crates.py --check     compares the list with the one in docs/using-the-library.md; exit status 1 if they differ
"""
import re
import sys
from pathlib import Path

ROOT = Path(__file__).resolve().parent.parent
PAGE = ROOT / "docs" / "using-the-library.md"
LIBRARY = "feddurzai"

# the block of the page with the list
LISTED = re.compile(r"<!-- tools/needed_crates\.py -->\s*```\n(.*?)```", re.DOTALL)


def lines():
    """The lines of crates.txt by the names of their crates."""
    found = [line for line in (ROOT / "crates.txt").read_text().splitlines() if line and not line.startswith("#")]
    return {re.split(r"[ :]", line, maxsplit=1)[0]: line for line in found}


def uses(line):
    """The libraries that a line names."""
    return line.split(":", 1)[1].split()


def needed(name, by_name):
    """The crates that a crate needs, each after those that it needs, then the crate itself; and the kit's crates that they use."""
    order, kit = [], set()

    def visit(crate):
        if crate not in by_name:
            kit.add(crate)
        elif crate not in order:
            for used in uses(by_name[crate]):
                visit(used)
            order.append(crate)

    visit(name)
    return order, sorted(kit)


def listed():
    """The crates that the page lists."""
    found = LISTED.search(PAGE.read_text())
    return found[1].split() if found else []


def main(words):
    """Prints the requested list and returns the exit status."""
    if "--help" in words or "-h" in words:
        print(__doc__.strip())
        return 0
    by_name = lines()
    chosen = [word for word in words if not word.startswith("--")]
    name = chosen[0] if chosen else LIBRARY
    if name not in by_name or len(chosen) > 1 or set(words) - set(chosen) - {"--kit", "--lines", "--check"}:
        print(__doc__.strip(), file=sys.stderr)
        return 2
    order, kit = needed(name, by_name)
    if "--check" in words:
        missing = [crate for crate in order if crate not in listed()]
        more = [crate for crate in listed() if crate not in order]
        for crate in missing:
            print(f"{PAGE.relative_to(ROOT)} does not list {crate}")
        for crate in more:
            print(f"{PAGE.relative_to(ROOT)} lists {crate}, which {name} does not need")
        return 1 if missing or more else 0
    if "--kit" in words:
        print(" ".join(kit))
    elif "--lines" in words:
        print("\n".join(by_name[crate] for crate in order))
    else:
        print("\n".join(order))
    return 0


if __name__ == "__main__":
    sys.exit(main(sys.argv[1:]))
