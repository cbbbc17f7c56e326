#!/usr/bin/env python3
"""Compares the manual page and the completion with the program.

    check_manual.py PROGRAM

PROGRAM is the program, under any name. The script checks that these agree:

  - the commands and their words: in the page's synopsis, as the titles in its section COMMANDS, and in PROGRAM --help
  - the statuses and the line of each on standard error: in the page's section EXIT STATUS, and in docs/program.md
  - the lines that the page's examples show, and what PROGRAM writes there
  - the words that the completion offers, and those that PROGRAM --help has
  - the page and man, which formats it without a warning; skipped, with a note, if man is not installed

The status is 0 if all agree, and 1 otherwise, with a line for each difference.
"""

import os
import re
import shutil
import subprocess
import sys
import tempfile

HERE = os.path.dirname(os.path.abspath(__file__))
MANUAL = os.path.join(HERE, "feddurzai.1")
COMPLETION = os.path.join(HERE, "feddurzai.bash")
STATUSES = os.path.join(HERE, "..", "docs", "program.md")
MODES, STYLES = ["16", "32", "64"], ["intel", "att", "masm"]


class Differences:
    """What was compared, and what differs."""

    def __init__(self):
        self.count = 0

    def are(self, what, found, wanted, of_found, of_wanted):
        """That two values are the same."""
        if found == wanted:
            return
        self.say(f"{what} differ:\n  {of_found}: {found}\n  {of_wanted}: {wanted}")

    def say(self, words):
        self.count += 1
        print(f"check_manual.py: {words}", file=sys.stderr)


def plain(line):
    """A line of the page as it is shown."""
    line = re.sub(r"\\f[BIPR]", "", line).replace("\\-", "-").replace("\\&", "")
    return line.replace("\\(aq", "'").replace("\\e", "\\")


def sections(lines):
    """The lines of each section of the page."""
    found, name = {}, None
    for line in lines:
        if line.startswith(".SH "):
            name = line[4:]
            found[name] = []
        elif name is not None:
            found[name].append(line)
    return found


def usage_of(help_text):
    """The commands of --help with their words, and the name of the program there."""
    lines = help_text.split("\n\n")[0].splitlines()
    words = [re.sub(r"^usage:", "", line).split() for line in lines]
    return [" ".join(it[1:]) for it in words], sorted({it[0] for it in words})


def statuses_of_page(lines):
    """The line of each status: `.TP`, `.B 3`, `.I read fault`; None of a status without a line."""
    found = {}
    for at, line in enumerate(lines):
        number = re.fullmatch(r"\.B (\d+)", line)
        if number and at and lines[at - 1] == ".TP":
            words = re.fullmatch(r"\.I (.*)", lines[at + 1])
            found[int(number[1])] = plain(words[1]) if words else None
    return found


def statuses_of_docs(text):
    """The same of the table of docs/program.md, whose rows are `| 3 | cause | line |`; of a row with two statuses the first."""
    found = {}
    text = re.search(r"^## Statuses\n(.*?)(?=^## |\Z)", text, re.M | re.S)[1]
    for row in re.finditer(r"^\| (\d+)(?:, \d+)? \|.*\| (?:`([^`]*)`|none) \|$", text, re.M):
        found.setdefault(int(row[1]), row[2])
    return found


def run(words, **how):
    return subprocess.run(words, stdin=subprocess.DEVNULL, stdout=subprocess.PIPE, stderr=subprocess.STDOUT, text=True, **how)


def check_examples(lines, program, differences):
    """Runs what stands behind `$ ` in the examples; how many there are."""
    count = 0
    with tempfile.TemporaryDirectory() as folder:
        os.symlink(os.path.abspath(program), os.path.join(folder, "feddurzai"))
        path = folder + os.pathsep + os.environ.get("PATH", "")
        wanted, command = [], None
        for line in [*lines, ".EE"]:
            if command is not None and (line.startswith("$ ") or line == ".EE"):
                said = run(["bash", "-c", plain(command[2:])], env={**os.environ, "PATH": path}).stdout.splitlines()
                differences.are(f"the lines of `{plain(command[2:])}`", wanted, said, "feddurzai.1", "the program")
                command, count = None, count + 1
            if line.startswith("$ "):
                wanted, command = [], line
            elif command is not None:
                wanted.append(plain(line))
    return count


def offered(*words):
    """What the completion offers behind some words of a command line."""
    script = 'file=$1; shift; source "$file"; COMP_WORDS=("$@"); COMP_CWORD=$(($# - 1)); _feddurzai; printf "%s\\n" "${COMPREPLY[@]}"'
    said = run(["bash", "-c", script, "bash", COMPLETION, "feddurzai", *words])
    return said.stdout.split()


def check_completion(usage, differences):
    """That each word that --help names by BITS or SYNTAX is offered, and no other; how many places were tried."""
    names = [line.split()[0] for line in usage]
    differences.are("the commands", offered(""), names, "feddurzai.bash", "--help")
    count = 1
    for line in usage:
        command, *words = line.split()
        for at, word in enumerate(words):
            before = [command, *["1"] * at]
            wanted = MODES if re.fullmatch(r"BITS\d*", word) else STYLES if word == "SYNTAX" else []
            differences.are(f"the words behind `{' '.join(before)}`", offered(*before, ""), wanted, "feddurzai.bash", "--help")
            count += 1
    differences.are("the words at `l`", offered("l"), ["list"], "feddurzai.bash", "--help")
    return count + 1


def check_man(differences):
    """That man has no warning; whether it is there."""
    if not shutil.which("man"):
        return False
    how = {**os.environ, "LC_ALL": "C.UTF-8", "MANROFFSEQ": "", "MANWIDTH": "80"}
    words = ["man", "--warnings", "-E", "UTF-8", "-l", "-Tutf8", "-Z", MANUAL]
    said = subprocess.run(words, env=how, stdout=subprocess.DEVNULL, stderr=subprocess.PIPE, text=True)
    if said.returncode or said.stderr:
        differences.say(f"man warns, with status {said.returncode}:\n{said.stderr}")
    return True


def main(program):
    differences = Differences()
    with open(MANUAL, encoding="utf-8") as page, open(STATUSES, encoding="utf-8") as docs:
        parts, table = sections(page.read().splitlines()), statuses_of_docs(docs.read())
    said = run([os.path.abspath(program), "--help"])
    if said.returncode:
        sys.exit(f"check_manual.py: {program} --help ends with status {said.returncode}: is it the program?")
    usage, names = usage_of(said.stdout)
    differences.are("the name of the program", ["feddurzai"], names, "feddurzai.1", "--help")
    synopsis = [plain(line).split() for line in parts["SYNOPSIS"] if line.startswith(".B ")]
    synopsis = [" ".join(it[2:]) for it in synopsis]
    differences.are("the commands", synopsis, usage, "SYNOPSIS of feddurzai.1", "--help")
    titles = [plain(line[4:]) for line in parts["COMMANDS"] if line.startswith(".SS ")]
    differences.are("the commands", titles, usage, "COMMANDS of feddurzai.1", "--help")
    statuses = statuses_of_page(parts["EXIT STATUS"])
    differences.are("the statuses", statuses, dict(sorted(table.items())), "feddurzai.1", "docs/program.md")
    examples = check_examples(parts["EXAMPLES"], program, differences)
    places = check_completion(usage, differences)
    by_man = "man has no warning" if check_man(differences) else "there is no man here, which would show the page"
    if not examples or not statuses:
        differences.say("the page has no example or no status that is read")
    if differences.count:
        return 1
    print(f"feddurzai.1: {len(usage)} commands, {len(statuses)} statuses, {examples} examples as the program has them; {by_man}")
    print(f"feddurzai.bash: the words of {places} places")
    return 0


if __name__ == "__main__":
    if sys.argv[1:] == ["--help"]:
        print(__doc__.strip())
        sys.exit(0)
    if len(sys.argv) != 2:
        sys.exit(__doc__.strip())
    sys.exit(main(sys.argv[1]))
