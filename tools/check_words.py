#!/usr/bin/env python3
"""Refuses unclear words, dead links and file names that do not exist, in documents and docstrings.

Usage, from anywhere in a clone:
  tools/check_words.py                  checks everything below; the status is 1 if it finds something
  tools/check_words.py FILE ..          checks these files only
  tools/check_words.py --list           prints the refused words with what to write instead
  tools/check_words.py --update-lines   writes the current line counts into the tables of docs/proofs.md, and checks nothing

It reads README.md, the pages of docs/, capi/, bench/ and packaging/ (*.md), the comments of the headers in capi/, the docstrings (/// and //!) of all crates, and
the lemmas in their proofs. A finding is a line `FILE:LINE: what was found: what to write instead`.

Checked are:
  - words and phrases that a reader stumbles over. Code is not searched for them: code blocks and text in backticks are skipped.
  - relative links of markdown: the file exists, and so does the heading that a # names.
  - paths of the repository, in links, in backticks and in code blocks. In backticks, a path that starts with a crate is looked up in crates/, and one that
    starts with specs/, src/, proofs/ or must-fail/ exists in some crate. Paths with a folder `out` and with placeholders (NAME, my_tool, *, ..) are skipped.
  - markers of the form {{WORD}} that nobody has replaced by a number.
  - line counts in docs/proofs.md that differ from the files; --update-lines corrects them.
  - public lemmas: a comment line above each says what it states. Answers to the goals of a function, which the kit names, need none.
"""
import re
import sys
from functools import lru_cache
from pathlib import Path

ROOT = Path(__file__).resolve().parent.parent
READING_LIST = "docs/proofs.md"
DOCUMENTS = ["README.md", "docs/**/*.md", "capi/*.md", "bench/*.md", "packaging/*.md"]
HEADERS = ["capi/feddurzai.h", "capi/hook/feddurzai_hook.h"]
DOCSTRINGS = ["crates/*/src/**/*.rt"]
LEMMAS = ["crates/*/proofs/**/*.antt"]
# files of answers, and of names alone
NO_LEMMAS = ("Answers.antt", "Invariants.antt", "Proof.antt", "Lib.antt")

# what is refused, and what to write instead
WORDS = [
    (r"rooms? of (the|a) caller", "caller-provided buffer"),
    (r"\brooms (of|for|that|which|are|and)\b|\b(both|two|all) rooms\b", "buffers"),
    (r"\bwho(ever)? works on\b", "contributors"),
    (r"\b(is|are|was|were|be|being) told\b", "returned, reported, or distinguished"),
    (r"\b(is|are|was|were) said\b", "returned, or stated"),
    (r"\bby hand\b", "manually"),
    (r"\berrs? towards?\b", "if in doubt, it reports .."),
    (r"\bstands? (first|behind|before)\b", "is first, follows, or precedes"),
    (r"\b(stands?|rests?) on (it|this|that|them|these|those|nothing)\b|\bnothing rests on\b", "depends on"),
    (r"\bgo(es)? by (the|a|an|its|their|it|how)\b", "depends on"),
    (r"\b(is|are|was|were) gone (into|over|along|through)\b", "is followed, or is read"),
    (r"\bof which\s+(?=`)", "whose, or a sentence of its own"),
    (r"\bwant of memory\b|\bwants? memory\b", "out of memory"),
    (r"\basked of\b", "required of"),
    (r"\bmend(s|ed|ing)?\b", "repair"),
    (r"\bin (its|their) stead\b|\bin the stead of\b", "instead"),
    (r"\b(machine|notes?|tree) of the (last )?session\b|\bour own plan\b|\bnot built yet\b", "what is the case"),
]
# a docstring says itself what an item does
DOCSTRING_WORDS = [(r"^The same\b", "what the item does, in its own words")]

MARKER = re.compile(r"\{\{[A-Z][A-Z0-9_]*\}\}")
LINK = re.compile(r"\[[^\]\[]*\]\(([^)\s]+)\)")
SPAN = re.compile(r"(`+)(.+?)\1")
FENCE = re.compile(r"^\s*(```|~~~)")
LIST_ITEM = re.compile(r"^\s*([-*]|\d+\.)\s")
COUNT_ROW = re.compile(r"^\| \[`[^`]+`\]\(([^)]+)\) \| ([\d,]+) \|(.*)$")
SUM_ROW = re.compile(r"^\| together \| ([\d,]+) \|(.*)$")

TOP = ("crates", "docs", "tools", "capi", "bench", "packaging", ".ci")
IN_CRATE = ("specs", "src", "proofs", "must-fail")
PATH = re.compile(r"^[\w.+-]+(/[\w.+-]+)+/?$")
# a path in a sentence or a command: only one that names a file
NAMED = re.compile(r"(?<![\w./$<{*-])((?:crates|docs|tools|capi|bench|packaging)/[\w./+-]+\.(?:md|py|sh|h|c|rt|antt|txt|svg|cpp|edit))(?![\w*])")


def shown(path):
    """A path as a finding names it."""
    return path.relative_to(ROOT).as_posix() if path.is_relative_to(ROOT) else str(path)


@lru_cache(None)
def crates():
    """The names of the crates."""
    lines = (ROOT / "crates.txt").read_text(encoding="utf-8").splitlines()
    return {re.split(r"[ :]", line, maxsplit=1)[0] for line in lines if line.strip() and not line.startswith("#")}


@lru_cache(None)
def exists(path):
    """Whether a path from the top exists, with or without the ending of its language."""
    return any((ROOT / (path.rstrip("/") + ending)).exists() for ending in ("", ".antt", ".rt"))


@lru_cache(None)
def in_some_crate(path):
    """Whether a path exists in the folder of some crate, or below a folder of its definitions or proofs."""
    first, rest = path.split("/", 1)
    return any(exists(f"crates/{name}/{path}") or any(folder.is_dir() and exists(f"{shown(folder)}/{rest}")
                                                       for folder in (ROOT / "crates" / name / first).glob("*")) for name in crates())


def is_placeholder(path):
    """Whether a path is a pattern and no name."""
    parts = path.strip("/").split("/")
    return "out" in parts or ".." in path or "*" in path or any(re.fullmatch(r"[A-Z][A-Z_0-9]+|my_\w+", part) for part in parts)


def missing_path(text):
    """What is wrong with a path in backticks, if anything."""
    if not PATH.match(text) or is_placeholder(text):
        return None
    parts = text.strip("/").split("/")
    if parts[0] in TOP:
        return None if exists(text) else "no such file"
    if parts[0] in crates():
        return None if exists("crates/" + text) else "no such file in crates/"
    if parts[0] in IN_CRATE:
        return None if in_some_crate(text) else "no crate has such a file"
    if len(parts) > 1 and parts[1] in IN_CRATE and re.fullmatch(r"[a-z][a-z0-9_]+", parts[0]):
        return "no such crate"
    return None


@lru_cache(None)
def headings(path):
    """The anchors of a page's headings."""
    found, fenced = set(), False
    for line in path.read_text(encoding="utf-8").splitlines():
        if FENCE.match(line):
            fenced = not fenced
        elif not fenced and re.match(r"#{1,6} ", line):
            title = line.lstrip("#").strip()
            title = re.sub(r"\[([^\]]*)\]\([^)]*\)", r"\1", title).replace("`", "")
            slug = re.sub(r"[^\w\- ]", "", title.lower()).replace(" ", "-")
            number, anchor = 0, slug
            while anchor in found:
                number += 1
                anchor = f"{slug}-{number}"
            found.add(anchor)
    return found


def dead_link(page, target):
    """What is wrong with a link of a page, if anything."""
    if re.match(r"[a-z][a-z0-9+.-]*:", target):
        return None
    name, _, anchor = target.partition("#")
    file = (page.parent / name).resolve() if name else page
    if not file.exists():
        return "no such file"
    if anchor and file.suffix == ".md" and anchor not in headings(file):
        return "no such heading"
    return None


def words_in(text, refused):
    """The refused phrases of some words, each with what to write instead."""
    for pattern, instead in refused:
        for found in re.finditer(pattern, text, re.IGNORECASE):
            yield f"\"{found[0].strip()}\": write {instead}"


def without_code(line):
    """A line whose code spans are one backtick each, so that no phrase crosses one unseen."""
    return SPAN.sub("`", line)


def paragraphs(lines):
    """Runs of lines that one sentence may cross: the text, and the number of the line that each of its characters is in."""
    text, where = "", []
    for number, line in lines:
        if line is None:
            if text:
                yield text, where
            text, where = "", []
            continue
        text += line + " "
        where += [number] * (len(line) + 1)
    if text:
        yield text, where


def phrase_findings(lines, refused):
    """The refused phrases of numbered lines, also those that a line end cuts; None ends a paragraph."""
    for text, where in paragraphs(lines):
        for pattern, instead in refused:
            for found in re.finditer(pattern, text, re.IGNORECASE):
                phrase = " ".join(found[0].split())
                yield where[found.start()], f"\"{phrase}\": write {instead}"


def page_findings(page):
    """The findings of a page of markdown."""
    prose, fenced, before_blank, in_list = [], False, True, False
    for number, line in enumerate(page.read_text(encoding="utf-8").splitlines(), 1):
        for found in MARKER.finditer(line):
            yield number, f"{found[0]}: write the measured number"
        for found in NAMED.finditer(LINK.sub("", line)):
            if not is_placeholder(found[1]) and not exists(found[1]) and not (page.parent / found[1]).exists():
                yield number, f"{found[1]}: no such file"
        if FENCE.match(line):
            fenced = not fenced
            prose.append((number, None))
            continue
        if fenced:
            continue
        if not line.strip():
            before_blank = True
            prose.append((number, None))
            continue
        indented = line.startswith("    ") and before_blank and not in_list
        in_list = bool(LIST_ITEM.match(line)) or (in_list and (line.startswith(" ") or not before_blank))
        if indented:
            continue
        before_blank = False
        for found in LINK.finditer(line):
            wrong = dead_link(page, found[1])
            if wrong:
                yield number, f"({found[1]}): {wrong}"
        for found in SPAN.finditer(line):
            wrong = missing_path(found[2].strip())
            if wrong and not NAMED.search(found[2]):
                yield number, f"`{found[2]}`: {wrong}"
        if line.startswith("|") or LIST_ITEM.match(line) or line.startswith("#"):
            prose.append((number, None))
        prose.append((number, without_code(line)))
    yield from phrase_findings(prose, WORDS)


def comment_findings(lines, refused):
    """The findings of numbered lines of a comment."""
    for number, line in lines:
        if line is None:
            continue
        for found in NAMED.finditer(line):
            if not is_placeholder(found[1]) and not exists(found[1]):
                yield number, f"{found[1]}: no such file"
    yield from phrase_findings([(number, line and without_code(line)) for number, line in lines], refused)


def header_lines(path):
    """The text of a C header's comments."""
    inside = False
    for number, line in enumerate(path.read_text(encoding="utf-8").splitlines(), 1):
        text, rest = "", line
        while rest:
            if inside:
                body, end, rest = rest.partition("*/")
                text, inside = text + body, not end
            else:
                _, begin, rest = rest.partition("/*")
                inside = bool(begin)
        yield number, re.sub(r"^\s*\*+ ?", "", text).strip() or None


def docstring_findings(path):
    """The findings of the docstrings of a source file."""
    lines, fenced, first = [], False, True
    for number, line in enumerate(path.read_text(encoding="utf-8").splitlines(), 1):
        found = re.match(r"\s*//[/!] ?(.*)$", line)
        if not found:
            first = True
            lines.append((number, None))
            continue
        if FENCE.match(found[1]):
            fenced = not fenced
        if fenced or not found[1].strip():
            lines.append((number, None))
            continue
        if first:
            for words in words_in(found[1], DOCSTRING_WORDS):
                yield number, words
        first = False
        lines.append((number, found[1]))
    yield from comment_findings(lines, WORDS)


def counted(line):
    """The number of a cell."""
    return int(line.replace(",", ""))


def count_findings(page, write=False):
    """Line counts of the reading list that differ from the files; `write` corrects them in the page."""
    lines = page.read_text(encoding="utf-8").splitlines()
    total = 0
    for index, line in enumerate(lines):
        row, together = COUNT_ROW.match(line), SUM_ROW.match(line)
        if row:
            file = (page.parent / row[1]).resolve()
            if not file.is_file():
                continue
            count = len(file.read_text(encoding="utf-8").splitlines())
            total += count
            if counted(row[2]) != count:
                yield index + 1, f"{row[2]} lines of {shown(file)}: it has {count:,} (--update-lines corrects it)"
                lines[index] = line.replace(f"| {row[2]} |", f"| {count:,} |", 1)
        elif together:
            if counted(together[1]) != total:
                yield index + 1, f"{together[1]} lines together: they are {total:,} (--update-lines corrects it)"
                lines[index] = line.replace(f"| {together[1]} |", f"| {total:,} |", 1)
            total = 0
    if write:
        page.write_text("\n".join(lines) + "\n", encoding="utf-8")


def lemma_findings(path):
    """The public lemmas without a comment line above them. Fields of records are none."""
    lines = path.read_text(encoding="utf-8").splitlines()
    record = None
    for index, line in enumerate(lines):
        text = line.strip()
        indent = len(line) - len(line.lstrip())
        if record is not None and text and indent <= record:
            record = None
        if re.match(r"(pub )?record ", text):
            record = indent
        lemma = re.match(r"pub (\S+) :", text)
        if lemma and record is None:
            above = index - 1
            while lines[above].strip().startswith("unfolding"):
                above -= 1
            if not lines[above].strip().startswith("--"):
                yield index + 1, f"the public lemma {lemma[1]} has no comment line above it"


def findings(path):
    """The findings of a file, by its kind."""
    if path.suffix == ".md":
        yield from page_findings(path)
        if shown(path) == READING_LIST:
            yield from count_findings(path)
    elif path.suffix == ".h":
        yield from comment_findings(list(header_lines(path)), WORDS)
    elif path.suffix == ".rt":
        yield from docstring_findings(path)
    elif path.suffix == ".antt" and path.name not in NO_LEMMAS:
        yield from lemma_findings(path)


def files():
    """All files that are checked."""
    found = {path for pattern in DOCUMENTS + HEADERS + DOCSTRINGS + LEMMAS for path in ROOT.glob(pattern) if path.is_file()}
    return sorted(path for path in found if "out" not in path.relative_to(ROOT).parts)


def main(words):
    """Prints what is found and returns the status."""
    if "--help" in words or "-h" in words:
        print(__doc__.strip())
        return 0
    if "--list" in words:
        for pattern, instead in WORDS + DOCSTRING_WORDS:
            print(f"{pattern}\n    {instead}")
        return 0
    if "--update-lines" in words:
        for number, finding in count_findings(ROOT / READING_LIST, write=True):
            print(f"{READING_LIST}:{number}: {finding}")
        return 0
    unknown = [word for word in words if word.startswith("-")]
    if unknown:
        print(f"unknown option {unknown[0]}; --help says which there are", file=sys.stderr)
        return 2
    chosen = [Path(word).resolve() for word in words] or files()
    missing = [path for path in chosen if not path.is_file()]
    if missing:
        print(f"no such file: {missing[0]}", file=sys.stderr)
        return 2
    count = 0
    for path in chosen:
        for number, finding in sorted(set(findings(path))):
            print(f"{shown(path)}:{number}: {finding}")
            count += 1
    if count:
        print(f"{count} findings; tools/check_words.py --help says what is checked", file=sys.stderr)
    return 1 if count else 0


if __name__ == "__main__":
    sys.exit(main(sys.argv[1:]))
