"""The command line of the inspector: `python3 -m feddurzai`, and the console script `feddurzai-inspect`."""

from __future__ import annotations

import argparse
import json
import os
import sys
import tempfile
from typing import Any, List, Optional, Union

import feddurzai
from feddurzai import Style

from . import graph, hookable, listing, many, needs, page
from .elf import BadFile, elf_files, open_program
from .scan import Xrefs
from .texts import wants_colours

DESCRIPTION = "Inspects ELF files of x86: listings, flow graphs, the CPU features that code needs, and which functions can be hooked."
NAME = "a function, a section such as .text, or a hexadecimal address in a function such as 0x401000"


def write_file(path: str, content: Union[str, bytes]) -> None:
    """Writes a file completely or not at all: to a temporary file beside it, which is then renamed."""
    folder = os.path.dirname(os.path.abspath(path))
    data = content.encode("utf-8") if isinstance(content, str) else content
    with tempfile.NamedTemporaryFile(dir=folder, prefix=".", suffix=".part", delete=False) as file:
        try:
            file.write(data)
            file.close()
            mask = os.umask(0)
            os.umask(mask)
            os.chmod(file.name, 0o666 & ~mask)
            os.replace(file.name, path)
        except BaseException:
            os.unlink(file.name)
            raise


class Bar:
    """A progress bar on standard error, on a terminal alone."""

    def __init__(self, title: str) -> None:
        self.title, self.shown = title, sys.stderr.isatty()

    def __call__(self, done: int, total: int) -> None:
        if self.shown:
            filled = 30 * done // max(1, total)
            sys.stderr.write(f"\r{self.title} [{'#' * filled}{'.' * (30 - filled)}] {done}/{total}")
            if done >= total:
                sys.stderr.write("\r\x1b[K")
            sys.stderr.flush()


def _dump(found: Any) -> None:
    print(json.dumps(found, indent=1))


def list_(asked: argparse.Namespace) -> None:
    program = open_program(asked.file)
    if asked.name is None:
        if asked.json:
            _dump(listing.functions(program))
        else:
            listing.write_functions(program, sys.stdout)
        return
    function = program.find(asked.name)
    if asked.json:
        listing.write_json(program, function, Style[asked.style.upper()], sys.stdout)
        return
    xrefs = Xrefs(program) if asked.callers else None
    listing.write(program, function, Style[asked.style.upper()], wants_colours(asked.colour), sys.stdout, xrefs)


def graph_(asked: argparse.Namespace) -> None:
    form = graph.form_of(asked.output) if asked.output else None
    program = open_program(asked.file)
    found = graph.graph_of(program, program.find(asked.name))
    if asked.json:
        _dump(graph.as_json(found))
    if asked.output:
        dot = graph.dot_of(program, found, Style[asked.style.upper()])
        write_file(asked.output, dot if form == "dot" else graph.drawn(dot, form or "svg"))
    elif not asked.json:
        sys.stdout.write(graph.dot_of(program, found, Style[asked.style.upper()]))


def page_(asked: argparse.Namespace) -> None:
    program = open_program(asked.file)
    function = program.find(asked.name)
    text = page.page_of(program, function, Style[asked.style.upper()], Xrefs(program), asked.limit)
    write_file(asked.output, text)
    if asked.json:
        _dump({"file": asked.file, "function": function.name, "page": asked.output, "bytes": len(text.encode())})


def needs_(asked: argparse.Namespace) -> None:
    one = len(asked.paths) == 1 and not os.path.isdir(asked.paths[0])
    if one and not (asked.csv or asked.page or asked.scheduler):
        path = asked.paths[0]
        found = needs.needs_of(open_program(path))
        if asked.json:
            _dump(needs.as_json(path, found))
        else:
            print("\n".join(needs.lines(path, found)))
        return
    files = elf_files(asked.paths)
    if not files:
        raise BadFile(f"no ELF file in {', '.join(asked.paths)}")
    rows = many.rows_of(files, asked.jobs, asked.scheduler, Bar("needs"))
    if asked.page:
        write_file(asked.page, many.page_of(rows))
    if asked.csv:
        sys.stdout.write(many.as_csv(rows))
    elif asked.json:
        sys.stdout.write(many.as_json(rows))
    elif not asked.page:
        sys.stdout.write(many.as_text(rows))


def hookable_(asked: argparse.Namespace) -> None:
    program = open_program(asked.file)
    hooker, summary, answers = hookable.Hooker(program, Xrefs(program)), hookable.Summary(), []
    if asked.name is not None:
        answers = [hooker.answer(program.find(asked.name))]
    else:
        bar, total = Bar("hookable"), len(program.functions)
        for n, answer in enumerate(hooker.answers(), 1):
            answers.append(answer)
            bar(n, total)
        bar(total, total)
    if asked.json:
        _dump([hookable.as_json(it) for it in answers])
        return
    for answer in answers:
        summary.add(answer)
        print(hookable.line(program, answer))
    print(summary.text())


def _jobs(text: str) -> int:
    number = int(text)
    if not 1 <= number <= 1024:
        raise argparse.ArgumentTypeError("the number of processes is 1 to 1024")
    return number


def parser_of() -> argparse.ArgumentParser:
    parser = argparse.ArgumentParser(prog="feddurzai-inspect", description=DESCRIPTION)
    parser.add_argument("--version", action="version", version=".".join(map(str, feddurzai.version())))
    commands = parser.add_subparsers(dest="command", metavar="COMMAND", required=True)

    def command(name: str, run: Any, words: str) -> argparse.ArgumentParser:
        it = commands.add_parser(name, help=words, description=words)
        it.set_defaults(run=run)
        it.add_argument("--json", action="store_true", help="write JSON")
        return it

    def styled(it: argparse.ArgumentParser) -> None:
        it.add_argument("--style", choices=[one.name.lower() for one in Style], default="intel", help="the text style (default: intel)")

    it = command("list", list_, "List the functions of a file, or a function or section of it.")
    it.add_argument("file")
    it.add_argument("name", nargs="?", metavar="NAME", help=NAME)
    it.add_argument("--callers", action="store_true", help="say at each function which functions branch to it")
    it.add_argument("--colour", choices=["auto", "always", "never"], default="auto", help="colours (default: auto, on a terminal)")
    styled(it)
    it = command("graph", graph_, "Draw the basic blocks of a function, jump tables included.")
    it.add_argument("file")
    it.add_argument("name", metavar="NAME", help=NAME)
    it.add_argument("-o", "--output", help="OUT.svg, OUT.png, OUT.pdf (with Graphviz) or OUT.dot; without it DOT goes to standard output")
    styled(it)
    it = command("page", page_, "Write a page for a function: its listing, whose targets are links, and its flow graph. Needs Graphviz.")
    it.add_argument("file")
    it.add_argument("name", metavar="NAME", help=NAME)
    it.add_argument("-o", "--output", required=True, help="the HTML file")
    it.add_argument("--limit", type=int, default=page.MOST, help=f"the most instructions of a page (default: {page.MOST})")
    styled(it)
    it = command("needs", needs_, "Report the CPU features that code needs, and the least x86-64 level that has them.")
    it.add_argument("paths", nargs="+", metavar="PATH", help="a file, or a folder with all files below it")
    it.add_argument("--jobs", type=_jobs, default=1, help="the number of processes for many files (default: 1)")
    it.add_argument("--scheduler", metavar="ADDRESS", help="a Dask scheduler whose workers read the files, such as tcp://HOST:8786")
    it.add_argument("--csv", action="store_true", help="write a table as CSV")
    it.add_argument("--page", metavar="OUT", help="write an HTML page with charts")
    it = command("hookable", hookable_, "Report for each function how many bytes a hook would replace, or why it cannot be hooked.")
    it.add_argument("file")
    it.add_argument("name", nargs="?", metavar="NAME", help=NAME)
    return parser


def main(words: Optional[List[str]] = None) -> int:
    """Runs the command. Returns the exit status: 0, or 1 with a line on standard error."""
    asked = parser_of().parse_args(words)
    subject = getattr(asked, "file", None)
    try:
        asked.run(asked)
        sys.stdout.flush()
        return 0
    except BrokenPipeError:
        os.dup2(os.open(os.devnull, os.O_WRONLY), sys.stdout.fileno())
        return 0
    except KeyboardInterrupt:
        sys.stderr.write("\nfeddurzai-inspect: interrupted\n")
        return 130
    except OSError as error:
        name = error.filename or subject
        words_ = error.strerror or str(error)
    except BadFile as error:
        name, words_ = subject or (asked.paths[0] if len(getattr(asked, "paths", ())) == 1 else None), str(error)
    except feddurzai.Refusal as error:
        name, words_ = subject, str(error)
    sys.stderr.write(f"feddurzai-inspect: {f'{name}: ' if name else ''}{words_}\n")
    return 1
