"""The needs of many files: with processes of this machine, or on a Dask cluster."""

from __future__ import annotations

import csv
import html
import importlib
import io
import json
import os
from concurrent.futures import FIRST_COMPLETED, Future, ProcessPoolExecutor, wait
from concurrent.futures.process import BrokenProcessPool
from typing import Any, Callable, Dict, Iterator, List, Optional, Sequence, Tuple

from .elf import BadFile, open_program
from .needs import LEVELS, level_of, needs_of
from .texts import counted

COLUMNS = ("file", "bits", "level", "level_all", "features", "features_all", "unread", "functions", "ifuncs", "error")
Row = Dict[str, Any]
Progress = Callable[[int, int], None]

NO_DASK = "Dask is not installed: pip install 'feddurzai[cluster]', or Debian's python3-distributed"


def row_of(path: str) -> Row:
    """The row of a file. Whatever goes wrong becomes the text of its column `error`."""
    row: Row = dict.fromkeys(COLUMNS)
    row["file"] = path
    try:
        found = needs_of(open_program(path))
    except (BadFile, OSError) as error:
        row["error"] = error.strerror if isinstance(error, OSError) and error.strerror else str(error)
        return row
    # one bad file must not end a run over thousands
    except Exception as error:
        row["error"] = f"{type(error).__name__}: {error}"
        return row
    unread = sum(it.places for it in found.all.unread)
    row.update(
        bits=found.bits,
        level=found.reached.level() if found.bits == 64 else None,
        level_all=found.all.level() if found.bits == 64 else None,
        features=" ".join(sorted(found.reached.features)),
        features_all=" ".join(sorted(found.all.features)),
        unread=unread,
        functions=found.functions,
        ifuncs=len(found.resolvers),
    )
    return row


def _largest_first(paths: Sequence[str]) -> List[str]:
    def size(path: str) -> int:
        try:
            return os.path.getsize(path)
        except OSError:
            return 0

    return sorted(paths, key=size, reverse=True)


def _failed(path: str, why: str) -> Row:
    return {**dict.fromkeys(COLUMNS), "file": path, "error": why}


def _by_processes(paths: Sequence[str], jobs: int) -> Iterator[Row]:
    """The rows of some files, in the order in which they are done. A process that dies fails its file alone."""
    waiting = _largest_first(paths)
    while waiting:
        running: Dict["Future[Row]", str] = {}
        with ProcessPoolExecutor(jobs) as pool:
            try:
                while waiting or running:
                    while waiting and len(running) < 2 * jobs:
                        path = waiting.pop(0)
                        running[pool.submit(row_of, path)] = path
                    for future in wait(running, return_when=FIRST_COMPLETED).done:
                        row = future.result()
                        del running[future]
                        yield row
            except BrokenProcessPool:
                broken = list(running.values())
        if not running:
            return
        # find the file that kills its process: the files that were under way are tried one by one
        for path in broken:
            with ProcessPoolExecutor(1) as alone:
                try:
                    yield alone.submit(row_of, path).result()
                except BrokenProcessPool:
                    yield _failed(path, "the process that read it died")


def _by_cluster(paths: Sequence[str], address: str) -> Iterator[Row]:
    """The rows of some files, by the workers of a Dask scheduler. The workers must have this package, and see the files under the same names."""
    try:
        distributed = importlib.import_module("distributed")
    except ImportError:
        raise BadFile(NO_DASK) from None
    # Dask has no type hints
    dask: Any = distributed
    try:
        client = dask.Client(address, timeout=10)
    except (OSError, ValueError) as error:
        raise BadFile(f"no Dask scheduler answers at {address}: {error}") from None
    with client:
        paths = _largest_first(paths)
        futures = dict(zip(client.map(row_of, paths, pure=False, retries=1), paths))
        for future in dask.as_completed(list(futures)):
            path = futures[future]
            if future.status == "finished":
                yield future.result()
            else:
                yield _failed(path, f"the worker that read it failed: {future.exception()}")


def rows_of(paths: Sequence[str], jobs: int, scheduler: Optional[str], progress: Optional[Progress] = None) -> List[Row]:
    """The rows of some files, in the order of the files."""
    found: Dict[str, Row] = {}
    if scheduler is not None:
        source = _by_cluster(paths, scheduler)
    elif jobs == 1:
        source = map(row_of, paths)
    else:
        source = _by_processes(paths, jobs)
    for row in source:
        found[row["file"]] = row
        if progress is not None:
            progress(len(found), len(paths))
    return [found[path] for path in paths]


def as_csv(rows: Sequence[Row]) -> str:
    """The rows as CSV with a header."""
    out = io.StringIO()
    writer = csv.DictWriter(out, COLUMNS, lineterminator="\n")
    writer.writeheader()
    writer.writerows(rows)
    return out.getvalue()


def as_json(rows: Sequence[Row]) -> str:
    """The rows as a JSON array, one row a line."""
    return "[\n" + ",\n".join(json.dumps(row) for row in rows) + "\n]\n" if rows else "[]\n"


def as_text(rows: Sequence[Row]) -> str:
    """The rows as a table for people: level reached, level of all code, file, and what is above v1."""
    lines = []
    for row in rows:
        if row["error"]:
            lines.append(f"  -   -  {row['file']}: {row['error']}")
            continue
        above = [it for it in row["features"].split() if it not in LEVELS[0]]
        levels = [f"v{row[it]}" if row[it] else f"{row['bits']}" for it in ("level", "level_all")]
        lines.append(f"{levels[0]:>3} {levels[1]:>3}  {row['file']}{'  ' + ' '.join(above) if above else ''}")
    return "\n".join(lines) + "\n"


# ---- the page

PAGE = """<!DOCTYPE html>
<html lang="en"><head><meta charset="utf-8"><title>CPU features: {count}</title><style>
:root {{ color-scheme: light dark; }}
body {{ font: 15px/1.45 system-ui, sans-serif; margin: 1.5rem; color: #1f2328; background: #ffffff; }}
h1 {{ font-size: 1.3rem; }} h2 {{ font-size: 1.05rem; margin-top: 2rem; }}
table {{ border-collapse: collapse; font: 13px/1.5 ui-monospace, monospace; }}
td, th {{ padding: 0 1em 0 0; text-align: left; vertical-align: top; }} td.number {{ text-align: right; }}
svg text {{ font: 12px ui-monospace, monospace; fill: currentColor; }}
.reached {{ fill: #0969da; }} .all {{ fill: #9ec9ff; }} .error {{ color: #cf222e; }}
@media (prefers-color-scheme: dark) {{ body {{ color: #e6edf3; background: #0d1117; }} .all {{ fill: #1f4a7d; }} .reached {{ fill: #58a6ff; }} }}
</style></head><body>
<h1>CPU features: {count}</h1>
<p>Dark: code that control reaches from the entry points, without variants that a file chooses at run time (IFUNC). Light: all known code.
{failed} could not be read.</p>
<h2>The least x86-64 level</h2>
{levels}
<h2>Features</h2>
{features}
<h2>Files</h2>
<table><tr><th>reached</th><th>all</th><th>file</th><th>features above v1 that are reached</th></tr>
{rows}
</table>
</body></html>
"""


def _bars(counts: Sequence[Tuple[str, int, int]], total: int) -> str:
    """A bar chart: for each name the number of files, of reached code and of all code."""
    left, width, height = 110, 560, 20
    bars = []
    for n, (name, reached, everything) in enumerate(counts):
        top = n * height
        for kind, count in (("all", everything), ("reached", reached)):
            bars.append(f'<rect class="{kind}" x="{left}" y="{top + 3}" width="{width * count / max(1, total):.1f}" height="{height - 6}"/>')
        bars.append(f'<text x="0" y="{top + 14}">{html.escape(name)}</text>')
        bars.append(f'<text x="{left + width + 8}" y="{top + 14}">{reached} / {everything}</text>')
    size = f'width="{left + width + 110}" height="{height * len(counts)}"'
    return f'<svg {size} role="img" xmlns="http://www.w3.org/2000/svg">{"".join(bars)}</svg>'


def page_of(rows: Sequence[Row]) -> str:
    """The rows as a page with charts."""
    good = [row for row in rows if not row["error"]]
    wide = [row for row in good if row["bits"] == 64]
    levels = [(f"x86-64-v{n}", sum(row["level"] == n for row in wide), sum(row["level_all"] == n for row in wide)) for n in range(1, 5)]
    levels.append(("32-bit", len(good) - len(wide), len(good) - len(wide)))
    names = sorted({it for row in good for it in row["features_all"].split()}, key=lambda it: (level_of([it]), it))
    features = [(it, sum(it in row["features"].split() for row in good), sum(it in row["features_all"].split() for row in good)) for it in names]
    lines = []
    for row in rows:
        if row["error"]:
            lines.append(f'<tr><td></td><td></td><td>{html.escape(row["file"])}</td><td class="error">{html.escape(row["error"])}</td></tr>')
            continue
        above = " ".join(it for it in row["features"].split() if it not in LEVELS[0])
        cells = [f"v{row[it]}" if row[it] else "32-bit" for it in ("level", "level_all")]
        lines.append(f"<tr><td>{cells[0]}</td><td>{cells[1]}</td><td>{html.escape(row['file'])}</td><td>{html.escape(above)}</td></tr>")
    return PAGE.format(
        count=counted(len(rows), "file"), failed=counted(len(rows) - len(good), "file"), levels=_bars(levels, len(good)), features=_bars(features, len(good)), rows="\n".join(lines)
    )
