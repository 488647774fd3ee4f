"""tbson profile."""

from __future__ import annotations

import json
from pathlib import Path
from typing import List, Optional, Tuple

import click
from rich.table import Table
from rich.text import Text

from tbson.command.common import counted, overwrite_option, printable, progress_of, show_table, told, workers_option
from tbson.command.texts import EXIT_STATUS
from tbson.inputs import size_of
from tbson.outputs import Outputs
from tbson.profile.page import page_of
from tbson.profile.rows import PathRow, json_of_profile, rows_of
from tbson.profile.run import Profile, Wanted, profile_of
from tbson.profile.words import kinds_text, share_text, values_text, variants_lines

_PATH = click.Path(path_type=Path)


@click.command(epilog=EXIT_STATUS)
@click.option("--json", "as_json", is_flag=True, help="Print JSON in place of a table.")
@click.option("--html", type=_PATH, metavar="PAGE", help="Write a page with bars to this file, which needs no other file.")
@overwrite_option
@workers_option
@click.argument("files", type=_PATH, nargs=-1, required=True, metavar="FILE..")
@told
def profile(files: Tuple[Path, ...], as_json: bool, html: Optional[Path], overwrite: bool, workers: Optional[int]) -> int:
    """Tell what is in files of documents: each path with its kinds of values.

    \b
    tbson profile dump/shop/people.bson
    tbson profile --html people.html dump/shop/people.bson
    tbson profile --json dump/shop/*.bson | jq '.paths[] | select(.missing > 0) | .path'

    For each path the table has how many documents have it, in how many of the documents around it it is missing, how often it is null, and the kinds of its values;
    of values the most frequent ones, the least and the greatest, and the lengths. In a path, [*] is any place of an array, and * any key of a document that looks like
    a map: with at least 20 different keys, few of them in one document or all like numbers and ids, and values of one kind.

    The most frequent values are counted in a table of bounded size: where there are very many different ones, a count is at least what is told. Whether a field tells
    variants of the documents apart is seen from every sixteenth document. Damaged documents are counted and passed over.
    """
    with progress_of(files[0].name if len(files) == 1 else f"{len(files)} files", sum(map(size_of, files))) as progress:
        found = profile_of(files, Wanted(), workers, progress)
    names = [str(file) for file in files]
    if as_json:
        click.echo(json.dumps(json_of_profile(found, names), ensure_ascii=False, indent=1))
        return 0
    rows = rows_of(found)
    if html:
        with Outputs(overwrite) as outputs:
            outputs.open(html).write(page_of(found, rows, names).encode(errors="replace"))
        return 0
    _show(found, rows, names)
    return 0


def _show(found: Profile, rows: List[PathRow], names: List[str]) -> None:
    """Prints the table, with what is told above and below it."""
    click.echo(printable(f"{', '.join(names)}: {counted(found.documents)}, {found.size:,} bytes"))
    if found.passed_over:
        click.echo(f"{counted(found.passed_over)} damaged and passed over; the first:")
        for wrong in found.told:
            click.echo(printable(f"  {wrong.file}: document {wrong.index:,}: {wrong.text}"))
    table = Table(box=None, padding=(0, 2, 0, 0), pad_edge=False)
    for title, right in (("path", False), ("documents", True), ("", True), ("missing", True), ("null", True), ("kinds", False), ("values", False)):
        table.add_column(title, justify="right" if right else "left", overflow="fold")
    for row in rows[1:]:
        table.add_row(*map(Text, map(printable, _cells(row, found.whole.count))))
    show_table(table)
    for row in rows:
        for line in variants_lines(row):
            click.echo(printable(line))


def _cells(row: PathRow, whole: int) -> List[str]:
    documents = ("", "") if row.documents is None else (f"{row.documents:,}", share_text(row.documents, whole))
    return [row.path, *documents, f"{row.missing:,}" if row.missing else "", f"{row.null:,}" if row.null else "", kinds_text(row), values_text(row)]
