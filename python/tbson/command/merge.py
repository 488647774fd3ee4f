"""tbson merge."""

from __future__ import annotations

from pathlib import Path
from typing import List, Tuple

import click

from tbson.command.common import SOME_REFUSED, counted, overwrite_option, printable, told
from tbson.command.texts import EXIT_STATUS
from tbson.merging import Merged, merge_files

_PATH = click.Path(path_type=Path)
_MOST_TOLD = 10


@click.command(epilog=EXIT_STATUS)
@overwrite_option
@click.argument("migrated", type=_PATH)
@click.argument("rejects", type=_PATH, metavar="REJECTS.jsonl")
@click.argument("repaired", type=_PATH, nargs=-1, required=True, metavar="REPAIRED.. OUT")
@told
def merge(migrated: Path, rejects: Path, repaired: Tuple[Path, ...], overwrite: bool) -> int:
    """Put documents that were repaired back at their places.

    MIGRATED is what `tbson migrate` wrote, and REJECTS.jsonl the lines that it wrote beside FILE.bson of --rejects. REPAIRED are files with the documents that were
    refused, repaired and migrated since. OUT gets all documents, in the order of the file that was migrated first.

    \b
    tbson migrate -f people.shape people.bson typed.bson --rejects refused.bson
    ..                                          repair refused.bson, into repaired.bson
    tbson migrate -f people.shape repaired.bson repaired.typed.bson
    tbson merge typed.bson refused.jsonl repaired.typed.bson whole.bson

    A repaired document goes where the reject with the same _id was, in whatever file and order it is. Where a reject or a repaired document has no _id, there must be as
    many documents as rejects, in the same order. Rejects for which there is no document are told, and the exit status is 1.
    """
    if len(repaired) < 2:
        raise click.UsageError("expected MIGRATED REJECTS.jsonl REPAIRED.. OUT, and found only three words")
    out = repaired[-1]
    merged = merge_files(migrated, rejects, repaired[:-1], out, overwrite)
    _tell(merged, out)
    return SOME_REFUSED if merged.missing else 0


def _numbers(missing: List[int]) -> str:
    more = f" and {len(missing) - _MOST_TOLD:,} more" if len(missing) > _MOST_TOLD else ""
    return ", ".join(f"{number:,}" for number in missing[:_MOST_TOLD]) + more


def _tell(merged: Merged, out: Path) -> None:
    """Prints what came of it."""
    click.echo(printable(f"{out}: {counted(merged.written)}, {merged.put_back:,} of them put back"))
    if merged.missing:
        click.echo(f"still missing: {counted(len(merged.missing))} of the first file: {_numbers(merged.missing)}")
