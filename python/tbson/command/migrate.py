"""tbson migrate."""

from __future__ import annotations

from pathlib import Path
from typing import Optional, Tuple

import click

from tbson.command.common import (
    SOME_REFUSED,
    counted,
    overwrite_option,
    printable,
    progress_of,
    shape_and_files,
    shape_file_option,
    show_refused,
    told,
    workers_option,
)
from tbson.command.texts import EXIT_STATUS, SHAPES
from tbson.files import Outcome, migrate_file
from tbson.inputs import size_of
from tbson.rejects import lines_path


@click.command(epilog=f"{SHAPES}\n{EXIT_STATUS}")
@shape_file_option
@click.option(
    "--rejects",
    type=click.Path(path_type=Path),
    metavar="FILE.bson",
    help="Write the documents that are refused to this file, as they were, and a line of JSON for each to FILE.jsonl: index (its number in IN, counted from 0), "
    "offset (its first byte), _id, path and cause.",
)
@overwrite_option
@workers_option
@click.argument("words", nargs=-1, metavar="[SHAPE] IN OUT")
@told
def migrate(words: Tuple[str, ...], shape_file: Optional[Path], rejects: Optional[Path], overwrite: bool, workers: Optional[int]) -> int:
    """Write each document of a file anew at a shape.

    IN is a file of documents as mongodump writes it, of any length. Each document that fits SHAPE is written to OUT, in the same order; those that do not are left
    out, and told by path and cause. In a path, [*] is any place of an array, and * any key of a map.

    \b
    tbson migrate -f people.shape dump/shop/people.bson typed/people.bson --rejects refused.bson
    tbson migrate '{_id:oid,name:string,age:?i64}' people.bson.gz typed.bson.gz

    OUT appears when all is done, and not before; where something fails or is interrupted there is none. If people.metadata.json is beside IN, a copy goes beside OUT,
    under the name that mongorestore looks for. A name that ends in .gz is that of a compressed file.

    A struct writes all of its fields, and no others: a field of shape ?s that is missing is written as null, and a field that the shape does not name is dropped.
    Numbers change their width, and nothing else is converted: a string does not become a number, nor an integer a double.
    """
    shape, (path, out) = shape_and_files(words, shape_file, "IN OUT")
    if rejects and rejects.suffix != ".bson":
        raise click.UsageError(f"--rejects takes a name that ends in .bson, and not {rejects}")
    with progress_of(path.name, size_of(path)) as progress:
        outcome = migrate_file(shape, path, out, rejects=rejects, overwrite=overwrite, workers=workers, progress=progress)
    _tell(outcome, path, out, rejects)
    return SOME_REFUSED if outcome.refused else 0


def _tell(outcome: Outcome, path: Path, out: Path, rejects: Optional[Path]) -> None:
    """Prints what came of it."""
    written = outcome.documents - outcome.refused
    if not outcome.refused:
        click.echo(printable(f"{path}: {counted(written)}, all written to {out}"))
        return
    click.echo(printable(f"{path}: {written:,} of {counted(outcome.documents)} written to {out}; {outcome.refused:,} refused:"))
    show_refused(outcome.summary)
    if rejects:
        click.echo(printable(f"They are in {rejects}, with a line for each in {lines_path(rejects)}. `tbson merge` puts them back when they are repaired."))
    else:
        click.echo("They are not kept: --rejects FILE.bson writes them to a file of their own.")
