"""tbson check."""

from __future__ import annotations

from pathlib import Path
from typing import Optional, Tuple

import click

from tbson.command.common import SOME_REFUSED, counted, printable, progress_of, shape_and_files, shape_file_option, show_refused, told, workers_option
from tbson.command.texts import EXIT_STATUS, SHAPES
from tbson.files import Outcome, check_file_at
from tbson.inputs import size_of


@click.command(epilog=f"{SHAPES}\n{EXIT_STATUS}")
@shape_file_option
@workers_option
@click.argument("words", nargs=-1, metavar="[SHAPE] FILE..")
@told
def check(words: Tuple[str, ...], shape_file: Optional[Path], workers: Optional[int]) -> int:
    """Check whether each document of the files fits a shape.

    Nothing is written. What does not fit is told by path and cause; in a path, [*] is any place of an array, and * any key of a map. The exit status is 0 where all
    documents fit, and 1 where some do not, so a job of CI can call it.

    \b
    tbson check -f people.shape dump/shop/people.bson
    tbson check '[string:bson]' dump/shop/*.bson
    """
    shape, paths = shape_and_files(words, shape_file, "FILE..")
    refused = 0
    for path in paths:
        with progress_of(path.name, size_of(path)) as progress:
            outcome = check_file_at(shape, path, workers=workers, progress=progress)
        _tell(outcome, path)
        refused += outcome.refused
    return SOME_REFUSED if refused else 0


def _tell(outcome: Outcome, path: Path) -> None:
    """Prints what came of a file."""
    if not outcome.refused:
        click.echo(printable(f"{path}: {counted(outcome.documents)}, all fit"))
        return
    click.echo(printable(f"{path}: {outcome.refused:,} of {counted(outcome.documents)} do not fit:"))
    show_refused(outcome.summary)
