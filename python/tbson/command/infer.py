"""tbson infer."""

from __future__ import annotations

import sys
from pathlib import Path
from typing import Optional, Sequence, Tuple

import click

from tbson.command.common import FAILED, SOME_REFUSED, Failed, counted, printable, progress_of, told, workers_option
from tbson.command.texts import EXIT_STATUS, SHAPES
from tbson.files import check_file_at
from tbson.inferring import Inference, lines_of, notation_of_inferred
from tbson.inputs import size_of
from tbson.profile.run import Profile, Wanted, profile_of
from tbson.shape import Shape


@click.command(epilog=f"{SHAPES}\n{EXIT_STATUS}")
@click.option("--maps", is_flag=True, help="Take documents whose keys look like those of a map for one, [string:s].")
@workers_option
@click.argument("files", type=click.Path(path_type=Path), nargs=-1, required=True, metavar="FILE..")
@told
def infer(files: Tuple[Path, ...], maps: bool, workers: Optional[int]) -> int:
    """Print a shape that all documents of the files fit.

    It is one shape, with a line for each field, and comments that say how many documents lack a field, have null there, or values of another kind. Edit it, and give it to
    `tbson check` and `tbson migrate` by -f.

    \b
    tbson infer dump/shop/people.bson > people.shape
    tbson infer --maps dump/*/orders.bson > orders.shape

    A field is optional, ?s, where a document lacks it or has null. Int32 and Int64 together are i64, and values that are unlike are bson. An array whose items are all of one
    kind is [s]; [<>] stands for arrays that are all empty. With --maps, documents with at least 20 different keys become maps, [string:s], if few of the keys are in one document, or all
    are like numbers and ids, and their values are of one kind.

    Documents that are damaged, have a key twice, or a key that begins with $ are told and passed over; the exit status is 1 then. At the end all others are checked against
    the shape.
    """
    sizes = sum(map(size_of, files))
    with progress_of("reading", sizes) as progress:
        profile = profile_of(files, Wanted(values=False, sound_only=True), workers, progress)
    _tell_passed_over(profile)
    if not profile.whole.count:
        click.echo("tbson: there is no document to infer a shape from", err=True)
        return SOME_REFUSED
    inferred = Inference(maps).whole(profile.whole)
    _check(Shape(notation_of_inferred(inferred)), files, profile, workers)
    for line in (*_head(files, profile), *lines_of(inferred)):
        # Names are as they are where a file is written, so that it is the shape.
        sys.stdout.write((printable(line) if sys.stdout.isatty() else line) + "\n")
    return SOME_REFUSED if profile.passed_over else 0


def _head(files: Sequence[Path], profile: Profile) -> Sequence[str]:
    names = ", ".join(printable(str(file)) for file in files)
    passed = f"; {counted(profile.passed_over)} passed over" if profile.passed_over else ""
    return [f"# {names}: {counted(profile.whole.count)}{passed}"]


def _tell_passed_over(profile: Profile) -> None:
    if profile.passed_over:
        click.echo(f"tbson: {counted(profile.passed_over)} damaged or not sound, and passed over; the first:", err=True)
        for wrong in profile.told:
            click.echo(printable(f"  {wrong.file}: document {wrong.index:,}: {wrong.text}"), err=True)


def _check(shape: Shape, files: Sequence[Path], profile: Profile, workers: Optional[int]) -> None:
    """Checks all documents against the shape, by the library, which reads at it what a migration reads."""
    refused = 0
    for file in files:
        with progress_of(f"checking {file.name}", size_of(file)) as progress:
            refused += check_file_at(shape, file, workers=workers, progress=progress).refused
    if refused > profile.passed_over:
        raise Failed(f"the shape that was inferred does not fit {counted(refused - profile.passed_over)}, which is a fault of this command (status {FAILED})")
