"""tbson diff."""

from __future__ import annotations

from typing import List

import click
from rich.table import Table
from rich.text import Text

from tbson.command.common import SOME_REFUSED, Failed, counted, printable, shape_of_word_or_file, show_table, told
from tbson.command.texts import EXIT_STATUS, SHAPES
from tbson.comparing import Difference, differences
from tbson.errors import ShapeRefused, Status
from tbson.shape import Shape

_MOST_OF_NOTATION = 48
_NOT_PLAIN = "it has `ignored`, a raw part, `^`, `%`, a name that begins with $, or map keys other than texts; such shapes are not compared"


@click.command(epilog=f"{SHAPES}\n{EXIT_STATUS}")
@click.argument("old")
@click.argument("new")
@told
def diff(old: str, new: str) -> int:
    """Tell why documents written at an old shape need not be read at a new one.

    OLD and NEW are each a shape, or the name of a file with one. A word that is a shape is taken for that; ./any is the file of this name.

    \b
    tbson diff old.shape people.shape
    tbson diff '{n:i64}' '{n:i32}'

    For each pair of parts that does not pass, there is a line with the path to both, their shapes, and the reason. The exit status is 0 where there is none: then each
    document that is written at OLD is read at NEW, if no key in it begins with $ or is there twice. Else it is 1, so a job of CI can call it. Documents may fit all the
    same; `tbson check` tells of those that there are. A pair that is met twice is told once.
    """
    found = _compared(old, new)
    if not found:
        click.echo("compatible: what is written at the old shape is read at the new one")
        return 0
    click.echo(f"{counted(len(found), 'difference')}: what is written at the old shape need not be read at the new one")
    _show(found)
    return SOME_REFUSED


def _compared(old: str, new: str) -> List[Difference]:
    """The differences of the shapes that the words stand for."""
    shapes: List[Shape] = [shape_of_word_or_file(word) for word in (old, new)]
    try:
        return differences(*shapes)
    except ShapeRefused as refused:
        which = old if refused.status == Status.OLD_REFUSED else new
        raise Failed(printable(f"{which}: {refused.text}: {_NOT_PLAIN}")) from refused


def _short(notation: str) -> str:
    return notation if len(notation) <= _MOST_OF_NOTATION else notation[: _MOST_OF_NOTATION - 2] + ".."


def _show(found: List[Difference]) -> None:
    """Prints a line for each difference."""
    table = Table(box=None, padding=(0, 3, 0, 0), pad_edge=False)
    for title in ("path", "old", "new", "reason"):
        table.add_column(title, overflow="fold")
    for one in found:
        table.add_row(*(Text(printable(part)) for part in (one.path, _short(one.old), _short(one.new), one.reason)))
    show_table(table)
