"""What the commands have in common: shapes, exit statuses, progress, tables."""

from __future__ import annotations

import functools
import os
import re
import sys
from contextlib import contextmanager
from pathlib import Path
from typing import Any, Callable, Iterator, List, Optional, Sequence, Tuple, TypeVar

import click
from rich.console import Console
from rich.progress import BarColumn, DownloadColumn, Progress, TextColumn, TimeRemainingColumn, TransferSpeedColumn
from rich.table import Table
from rich.text import Text

from tbson.errors import UnknownStatus
from tbson.inputs import InputRefused
from tbson.outputs import OutputRefused
from tbson.shape import Shape
from tbson.shape_text import ShapeText, ShapeTextRefused, shape_of_text
from tbson.summary import Row, Summary

F = TypeVar("F", bound=Callable[..., Any])

#: The exit statuses beside 0.
SOME_REFUSED, FAILED, INTERRUPTED = 1, 2, 130
_WIDE = 160
_MOST_ROWS = 30
# What has a dot or a slash outside of quotes is no beginning of a shape.
_NAMES_A_FILE = re.compile(r"[\w~+-]*[./][\w./~+-]*")


class Failed(click.ClickException):
    """Nothing was done: the message is told on standard error."""

    exit_code = FAILED

    def show(self, file: Any = None) -> None:
        click.echo(f"tbson: {self.format_message()}", file=file or sys.stderr)


class Interrupted(Failed):
    """The run was interrupted, and took away what it had written."""

    exit_code = INTERRUPTED

    def __init__(self) -> None:
        super().__init__("interrupted")


def told(command: F) -> F:
    """Tells what cannot be done in a line, and ends with the status for it."""

    @functools.wraps(command)
    def run(*given: Any, **named: Any) -> Any:
        try:
            return command(*given, **named)
        except (InputRefused, OutputRefused, ShapeTextRefused, UnknownStatus) as error:
            raise Failed(printable(str(error), "\n\t")) from error
        except KeyboardInterrupt:
            raise Interrupted from None
        except MemoryError as error:
            raise Failed("memory ran out; nothing was written") from error
        except BrokenPipeError:
            raise
        except OSError as error:
            raise Failed(f"{error.filename or 'input or output'}: {error.strerror}; nothing was written") from error

    return run  # type: ignore[return-value]


shape_file_option = click.option("-f", "--shape-file", type=click.Path(path_type=Path), metavar="SHAPEFILE", help="Read the shape from this file, in place of SHAPE.")
workers_option = click.option("--workers", type=click.IntRange(1), metavar="N", help="How many processors to use; all, if left out.")
overwrite_option = click.option("--overwrite", is_flag=True, help="Replace files that are there already.")


def shape_and_files(words: Sequence[str], shape_file: Optional[Path], names: str) -> Tuple[Shape, List[Path]]:
    """The shape, of the file or else the first word, and the files that the other words name. The names say for the usage which ones are wanted."""
    files = list(words) if shape_file else list(words[1:])
    count = names.count(" ") + 1
    if len(files) != count if not names.endswith("..") else not files:
        given = "-f SHAPEFILE" if shape_file else "SHAPE"
        raise click.UsageError(f"expected {given} {names}, and found {len(words)} words: {' '.join(words) or 'none'}")
    return (_shape_of_file(shape_file) if shape_file else _shape_of_word(words[0])), [Path(file) for file in files]


def _shape_of_file(path: Path) -> Shape:
    try:
        return shape_of_text(ShapeText(path.read_text(encoding="utf-8"), str(path)))
    except OSError as error:
        raise InputRefused(f"{path}: {error.strerror}") from error
    except UnicodeDecodeError as error:
        raise InputRefused(f"{path}: is no text in UTF-8") from error


def _shape_of_word(word: str) -> Shape:
    try:
        return shape_of_text(ShapeText(word))
    except ShapeTextRefused as error:
        if os.path.exists(word):
            raise InputRefused(f"{word}: is a file; a shape in a file is given by -f") from error
        raise


def shape_of_word_or_file(word: str) -> Shape:
    """The shape that the word is, or else that of the file of this name."""
    try:
        return shape_of_text(ShapeText(word))
    except ShapeTextRefused:
        if os.path.exists(word) or _NAMES_A_FILE.fullmatch(word):
            return _shape_of_file(Path(word))
        raise


def console(to_errors: bool = False) -> Console:
    """Standard output, or standard error. What is no terminal is wide enough for any table."""
    stream = sys.stderr if to_errors else sys.stdout
    return Console(stderr=to_errors, width=None if stream.isatty() else _WIDE, highlight=False, soft_wrap=False)


def show_table(table: Table) -> None:
    """Prints the table, without blanks at the ends of its lines."""
    shown = console()
    with shown.capture() as captured:
        shown.print(table)
    click.echo("\n".join(line.rstrip() for line in captured.get().rstrip("\n").split("\n")))


@contextmanager
def progress_of(name: str, size: int) -> Iterator[Callable[[int], None]]:
    """Shows how much of so many bytes is done, with the rate, where somebody looks: on a terminal at standard error."""
    looked_at = console(to_errors=True)
    if not looked_at.is_terminal:
        yield lambda _: None
        return
    columns = (TextColumn("{task.description}", markup=False), BarColumn(), DownloadColumn(), TransferSpeedColumn(), TimeRemainingColumn())
    with Progress(*columns, console=looked_at, transient=True) as shown:
        task = shown.add_task(printable(name), total=size)
        yield lambda done: shown.update(task, completed=done)


def printable(text: str, besides: str = "") -> str:
    """The text with characters that a terminal would obey told by their numbers, except those besides."""
    return "".join(one if one.isprintable() or one in besides else f"\\x{ord(one):02x}" for one in text)


def counted(count: int, noun: str = "document") -> str:
    """The count with its noun: 1 document, 2,000 documents."""
    return f"{count:,} {noun}{'' if count == 1 else 's'}"


def _first(row: Row) -> str:
    said = f": {row.first_cause}" if row.first_cause != row.cause else ""
    return f"document {row.first_index:,}{said}"


def show_refused(summary: Summary) -> None:
    """Prints what was refused, by path and cause."""
    table = Table(box=None, padding=(0, 3, 0, 0), pad_edge=False)
    table.add_column("documents", justify="right")
    for title in ("path", "cause", "first of them"):
        table.add_column(title, overflow="fold")
    rows = summary.rows()
    for row in rows[:_MOST_ROWS]:
        table.add_row(f"{row.count:,}", *(Text(printable(part)) for part in (row.path, row.cause, _first(row))))
    show_table(table)
    left = summary.others + sum(row.count for row in rows[_MOST_ROWS:])
    if left:
        click.echo(f"and {counted(left)} at other paths, or for other causes")
