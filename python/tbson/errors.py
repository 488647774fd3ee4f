"""How calls end, and what is raised where one is refused."""

from __future__ import annotations

import enum
from typing import Dict, Optional, Tuple, Type, Union


class Status(enum.IntEnum):
    """How a call ended: enum tbson_status."""

    DONE = 0
    SOME_REFUSED = 1
    SHAPE_REFUSED = 2
    READ_REFUSED = 3
    WRITE_REFUSED = 4
    BROKEN = 5
    END = 6
    BUFFER_TOO_SMALL = 7
    NO_MEMORY = 8
    DIFFERENT = 9
    OLD_REFUSED = 10
    NEW_REFUSED = 11


_FRONT = "error at "


def _path_and_cause(text: str) -> Tuple[Optional[str], str]:
    if not text.startswith(_FRONT):
        return None, text
    path, _, cause = text[len(_FRONT) :].partition(": ")
    return path, cause


class Refused(ValueError):
    """A shape, a document or a file was refused.

    text    what the library says of it
    path    where in the document, as "a.b[2]", and "." for the whole document; None where the text has no path
    cause   the text without the path
    status  one of Status, or a number that this package does not know
    place   where in the shape's UTF-8, or in the file: a number of bytes from the start; 0 at any other status
    index   the number of the document in a file, counted from 0; None of a document that was not in a file
    offset  where the document begins in the file: a number of bytes from the start; None as with the index

    Path and cause are the two parts of the text, "error at PATH: CAUSE". Names are in the path as they are. Of a document that was not in a file, a path that
    holds ": " is cut there.
    """

    def __init__(self, text: str, status: Union[Status, int, None] = None, place: int = 0):
        super().__init__(text)
        self.text, self.status, self.place = text, status, place
        self.index: Optional[int] = None
        self.offset: Optional[int] = None
        self.path, self.cause = _path_and_cause(text)


class ShapeRefused(Refused):
    """The shape is none: `place` counts the bytes of its UTF-8 up to where it is refused. Of two shapes the status tells which one is."""


class ReadRefused(Refused):
    """The document is not read at the shape."""


class WriteRefused(Refused):
    """What was read cannot be written."""


class Broken(Refused):
    """The file cannot be cut into documents: at `place` none begins."""


class UnknownStatus(RuntimeError):
    """The library ended a call with a status that this package does not know, since it is newer. Nothing was written."""


_KINDS: Dict[int, Type[Refused]] = {
    Status.SHAPE_REFUSED: ShapeRefused,
    Status.OLD_REFUSED: ShapeRefused,
    Status.NEW_REFUSED: ShapeRefused,
    Status.READ_REFUSED: ReadRefused,
    Status.WRITE_REFUSED: WriteRefused,
    Status.BROKEN: Broken,
}


def failure(status: int, text: str, place: int) -> Exception:
    """What is raised for a status that is a failure."""
    if status == Status.NO_MEMORY:
        return MemoryError("tbson: memory ran out")
    kind = _KINDS.get(status)
    if kind is None:
        return UnknownStatus(f"tbson: the library gave the status {status}, which this package does not know")
    return kind(text or "no document begins here", Status(status), place)


def refused_in_file(status: int, text: bytes, cause_start: int) -> Refused:
    """A refused document of a file, whose cause begins at that byte of the text; at 0 where it has no path."""
    kind = _KINDS.get(status)
    if kind is None:
        refused = Refused(text.decode(errors="replace"), status)
        refused.cause = f"unknown status {status}: {refused.cause}"
        return refused
    refused = kind(text.decode(), Status(status))
    if cause_start:
        refused.path, refused.cause = text[len(_FRONT) : cause_start - len(": ")].decode(), text[cause_start:].decode()
    else:
        refused.path, refused.cause = None, refused.text
    return refused
