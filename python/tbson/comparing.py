"""Two shapes, compared by the library."""

from __future__ import annotations

from typing import List, NamedTuple

from tbson._buffers import Held, new_buffer
from tbson._library import library
from tbson.errors import Status, failure
from tbson.shape import ShapeLike, notation_of


class Difference(NamedTuple):
    """A pair of parts of an old shape and a new one that does not pass: the path to both, their notations, and the reason."""

    path: str
    old: str
    new: str
    reason: str


def differences(old: ShapeLike, new: ShapeLike) -> List[Difference]:
    """Why documents that are written at an old shape need not be read at a new one; an empty list where the shapes are compatible.

    The first path is that of the `no at` of bson_evolve, "." for the shapes themselves. A pair of equal parts is told once: where two fields go from i64 to
    i32, the first of them. Raises ShapeRefused where one is no shape, or not plain.
    """
    texts = _texts(notation_of(old), notation_of(new)).split("\0")
    return [Difference(*texts[n : n + 4]) for n in range(0, len(texts) - 1, 4)]


def _texts(old: bytes, new: bytes, text_len: int = 4096) -> str:
    """What the library says of the two, each text with a zero behind it. Where the buffer was too small, there is a second call with one of the length that the first told."""
    text = new_buffer(text_len)
    with Held(text) as pair:
        report = library.tbson_differences(old, len(old), new, len(new), *pair)
    if report.text_needed > text_len:
        return _texts(old, new, report.text_needed)
    said = text[: report.text_written].decode()
    if report.status not in (Status.DONE, Status.DIFFERENT):
        raise failure(report.status, said, report.place)
    return said
