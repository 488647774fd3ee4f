"""Shapes that were checked."""

from __future__ import annotations

from typing import Tuple, Union

from tbson._buffers import Held, give_back, take_scratch
from tbson._library import library
from tbson.errors import Status, failure


class Shape:
    """A shape, such as Shape("{name:string,age:i64}"). It is checked where it is made, which raises ShapeRefused, and is taken wherever a shape is."""

    __slots__ = ("_notation",)

    def __init__(self, text: Union[str, bytes]):
        self._notation = text.encode() if isinstance(text, str) else bytes(text)
        check_notation(self._notation)

    @property
    def text(self) -> str:
        """The notation, as it was given."""
        return self._notation.decode()

    def __str__(self) -> str:
        return self.text

    def __repr__(self) -> str:
        return f"Shape({self.text!r})"

    def __eq__(self, other: object) -> bool:
        return isinstance(other, Shape) and self._notation == other._notation

    def __hash__(self) -> int:
        return hash(self._notation)

    def __reduce__(self) -> Tuple[type, Tuple[bytes]]:
        return Shape, (self._notation,)


#: What is taken as a shape: its notation, or one that was checked.
ShapeLike = Union[str, bytes, Shape]


def notation_of(shape: ShapeLike) -> bytes:
    """The UTF-8 of a shape's notation."""
    if isinstance(shape, str):
        return shape.encode()
    return shape if isinstance(shape, bytes) else shape._notation


def check_notation(notation: bytes) -> None:
    """Raises ShapeRefused where the bytes are no shape."""
    scratch = take_scratch()
    try:
        with Held(notation) as pair:
            report = library.tbson_check_shape(*pair, scratch.addresses[1], scratch.LENGTH)
        if report.status != Status.DONE:
            raise failure(report.status, scratch.text[: report.text_written].decode(), report.place)
    finally:
        give_back(scratch)
