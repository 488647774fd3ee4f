"""A shape that a person wrote, and what is told where it is refused: the line, a caret under the place, what was expected, and the nearest word."""

from __future__ import annotations

import difflib
import re
from typing import List, NamedTuple, Optional

from tbson.errors import ShapeRefused
from tbson.form import A_TYPE, WORDS, Reader, Unexpected, form_of
from tbson.notation import joined, name_text
from tbson.shape import Shape

# Words that people write for types of the notation, and what they are there.
_OTHER_WORDS = {
    "array": "`[s]`, of what its items are",
    "boolean": "`bool`",
    "byte": "`u8`",
    "date": "`datetime`",
    "dbref": "`document`",
    "decimal128": "`decimal`",
    "dict": "`[string:s]`, of what its values are",
    "enum": "`<A,B>`, with its variants",
    "float": "`double`",
    "f32": "`double`",
    "f64": "`double`",
    "id": "`oid`",
    "int": "`i32` or `i64`",
    "int32": "`i32`",
    "int64": "`i64`",
    "integer": "`i32` or `i64`",
    "list": "`[s]`, of what its items are",
    "long": "`i64`",
    "map": "`[string:s]`, of what its values are",
    "null": "`unit`",
    "number": "`double` or `i64`",
    "object": "`document`",
    "objectid": "`oid`",
    "regexp": "`regex`",
    "short": "`i16`",
    "text": "`string`",
    "varchar": "`string`",
}

# What may stand in a notation outside quotes, and its end.
_IN_NOTATION = re.compile(r"""[A-Za-z0-9_{}\[\]()<>,:=!?~^%&@"]|$""")


class ShapeText(NamedTuple):
    """A shape as it was written, and where: the name of a file, or None of one that was given as a word."""

    text: str
    file: Optional[str] = None


class ShapeTextRefused(ValueError):
    """The text is no shape. As a text it has three lines: the place and the reason, the line, and the caret."""


class _Wrong(NamedTuple):
    """A stretch of the notation, and what is wrong there."""

    start: int
    end: int
    reason: str


def _nearest(word: str) -> str:
    """What the word may have been meant for."""
    other = _OTHER_WORDS.get(word.lower())
    near = [other] if other else [f"`{one}`" for one in difflib.get_close_matches(word.lower(), WORDS, n=1, cutoff=0.6)]
    return f": did you mean {near[0]}?" if near else ""


def _wrong_word(notation: str, place: int) -> Optional[_Wrong]:
    """The word that ends at the place, where it stands for a type and is none."""
    word = re.search(r"[A-Za-z_][A-Za-z0-9_]*$", notation[:place])
    return _Wrong(word.start(), place, f"`{word[0]}` is no type{_nearest(word[0])}") if word else None


def _unexpected(notation: str, place: int) -> _Wrong:
    """What is wrong where a text is no shape from the place on."""
    wrong = _Wrong(place, place + 1, "not a shape")
    try:
        form_of(notation)
    except Unexpected as unexpected:
        if unexpected.place == place:
            found = f"`{notation[place]}`" if place < len(notation) else "the end"
            quotes = "" if _IN_NOTATION.match(notation, place) else "; a name with other characters than letters, digits and `_` is put between double quotes"
            wrong = wrong._replace(reason=f"expected {unexpected.expected}, and found {found}{quotes}")
            if unexpected.expected == A_TYPE:
                return _wrong_word(notation, place) or wrong
    return wrong


def _repeated(notation: str, place: int) -> Optional[_Wrong]:
    """The first name that is there twice in the part that begins at the place."""
    reader = Reader(notation, place)
    reader.form()
    first = min(reader.repeated, default=None)
    return first and _Wrong(first[0], first[0] + len(name_text(first[1])), f"the name {first[1]} is there twice")


def _wrong(notation: str, refused: ShapeRefused) -> _Wrong:
    place = len(notation.encode()[: refused.place].decode(errors="ignore"))
    if refused.cause == "not a shape":
        return _unexpected(notation, place)
    return (refused.cause == "repeated name" and _repeated(notation, place)) or _Wrong(place, place + 1, refused.cause)


def _gap(notation: str, places: List[int]) -> Optional[_Wrong]:
    """Where two words would become one, since only blanks are between them."""
    for place in range(1, len(notation)):
        if places[place] > places[place - 1] + 1 and re.fullmatch(r"[A-Za-z0-9_]{2}", notation[place - 1 : place + 1]):
            return _Wrong(place, place + 1, "expected `,` or `:` between two words")
    return None


def _message(source: ShapeText, places: List[int], wrong: _Wrong) -> str:
    """The reason with its place, the line, and the caret under it."""
    start = places[min(wrong.start, len(places) - 1)]
    before, after = source.text[:start], source.text[start:]
    begin = before.rfind("\n") + 1
    line = before[begin:] + after.split("\n", 1)[0]
    column, number = start - begin, before.count("\n") + 1
    where = f"{source.file}:{number}:{column + 1}" if source.file else f"the shape, at character {column + 1}"
    carets = "^" * max(1, min(wrong.end - wrong.start, len(line) - column))
    return f"{where}: {wrong.reason}\n  {line}\n  " + re.sub(r"[^\t]", " ", line[:column]) + carets


def shape_of_text(source: ShapeText) -> Shape:
    """The shape that a person wrote, with line breaks, blanks and comments. Raises ShapeTextRefused."""
    notation, places = joined(source.text)
    gap = _gap(notation, places)
    if gap:
        raise ShapeTextRefused(_message(source, places, gap))
    try:
        return Shape(notation)
    except ShapeRefused as refused:
        raise ShapeTextRefused(_message(source, places, _wrong(notation, refused))) from refused
