"""A profile as rows, one for each path, for people and for JSON."""

from __future__ import annotations

import datetime
import math
from dataclasses import dataclass, field
from typing import Any, Dict, Iterator, List, Optional, Tuple, Union

from tbson import elements as kinds
from tbson.profile.maps import looks_like_map
from tbson.profile.run import Profile
from tbson.profile.tree import Field, Group, Slot
from tbson.profile.values import Number, number_of

#: So many of the most frequent values are told.
MOST_FREQUENT = 10
_SOME_NAMES = 5
_EPOCH = datetime.datetime(1970, 1, 1)

Shown = Union[str, int, float, bool]


@dataclass
class KindRow:
    """The values of one kind at a path.

    frequent          the most frequent values, each with how often it is there at least
    distinct          how many different values there are; None where they are too many for the table
    least, greatest   of numbers, and of dates
    shortest, longest, mean_length   the bytes of texts and binaries, the items of arrays, the fields of documents
    """

    kind: str
    count: int
    frequent: List[Tuple[Shown, int]] = field(default_factory=list)
    distinct: Optional[int] = None
    least: Optional[Shown] = None
    greatest: Optional[Shown] = None
    shortest: Optional[int] = None
    longest: Optional[int] = None
    mean_length: Optional[float] = None


@dataclass
class PathRow:
    """What is at a path.

    documents   how many documents have the path; None of the keys of a map
    values      how many values are there, in all documents
    missing     how many of the documents around it lack the field; None of items of arrays and of keys of maps
    null        how many of the values are null
    map_keys    some keys, where they look like those of a map, and how many different ones there are; None of these where they were too many
    variants    where a field tells variants apart: its name, and for each value in how many documents of a sample it is, and which fields only these have
    """

    path: str
    documents: Optional[int]
    values: int
    missing: Optional[int]
    null: int
    kinds: List[KindRow]
    map_keys: Optional[List[str]] = None
    map_key_count: Optional[int] = None
    variants: Optional[Dict[str, Any]] = None


def date_text(milliseconds: Union[int, float]) -> str:
    """The time in ISO 8601, or the milliseconds where the year is not one of 1 to 9999."""
    try:
        return (_EPOCH + datetime.timedelta(milliseconds=milliseconds)).isoformat(timespec="milliseconds").replace(".000", "") + "Z"
    except OverflowError:
        return f"{milliseconds} ms"


def _shown(kind: int, value: bytes) -> Shown:
    """A value of the table."""
    if kind == kinds.OBJECT_ID:
        return value.hex()
    if kind == kinds.BOOLEAN:
        return value != b"\0"
    if kind == kinds.BINARY:
        return f"subtype {value[0]}"
    number = number_of(kind, value)
    return value.decode(errors="replace") if number is None else _number(kind, number)


def _number(kind: int, number: Number) -> Shown:
    """A number: a date as a text, and one that JSON does not have by its name."""
    if kind == kinds.DATE:
        return date_text(number)
    return number if math.isfinite(number) else {"inf": "Infinity", "-inf": "-Infinity"}.get(repr(number), "NaN")


def _kind_row(slot: Slot) -> KindRow:
    values = slot.values
    row = KindRow(kinds.NAMES[slot.kind], slot.count)
    if values.tabled:
        row.frequent = [(_shown(slot.kind, value), count) for value, count in values.frequent(MOST_FREQUENT)]
        row.distinct = values.distinct
    if values.least is not None and values.greatest is not None:
        row.least, row.greatest = _number(slot.kind, values.least), _number(slot.kind, values.greatest)
    if values.shortest is not None:
        row.shortest, row.longest, row.mean_length = values.shortest, values.longest, round(values.total_length / values.measured, 1)
    return row


def _path(around: str, name: str) -> str:
    return f"{around}.{name}" if around and name != "[*]" else around + name


class _Rows:
    """Makes the rows of a tree."""

    def __init__(self) -> None:
        self.rows: List[PathRow] = []

    def add_inside(self, row: PathRow, slot: Slot, in_array: bool) -> None:
        """Adds what is inside the documents, or the arrays, of a slot whose path has that row."""
        group = slot.group
        if group is None:
            return
        if slot.kind == kinds.DOCUMENT and looks_like_map(group, slot.count):
            self._tell_map(row, group)
        told = group.variants.told()
        if told:
            row.variants = {
                "field": told.field.decode(errors="replace"),
                "values": [{"value": one.value.decode(errors="replace"), "sampled": one.documents, "fields": _texts(one.fields)} for one in told.variants],
            }
        for inner, slots in group.by_field():
            if slots:
                self._add(row.path, group, inner, slots, slot, in_array or slot.kind == kinds.ARRAY)

    def _tell_map(self, row: PathRow, group: Group) -> None:
        if group.is_named:
            row.map_key_count = len(group.fields)
            row.map_keys = _texts([field.key for field, _ in group.by_field()][:_SOME_NAMES])
            group.forget_names()
        else:
            row.map_keys = []

    def _add(self, around: str, group: Group, inner: Field, slots: List[Slot], outer: Slot, in_array: bool) -> None:
        name = inner.key.decode(errors="replace") if group.is_named else "[*]" if outer.kind == kinds.ARRAY else "*"
        count = sum(slot.count for slot in slots)
        documents = None if name == "*" and not group.is_named else inner.documents if in_array else count
        row = PathRow(
            path=_path(around, name),
            documents=documents,
            values=count,
            missing=max(0, outer.count - count) if group.is_named else None,
            null=sum(slot.count for slot in slots if slot.kind == kinds.NULL),
            kinds=[_kind_row(slot) for slot in slots if slot.kind != kinds.NULL],
        )
        self.rows.append(row)
        for slot in slots:
            self.add_inside(row, slot, in_array or documents is None)


def _texts(names: List[bytes]) -> List[str]:
    return [name.decode(errors="replace") for name in names]


def rows_of(profile: Profile) -> List[PathRow]:
    """The rows of the profile: the first is that of the whole documents, with an empty path. Documents that look like maps become maps in it."""
    rows = _Rows()
    whole = profile.whole
    first = PathRow("", whole.count, whole.count, None, 0, [_kind_row(whole)])
    rows.rows.append(first)
    rows.add_inside(first, whole, False)
    return rows.rows


def _plain(value: Any) -> Iterator[Tuple[str, Any]]:
    """What a row has, without what is not there."""
    for name, part in vars(value).items():
        if part is None or part == []:
            continue
        if name == "kinds":
            part = [dict(_plain(kind)) for kind in part]
        elif name == "frequent":
            part = [{"value": shown, "count": count} for shown, count in part]
        yield name, part


def json_of_profile(profile: Profile, files: List[str]) -> Dict[str, Any]:
    """The profile as what json.dumps takes."""
    return {
        "files": files,
        "documents": profile.documents,
        "bytes": profile.size,
        "damaged": profile.passed_over,
        "first_damaged": [{"file": wrong.file, "index": wrong.index, "cause": wrong.text} for wrong in profile.told],
        "paths": [dict(_plain(row)) for row in rows_of(profile)],
    }
