"""The shape that documents have in common, over several lines with comments, from what a profile counted.

It is the join of the shapes of all documents, as `bson_infer` makes it: a field has the type of its values, and is optional where a document lacks it or has null.
Int32 and Int64 together are i64, a binary is bytebuf where all have the subtype 0, and values that are unlike are bson.
"""

from __future__ import annotations

from dataclasses import dataclass, field
from typing import Dict, List, Optional

from tbson import elements as kinds
from tbson.notation import name_text
from tbson.profile.maps import looks_like_map
from tbson.profile.tree import Group, Slot

_WORDS = {
    kinds.DOUBLE: "double",
    kinds.STRING: "string",
    kinds.OBJECT_ID: "oid",
    kinds.BOOLEAN: "bool",
    kinds.DATE: "datetime",
    kinds.REGEX: "regex",
    kinds.DB_POINTER: "dbpointer",
    kinds.CODE_WITH_SCOPE: "codews",
    kinds.INT32: "i32",
    kinds.TIMESTAMP: "timestamp",
    kinds.INT64: "i64",
    kinds.DECIMAL128: "decimal",
}
_SOME_NAMES = 3


@dataclass
class Inferred:
    """A shape: what is before its fields and after them, or all of it where it has none, and what is told of it."""

    opening: str
    closing: str = ""
    fields: Dict[str, Inferred] = field(default_factory=dict)
    comments: List[str] = field(default_factory=list)

    def around(self, opening: str, closing: str = "") -> Inferred:
        """The shape inside another one."""
        return Inferred(opening + self.opening, self.closing + closing, self.fields, self.comments)


def _kinds_comment(slots: List[Slot]) -> str:
    return ", ".join(f"{slot.count:,} {kinds.NAMES[slot.kind]}" for slot in slots)


def _leaf(slots: List[Slot]) -> Inferred:
    """The shape of values that are no documents and no arrays, or are unlike."""
    found = {slot.kind for slot in slots}
    if found == {kinds.INT32, kinds.INT64}:
        return Inferred("i64", comments=[_kinds_comment(slots)])
    if found == {kinds.BINARY}:
        subtypes = set(slots[0].values.most or ())
        return Inferred("bytebuf" if subtypes == {b"\0"} else "binary")
    word = _WORDS.get(slots[0].kind) if len(found) == 1 else None
    return Inferred(word) if word else Inferred("bson", comments=[_kinds_comment(slots)])


class Inference:
    """Makes shapes of what was counted."""

    def __init__(self, with_maps: bool):
        self._with_maps = with_maps

    def whole(self, slot: Slot) -> Inferred:
        """The shape of all documents."""
        return self._document(slot)

    def _of(self, slots: List[Slot], missing: int) -> Inferred:
        """The shape of the values at a path, of which so many are missing."""
        nulls = sum(slot.count for slot in slots if slot.kind == kinds.NULL)
        others = [slot for slot in slots if slot.kind != kinds.NULL and slot.count]
        made = self._value(others) if others else Inferred("unit")
        is_optional = missing > 0 or (nulls > 0 and made.opening not in ("bson", "unit"))
        if nulls and others:
            made.comments.append(f"null in {nulls:,}")
        return made.around("?") if is_optional else made

    def _value(self, slots: List[Slot]) -> Inferred:
        found = {slot.kind for slot in slots}
        if found == {kinds.DOCUMENT}:
            return self._document(slots[0])
        if found == {kinds.ARRAY}:
            return self._array(slots[0])
        return _leaf(slots)

    def _array(self, slot: Slot) -> Inferred:
        items = list(slot.group.slots.values()) if slot.group else []
        return self._of(items, 0).around("[", "]") if items else Inferred("[<>]", comments=["all are empty"])

    def _document(self, slot: Slot) -> Inferred:
        group = slot.group or Group(True, False)
        if looks_like_map(group, slot.count):
            if self._with_maps or not group.is_named:
                return self._map(group)
            return self._struct(group, slot.count, [f"looks like a map of {len(group.fields):,} keys: see --maps"])
        return self._struct(group, slot.count, [])

    def _map(self, group: Group) -> Inferred:
        comment = "a map of very many keys"
        if group.is_named:
            names = [field.key.decode() for field, _ in group.by_field()]
            comment = f"a map of {len(names):,} keys, such as {', '.join(map(name_text, names[:_SOME_NAMES]))}"
            group.forget_names()
        values = sorted(group.slots.values(), key=lambda slot: -slot.count)
        made = self._of(values, 0).around("[string:", "]")
        made.comments.insert(0, comment)
        return made

    def _struct(self, group: Group, count: int, comments: List[str]) -> Inferred:
        fields: Dict[str, Inferred] = {}
        for inner, slots in group.by_field():
            there = sum(slot.count for slot in slots)
            made = self._of(slots, count - there)
            if there < count:
                made.comments.insert(0, f"{count - there:,} of {count:,} {'lacks' if count - there == 1 else 'lack'} it")
            fields[inner.key.decode()] = made
        return Inferred("{", "}", fields, comments)


def _comment(inferred: Inferred) -> str:
    told = "; ".join(inferred.comments)
    return "".join(one if one.isprintable() else f"\\x{ord(one):02x}" for one in told)


def _line(text: str, comment: str) -> str:
    return f"{text}  # {comment}" if comment else text


def lines_of(inferred: Inferred, before: str = "", after: str = "", depth: int = 0, told: Optional[str] = None) -> List[str]:
    """The lines of a shape, with what is before it in its first line and after it in its last."""
    indent, comment = "  " * depth, _comment(inferred) if told is None else told
    if not inferred.fields:
        return [_line(f"{indent}{before}{inferred.opening}{inferred.closing}{after}", comment)]
    lines = [_line(f"{indent}{before}{inferred.opening}", comment)]
    last = len(inferred.fields) - 1
    for place, (name, made) in enumerate(inferred.fields.items()):
        lines += lines_of(made, f"{name_text(name)}: ", "," if place < last else "", depth + 1)
    return [*lines, f"{indent}{inferred.closing}{after}"]


def notation_of_inferred(inferred: Inferred) -> str:
    """The shape in one line."""
    inside = ",".join(f"{name_text(name)}:{notation_of_inferred(made)}" for name, made in inferred.fields.items())
    return inferred.opening + inside + inferred.closing
