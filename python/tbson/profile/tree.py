"""What is at each path of many documents: the kinds of values with counts, and what is inside them."""

from __future__ import annotations

from typing import Dict, Iterator, List, Optional, Tuple

from tbson import elements as kinds
from tbson.profile.values import Values
from tbson.profile.variants import Variants

#: A document with more different keys than these, over all documents, counts as a map: its keys are not told apart any more.
MOST_NAMES = 1000
#: So many keys are told apart until a batch ends.
_MOST_SLOTS = 5 * MOST_NAMES

_TABLED = (kinds.DOUBLE, kinds.STRING, kinds.BOOLEAN, kinds.DATE, kinds.INT32, kinds.INT64, kinds.OBJECT_ID)

# How a value of a kind is walked over: by its size where that is 0 or more, and else so.
TEXT, INNER, OTHER = -1, -2, -3


class Field:
    """A key of a document, or all items of an array: in how many documents it is, and in which one it was first."""

    __slots__ = ("key", "first", "mark", "documents")

    def __init__(self, key: bytes, first: int):
        self.key, self.first = key, first
        self.mark = -1
        self.documents = 0


class Slot:
    """The values of one kind at one path."""

    __slots__ = ("kind", "field", "count", "size", "batch", "values", "group")

    def __init__(self, kind: int, field: Field, with_values: bool):
        self.kind, self.field = kind, field
        self.count = 0
        self.size = kinds.SIZES.get(kind, TEXT if kind == kinds.STRING else INNER if kind in (kinds.DOCUMENT, kinds.ARRAY) else OTHER)
        self.batch: Optional[Dict[bytes, int]] = {} if with_values and kind in _TABLED else None
        self.values = Values(kind)
        self.group = Group(kind == kinds.DOCUMENT, with_values) if self.size == INNER else None

    def end_batch(self) -> None:
        """Adds the batch to the values."""
        if self.batch:
            self.values.add(self.batch)
            self.batch = None if self.kind == kinds.OBJECT_ID and self.values.most is None else {}
        if self.group:
            self.group.end_batch()

    def merge(self, other: Slot) -> None:
        """Adds what another slot of the kind has."""
        self.count += other.count
        self.values.merge(other.values)
        if self.group and other.group:
            self.group.merge(other.group)


class Group:
    """What is inside documents, by their keys, or inside arrays and maps, without telling the keys apart."""

    __slots__ = ("is_named", "with_values", "slots", "fields", "rest", "variants")

    def __init__(self, is_named: bool, with_values: bool):
        self.is_named, self.with_values = is_named, with_values
        #: By the kind's byte and the key, or by the kind's byte alone.
        self.slots: Dict[bytes, Slot] = {}
        self.fields: Dict[bytes, Field] = {}
        #: What is in the batch under keys past the most that are told apart, by kind.
        self.rest: Dict[int, Slot] = {}
        self.variants = Variants()

    def new_slot(self, tag: bytes, document: int) -> Slot:
        """The slot for a tag that has none yet; the document is the number of the one that is walked."""
        kind, key = tag[0], tag[1:]
        if len(self.slots) >= _MOST_SLOTS:
            if kind not in self.rest:
                self.rest[kind] = Slot(kind, Field(b"", document), self.with_values)
            return self.rest[kind]
        field = self.fields.get(key)
        if field is None:
            field = self.fields[key] = Field(key, document)
        slot = self.slots[tag] = Slot(kind, field, self.with_values)
        return slot

    def end_batch(self) -> None:
        """Adds the batch to the values, and gives the keys up where they are too many."""
        for slot in (*self.slots.values(), *self.rest.values()):
            slot.end_batch()
        if self.is_named and (self.rest or len(self.fields) > MOST_NAMES):
            self.forget_names()

    def forget_names(self) -> None:
        """From here on the group is that of a map."""
        others = [*self.slots.values(), *self.rest.values()]
        first = min(slot.field.first for slot in others)
        self.is_named, self.slots, self.fields, self.rest, self.variants = False, {}, {}, {}, Variants()
        for slot in others:
            self._merge_slot(bytes([slot.kind]), slot, first)
        self.fields[b""].documents = max(slot.field.documents for slot in others)

    def _merge_slot(self, tag: bytes, slot: Slot, first: int) -> None:
        mine = self.slots.get(tag) or self.new_slot(tag, first)
        mine.merge(slot)

    def merge(self, other: Group) -> None:
        """Adds what another group has."""
        if self.is_named != other.is_named:
            for group in (self, other):
                if group.is_named and group.slots:
                    group.forget_names()
                group.is_named = False
        for tag, slot in other.slots.items():
            self._merge_slot(tag, slot, slot.field.first)
        for key, field in other.fields.items():
            mine = self.fields[key]
            mine.first, mine.documents = min(mine.first, field.first), mine.documents + field.documents
        self.variants.merge(other.variants)
        if self.is_named and len(self.fields) > MOST_NAMES:
            self.forget_names()

    def by_field(self) -> Iterator[Tuple[Field, List[Slot]]]:
        """The fields in the order in which they came first, each with its slots."""
        slots: Dict[bytes, List[Slot]] = {}
        for slot in self.slots.values():
            slots.setdefault(slot.field.key, []).append(slot)
        for field in sorted(self.fields.values(), key=lambda field: field.first):
            yield field, sorted(slots.get(field.key, []), key=lambda slot: -slot.count)
