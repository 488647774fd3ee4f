"""Walks over documents in their bytes, and counts what is at each path. The bytes have no fault."""

from __future__ import annotations

from struct import Struct
from typing import Dict, List

from tbson import elements as kinds
from tbson.elements import Element, elements, value_end
from tbson.profile.tree import INNER, TEXT, Group, Slot
from tbson.profile.values import LONGEST_KEPT
from tbson.profile.variants import LONGEST_NAME

#: So many values of a batch are told apart before they go into the table.
_MOST_IN_BATCH = 4096

_length_at = Struct("<i").unpack_from


def walk(data: bytes, place: int, end: int, group: Group, document: int, in_array: bool) -> int:
    """Counts the elements from the place up to the end, and returns how many they are. The document is its number in the file.

    It is one function, since a call for each element would take as long as all the rest.
    """
    slots, is_named, count = group.slots, group.is_named, 0
    while place < end:
        zero = data.index(0, place + 1)
        tag = data[place : zero if is_named else place + 1]
        slot = slots.get(tag) or group.new_slot(tag, document)
        slot.count += 1
        count += 1
        place, size = zero + 1, slot.size
        if in_array and slot.field.mark != document:
            slot.field.mark = document
            slot.field.documents += 1
        if size < 0:
            place = _walk_long(data, place, slot, document, in_array)
            continue
        if slot.batch is not None:
            value = data[place : place + size]
            times = slot.batch.get(value)
            slot.batch[value] = times + 1 if times else 1
            if not times and len(slot.batch) > _MOST_IN_BATCH:
                slot.end_batch()
        place += size
    return count


def _walk_long(data: bytes, place: int, slot: Slot, document: int, in_array: bool) -> int:
    """Counts a value whose length is in its bytes, or that is none of a simple kind. Returns where it ends."""
    if slot.size == TEXT:
        length = _length_at(data, place)[0]
        if slot.batch is not None:
            _count_text(data, place, length, slot)
        return place + 4 + int(length)
    if slot.size == INNER and slot.group:
        end = place + int(_length_at(data, place)[0])
        is_array = slot.kind == kinds.ARRAY
        count = walk(data, place + 4, end - 1, slot.group, document, in_array or is_array or not slot.group.is_named)
        slot.values.add_lengths(count, count, count, 1)
        return end
    end = value_end(data, slot.kind, place)
    if slot.kind == kinds.BINARY:
        _count_binary(data, place, slot)
    return end


def _count_text(data: bytes, place: int, length: int, slot: Slot) -> None:
    if length > LONGEST_KEPT:
        slot.values.add_lengths(length - 1, length - 1, length - 1, 1)
        return
    batch: Dict[bytes, int] = slot.batch  # type: ignore[assignment]
    value = data[place + 4 : place + 3 + length]
    batch[value] = batch.get(value, 0) + 1
    if len(batch) > _MOST_IN_BATCH:
        slot.end_batch()


def _count_binary(data: bytes, place: int, slot: Slot) -> None:
    """Counts a binary: its length, and its subtype as the value."""
    length = int(_length_at(data, place)[0])
    slot.values.add_lengths(length, length, length, 1)
    slot.values.add({data[place + 4 : place + 5]: 1})


def sample(data: bytes, place: int, group: Group) -> None:
    """Adds a document, and those inside it, to the sample by which variants are told apart."""
    names: List[bytes] = []
    texts: Dict[bytes, bytes] = {}
    for element in elements(data, place):
        names.append(element.key)
        if element.kind == kinds.STRING and element.end - element.start <= LONGEST_NAME:
            texts[element.key] = data[element.start + 4 : element.end - 1]
        elif element.kind in (kinds.DOCUMENT, kinds.ARRAY):
            _sample_inside(data, element, group)
    if group.is_named:
        group.variants.add(names, texts)


def _sample_inside(data: bytes, element: Element, group: Group) -> None:
    key = element.key if group.is_named else b""
    slot = group.slots.get(bytes([element.kind]) + key)
    if slot is None or slot.group is None:
        return
    if element.kind == kinds.DOCUMENT:
        sample(data, element.start, slot.group)
        return
    items = slot.group.slots.get(bytes([kinds.DOCUMENT]))
    if items and items.group:
        for item in elements(data, element.start):
            if item.kind == kinds.DOCUMENT:
                sample(data, item.start, items.group)
