"""Whether the keys of documents look like those of a map: many names, values of one kind."""

from __future__ import annotations

import re
from typing import List

from tbson import elements as kinds
from tbson.profile.tree import Group, Slot

#: A map has so many different keys at least.
FEWEST_NAMES = 20
#: Of these a document has at most this share on average, unless all keys look like keys of a map.
_MOST_PRESENT = 0.5

# Numbers, dates, ids and the like.
_KEY_OF_MAP = re.compile(rb"[0-9][0-9:./T-]*|[0-9a-f]{8,}|[0-9a-fA-F]{8}(?:-[0-9a-fA-F]{4}){3}-[0-9a-fA-F]{12}|[a-z]{2}[-_][A-Z]{2}")

_INTEGERS = {kinds.INT32, kinds.INT64}


def kind_set(slots: List[Slot]) -> set[int]:
    """The kinds of the values, null apart, and both widths of integers as one."""
    found = {slot.kind for slot in slots if slot.count} - {kinds.NULL}
    return found - {kinds.INT32} | {kinds.INT64} if found & _INTEGERS else found


def looks_like_map(group: Group, documents: int) -> bool:
    """Whether the keys of so many documents look like those of a map."""
    if not group.is_named:
        return True
    if len(group.fields) < FEWEST_NAMES or not documents:
        return False
    slots = list(group.slots.values())
    is_sparse = sum(slot.count for slot in slots) <= _MOST_PRESENT * documents * len(group.fields)
    return len(kind_set(slots)) == 1 and (is_sparse or all(_KEY_OF_MAP.fullmatch(key) for key in group.fields))
