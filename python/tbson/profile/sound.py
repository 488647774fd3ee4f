"""Which documents of a part are damaged, and which of the others are not sound: the library tells the first, and proves most of the second away."""

from __future__ import annotations

import re
from struct import unpack_from
from typing import Dict, Optional, Set

from tbson import elements as kinds
from tbson.core import check_file, documents, migrate, recast
from tbson.elements import Element, elements
from tbson.errors import Refused

#: At this shape every document without a fault is read, and nothing of it is written.
NOTHING = b"{}"
# At this one a document is written as it is, unless it has a key twice, represents another value, or has options of a regular expression out of order.
_EVERYTHING = b"[string:bson]"

# A kind and a key that begins with a dollar sign; it may also stand inside a value.
_DOLLAR = re.compile(rb"[\x01-\x13\x7f\xff]\$")


def damaged(data: bytes) -> Dict[int, str]:
    """The damaged documents of a part, by the places where they begin, with what is wrong."""
    return {one.offset or 0: one.text for one in check_file(NOTHING, data)}


def _unsound_keys(document: bytes, start: int = 0, path: str = "") -> Optional[str]:
    """What is wrong with the first key that a sound document has not: one that begins with a dollar sign, or is there twice."""
    seen: Set[bytes] = set()
    for element in elements(document, start):
        here = path + element.key.decode()
        if element.key.startswith(b"$"):
            return f"error at {here}: a key begins with $"
        if element.key in seen:
            return f"error at {here}: the key is there twice"
        seen.add(element.key)
        inner = _inner_document(document, element)
        wrong = inner and _unsound_keys(document, inner, f"{here}.")
        if wrong:
            return wrong
    return None


def _inner_document(data: bytes, element: Element) -> Optional[int]:
    """Where the document begins that a value is, or the array, or the scope of code."""
    if element.kind in (kinds.DOCUMENT, kinds.ARRAY):
        return element.start
    if element.kind == kinds.CODE_WITH_SCOPE:
        return element.start + 8 + int(unpack_from("<i", data, element.start + 4)[0])
    return None


def _is_changed(document: bytes) -> bool:
    """Whether the document is not written as it is where each of its values is."""
    try:
        return recast(_EVERYTHING, document) != document
    except Refused:
        return True


def unsound(data: bytes) -> Dict[int, str]:
    """The documents of a part that are damaged or not sound, by the places where they begin, with what is wrong."""
    output, refused = migrate(_EVERYTHING, data)
    found = {one.offset or 0: one.text for one in refused}
    are_as_written = output == data
    place = 0
    for document in documents(data, into=bytes):
        if place not in found and (_DOLLAR.search(document) or not are_as_written and _is_changed(document)):
            wrong = _unsound_keys(document)
            if wrong:
                found[place] = wrong
        place += len(document)
    return found
