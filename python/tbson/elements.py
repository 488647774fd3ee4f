"""The elements of a document in its bytes, after bsonspec.org, version 1.1. The bytes have no fault: whether they have one, the library tells."""

from __future__ import annotations

from struct import unpack_from
from typing import Iterator, NamedTuple, Optional

DOUBLE, STRING, DOCUMENT, ARRAY, BINARY, UNDEFINED, OBJECT_ID, BOOLEAN, DATE, NULL, REGEX, DB_POINTER, CODE, SYMBOL, CODE_WITH_SCOPE = range(1, 16)
INT32, TIMESTAMP, INT64, DECIMAL128, MAX_KEY, MIN_KEY = 0x10, 0x11, 0x12, 0x13, 0x7F, 0xFF

#: How many bytes a value takes, of the kinds whose values all take as many.
SIZES = {DOUBLE: 8, UNDEFINED: 0, OBJECT_ID: 12, BOOLEAN: 1, DATE: 8, NULL: 0, INT32: 4, TIMESTAMP: 8, INT64: 8, DECIMAL128: 16, MAX_KEY: 0, MIN_KEY: 0}

#: The name of each kind.
NAMES = {
    DOUBLE: "double",
    STRING: "string",
    DOCUMENT: "document",
    ARRAY: "array",
    BINARY: "binary",
    UNDEFINED: "undefined",
    OBJECT_ID: "objectId",
    BOOLEAN: "bool",
    DATE: "date",
    NULL: "null",
    REGEX: "regex",
    DB_POINTER: "dbPointer",
    CODE: "javascript",
    SYMBOL: "symbol",
    CODE_WITH_SCOPE: "javascriptWithScope",
    INT32: "int32",
    TIMESTAMP: "timestamp",
    INT64: "int64",
    DECIMAL128: "decimal128",
    MAX_KEY: "maxKey",
    MIN_KEY: "minKey",
}

# What a value takes besides the length that it begins with.
_BESIDES = {STRING: 4, CODE: 4, SYMBOL: 4, BINARY: 5, DB_POINTER: 16, DOCUMENT: 0, ARRAY: 0, CODE_WITH_SCOPE: 0}


class Element(NamedTuple):
    """An element: its kind, its key, and its value from one place up to another."""

    kind: int
    key: bytes
    start: int
    end: int


def value_end(data: bytes, kind: int, start: int) -> int:
    """Where the value ends that begins at the place. Raises ValueError where the kind is none."""
    if kind in SIZES:
        return start + SIZES[kind]
    if kind in _BESIDES:
        return start + int(unpack_from("<i", data, start)[0]) + _BESIDES[kind]
    if kind == REGEX:
        return data.index(0, data.index(0, start) + 1) + 1
    raise ValueError(f"unknown kind {kind}")


def elements(data: bytes, start: int = 0) -> Iterator[Element]:
    """The elements of the document, or of the array, that begins at the place."""
    end = start + int(unpack_from("<i", data, start)[0]) - 1
    place = start + 4
    while place < end:
        kind, zero = data[place], data.index(0, place + 1)
        value = zero + 1
        place, key = value_end(data, kind, value), data[place + 1 : zero]
        yield Element(kind, key, value, place)


def find(data: bytes, key: bytes) -> Optional[Element]:
    """The first element of the document with that key."""
    return next((element for element in elements(data) if element.key == key), None)
