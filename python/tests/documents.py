"""Documents in bytes, made by hand after bsonspec.org, so that what the tests expect comes from the format."""

import struct


def document(*elements: bytes) -> bytes:
    """A document: its length, its elements and a zero byte."""
    body = b"".join(elements)
    return struct.pack("<i", len(body) + 5) + body + b"\0"


def element(kind: int, key: str, value: bytes = b"") -> bytes:
    return bytes([kind]) + key.encode() + b"\0" + value


def int32(key: str, number: int) -> bytes:
    return element(0x10, key, struct.pack("<i", number))


def int64(key: str, number: int) -> bytes:
    return element(0x12, key, struct.pack("<q", number))


def double(key: str, number: float) -> bytes:
    return element(0x01, key, struct.pack("<d", number))


def text(key: str, value: str) -> bytes:
    encoded = value.encode() + b"\0"
    return element(0x02, key, struct.pack("<i", len(encoded)) + encoded)


def inner(key: str, *elements: bytes) -> bytes:
    """A document inside a document."""
    return element(0x03, key, document(*elements))


def array(key: str, *elements: bytes) -> bytes:
    """An array, of elements whose keys are its indexes."""
    return element(0x04, key, document(*elements))


def binary(key: str, subtype: int, value: bytes) -> bytes:
    return element(0x05, key, struct.pack("<iB", len(value), subtype) + value)


def object_id(key: str, digits: str) -> bytes:
    return element(0x07, key, bytes.fromhex(digits))


def boolean(key: str, value: bool) -> bytes:
    return element(0x08, key, bytes([value]))


def date(key: str, milliseconds: int) -> bytes:
    return element(0x09, key, struct.pack("<q", milliseconds))


def null(key: str) -> bytes:
    return element(0x0A, key)
