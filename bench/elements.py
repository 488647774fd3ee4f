"""Documents as bytes, after bsonspec.org, for the programs beside this file."""
import struct


def document(elements):
    body = b"".join(elements)
    return struct.pack("<i", len(body) + 5) + body + b"\0"


def element(kind, key, value):
    return bytes([kind]) + key.encode() + b"\0" + value


def int32(key, number):
    return element(0x10, key, struct.pack("<i", number))


def string(value):
    data = value.encode()
    return struct.pack("<i", len(data) + 1) + data + b"\0"


def text(key, value):
    return element(0x02, key, string(value))


def array(values):
    return document(element(kind, str(i), value) for i, (kind, value) in enumerate(values))


def binary(subtype, data):
    return struct.pack("<i", len(data)) + bytes([subtype]) + data
