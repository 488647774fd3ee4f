#!/usr/bin/env python3
"""Shows BSON documents as text, a line for each, and makes documents from such text.

    python3 tools/documents.py show < dump.bson         # {name: "Ada", age: 36}
    python3 tools/documents.py make < lines > dump.bson

A document is written as JSON; a name needs quotes only where it is not a letter, `_` or `$` and then letters, digits, `_` and `$`. Each type but the
eight that JSON can tell apart has its name before it, so that an ObjectId and the document {"$oid": ".."} differ:

    String, Document, Array      "text", {..}, [..]
    Int32, Double                36, 36.0; NaN, Infinity, -Infinity
    Boolean, Null                true, false, null
    Int64                        Int64(36)
    ObjectId                     ObjectId("507f1f77bcf86cd799439011")
    DateTime                     DateTime("2026-11-28T20:00:00.000Z"), or the milliseconds since 1970: DateTime(-1)
    Binary                       Binary(0, "00ff"), its subtype and its bytes
    Timestamp                    Timestamp(1, 2), its time and its increment
    RegularExpression            RegularExpression("^a", "i")
    JavaScriptCode               JavaScriptCode("f()"); with a scope JavaScriptCode("f()", {x: 1})
    Symbol                       Symbol("s")
    DbPointer                    DbPointer("db.names", "507f1f77bcf86cd799439011")
    Decimal128                   Decimal128("0100000000000000000000000000403030"), its sixteen bytes as they are in the document
    Undefined, MinKey, MaxKey    Undefined(), MinKey(), MaxKey()

`show` prints a document that is no BSON as a line that begins with `!`, and ends with status 1. It is for looking at documents: it checks no more than it
needs, and shows ill-formed UTF-8 with backslashes.
"""
import datetime
import json
import re
import signal
import struct
import sys

from cut_documents import documents

EPOCH = datetime.datetime(1970, 1, 1)
NAME = r"[A-Za-z_$][A-Za-z0-9_$]*"
WORDS = {"true": (8, b"\1"), "false": (8, b"\0"), "null": (10, b"")}
DOUBLES = {"NaN": "nan", "Infinity": "inf", "-Infinity": "-inf"}
EMPTY = {0x06: "Undefined()", 0x0A: "null", 0xFF: "MinKey()", 0x7F: "MaxKey()"}


# ---- documents as text

def quoted(text):
    """The text between double quotes, with all that does not print as an escape."""
    plain = json.dumps(text, ensure_ascii=False)
    return "".join(c if c.isprintable() else json.dumps(c)[1:-1] for c in plain)


def date_text(millis):
    try:
        date = EPOCH + datetime.timedelta(milliseconds=millis)
    except OverflowError:
        return f"DateTime({millis})"
    return f'DateTime("{date.isoformat(timespec="milliseconds")}Z")'


def double_text(number):
    return {"nan": "NaN", "inf": "Infinity", "-inf": "-Infinity"}.get(repr(number), repr(number))


class Reader:
    """Takes values from the front of bytes. What is not there is a ValueError or a struct.error."""

    def __init__(self, data):
        self.data, self.place = data, 0

    def take(self, count):
        if count < 0 or count > len(self.data) - self.place:
            raise ValueError(f"value out of bounds at byte {self.place}")
        self.place += count
        return self.data[self.place - count : self.place]

    def number(self, form):
        return struct.unpack("<" + form, self.take(struct.calcsize(form)))[0]

    def name(self):
        end = self.data.find(b"\0", self.place)
        if end < 0:
            raise ValueError(f"key not closed at byte {self.place}")
        return self.take(end + 1 - self.place)[:-1].decode(errors="backslashreplace")

    def string(self):
        return self.take(self.number("i"))[:-1].decode(errors="backslashreplace")

    def inner(self):
        """The bytes of a document."""
        length = self.number("i")
        self.place -= 4
        return self.take(length)

    def binary(self):
        length, subtype = self.number("i"), self.number("B")
        data = self.take(length)
        return f'Binary({subtype}, "{(data[4:] if subtype == 2 else data).hex()}")'

    def code(self):
        self.number("i")
        return f"JavaScriptCode({quoted(self.string())}, {text_of(self.inner())})"

    def value(self, kind):
        """The text of the value of a kind."""
        if kind in EMPTY:
            return EMPTY[kind]
        if kind not in VALUES:
            raise ValueError(f"unknown kind {kind} at byte {self.place}")
        return VALUES[kind](self)


VALUES = {
    0x01: lambda of: double_text(of.number("d")),
    0x02: lambda of: quoted(of.string()),
    0x03: lambda of: text_of(of.inner()),
    0x04: lambda of: "[" + ", ".join(text for _, text in elements(of.inner())) + "]",
    0x05: Reader.binary,
    0x07: lambda of: f'ObjectId("{of.take(12).hex()}")',
    0x08: lambda of: {0: "false", 1: "true"}[of.number("B")],
    0x09: lambda of: date_text(of.number("q")),
    0x0B: lambda of: f"RegularExpression({quoted(of.name())}, {quoted(of.name())})",
    0x0C: lambda of: f'DbPointer({quoted(of.string())}, "{of.take(12).hex()}")',
    0x0D: lambda of: f"JavaScriptCode({quoted(of.string())})",
    0x0E: lambda of: f"Symbol({quoted(of.string())})",
    0x0F: Reader.code,
    0x10: lambda of: str(of.number("i")),
    0x11: lambda of: "Timestamp({1}, {0})".format(of.number("I"), of.number("I")),
    0x12: lambda of: f"Int64({of.number('q')})",
    0x13: lambda of: f'Decimal128("{of.take(16).hex()}")',
}


def elements(document):
    """The name and the text of each element of a document."""
    reader = Reader(document[:-1])
    reader.take(4)
    while reader.place < len(reader.data):
        kind, name = reader.number("B"), reader.name()
        try:
            yield name, reader.value(kind)
        except KeyError:
            raise ValueError(f"bad boolean before byte {reader.place}") from None


def text_of(document):
    """The text of a document. One that is no BSON is a ValueError, one too deep for Python a RecursionError."""
    return "{" + ", ".join(f"{name if re.fullmatch(NAME, name) else quoted(name)}: {text}" for name, text in elements(document)) + "}"


# ---- text as documents

TOKEN = re.compile(rf'\s*("(?:[^"\\]|\\.)*"|-?\d+(?:\.\d+)?(?:[eE][-+]?\d+)?|-?Infinity|{NAME}|[^\s])')


def string(text):
    data = text.encode()
    return struct.pack("<i", len(data) + 1) + data + b"\0"


def name_bytes(name):
    if "\0" in name:
        raise ValueError("a name and a regular expression hold no zero character")
    return name.encode() + b"\0"


def document_of(pairs):
    body = b"".join(bytes([kind]) + name_bytes(name) + value for name, (kind, value) in pairs)
    return struct.pack("<i", len(body) + 5) + body + b"\0"


def identifier(digits):
    if len(digits) != 24:
        raise ValueError(f"no 24 hexadecimal digits: {digits}")
    return bytes.fromhex(digits)


def date(value):
    if isinstance(value, str):
        value = (datetime.datetime.strptime(value, "%Y-%m-%dT%H:%M:%S.%fZ") - EPOCH) // datetime.timedelta(milliseconds=1)
    return struct.pack("<q", value)


def binary(subtype, digits):
    data = bytes.fromhex(digits)
    inner = struct.pack("<i", len(data)) + data if subtype == 2 else data
    return struct.pack("<iB", len(inner), subtype) + inner


def code(text, scope=None):
    if scope is None:
        return 0x0D, string(text)
    inner = string(text) + scope
    return 0x0F, struct.pack("<i", len(inner) + 4) + inner


def decimal(digits):
    if len(digits) != 32:
        raise ValueError(f"no 32 hexadecimal digits: {digits}")
    return bytes.fromhex(digits)


CALLS = {
    "Undefined": lambda: (0x06, b""),
    "MinKey": lambda: (0xFF, b""),
    "MaxKey": lambda: (0x7F, b""),
    "Int64": lambda number: (0x12, struct.pack("<q", number)),
    "ObjectId": lambda digits: (0x07, identifier(digits)),
    "DateTime": lambda value: (0x09, date(value)),
    "Binary": lambda subtype, digits: (0x05, binary(subtype, digits)),
    "Timestamp": lambda time, increment: (0x11, struct.pack("<II", increment, time)),
    "RegularExpression": lambda pattern, options: (0x0B, name_bytes(pattern) + name_bytes(options)),
    "JavaScriptCode": code,
    "Symbol": lambda text: (0x0E, string(text)),
    "DbPointer": lambda name, digits: (0x0C, string(name) + identifier(digits)),
    "Decimal128": lambda digits: (0x13, decimal(digits)),
}


class Parser:
    """Reads values from the tokens of a text; what is none is a ValueError."""

    def __init__(self, text):
        self.tokens = [found[1] for found in TOKEN.finditer(text)] + [""]

    def take(self, wanted=None):
        token = self.tokens[0]
        if wanted is not None and token != wanted:
            raise ValueError(f"{wanted or 'the end'} expected, found {token or 'the end'}")
        self.tokens = self.tokens[1:] or [""]
        return token

    def list(self, end, item):
        """Items with commas between them, up to the end."""
        items = []
        while self.tokens[0] != end:
            if items:
                self.take(",")
            items.append(item())
        self.take(end)
        return items

    def pair(self):
        token = self.take()
        if token[:1] != '"' and not re.fullmatch(NAME, token):
            raise ValueError(f"a name expected, found {token or 'the end'}")
        name = json.loads(token) if token[:1] == '"' else token
        self.take(":")
        return name, self.value()

    def argument(self):
        """An argument of a type's name: a text, an integer or the bytes of a document."""
        if self.tokens[0] == "{":
            return self.value()[1]
        return json.loads(self.take())

    def value(self):
        """The kind of a value and its bytes."""
        token = self.take()
        if token == "{":
            return 0x03, document_of(self.list("}", self.pair))
        if token == "[":
            return 0x04, document_of((str(i), value) for i, value in enumerate(self.list("]", self.value)))
        if token in WORDS:
            return WORDS[token]
        if token in DOUBLES:
            return 0x01, struct.pack("<d", float(DOUBLES[token]))
        if token[:1] == '"':
            return 0x02, string(json.loads(token))
        if token in CALLS:
            self.take("(")
            return CALLS[token](*self.list(")", self.argument))
        if re.fullmatch(r"-?\d+", token):
            return 0x10, struct.pack("<i", int(token))
        if re.fullmatch(r"-?\d.*", token):
            return 0x01, struct.pack("<d", float(token))
        raise ValueError(f"a value expected, found {token or 'the end'}")


def bytes_of(text):
    """The document that a text is. What is no document is a ValueError, a TypeError or a struct.error."""
    parser = Parser(text)
    kind, value = parser.value()
    parser.take("")
    if kind != 0x03:
        raise ValueError("no document: it begins with {")
    return value


# ---- the commands

def show():
    status = 0
    for number, (document, whole) in enumerate(documents(sys.stdin.buffer)):
        try:
            print(text_of(document) if whole else f"! document {number}: no document begins here")
        except (ValueError, struct.error, RecursionError) as error:
            print(f"! document {number}: {error}")
            whole = False
        if not whole:
            status = 1
    return status


def make():
    for number, line in enumerate(sys.stdin.buffer, 1):
        try:
            sys.stdout.buffer.write(bytes_of(line.decode()) if line.strip() else b"")
        except (ValueError, TypeError, struct.error, RecursionError) as error:
            print(f"line {number}: {error}", file=sys.stderr)
            return 1
    return 0


if __name__ == "__main__":
    commands = {"show": show, "make": make}
    if len(sys.argv) != 2 or sys.argv[1] not in commands:
        sys.exit("usage: documents.py show|make")
    signal.signal(signal.SIGPIPE, signal.SIG_DFL)
    sys.exit(commands[sys.argv[1]]())
