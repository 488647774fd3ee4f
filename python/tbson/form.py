"""What a shape is made of, read from its notation: for the words of messages and for the paths of a summary. What is a shape, the library alone decides."""

from __future__ import annotations

import re
from dataclasses import dataclass
from typing import Any, Callable, Dict, List, Optional, Tuple, Union

#: The types of one word.
WORDS = (
    "bool i8 i16 i32 u8 u16 i64 u32 u64 double char string str bytes bytebuf unit any bson document rawdoc rawarray rawbson ignored oid datetime timestamp binary"
    " uuid regex codews decimal dbpointer"
).split()

_NAME = re.compile(r'[A-Za-z_][A-Za-z0-9_]*|"(?:[^"\\]|\\.)*"')
_BARE_IN_QUOTES = re.compile(r'"[A-Za-z_][A-Za-z0-9_]*"')


@dataclass(frozen=True)
class Leaf:
    """A type of one word, or the name of a unit struct, `NAME!`."""

    word: str


@dataclass(frozen=True)
class Marked:
    """A shape behind a mark: `?s`, `~s`, `^s`, and `NAME=s`."""

    inner: Form


@dataclass(frozen=True)
class Mode:
    """`%(r,c)`."""

    readable: Form
    compact: Form


@dataclass(frozen=True)
class Sequence:
    """`[s]`."""

    item: Form


@dataclass(frozen=True)
class Mapping:
    """`[key:s]`."""

    value: Form


@dataclass(frozen=True)
class Parts:
    """`(s,..)`, with a name or without one."""

    parts: Tuple[Form, ...]


@dataclass(frozen=True)
class Struct:
    """`{f:s,..}`, with a name or without one."""

    fields: Dict[str, Form]


@dataclass(frozen=True)
class Enum:
    """`<A,N=s,T(s,..),S{f:s,..}>`: each variant with its contents, if it has any."""

    variants: Dict[str, Optional[Form]]


@dataclass(frozen=True)
class Reference:
    """`@NAME`."""

    name: str


@dataclass(frozen=True)
class Table:
    """`&(NAME=s,..)s`."""

    definitions: Dict[str, Form]
    inner: Form


Form = Union[Leaf, Marked, Mode, Sequence, Mapping, Parts, Struct, Enum, Reference, Table]


#: What is expected where a name was read, and nothing that makes a shape of it.
A_TYPE = "a type"


class Unexpected(ValueError):
    """No shape goes on so: at the place something else was expected."""

    def __init__(self, place: int, expected: str):
        super().__init__(f"expected {expected}")
        self.place, self.expected = place, expected


class Reader:
    """Reads a notation from left to right."""

    def __init__(self, notation: str, place: int = 0):
        self.notation, self.place = notation, place
        #: Each name that is in a struct or an enum for the second time, with its place.
        self.repeated: List[Tuple[int, str]] = []

    def at(self, *texts: str) -> bool:
        return any(self.notation.startswith(text, self.place) for text in texts)

    def takes(self, text: str) -> bool:
        found = self.at(text)
        self.place += len(text) * found
        return found

    def wants(self, text: str, expected: Optional[str] = None) -> None:
        if not self.takes(text):
            raise Unexpected(self.place, expected or f"`{text}`")

    def name(self, expected: str) -> str:
        found = _NAME.match(self.notation, self.place)
        if not found:
            raise Unexpected(self.place, expected)
        if _BARE_IN_QUOTES.fullmatch(found[0]):
            raise Unexpected(found.end() - 1, f"no quotes around {found[0][1:-1]}")
        self.place = found.end()
        return re.sub(r"\\(.)", r"\1", found[0][1:-1]) if found[0].startswith('"') else found[0]

    def new_name(self, expected: str, others: Dict[str, Any]) -> str:
        """A name of a struct or an enum, which the names before it are not."""
        place, name = self.place, self.name(expected)
        if name in others:
            self.repeated.append((place, name))
        return name

    def form(self) -> Form:
        for mark in "?~^":
            if self.takes(mark):
                return Marked(self.form())
        if self.takes("%("):
            readable = self.form()
            self.wants(",")
            mode = Mode(readable, self.form())
            self.wants(")")
            return mode
        if self.takes("["):
            return self.bracketed()
        if self.takes("<"):
            return Enum(self.variants())
        if self.takes("@"):
            return Reference(self.name("a name"))
        if self.takes("&("):
            definitions = self.named("=", ")")
            return Table(definitions, self.form())
        return self.named_or_grouped()

    def bracketed(self) -> Form:
        """What is behind `[`."""
        first = self.form()
        if self.takes(":"):
            value = Mapping(self.form())
            self.wants("]")
            return value
        self.wants("]", "`]`, or `:` and the shape of a map's values")
        return Sequence(first)

    def named_or_grouped(self) -> Form:
        """A struct, a tuple, or a name with what belongs to it."""
        if self.at("{", "("):
            return self.grouped()
        start = self.place
        name = self.name("a shape")
        if self.at("{", "("):
            return self.grouped()
        if self.takes("="):
            return Marked(self.form())
        if self.takes("!") or self.notation[start : self.place] in WORDS:
            return Leaf(name)
        raise Unexpected(self.place, A_TYPE)

    def grouped(self) -> Form:
        """What is in braces or parentheses."""
        if self.takes("{"):
            self.takes("!")
            return Struct(self.named(":", "}"))
        self.wants("(")
        parts: List[Form] = []
        self.listed(")", lambda: parts.append(self.form()))
        return Parts(tuple(parts))

    def listed(self, end: str, one: Callable[[], None]) -> None:
        """Reads one after another, with commas between, up to the end."""
        if self.takes(end):
            return
        one()
        while not self.takes(end):
            self.wants(",", f"`,` or `{end}`")
            one()

    def named(self, between: str, end: str) -> Dict[str, Form]:
        """Names with their shapes."""
        found: Dict[str, Form] = {}

        def one() -> None:
            name = self.new_name("a name" if found else f"a name, or `{end}`", found)
            self.wants(between, f"`{between}` and the shape of {name}")
            found[name] = self.form()

        self.listed(end, one)
        return found

    def variants(self) -> Dict[str, Optional[Form]]:
        """The variants of an enum."""
        found: Dict[str, Optional[Form]] = {}

        def one() -> None:
            name = self.new_name("the name of a variant", found)
            found[name] = self.grouped() if self.at("{", "(") else Marked(self.form()) if self.takes("=") else None

        self.listed(">", one)
        return found


def form_of(notation: str) -> Form:
    """What the notation is made of. Raises Unexpected."""
    reader = Reader(notation)
    form = reader.form()
    if reader.place < len(notation):
        raise Unexpected(reader.place, "the end of the shape")
    return form
