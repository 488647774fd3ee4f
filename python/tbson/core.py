"""Documents and files of documents, checked and recast by the library.

Documents and files are taken where they lie, from any object whose bytes lie one after another. What is written comes back as a bytearray, or as bytes where the
caller gives `into=bytes`.
"""

from __future__ import annotations

import ctypes
import sys
from typing import TYPE_CHECKING, Any, Generic, Iterator, List, NamedTuple, Optional, Tuple, Type, TypeVar, Union, overload

from tbson._buffers import Buffer, Held, Scratch, give_back, new_buffer, take_scratch
from tbson._library import MigrationReport, Refusal, Report, library
from tbson.errors import Broken, Refused, Status, failure, refused_in_file
from tbson.shape import ShapeLike, check_notation, notation_of

#: What an output comes back as.
B = TypeVar("B", bytes, bytearray)

if TYPE_CHECKING or sys.version_info >= (3, 11):

    class Migration(NamedTuple, Generic[B]):
        """What migrating a file gave: the new documents, one after another, and why each of the others was refused."""

        output: B
        refused: List[Refused]

else:

    class Migration(NamedTuple):
        """What migrating a file gave: the new documents, one after another, and why each of the others was refused."""

        output: Any
        refused: List[Refused]


# The lengths of the first buffers. They are such that a second call is rare, which takes as long as the first: the library keeps nothing from one call to the
# next. No multiple of the input's length bounds the output, since a struct writes null for each option that a document lacks. A number or a date that is
# widened takes at most two thirds more. A text is made of names and texts of the shape and of the document, and a few words. A document takes five bytes or
# more, and a record 48.


def _output_len(notation: bytes, length: int) -> int:
    return 2 * (length + len(notation))


def _text_len(notation: bytes, length: int) -> int:
    return 256 + min(2 * (length + len(notation)), 1 << 20)


def _refusal_count(length: int) -> int:
    return min(length // 5, 4096 + length // 32)


def version() -> int:
    """The version of the library's interface, TBSON_VERSION of tbson.h."""
    number: int = library.tbson_version()
    return number


def check_shape(shape: ShapeLike) -> None:
    """Raises ShapeRefused where the text is no shape."""
    check_notation(notation_of(shape))


def check(shape: ShapeLike, document: Buffer) -> int:
    """How many bytes the recast of the document takes, of which nothing is written. Raises ShapeRefused, ReadRefused or WriteRefused."""
    notation = notation_of(shape)
    with Held(document) as pair:
        text_len = _text_len(notation, pair[1])
        while True:
            text = new_buffer(text_len)
            with Held(text) as text_pair:
                report = library.tbson_recast(notation, len(notation), *pair, None, 0, *text_pair)
            if report.status == Status.BUFFER_TOO_SMALL:
                return int(report.needed)
            if report.text_needed <= text_len:
                raise failure(report.status, text[: report.text_written].decode(), report.place)
            text_len = report.text_needed


def _recast_large(notation: bytes, pair: Tuple[Any, int], output_len: int, text_len: int) -> bytearray:
    """The recast, in a buffer of its own. Where a buffer was too small, there is a second call, with buffers of the lengths that the first one told."""
    output, text = new_buffer(output_len), new_buffer(text_len)
    with Held(output) as output_pair, Held(text) as text_pair:
        report = library.tbson_recast(notation, len(notation), *pair, *output_pair, *text_pair)
    if report.status == Status.BUFFER_TOO_SMALL or report.text_needed > text_len:
        return _recast_large(notation, pair, max(output_len, report.needed), max(text_len, report.text_needed))
    if report.status != Status.DONE:
        raise failure(report.status, text[: report.text_written].decode(), report.place)
    del output[report.written :]
    return output


def _recast_small(notation: bytes, pair: Tuple[Any, int], into: Type[B]) -> Optional[B]:
    """The recast, by way of a scratch; None where that is too small."""
    scratch = take_scratch()
    try:
        output, text = scratch.addresses
        report = library.tbson_recast(notation, len(notation), *pair, output, Scratch.LENGTH, text, Scratch.LENGTH)
        if report.status == Status.DONE:
            return into(scratch.view[: report.written])
        if report.status == Status.BUFFER_TOO_SMALL or report.text_needed > Scratch.LENGTH:
            return None
        raise failure(report.status, scratch.text[: report.text_written].decode(), report.place)
    finally:
        give_back(scratch)


def _recast(notation: bytes, pair: Tuple[Any, int], into: Type[B]) -> B:
    output_len, text_len = _output_len(notation, pair[1]), _text_len(notation, pair[1])
    if output_len <= Scratch.LENGTH and text_len <= Scratch.LENGTH:
        small = _recast_small(notation, pair, into)
        if small is not None:
            return small
    large = _recast_large(notation, pair, output_len, text_len)
    return large if into is bytearray else into(large)


def _as_bytes(document: Buffer) -> Optional[bytes]:
    """The document as bytes, where it is that, or so short that a copy takes less time than to hold it where it is."""
    if type(document) is bytes:
        return document
    if type(document) is bytearray and len(document) < Scratch.LENGTH:
        return bytes(document)
    if type(document) is memoryview and document.nbytes < Scratch.LENGTH and document.c_contiguous:
        return bytes(document)
    return None


@overload
def recast(shape: ShapeLike, document: Buffer) -> bytearray:
    ...


@overload
def recast(shape: ShapeLike, document: Buffer, *, into: Type[B]) -> B:
    ...


def recast(shape: ShapeLike, document: Buffer, *, into: Any = bytearray) -> Any:
    """The document, read at the shape and written anew. Raises ShapeRefused, ReadRefused or WriteRefused."""
    notation, given = notation_of(shape), _as_bytes(document)
    if given is not None:
        return _recast(notation, (given, len(given)), into)
    with Held(document) as pair:
        return _recast(notation, pair, into)


class _Listing:
    """A call on a file, with its buffers: the report, the texts of the refused documents and the records, and the output where one is wanted."""

    def __init__(self, notation: bytes, pair: Tuple[int, int], writes: bool):
        self.lengths = (_output_len(notation, pair[1]) if writes else 0, 65536 + pair[1], _refusal_count(pair[1]))
        while not self._is_through(notation, pair, writes):
            pass

    def _is_through(self, notation: bytes, pair: Tuple[int, int], writes: bool) -> bool:
        """Calls the library. It is not through where a buffer was too small: then the lengths are those that the call told."""
        self.output, self.text = new_buffer(self.lengths[0]), new_buffer(self.lengths[1])
        self.records = new_buffer(self.lengths[2] * ctypes.sizeof(Refusal))
        with Held(self.output) as output, Held(self.text) as text, Held(self.records) as (first, _):
            migration: MigrationReport = library.tbson_migrate_and_list(notation, len(notation), *pair, *output, *text, first, self.lengths[2])
        self.report: Report = migration.report
        self.count = migration.refusals_written
        output_len, text_len, count = self.lengths
        needed = self.report.needed if writes else 0
        self.lengths = max(output_len, needed), max(text_len, self.report.text_needed), max(count, migration.refusals_needed)
        return self.lengths == (output_len, text_len, count)

    def judge(self, *passing: Status) -> None:
        """Raises what the status stands for, unless it is one of these."""
        if self.report.status not in passing:
            raise failure(self.report.status, self.text[: self.report.text_written].decode(), self.report.place)

    def refused(self) -> List[Refused]:
        """The refused documents."""
        return [self._refused(record) for record in (Refusal * self.count).from_buffer(self.records)]

    def _refused(self, record: Refusal) -> Refused:
        text = bytes(self.text[record.text_start : record.text_start + record.text_length])
        refused = refused_in_file(record.status, text, record.cause_start)
        refused.index, refused.offset = record.index, record.offset
        return refused


@overload
def migrate(shape: ShapeLike, file: Buffer) -> Migration[bytearray]:
    ...


@overload
def migrate(shape: ShapeLike, file: Buffer, *, into: Type[B]) -> Migration[B]:
    ...


def migrate(shape: ShapeLike, file: Buffer, *, into: Any = bytearray) -> Any:
    """The documents of a file, each recast at the shape. Raises ShapeRefused or Broken."""
    with Held(file) as pair:
        listing = _Listing(notation_of(shape), pair, writes=True)
    listing.judge(Status.DONE, Status.SOME_REFUSED)
    output = listing.output
    del output[listing.report.written :]
    return Migration(output if into is bytearray else into(output), listing.refused())


def check_file(shape: ShapeLike, file: Buffer) -> List[Refused]:
    """Why each of the documents of a file is refused that `migrate` would refuse. Nothing is written. Raises ShapeRefused or Broken."""
    with Held(file) as pair:
        listing = _Listing(notation_of(shape), pair, writes=False)
    listing.judge(Status.DONE, Status.SOME_REFUSED, Status.BUFFER_TOO_SMALL)
    return listing.refused()


@overload
def documents(file: Buffer) -> Iterator[memoryview]:
    ...


@overload
def documents(file: Buffer, *, into: Type[B]) -> Iterator[B]:
    ...


def documents(file: Buffer, *, into: Any = memoryview) -> Iterator[Union[memoryview, bytes, bytearray]]:
    """The documents of a file, one after another: each where it lies in the file, or with `into=bytes` a copy. Raises Broken."""
    view, place = memoryview(file).cast("B"), 0
    with Held(view) as pair:
        while True:
            found = library.tbson_next_document(*pair, place)
            if found.status == Status.END:
                return
            if found.status != Status.DONE:
                raise Broken("no document begins here", Status.BROKEN, place)
            piece = view[place : place + found.length]
            yield piece if into is memoryview else into(piece)
            place += found.length
