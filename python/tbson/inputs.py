"""Files of documents, plain or compressed, read from the front in parts that are cut between documents."""

from __future__ import annotations

import os
import stat
import zlib
from dataclasses import dataclass
from pathlib import Path
from struct import Struct
from typing import BinaryIO, Iterator, Optional, Tuple, Union

from tbson._buffers import new_buffer

#: How many bytes a part has, unless a document is longer.
PART = 4 << 20

_LENGTH = Struct("<i")
_SMALLEST, _LARGEST = 5, (1 << 31) - 1
_GZIP, _ARCHIVE = b"\x1f\x8b\x08", b"\x6d\xe2\x99\x81"


class InputRefused(ValueError):
    """A file is no input: its text is one line for the person who gave it."""


@dataclass(frozen=True)
class Part:
    """Documents of a file, one after another: the number of the first one, the byte at which it begins, how many they are, and their bytes."""

    index: int
    offset: int
    count: int
    data: memoryview


def cut(data: memoryview, end: int) -> Tuple[int, int, int]:
    """The whole documents at the front of the data: where the last one ends, how many they are, and what the next one announces as its length (0 if it does not)."""
    place = count = 0
    length_at = _LENGTH.unpack_from
    last = end - 4
    while place <= last:
        (length,) = length_at(data, place)
        if length < _SMALLEST or place + length > end:
            return place, count, length
        place += length
        count += 1
    return place, count, 0


class _Unzipped:
    """The contents of a file that gzip compressed, in one member or several."""

    def __init__(self, path: Path, file: BinaryIO):
        self._path, self._file, self._left = path, file, b""
        self._zip = zlib.decompressobj(wbits=31)

    def readinto(self, buffer: memoryview) -> int:
        """Fills the front of the buffer. 0 says that the file is at its end."""
        while True:
            data = self._left or self._file.read(1 << 18)
            if not data and self._zip.eof:
                return 0
            if not data:
                raise InputRefused(f"{self._path}: the compressed file is cut off")
            made = self._unzip(data, len(buffer))
            if made:
                buffer[: len(made)] = made
                return len(made)

    def _unzip(self, data: bytes, most: int) -> bytes:
        if self._zip.eof:
            self._zip = zlib.decompressobj(wbits=31)
        try:
            made = self._zip.decompress(data, most)
        except zlib.error as error:
            raise InputRefused(f"{self._path}: gzip cannot read it ({error})") from error
        self._left = self._zip.unused_data if self._zip.eof else self._zip.unconsumed_tail
        return made


def is_compressed(front: bytes) -> bool:
    """Whether a file that begins so is compressed by gzip. A document may begin with the same three bytes, but then it is not unpacked."""
    if not front.startswith(_GZIP):
        return False
    try:
        zlib.decompressobj(wbits=31).decompress(front)
    except zlib.error:
        return False
    return True


def what_is(front: bytes) -> Optional[str]:
    """What a file is that begins so, if it is one of the kinds that people take for a file of documents."""
    if front.startswith(_ARCHIVE):
        return "an archive of `mongodump --archive`: `mongorestore --archive` puts it into a database, and mongodump without --archive writes a file for each collection"
    text = front.lstrip()
    if text[:1] in (b"{", b"[") and all(byte >= 32 or byte in b"\t\r\n" for byte in front[:64]):
        return "JSON text, and no BSON"
    return None


def size_of(path: Path) -> int:
    """How many bytes the file takes, as it is on the disk; 0 where there is none."""
    return path.stat().st_size if path.exists() else 0


class Source:
    """A file of documents that is read once, from the front. A name that ends in .gz is that of a compressed file."""

    def __init__(self, path: Path):
        self.path = path
        try:
            if path.is_dir():
                raise InputRefused(f"{path}: is a directory; give the .bson files in it")
            self._file: BinaryIO = open(path, "rb", buffering=0)
        except OSError as error:
            raise InputRefused(f"{path}: {error.strerror}") from error
        try:
            #: How many bytes the file takes, as it is on the disk.
            self.size = self._size()
            self._front = os.pread(self._file.fileno(), 4096, 0)
            self._reader = self._reader_of()
        except BaseException:
            self._file.close()
            raise

    def _size(self) -> int:
        found = os.fstat(self._file.fileno())
        if not stat.S_ISREG(found.st_mode):
            raise InputRefused(f"{self.path}: is no regular file")
        return found.st_size

    def _reader_of(self) -> Union[BinaryIO, _Unzipped]:
        self._is_compressed = named = self.path.name.endswith(".gz")
        compressed = self._front.startswith(_GZIP) if named else is_compressed(self._front)
        if compressed and not named:
            raise InputRefused(f"{self.path}: is compressed by gzip; give it a name that ends in .gz")
        if named and not compressed:
            raise InputRefused(f"{self.path}: is not compressed by gzip, though its name ends in .gz")
        kind = None if named else what_is(self._front)
        if kind:
            raise InputRefused(f"{self.path}: is {kind}")
        return _Unzipped(self.path, self._file) if named else self._file

    def __enter__(self) -> "Source":
        return self

    def __exit__(self, *_: object) -> None:
        self._file.close()

    @property
    def position(self) -> int:
        """How many bytes of the file were read, as it is on the disk."""
        return self._file.tell()

    def parts(self, length: int = PART) -> Iterator[Part]:
        """The documents, in parts of about so many bytes. Raises InputRefused where the file cannot be cut into documents, or was written to meanwhile."""
        index = offset = 0
        kept: memoryview = memoryview(b"")
        wanted = length
        while True:
            data, filled = self._filled(kept, max(wanted, length))
            end, count, announced = cut(data, filled)
            if count:
                yield Part(index, offset, count, data[:end])
            at_end = filled < len(data)
            index, offset, kept = index + count, offset + end, data[end:filled]
            wanted = self._next_length(offset, index, announced, len(kept), at_end)
            if at_end:
                break
        self._judge_size()

    def _filled(self, kept: memoryview, length: int) -> Tuple[memoryview, int]:
        """A buffer of that length that begins with what was kept, and how far it is filled: to its end, unless the file has no more."""
        data, filled = memoryview(new_buffer(length)), len(kept)
        data[:filled] = kept
        while filled < length:
            read = self._read(data[filled:])
            if not read:
                break
            filled += read
        return data, filled

    def _read(self, buffer: memoryview) -> int:
        try:
            return self._reader.readinto(buffer)  # type: ignore[union-attr]
        except OSError as error:
            raise InputRefused(f"{self.path}: {error.strerror}") from error

    def _next_length(self, offset: int, index: int, announced: int, kept: int, at_end: bool) -> int:
        """How many bytes the next part needs at least. Raises InputRefused where no document begins at the offset."""
        is_short = at_end and kept > 0
        is_too_long = not self._is_compressed and announced > self.size - offset
        if is_short or is_too_long or 0 != announced < _SMALLEST:
            self._judge_size()
            where = " of the unpacked file" if self._is_compressed else ""
            raise InputRefused(
                f"{self.path}: broken at byte {offset:,}{where}: no document begins there, or it is cut off; the {index:,} documents before it are whole"
            )
        return announced

    def _judge_size(self) -> None:
        """Raises InputRefused where the file has another size than at first."""
        size = self._size()
        if size != self.size:
            raise InputRefused(f"{self.path}: was written to meanwhile: it had {self.size:,} bytes at first, and has {size:,} now")
