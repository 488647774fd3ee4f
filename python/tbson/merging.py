"""Documents that were refused and repaired, put back at the places that they had."""

from __future__ import annotations

from collections import defaultdict, deque
from dataclasses import dataclass
from pathlib import Path
from typing import Deque, Dict, Iterator, List, Optional, Sequence, Tuple

from tbson.core import documents
from tbson.inputs import InputRefused, Source
from tbson.outputs import OutputFile, Outputs
from tbson.rejects import Reject, id_of, id_text, read_rejects


@dataclass(frozen=True)
class Merged:
    """What came of a merge: how many documents were written, how many of them were put back, and the numbers of those that are still missing."""

    written: int
    put_back: int
    missing: List[int]


@dataclass(frozen=True)
class _Repaired:
    """A document that was repaired: its bytes, where it is, and its `_id` as a text."""

    data: bytes
    where: str
    id: Optional[str]


def _repaired(paths: Sequence[Path]) -> Iterator[_Repaired]:
    for path in paths:
        with Source(path) as source:
            for part in source.parts():
                for number, data in enumerate(documents(part.data, into=bytes), part.index):
                    yield _Repaired(data, f"{path}: document {number:,}", id_text(id_of(data)))


def _by_id(rejects: Sequence[Reject], repaired: Sequence[_Repaired]) -> Dict[int, bytes]:
    """The repaired documents by the numbers of the rejects with the same `_id`: of several with one `_id` the first goes to the first."""
    places: Dict[Optional[str], Deque[int]] = defaultdict(deque)
    for reject in rejects:
        places[reject.id].append(reject.index)
    found: Dict[int, bytes] = {}
    for one in repaired:
        if not places[one.id]:
            raise InputRefused(f"{one.where}: its _id is {one.id}, and no reject that is left has this one")
        found[places[one.id].popleft()] = one.data
    return found


def _placed(rejects: Sequence[Reject], repaired: Sequence[_Repaired]) -> Dict[int, bytes]:
    """The repaired documents by the numbers that they had: by their `_id`, or in the order of the rejects where there is one for each."""
    ids = [one.id for one in rejects] + [one.id for one in repaired]
    if None not in ids:
        return _by_id(rejects, repaired)
    if len(rejects) != len(repaired):
        raise InputRefused(
            f"there are {len(rejects):,} rejects and {len(repaired):,} repaired documents, and not all have an _id, so it is not known which ones are missing"
        )
    return {reject.index: one.data for reject, one in zip(rejects, repaired)}


class _Writer:
    """Writes the documents of the migrated file, and each document that was put back when its number is due."""

    def __init__(self, rejects: Sequence[Reject], placed: Dict[int, bytes], file: OutputFile):
        self._rejects, self._placed, self._file = deque(rejects), placed, file
        self.number = self.written = 0
        self.missing: List[int] = []

    def put_due(self) -> None:
        """Writes the rejects whose number is the next."""
        while self._rejects and self._rejects[0].index == self.number:
            data = self._placed.get(self._rejects.popleft().index)
            if data is None:
                self.missing.append(self.number)
            else:
                self._file.write(data)
                self.written += 1
            self.number += 1

    def add(self, data: memoryview, count: int) -> None:
        """Writes so many documents that lie one after another."""
        self._file.write(data)
        self.number += count
        self.written += count

    def next_count(self, count: int) -> int:
        """How many of so many documents come before the next reject."""
        return min(count, self._rejects[0].index - self.number) if self._rejects else count

    @property
    def left(self) -> Optional[int]:
        """The number of the first reject that was not due."""
        return self._rejects[0].index if self._rejects else None


def _stretch(pieces: Iterator[memoryview], count: int) -> int:
    """How many bytes the next documents take."""
    return sum(len(next(pieces)) for _ in range(count))


def _write(writer: _Writer, source: Source) -> None:
    for part in source.parts():
        pieces, place, left = documents(part.data), 0, part.count
        while left:
            writer.put_due()
            count = writer.next_count(left)
            end = place + (len(part.data) - place if count == left else _stretch(pieces, count))
            writer.add(part.data[place:end], count)
            place, left = end, left - count
    writer.put_due()
    if writer.left is not None:
        raise InputRefused(f"{source.path}: has {writer.written:,} documents, too few for a reject with the number {writer.left:,}: it is another migration's")


def merge_files(migrated: Path, rejects_path: Path, repaired_paths: Sequence[Path], out: Path, overwrite: bool = False) -> Merged:
    """Writes the documents of the migrated file, with those that were repaired at the places that the rejects name.

    Raises InputRefused or OutputRefused, and then no file was written.
    """
    rejects = list(read_rejects(rejects_path))
    placed = _placed(rejects, list(_repaired(repaired_paths)))
    with Source(migrated) as source, Outputs(overwrite) as outputs:
        writer = _Writer(rejects, placed, outputs.open(out))
        _write(writer, source)
    return Merged(writer.written, len(placed), writer.missing)
