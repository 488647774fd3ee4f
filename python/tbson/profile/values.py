"""The values of one kind at one path: the most frequent ones in a table of bounded size, the least and the greatest, the lengths."""

from __future__ import annotations

from struct import Struct, unpack
from typing import Dict, List, Optional, Tuple, Union

from tbson import elements as kinds

Number = Union[int, float]

#: How many values the table keeps. It is cut down to so many where it has twice as many.
MOST_KEPT = 500
#: Texts of more bytes than these are not in the table.
LONGEST_KEPT = 64

_FORMATS = {kinds.DOUBLE: "d", kinds.INT32: "i", kinds.INT64: "q", kinds.DATE: "q"}
_HOPELESS = 20 * MOST_KEPT


class Values:
    """What is known of values that came in batches.

    A value that is dropped from the table, when it is cut down, loses its count so far. `lost` is what any value can have lost: where it is 0 the table is exact,
    and else each count is at least what is told, and at most `lost` more.
    """

    __slots__ = ("kind", "most", "lost", "least", "greatest", "shortest", "longest", "total_length", "measured", "tabled")

    def __init__(self, kind: int):
        self.kind = kind
        self.most: Optional[Dict[bytes, int]] = {}
        self.lost = self.tabled = 0
        self.least: Optional[Number] = None
        self.greatest: Optional[Number] = None
        self.shortest: Optional[int] = None
        self.longest = self.total_length = self.measured = 0

    def add(self, batch: Dict[bytes, int]) -> None:
        """Adds a batch: each value with how often it is there."""
        if not batch:
            return
        self._widen(batch)
        self._keep(batch, 0)

    def _widen(self, batch: Dict[bytes, int]) -> None:
        """The numbers of a batch count for the least and the greatest, its texts for the lengths."""
        code = _FORMATS.get(self.kind)
        if code:
            numbers: List[Number] = [number for number in unpack(f"<{len(batch)}{code}", b"".join(batch)) if number == number]
            if numbers:
                self.add_range(min(numbers), max(numbers))
        elif self.kind == kinds.STRING:
            lengths = [len(text) for text in batch]
            self.add_lengths(min(lengths), max(lengths), sum(len(text) * count for text, count in batch.items()), sum(batch.values()))

    def add_range(self, least: Number, greatest: Number) -> None:
        """Numbers of this range are there too."""
        self.least = least if self.least is None else min(self.least, least)
        self.greatest = greatest if self.greatest is None else max(self.greatest, greatest)

    def add_lengths(self, shortest: int, longest: int, total: int, count: int) -> None:
        """So many values of these lengths are there too."""
        self.shortest = shortest if self.shortest is None else min(self.shortest, shortest)
        self.longest = max(self.longest, longest)
        self.total_length += total
        self.measured += count

    def _keep(self, batch: Dict[bytes, int], lost: int) -> None:
        """Adds the counts of the batch to those of the table, and cuts it down where it is too large."""
        self.tabled += sum(batch.values())
        self.lost += lost
        if self.most is None:
            return
        for value, count in batch.items():
            self.most[value] = self.most.get(value, 0) + count
        if len(self.most) > 2 * MOST_KEPT:
            ordered = sorted(self.most.items(), key=lambda item: -item[1])
            self.lost += ordered[MOST_KEPT][1]
            is_hopeless = self.tabled > _HOPELESS and ordered[0][1] <= self.lost
            self.most = None if is_hopeless else dict(ordered[:MOST_KEPT])

    def merge(self, other: Values) -> None:
        """Adds what is known of other values of the kind."""
        if other.least is not None and other.greatest is not None:
            self.add_range(other.least, other.greatest)
        if other.shortest is not None:
            self.add_lengths(other.shortest, other.longest, other.total_length, other.measured)
        if other.most is None or self.most is None:
            self.tabled, self.most = self.tabled + other.tabled, None
            return
        self.tabled += other.tabled - sum(other.most.values())
        self._keep(other.most, other.lost)

    def frequent(self, count: int) -> List[Tuple[bytes, int]]:
        """The most frequent values, with how often each is there at least. Where values were dropped, those of which that may be chance are left out."""
        if self.most is None:
            return []
        ordered = sorted(self.most.items(), key=lambda item: (-item[1], item[0]))
        return [(value, times) for value, times in ordered[:count] if times > self.lost]

    @property
    def distinct(self) -> Optional[int]:
        """How many different values there are; None where values were dropped."""
        return len(self.most) if self.most is not None and not self.lost else None


def number_of(kind: int, value: bytes) -> Optional[Number]:
    """The number that the bytes of a value of this kind are; None of another kind."""
    code = _FORMATS.get(kind)
    number: Optional[Number] = Struct(f"<{code}").unpack(value)[0] if code else None
    return number
