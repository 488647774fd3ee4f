"""Whether a field of documents tells variants of them apart, as `type` does where the other fields depend on it."""

from __future__ import annotations

from collections import Counter
from typing import Dict, Iterable, List, NamedTuple, Optional

#: A field with more different values than these tells no variants apart.
MOST_VALUES = 16
#: Texts of more bytes than these are no names of variants.
LONGEST_NAME = 40

_NEARLY_ALL, _NEARLY_NONE, _FEWEST = 0.98, 0.02, 5


class Variant(NamedTuple):
    """A value of the field that tells variants apart: how many documents of the sample have it, and the fields that they have and others have not."""

    value: bytes
    documents: int
    fields: List[bytes]


class Told(NamedTuple):
    """The field that tells variants apart."""

    field: bytes
    variants: List[Variant]


class Variants:
    """Counts, over a sample, of which fields documents have, by the values of the fields that may tell variants apart."""

    __slots__ = ("count", "_by_value", "_dropped")

    def __init__(self) -> None:
        self.count = 0
        # By field and value: how many documents have the value, under the key b"", and how many of these have each other field.
        self._by_value: Dict[bytes, Dict[bytes, Counter[bytes]]] = {}
        self._dropped: set[bytes] = set()

    def add(self, names: Iterable[bytes], texts: Dict[bytes, bytes]) -> None:
        """Adds a document with these fields, of which these have short texts."""
        self.count += 1
        names = [b"", *names]
        for field, value in texts.items():
            if field not in self._dropped:
                values = self._by_value.setdefault(field, {})
                values.setdefault(value, Counter()).update(names)
                self._judge(field)

    def _judge(self, field: bytes) -> None:
        """Drops the field where it has too many values."""
        if len(self._by_value[field]) > MOST_VALUES:
            del self._by_value[field]
            self._dropped.add(field)

    def merge(self, other: Variants) -> None:
        """Adds the counts of another sample."""
        self.count += other.count
        self._dropped |= other._dropped
        for field in self._dropped & self._by_value.keys():
            del self._by_value[field]
        for field, values in other._by_value.items():
            if field not in self._dropped:
                mine = self._by_value.setdefault(field, {})
                for value, counts in values.items():
                    mine.setdefault(value, Counter()).update(counts)
                self._judge(field)

    def told(self) -> Optional[Told]:
        """The field that tells variants apart, if there is one: of several the one on which most others depend."""
        best = max(map(self._told_by, self._by_value), key=lambda told: len({name for one in told.variants for name in one.fields}), default=None)
        return best if best and any(variant.fields for variant in best.variants) else None

    def _told_by(self, field: bytes) -> Told:
        """The variants by the values of a field, with the other fields that each value has always and another one never."""
        values = {value: counts for value, counts in self._by_value[field].items() if counts[b""] >= _FEWEST}
        if len(values) < 2 or sum(counts[b""] for counts in values.values()) < _NEARLY_ALL * self.count:
            return Told(field, [])
        names = {name for counts in values.values() for name in counts if name not in (b"", field)}
        shares = {name: {value: counts[name] / counts[b""] for value, counts in values.items()} for name in names}
        dependent = [name for name, share in shares.items() if _depends(list(share.values()))]
        ordered = sorted(values.items(), key=lambda item: -item[1][b""])
        return Told(field, [Variant(value, counts[b""], sorted(name for name in dependent if shares[name][value] >= _NEARLY_ALL)) for value, counts in ordered])


def _depends(shares: List[float]) -> bool:
    """Whether a field is always there with some values, and never with the others."""
    is_clear = all(share >= _NEARLY_ALL or share <= _NEARLY_NONE for share in shares)
    return is_clear and max(shares) >= _NEARLY_ALL and min(shares) <= _NEARLY_NONE
