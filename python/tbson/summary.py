"""What was refused of many documents, counted by path and cause."""

from __future__ import annotations

import re
from dataclasses import dataclass
from typing import Dict, List, Optional, Tuple

from tbson.errors import Refused
from tbson.form import Form
from tbson.paths import pattern

# Causes that hold a value of the document, and what they have in common.
_WITH_VALUES = (
    (re.compile(r"integer -?\d+ out of range"), "integer out of range"),
    (re.compile(r"invalid length \d+"), "invalid length"),
    (re.compile(r"unknown variant .*", re.DOTALL), "unknown variant"),
    (re.compile(r"binary length \d+ exceeded maximum size"), "binary exceeded maximum size"),
)


def common_cause(cause: str) -> str:
    """The cause without the value that it holds."""
    return next((common for held, common in _WITH_VALUES if held.fullmatch(cause)), cause)


@dataclass
class Row:
    """The refusals at one path for one cause: how many, and the first of them."""

    path: str
    cause: str
    count: int
    first_index: int
    first_cause: str


class Summary:
    """Counts refusals by path and cause, of which there are at most so many rows; those that come later count as others."""

    MOST = 1000

    def __init__(self, form: Optional[Form]):
        self._form = form
        self._rows: Dict[Tuple[str, str], Row] = {}
        #: How many refusals there are in all, and how many of them have no row.
        self.count = self.others = 0

    def add(self, refused: Refused, index: int) -> None:
        """Adds the refusal of the document with that number."""
        path = "." if refused.path is None else pattern(refused.path, self._form)
        key = path, common_cause(refused.cause)
        self.count += 1
        if key in self._rows:
            self._rows[key].count += 1
        elif len(self._rows) < self.MOST:
            self._rows[key] = Row(*key, 1, index, refused.cause)
        else:
            self.others += 1

    def rows(self) -> List[Row]:
        """The rows, the most frequent first."""
        return sorted(self._rows.values(), key=lambda row: (-row.count, row.first_index))
