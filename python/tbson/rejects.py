"""Refused documents in a file of their own, with a line of JSON for each: where it was in the file, its `_id`, the path and the cause."""

from __future__ import annotations

import json
import struct
from dataclasses import dataclass
from pathlib import Path
from typing import Any, Dict, Iterator, Optional

from tbson.elements import find
from tbson.errors import Refused
from tbson.extended import json_of
from tbson.inputs import InputRefused
from tbson.outputs import OutputFile, Outputs


def id_of(document: bytes) -> Dict[str, Any]:
    """The `_id` of the document under that name, as JSON; nothing where it has none, or cannot be read so far."""
    try:
        element = find(document, b"_id")
        return {} if element is None else {"_id": json_of(document, element)}
    except (ValueError, IndexError, KeyError, struct.error, RecursionError):
        return {}


def lines_path(path: Path) -> Path:
    """The file of lines beside a file of refused documents: FILE.jsonl beside FILE.bson."""
    return path.with_suffix(".jsonl")


class RejectsFile:
    """The two files: FILE.bson with the refused documents as they were, and FILE.jsonl with the lines."""

    def __init__(self, outputs: Outputs, path: Path):
        self._documents: OutputFile = outputs.open(path)
        self._lines: OutputFile = outputs.open(lines_path(path))

    def add(self, document: bytes, refused: Refused, index: int, offset: int) -> None:
        """Adds a document that was refused, which has that number in its file and begins at that byte."""
        line = {"index": index, "offset": offset, **id_of(document), "path": refused.path, "cause": refused.cause}
        self._documents.write(document)
        self._lines.write(json.dumps(line, ensure_ascii=False).encode() + b"\n")


@dataclass(frozen=True)
class Reject:
    """A line of rejects: the number of the document in its file, and its `_id` as a text of JSON, if it has one."""

    index: int
    id: Optional[str]


def id_text(record: Dict[str, Any]) -> Optional[str]:
    """The `_id` of a record as a text, equal for equal ones."""
    return json.dumps(record["_id"], sort_keys=True) if "_id" in record else None


def read_rejects(path: Path) -> Iterator[Reject]:
    """The lines of the file. Raises InputRefused where one is not as `tbson migrate --rejects` writes it, or their numbers do not rise."""
    last = -1
    try:
        with open(path, encoding="utf-8") as file:
            for number, line in enumerate(file, 1):
                record = json.loads(line)
                index = record["index"]
                if not isinstance(index, int) or index <= last:
                    raise InputRefused(f"{path}:{number}: the numbers of the documents do not rise")
                last = index
                yield Reject(index, id_text(record))
    except OSError as error:
        raise InputRefused(f"{path}: {error.strerror}") from error
    except (ValueError, KeyError, TypeError) as error:
        if isinstance(error, InputRefused):
            raise
        raise InputRefused(f"{path}: is not a file of lines that `tbson migrate --rejects` wrote ({type(error).__name__}: {error})") from error
