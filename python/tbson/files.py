"""Whole files of documents, of any length, on all processors."""

from __future__ import annotations

import gzip
from contextlib import ExitStack
from dataclasses import dataclass
from pathlib import Path
from typing import Callable, Iterator, List, Optional, Tuple, Union

from tbson.core import check_file, migrate
from tbson.errors import Refused
from tbson.form import Form, Unexpected, form_of
from tbson.inputs import Part, Source
from tbson.outputs import Outputs
from tbson.parts import in_order
from tbson.rejects import RejectsFile
from tbson.shape import Shape, ShapeLike
from tbson.summary import Summary

PathLike = Union[str, Path]

#: Told how many bytes of a file were read so far, as it is on the disk.
Progress = Callable[[int], None]


@dataclass
class Outcome:
    """What came of a file: how many documents it has, and what was refused of them."""

    documents: int
    summary: Summary

    @property
    def refused(self) -> int:
        """How many documents were refused."""
        return self.summary.count


def _silent(_: int) -> None:
    pass


def form_of_shape(shape: Shape) -> Optional[Form]:
    """What the shape is made of, for the paths of a summary."""
    try:
        return form_of(shape.text)
    except Unexpected:
        return None


def _told(source: Source, progress: Progress) -> Iterator[Part]:
    """The parts of the source, and the progress that they make."""
    for part in source.parts():
        yield part
        progress(source.position)


def add_refused(outcome: Outcome, part: Part, refused: List[Refused], rejects: Optional[RejectsFile]) -> None:
    """Adds what was refused of a part to the outcome, and to the files of rejects."""
    for one in refused:
        index, offset = part.index + (one.index or 0), part.offset + (one.offset or 0)
        outcome.summary.add(one, index)
        if rejects:
            start = one.offset or 0
            length = int.from_bytes(part.data[start : start + 4], "little")
            rejects.add(bytes(part.data[start : start + length]), one, index, offset)
    outcome.documents += part.count


def _metadata(path: Path) -> List[Path]:
    """The files in which mongodump writes the options and the indexes of the collection of a file: the first that is there counts."""
    name = path.name[: -len(".gz")] if path.name.endswith(".gz") else path.name
    stem = name[: -len(".bson")] if name.endswith(".bson") else name
    return [path.with_name(f"{stem}.metadata.json"), path.with_name(f"{stem}.metadata.json.gz")]


def copy_metadata(path: Path, out: Path, outputs: Outputs) -> None:
    """Writes a copy of the metadata beside the output, compressed as the output is."""
    found = next((place for place in _metadata(path) if place.exists()), None)
    target = _metadata(out)[out.name.endswith(".gz")]
    if found is None or found == target:
        return
    contents = found.read_bytes()
    contents = gzip.decompress(contents) if found.name.endswith(".gz") else contents
    outputs.open(target).write(gzip.compress(contents) if target.name.endswith(".gz") else contents)


def migrate_file(
    shape: ShapeLike,
    path: PathLike,
    out: PathLike,
    *,
    rejects: Optional[PathLike] = None,
    overwrite: bool = False,
    workers: Optional[int] = None,
    progress: Progress = _silent,
) -> Outcome:
    """Recasts each document of a file at the shape, into another file. The documents keep their order, and those that are refused are left out.

    path      the file of documents; compressed if its name ends in .gz
    out       the file to write; compressed if its name ends in .gz. It appears when all is done, with the metadata.json of a dump beside it
    rejects   FILE.bson, for the refused documents; FILE.jsonl gets a line of JSON for each
    workers   how many threads are used; as many as there are processors if left out

    Raises InputRefused or OutputRefused, and then no file was written; ShapeRefused where the shape is none.
    """
    shape, path, out = shape if isinstance(shape, Shape) else Shape(shape), Path(path), Path(out)
    compresses, outcome = out.name.endswith(".gz"), Outcome(0, Summary(form_of_shape(shape)))

    def work(part: Part) -> Tuple[Union[bytes, bytearray], List[Refused]]:
        output, refused = migrate(shape, part.data)
        return (gzip.compress(output, 6) if compresses and output else output), refused

    with ExitStack() as stack:
        source = stack.enter_context(Source(path))
        outputs = stack.enter_context(Outputs(overwrite))
        file = outputs.open(out)
        rejects_file = RejectsFile(outputs, Path(rejects)) if rejects else None
        copy_metadata(path, out, outputs)
        for part, (output, refused) in in_order(work, _told(source, progress), workers):
            file.write(output)
            add_refused(outcome, part, refused, rejects_file)
        if compresses and not outcome.documents > outcome.refused:
            file.write(gzip.compress(b""))
    return outcome


def check_file_at(shape: ShapeLike, path: PathLike, *, workers: Optional[int] = None, progress: Progress = _silent) -> Outcome:
    """Checks whether each document of a file fits the shape; nothing is written. Raises InputRefused; ShapeRefused where the shape is none."""
    shape = shape if isinstance(shape, Shape) else Shape(shape)
    outcome = Outcome(0, Summary(form_of_shape(shape)))
    with Source(Path(path)) as source:
        for part, refused in in_order(lambda part: check_file(shape, part.data), _told(source, progress), workers):
            add_refused(outcome, part, refused, None)
    return outcome
