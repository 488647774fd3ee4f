"""A migration past one machine, over Dask: a file may be cut anywhere between documents, and its parts migrated anywhere.

    from distributed import Client
    import tbson.distributed

    client = Client("scheduler:8786")
    tbson.distributed.migrate(client, "{_id:oid,name:string}", "/data/people.bson", "/data/typed.bson")

The workers have this package, and see the input and the folder of the output under the same names.
"""

from __future__ import annotations

import os
import shutil
import tempfile
import uuid
from contextlib import ExitStack, contextmanager
from dataclasses import dataclass
from pathlib import Path
from typing import Any, Iterator, List, Optional

from tbson import core
from tbson.errors import Refused
from tbson.files import Outcome, PathLike, add_refused, copy_metadata, form_of_shape
from tbson.inputs import InputRefused, Part, Source
from tbson.outputs import OutputFile, Outputs
from tbson.rejects import RejectsFile
from tbson.shape import Shape, ShapeLike
from tbson.summary import Summary

#: How many bytes a part has, unless a document is longer.
PART = 16 << 20
_COPIED = 1 << 20


@dataclass(frozen=True)
class _Stretch:
    """Documents of the file, one after another: the number of the first one, the byte at which it begins, how many they are, and how many bytes they take."""

    index: int
    offset: int
    count: int
    length: int


def _stretches(source: Source, length: int) -> List[_Stretch]:
    return [_Stretch(part.index, part.offset, part.count, len(part.data)) for part in source.parts(length)]


def _read(path: str, stretch: _Stretch) -> bytes:
    with open(path, "rb") as file:
        file.seek(stretch.offset)
        data = file.read(stretch.length)
    if len(data) != stretch.length:
        raise InputRefused(f"{path}: was written to meanwhile: it ends before byte {stretch.offset + stretch.length:,}")
    return data


def _migrate_stretch(shape: Shape, path: str, stretch: _Stretch, target: str) -> List[Refused]:
    """What a worker does: it writes the migrated documents to the target. It may be done again, and by another worker: the target appears whole."""
    output, refused = core.migrate(shape, _read(path, stretch))
    beside = f"{target}.{uuid.uuid4().hex}"
    with open(beside, "wb") as file:
        file.write(output)
    os.replace(beside, target)
    return refused


@contextmanager
def _folder_beside(out: Path) -> Iterator[Path]:
    """A folder for the parts, in that of the output, which is gone at the end."""
    folder = Path(tempfile.mkdtemp(prefix=f".{out.name}.", suffix=".parts", dir=out.parent))
    try:
        yield folder
    finally:
        shutil.rmtree(folder, ignore_errors=True)


def _append(file: OutputFile, part: Path) -> None:
    """Moves what is in the part to the end of the file."""
    with open(part, "rb") as written:
        for data in iter(lambda: written.read(_COPIED), b""):
            file.write(data)
    part.unlink()


def migrate(
    client: Any,
    shape: ShapeLike,
    path: PathLike,
    out: PathLike,
    *,
    rejects: Optional[PathLike] = None,
    overwrite: bool = False,
    part: int = PART,
) -> Outcome:
    """Recasts each document of a file at the shape, into another file, on the workers of a distributed.Client. The output is that of `tbson.files.migrate_file`.

    A part of the file is done again where its worker is lost. Raises InputRefused or OutputRefused, and then no file was written; ShapeRefused where the shape is none.
    """
    shape, path, out = shape if isinstance(shape, Shape) else Shape(shape), Path(path).resolve(), Path(out).resolve()
    if path.name.endswith(".gz") or out.name.endswith(".gz"):
        raise InputRefused(f"{path}: a compressed file cannot be cut; unpack it first, or use migrate_file")
    outcome = Outcome(0, Summary(form_of_shape(shape)))
    with ExitStack() as stack:
        source = stack.enter_context(Source(path))
        outputs = stack.enter_context(Outputs(overwrite))
        file = outputs.open(out)
        rejects_file = RejectsFile(outputs, Path(rejects)) if rejects else None
        copy_metadata(path, out, outputs)
        folder = stack.enter_context(_folder_beside(out))
        stretches = _stretches(source, part)
        targets = [folder / str(number) for number in range(len(stretches))]
        futures = [client.submit(_migrate_stretch, shape, str(path), stretch, str(target), pure=False) for stretch, target in zip(stretches, targets)]
        stack.callback(client.cancel, futures)
        for future, stretch, target in zip(futures, stretches, targets):
            refused = future.result()
            _append(file, target)
            add_refused(outcome, _part(path, stretch, bool(refused and rejects_file)), refused, rejects_file)
    return outcome


def _part(path: Path, stretch: _Stretch, is_read: bool) -> Part:
    """The part of the file, with its bytes where they are wanted."""
    return Part(stretch.index, stretch.offset, stretch.count, memoryview(_read(str(path), stretch) if is_read else b""))
