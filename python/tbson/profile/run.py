"""The profile of files: their parts are walked on several processes, since Python walks on one processor in each."""

from __future__ import annotations

import multiprocessing
import signal
from dataclasses import dataclass, field
from multiprocessing import resource_tracker
from multiprocessing.connection import Connection
from pathlib import Path
from typing import Any, Callable, Iterator, List, Optional, Sequence

from tbson import elements as kinds
from tbson.core import documents
from tbson.inputs import Part, Source
from tbson.parts import processors
from tbson.profile.sound import damaged, unsound
from tbson.profile.tree import Field, Slot
from tbson.profile.walk import sample, walk

#: How many bytes a batch has, unless a document is longer.
BATCH = 1 << 20
#: Files of fewer bytes are walked in this process.
_SMALL = 8 << 20
_EVERY_SAMPLED = 16
_MOST_TOLD = 10


@dataclass(frozen=True)
class Wrong:
    """A document that was passed over: its number, and what is wrong."""

    file: str
    index: int
    text: str


@dataclass
class Profile:
    """What is in the documents: the tree of their paths, how many there are, and which ones were passed over."""

    whole: Slot
    #: How many documents the files have, and how many bytes these take.
    documents: int = 0
    size: int = 0
    passed_over: int = 0
    #: The first documents that were passed over.
    told: List[Wrong] = field(default_factory=list)

    def add_wrong(self, wrong: Wrong) -> None:
        """Another document was passed over."""
        self.passed_over += 1
        if len(self.told) < _MOST_TOLD:
            self.told.append(wrong)

    def merge(self, other: Profile) -> None:
        """Adds the profile of other documents."""
        self.whole.merge(other.whole)
        self.documents, self.size = self.documents + other.documents, self.size + other.size
        self.passed_over += other.passed_over
        self.told = sorted([*self.told, *other.told], key=lambda wrong: wrong.index)[:_MOST_TOLD]


@dataclass(frozen=True)
class Wanted:
    """What a profile is for: whether it tells of values, and whether documents that are not sound are passed over, not only damaged ones."""

    values: bool = True
    sound_only: bool = False

    def new(self) -> Profile:
        """A profile of no documents."""
        return Profile(Slot(kinds.DOCUMENT, Field(b"", 0), self.values))


@dataclass(frozen=True)
class Batch:
    """Documents of a file, one after another: the file, the number of the first one there and of those in all files before it, and their bytes."""

    file: str
    index: int
    number: int
    data: bytes


def add_batch(profile: Profile, wanted: Wanted, batch: Batch) -> None:
    """Adds the documents of the batch to the profile."""
    data, place = batch.data, 0
    wrong = (unsound if wanted.sound_only else damaged)(data)
    group = profile.whole.group
    if group is None:
        raise TypeError("the slot of whole documents has a group")
    for number, document in enumerate(documents(data)):
        end = place + len(document)
        if place in wrong:
            profile.add_wrong(Wrong(batch.file, batch.index + number, wrong[place]))
        else:
            count = walk(data, place + 4, end - 1, group, batch.number + number, False)
            profile.whole.values.add_lengths(count, count, count, 1)
            profile.whole.count += 1
            if wanted.values and (batch.number + number) % _EVERY_SAMPLED == 0:
                sample(data, place, group)
        profile.documents += 1
        place = end
    profile.size += len(data)
    profile.whole.end_batch()


def _serve(wanted: Wanted, pipe: Connection) -> None:
    """What another process does: it adds the batches that come, up to None, and sends the profile back."""
    try:
        profile = wanted.new()
        while True:
            batch: Optional[Batch] = pipe.recv()
            if batch is None:
                break
            add_batch(profile, wanted, batch)
            pipe.send(None)
        pipe.send(profile)
    except EOFError:
        return
    except Exception as error:  # It is raised again where the profile is waited for.
        pipe.send(error)


class _Process:
    """Another process that walks over batches, of which at most two are under way."""

    def __init__(self, wanted: Wanted):
        context = multiprocessing.get_context("spawn")
        self._pipe, theirs = context.Pipe()
        self._process = context.Process(target=_serve, args=(wanted, theirs), daemon=True)
        # The process has the mask of this thread, so that Ctrl-C, which comes to all processes, is for this one alone. The tracker would take the mask away.
        resource_tracker.ensure_running()
        mask = signal.pthread_sigmask(signal.SIG_BLOCK, {signal.SIGINT})
        try:
            self._process.start()
        finally:
            signal.pthread_sigmask(signal.SIG_SETMASK, mask)
        theirs.close()
        self._under_way = 0

    def _receive(self) -> Any:
        try:
            answer = self._pipe.recv()
        except EOFError:
            raise RuntimeError("a process that walked over documents ended") from None
        if isinstance(answer, Exception):
            raise answer
        return answer

    def add(self, batch: Batch) -> None:
        """Gives the process a batch, when it is through with one before."""
        if self._under_way == 2:
            self._receive()
            self._under_way -= 1
        self._pipe.send(batch)
        self._under_way += 1

    def profile(self) -> Profile:
        """The profile of all its batches."""
        self._pipe.send(None)
        for _ in range(self._under_way):
            self._receive()
        profile: Profile = self._receive()
        return profile

    def end(self) -> None:
        """Ends the process."""
        self._process.terminate()
        self._process.join()


#: Told how many bytes of all files were read so far, as they are on the disk.
Progress = Callable[[int], None]


def _batches(paths: Sequence[Path], progress: Progress) -> Iterator[Batch]:
    before = number = 0
    for path in paths:
        with Source(path) as source:
            for part in source.parts(BATCH):
                yield _batch(path, part, number)
                number += part.count
                progress(before + source.position)
            before += source.size


def _batch(path: Path, part: Part, number: int) -> Batch:
    return Batch(str(path), part.index, number, bytes(part.data))


def profile_of(paths: Sequence[Path], wanted: Wanted, workers: Optional[int] = None, progress: Progress = lambda _: None) -> Profile:
    """The profile of all documents of the files. Raises InputRefused."""
    for path in paths:
        Source(path).__exit__()
    count = workers or processors()
    if count == 1 or sum(path.stat().st_size for path in paths) < _SMALL:
        profile = wanted.new()
        for batch in _batches(paths, progress):
            add_batch(profile, wanted, batch)
        return profile
    return _on_processes(_batches(paths, progress), wanted, count)


def _on_processes(batches: Iterator[Batch], wanted: Wanted, count: int) -> Profile:
    processes: List[_Process] = []
    try:
        for _ in range(count):
            processes.append(_Process(wanted))
        for number, batch in enumerate(batches):
            processes[number % count].add(batch)
        profile = processes[0].profile()
        for process in processes[1:]:
            profile.merge(process.profile())
        return profile
    finally:
        for process in processes:
            process.end()
