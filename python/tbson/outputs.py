"""Files that are written beside their places and put there together at the end, so that none is there half-written."""

from __future__ import annotations

import contextlib
import os
from pathlib import Path
from types import TracebackType
from typing import BinaryIO, Callable, List, Optional, Type, Union


class OutputRefused(OSError):
    """A file cannot be written: its text is one line for the person who named it."""


class OutputFile:
    """A file that is written beside its place."""

    def __init__(self, path: Path):
        self.path, self._beside = path, path.with_name(f".{path.name}.{os.getpid()}.tbson")
        self._file: Optional[BinaryIO] = None

    def create(self, replaces: bool) -> None:
        """Creates the file. Raises OutputRefused where its place is taken, or cannot be written to."""
        path = self.path
        if path.is_dir():
            raise OutputRefused(f"{path}: is a directory; give the name of a file")
        if os.path.lexists(path) and not replaces:
            raise OutputRefused(f"{path}: is there already; --overwrite replaces it")
        if path.exists() and not path.is_file():
            raise OutputRefused(f"{path}: is no regular file")
        try:
            self._file = open(self._beside, "wb", buffering=0)
        except OSError as error:
            raise OutputRefused(f"{path}: {error.strerror}") from error

    def write(self, data: Union[bytes, bytearray, memoryview]) -> None:
        """Writes all of the data."""
        if self._file is None:
            raise ValueError("the file was not created")
        left = memoryview(data)
        try:
            while left:
                left = left[self._file.write(left) :]
        except OSError as error:
            raise OutputRefused(f"{self.path}: {error.strerror}; nothing was written") from error

    def finish(self) -> None:
        """Closes the file."""
        try:
            if self._file is not None:
                self._file.close()
        except OSError as error:
            raise OutputRefused(f"{self.path}: {error.strerror}; nothing was written") from error

    def put(self) -> None:
        """Puts the file in its place, if that was not done."""
        with contextlib.suppress(FileNotFoundError):
            os.replace(self._beside, self.path)

    def drop(self) -> None:
        """Takes the file away, if it is there."""
        with contextlib.suppress(OSError):
            if self._file is not None:
                self._file.close()
        with contextlib.suppress(FileNotFoundError):
            self._beside.unlink()


def _for_each(files: List[OutputFile], do: Callable[[OutputFile], None]) -> None:
    """Does it for each of the files, once more where an interrupt came meanwhile: what is begun here is done to the end."""
    left = list(files)
    while left:
        try:
            do(left[-1])
            left.pop()
        except KeyboardInterrupt:
            continue


class Outputs:
    """The files of a command: where its `with` ends well, all are put in their places, and else none of them stays."""

    def __init__(self, replaces: bool):
        self._replaces = replaces
        self._files: List[OutputFile] = []

    def open(self, path: Path) -> OutputFile:
        """A new file. Raises OutputRefused where its place is taken, or cannot be written to."""
        file = OutputFile(path)
        self._files.append(file)
        file.create(self._replaces)
        return file

    def __enter__(self) -> "Outputs":
        return self

    def __exit__(self, kind: Optional[Type[BaseException]], error: Optional[BaseException], trace: Optional[TracebackType]) -> None:
        try:
            if kind is None:
                for file in self._files:
                    file.finish()
                _for_each(self._files, OutputFile.put)
        finally:
            _for_each(self._files, OutputFile.drop)
