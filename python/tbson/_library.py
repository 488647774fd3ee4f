"""The shared library over ctypes: where it is, its calls and its structs, as tbson.h declares them."""

from __future__ import annotations

import ctypes
import os
from pathlib import Path
from typing import List

#: The version of tbson.h that this package is for.
INTERFACE = 1


class Report(ctypes.Structure):
    """What a call returns: struct tbson_report."""

    _fields_ = [
        ("status", ctypes.c_uint32),
        ("place", ctypes.c_size_t),
        ("written", ctypes.c_size_t),
        ("needed", ctypes.c_size_t),
        ("text_written", ctypes.c_size_t),
        ("text_needed", ctypes.c_size_t),
    ]


class Refusal(ctypes.Structure):
    """A refused document of a file: struct tbson_refusal."""

    _fields_ = [
        ("index", ctypes.c_uint64),
        ("offset", ctypes.c_size_t),
        ("status", ctypes.c_uint32),
        ("text_start", ctypes.c_size_t),
        ("text_length", ctypes.c_size_t),
        ("cause_start", ctypes.c_size_t),
    ]


class MigrationReport(ctypes.Structure):
    """What migrating a file returns: struct tbson_migration_report."""

    _fields_ = [("report", Report), ("refusals_written", ctypes.c_size_t), ("refusals_needed", ctypes.c_size_t)]


class NextDocument(ctypes.Structure):
    """What is at a place of a file: struct tbson_document."""

    _fields_ = [("status", ctypes.c_uint32), ("length", ctypes.c_size_t)]


def _places() -> List[Path]:
    """The files that may be the library: the one that the environment names, or the one in the package, and in a checkout what `make -C c` builds."""
    if "TBSON_LIBRARY" in os.environ:
        return [Path(os.environ["TBSON_LIBRARY"])]
    package = Path(__file__).resolve().parent
    return [package / f"libtbson.so.{INTERFACE}", package.parent.parent / "c" / "out" / f"libtbson.so.{INTERFACE}"]


def _remedy() -> str:
    return "Install the wheel that `make -C c wheel` builds, or set TBSON_LIBRARY to the path of libtbson.so."


def _declare(library: ctypes.CDLL) -> None:
    """Sets the types of the calls."""
    piece = [ctypes.c_void_p, ctypes.c_size_t]
    library.tbson_check_shape.argtypes, library.tbson_check_shape.restype = 2 * piece, Report
    library.tbson_differences.argtypes, library.tbson_differences.restype = 3 * piece, Report
    library.tbson_recast.argtypes, library.tbson_recast.restype = 4 * piece, Report
    library.tbson_migrate_and_list.argtypes, library.tbson_migrate_and_list.restype = 5 * piece, MigrationReport
    library.tbson_next_document.argtypes, library.tbson_next_document.restype = piece + [ctypes.c_size_t], NextDocument


def load() -> ctypes.CDLL:
    """The library. Raises ImportError where there is none, or an older or another one."""
    places = _places()
    path = next((place for place in places if place.exists()), None)
    if path is None:
        raise ImportError(f"tbson: there is no shared library {' or '.join(map(str, places))}. {_remedy()}")
    try:
        library = ctypes.CDLL(str(path))
        library.tbson_version.argtypes, library.tbson_version.restype = [], ctypes.c_uint32
    except OSError as error:
        raise ImportError(f"tbson: the shared library {path} cannot be loaded ({error}). {_remedy()}") from error
    except AttributeError as error:
        raise ImportError(f"tbson: {path} is another library ({error}). {_remedy()}") from error
    if library.tbson_version() < INTERFACE:
        raise ImportError(f"tbson: {path} has version {library.tbson_version()}, and this package needs {INTERFACE}. {_remedy()}")
    _declare(library)
    return library


library = load()
