"""Typed BSON: documents are read at a shape, such as "{name:string,age:i64}", and written anew with those fields and types.

    import tbson

    tbson.recast("{name:string,age:i64}", document)      # the new document, or ReadRefused, which is a ValueError
    tbson.check("{name:string,age:i64}", document)       # the same without an output
    output, refused = tbson.migrate(shape, file)         # each document of a file
    tbson.differences(old, new)                          # why what is written at an old shape need not be read at a new one

The functions call libtbson, in which a recast is proved to be what its definition says. They run without the interpreter's lock, on any threads.
"""

from tbson._buffers import Buffer
from tbson._library import INTERFACE
from tbson._version import __version__
from tbson.comparing import Difference, differences
from tbson.core import Migration, check, check_file, check_shape, documents, migrate, recast, version
from tbson.errors import Broken, ReadRefused, Refused, ShapeRefused, Status, UnknownStatus, WriteRefused
from tbson.shape import Shape, ShapeLike

#: The version of tbson.h that this package is for.
VERSION = INTERFACE

__all__ = [
    "VERSION",
    "Broken",
    "Buffer",
    "Difference",
    "Migration",
    "ReadRefused",
    "Refused",
    "Shape",
    "ShapeLike",
    "ShapeRefused",
    "Status",
    "UnknownStatus",
    "WriteRefused",
    "__version__",
    "check",
    "check_file",
    "check_shape",
    "differences",
    "documents",
    "migrate",
    "recast",
    "version",
]
