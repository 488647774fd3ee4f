#!/usr/bin/env python3
"""Cuts a file of documents, one after another, between documents, into files of at most BYTES bytes each, in order.

    python3 tools/cut_documents.py dump.bson part. 1000000000      # part.00000000, part.00000001, ..

A document alone that is larger gets a file of its own. Where no document begins, what is left goes into one last file, which `bson_migrate` refuses as
broken. No file is overwritten. It ends with status 1 where a file cannot be read or written; the parts up to there stay.
"""
import struct
import sys


def documents(source):
    """Each document of a file, with True; then what is left where none begins, in pieces, each with False."""
    while front := source.read(4):
        length = struct.unpack("<i", front)[0] if len(front) == 4 else 0
        document = front + source.read(length - 4) if length >= 5 else front
        if length < 5 or len(document) < length:
            yield document, False
            while more := source.read(1 << 20):
                yield more, False
            return
        yield document, True


def cut(path, prefix, limit):
    count, room, part, whole = 0, 0, None, True
    with open(path, "rb") as source:
        for document, is_whole in documents(source):
            if part is None or (whole and (not is_whole or len(document) > room)):
                if part is not None:
                    part.close()
                part, room = open(f"{prefix}{count:08}", "xb"), limit
                count += 1
            part.write(document)
            room -= len(document)
            whole = is_whole
    if part is not None:
        part.close()


def main():
    if len(sys.argv) != 4 or not sys.argv[3].isdecimal() or not 0 < int(sys.argv[3]) <= 2147483647:
        return "usage: cut_documents.py FILE PREFIX BYTES, with 1 to 2147483647 BYTES"
    try:
        cut(sys.argv[1], sys.argv[2], int(sys.argv[3]))
    except OSError as error:
        return f"cut_documents.py: {error}"
    except MemoryError:
        return "cut_documents.py: out of memory"
    except KeyboardInterrupt:
        return "cut_documents.py: interrupted"
    return 0


if __name__ == "__main__":
    sys.exit(main())
