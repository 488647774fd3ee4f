#!/usr/bin/env python3
"""Picks the documents that bson_migrate refused out of a dump, so that they can be repaired and migrated again.

    bson_migrate "$shape" < dump.bson > migrated.bson 2> refused
    python3 tools/pick_documents.py dump.bson refused

It writes the refused documents, one after another and as they are in the dump, to a new file with the name of the second one and `.bson` after it, here
refused.bson. For each it prints a line: its number in the dump, counted from 0, the byte at which it begins, its _id as `tools/documents.py show` has it (`-`
where it has none), and why it is refused, with tabs between them.

A name in a refusal may hold a line break. A line that does not begin with `document`, a greater number and a colon is taken as the rest of the one before
it, so a name that holds the beginning of such a line can add a document to the list.
"""
import re
import struct
import sys

from cut_documents import documents
from documents import elements, quoted

LINE = re.compile(r"document (\d+): (.*)", re.DOTALL)


def refusals(path):
    """The number of each refused document with its refusal, in order."""
    found = []
    with open(path, encoding="utf-8", errors="backslashreplace", newline="\n") as file:
        for line in file:
            match = LINE.fullmatch(line.rstrip("\n"))
            if match and (not found or int(match[1]) > found[-1][0]):
                found.append((int(match[1]), match[2]))
            elif found:
                found[-1] = found[-1][0], found[-1][1] + "\n" + line.rstrip("\n")
            else:
                raise ValueError(f"{path} has no lines of refused documents, but: {line.rstrip()}")
    return found


def identifier(document):
    """The text of the first _id of a document."""
    try:
        return next((text for name, text in elements(document) if name == "_id"), "-")
    except (ValueError, struct.error, RecursionError):
        return "-"


def pick(dump, refused):
    wanted = refusals(refused)
    number, place, picked = 0, 0, 0
    with open(dump, "rb") as source, open(refused + ".bson", "xb") as out:
        for document, whole in documents(source):
            if picked == len(wanted) or not whole:
                break
            if number == wanted[picked][0]:
                out.write(document)
                print(number, place, identifier(document), quoted(wanted[picked][1])[1:-1], sep="\t")
                picked += 1
            number, place = number + 1, place + len(document)
    if picked < len(wanted):
        raise ValueError(f"{dump} has no document {wanted[picked][0]}")


def main():
    if len(sys.argv) != 3:
        return "usage: pick_documents.py DUMP REFUSED"
    try:
        pick(sys.argv[1], sys.argv[2])
    except (OSError, ValueError) as error:
        return f"pick_documents.py: {error}"
    return 0


if __name__ == "__main__":
    sys.exit(main())
