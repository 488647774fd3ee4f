#!/usr/bin/env python3
"""A model of `bson_stream --salvage`, and random files on which the program is compared with it.

    python3 bench/salvage_model.py --program PATH [--files 20000] [--seed 1]

The model is written from crates/bson_salvaging/specs/Salvage.antt and Looks.antt. It counts no looks: the files here are too small to use them up.
"""
import argparse
import random
import struct
import subprocess
import sys

MOST_BYTES = 16793600
LEVELS = 200

# How many bytes a value takes: so many, or as many as its int32 announces, at least the first number, and the second number more (bsonspec.org, `element`).
FIXED = {0x01: 8, 0x06: 0, 0x07: 12, 0x08: 1, 0x09: 8, 0x0A: 0, 0x10: 4, 0x11: 8, 0x12: 8, 0x13: 16, 0x7F: 0, 0xFF: 0}
ANNOUNCED = {0x02: (1, 4), 0x03: (5, 0), 0x04: (5, 0), 0x05: (0, 5), 0x0C: (1, 16), 0x0D: (1, 4), 0x0E: (1, 4), 0x0F: (14, 0)}


def int32(data):
    return struct.unpack_from("<i", data)[0]


def value_length(kind, data):
    """How many bytes the value in front takes, or None."""
    if kind in FIXED:
        length = FIXED[kind]
    elif kind == 0x0B:
        first = data.find(b"\0")
        second = data.find(b"\0", first + 1)
        if first < 0 or second < 0:
            return None
        length = second + 1
    elif kind in ANNOUNCED:
        least, more = ANNOUNCED[kind]
        if len(data) < 4 or int32(data) < least:
            return None
        length = int32(data) + more
    else:
        return None
    return length if length <= len(data) else None


def elements(document):
    """The kinds and values of the elements of a document, or None where it has a fault in its frame or its elements."""
    if len(document) < 5 or int32(document) != len(document) or document[-1] != 0:
        return None
    found, rest = [], document[4:-1]
    while rest:
        kind, end = rest[0], rest.find(b"\0", 1)
        if end < 0:
            return None
        try:
            rest[1:end].decode("utf-8")
        except UnicodeDecodeError:
            return None
        length = value_length(kind, rest[end + 1 :])
        if length is None:
            return None
        found.append((kind, rest[end + 1 : end + 1 + length]))
        rest = rest[end + 1 + length :]
    return found


def has_no_fault(document, levels=LEVELS):
    """Whether a document, and each document and array in it, has no fault."""
    if levels == 0:
        return False
    found = elements(document)
    return found is not None and all(has_no_fault(value, levels - 1) for kind, value in found if kind in (0x03, 0x04))


def piece_length(data):
    """The length that the bytes in front announce, where so many are there."""
    if len(data) < 4:
        return None
    length = int32(data)
    return length if 5 <= length <= len(data) else None


def seen(data):
    length = piece_length(data)
    return length if length is not None and length <= MOST_BYTES and has_no_fault(data[:length]) else None


def goes_on(data):
    return not data or seen(data) is not None


def counts(data):
    length = seen(data)
    return length is not None and goes_on(data[length:])


def salvage(file):
    """What is written to the output and to the output for lines, and the status."""
    out, lines, place = b"", "", 0
    while place < len(file):
        length = piece_length(file[place:])
        if length is not None and elements(file[place : place + length]) is not None:
            out += file[place : place + length]
            place += length
            continue
        if length is not None and goes_on(file[place + length :]):
            end = place + length
        else:
            end = next((at for at in range(place + 1, len(file)) if counts(file[at:])), len(file))
        lines += f"bytes {place} to {end} left out\n"
        place = end
    return out, lines, 1 if lines else 0


def random_document(chance, levels):
    body = b""
    for _ in range(chance.randrange(4)):
        key = bytes(chance.choices(b"abc$", k=chance.randrange(3)))
        kind = chance.choice([0x02, 0x03, 0x04, 0x05, 0x08, 0x0A, 0x0B, 0x10, 0x12] if levels else [0x02, 0x08, 0x0A, 0x10])
        text = bytes(chance.choices(b"xyz", k=chance.randrange(4)))
        value = {
            0x02: lambda: struct.pack("<i", len(text) + 1) + text + b"\0",
            0x03: lambda: random_document(chance, levels - 1),
            0x04: lambda: random_document(chance, levels - 1),
            0x05: lambda: struct.pack("<i", len(text)) + b"\0" + text,
            0x08: lambda: bytes([chance.randrange(2)]),
            0x0A: lambda: b"",
            0x0B: lambda: text + b"\0i\0",
            0x10: lambda: struct.pack("<i", chance.randrange(-9, 9)),
            0x12: lambda: struct.pack("<q", chance.randrange(-9, 9)),
        }[kind]()
        body += bytes([kind]) + key + b"\0" + value
    return struct.pack("<i", len(body) + 5) + body + b"\0"


def random_file(chance):
    """Documents one behind another, of which some are damaged, with bytes between some, and at times cut off."""
    file = bytearray()
    for _ in range(chance.randrange(6)):
        file += random_document(chance, 3)
        if chance.random() < 0.2:
            file += bytes(chance.choices(range(256), k=chance.randrange(1, 6)))
    for _ in range(chance.choice([0, 0, 1, 1, 2, 5]) if file else 0):
        at = chance.randrange(len(file))
        what = chance.randrange(3)
        if what == 0:
            file[at] = chance.choice([0, 1, 2, 3, 5, 16, 255, chance.randrange(256)])
        elif what == 1:
            del file[at : at + chance.randrange(1, 8)]
        else:
            file[at:at] = bytes(chance.choices([0, 5, 3, 255], k=chance.randrange(1, 5)))
        if not file:
            break
    return bytes(file[: chance.randrange(len(file))]) if file and chance.random() < 0.2 else bytes(file)


def main():
    parser = argparse.ArgumentParser(description=__doc__.split("\n", 1)[0])
    parser.add_argument("--program", required=True, help="the built bson_stream")
    parser.add_argument("--files", type=int, default=20000)
    parser.add_argument("--seed", type=int, default=1)
    options = parser.parse_args()
    chance = random.Random(options.seed)
    differ = damaged = 0
    for number in range(options.files):
        file = random_file(chance)
        out, lines, status = salvage(file)
        damaged += status
        run = subprocess.run([options.program, "--salvage"], input=file, capture_output=True)
        if (run.stdout, run.stderr.decode(), run.returncode) != (out, lines, status):
            differ += 1
            print(f"file {number}: {file.hex()}\n  model {out.hex()} {lines!r} {status}\n  program {run.stdout.hex()} {run.stderr!r} {run.returncode}")
    print(f"{options.files} files, {damaged} of them with damage: {differ} differ")
    return differ > 0


if __name__ == "__main__":
    sys.exit(main())
