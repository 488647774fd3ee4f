#!/usr/bin/env python3
"""Infers the shape of random files of documents, and migrates each file at its shape: no document may be refused.

It tries on the built programs what `law_inferred_recasts` proves: each of sound documents is read at the shape that is inferred from them
all, as a value that is written. The documents have values of every kind, inside one another, and keys that are missing, null or of unlike
types in some; no key is there twice or begins with a dollar sign. What is written has to be sound, too: its shape is inferred again.

    python3 bench/infer_then_migrate.py                        # with crates/bson_infer/out/bson_infer and crates/bson_migrate/out/bson_migrate
    python3 bench/infer_then_migrate.py --count 100000         # that many files
    python3 bench/infer_then_migrate.py --seed 7               # other documents
"""
import argparse, concurrent.futures, random, struct, subprocess, sys

from bench import INFER, MIGRATE
from elements import array, binary, document, element, string

KEYS = ["a", "b", "c", "_id", "x y", "", "caf\u00e9"]
TEXTS = ["", "a", "hello", "\u6771"]
NUMBERS = [0, 1, -1, 2**31 - 1, -2**31]
MOST_DEPTH = 3


def some_binary(draw):
    subtype, data = draw.choice([0, 0, 1, 2, 3, 4, 5, 128]), draw.randbytes(draw.choice([0, 1, 16]))
    return binary(subtype, struct.pack("<i", len(data)) + data if subtype == 2 else data)


def scoped(draw, depth):
    parts = string(draw.choice(TEXTS)) + some_document(draw, depth)
    return struct.pack("<i", len(parts) + 4) + parts


SCALARS = [
    lambda d: (0x01, struct.pack("<d", d.choice([0.0, -0.0, 1.5]))),
    lambda d: (0x02, string(d.choice(TEXTS))),
    lambda d: (0x05, some_binary(d)),
    lambda d: (0x06, b""),
    lambda d: (0x07, d.randbytes(12)),
    lambda d: (0x08, bytes([d.randrange(2)])),
    lambda d: (0x09, d.randbytes(8)),
    lambda d: (0x0A, b""),
    lambda d: (0x0B, d.choice(["", "a.b"]).encode() + b"\0" + d.choice(["", "xi", "ix"]).encode() + b"\0"),
    lambda d: (0x0C, string(d.choice(TEXTS)) + d.randbytes(12)),
    lambda d: (0x0D, string(d.choice(TEXTS))),
    lambda d: (0x0E, string(d.choice(TEXTS))),
    lambda d: (0x0F, scoped(d, 1)),
    lambda d: (0x10, struct.pack("<i", d.choice(NUMBERS))),
    lambda d: (0x11, d.randbytes(8)),
    lambda d: (0x12, struct.pack("<q", d.choice(NUMBERS + [2**63 - 1]))),
    lambda d: (0x13, d.randbytes(16)),
    lambda d: (0x7F, b""),
    lambda d: (0xFF, b""),
]


def value(draw, depth, kinds):
    """A value of one of these kinds, or a document or an array of such values."""
    pick = draw.random()
    if depth > 0 and pick < 0.2:
        return 0x03, some_document(draw, depth - 1, kinds)
    if depth > 0 and pick < 0.4:
        return 0x04, array([value(draw, depth - 1, kinds) for _ in range(draw.randrange(4))])
    return draw.choice(kinds)(draw)


def some_document(draw, depth, kinds=SCALARS):
    keys = draw.sample(KEYS, draw.randrange(4))
    return document(element(kind, key, data) for key in keys for kind, data in [value(draw, depth, kinds)])


def some_file(draw):
    """Few kinds in one file, so that its shape is not `bson` throughout."""
    kinds = draw.sample(SCALARS, draw.choice([1, 2, 3, len(SCALARS)]))
    return b"".join(some_document(draw, MOST_DEPTH, kinds) for _ in range(draw.randrange(1, 8)))


def run(command, data):
    done = subprocess.run(command, input=data, capture_output=True)
    return done.returncode, done.stdout, done.stderr


def fault(infer, migrate, seed):
    """What is wrong with the file of this seed, if anything is."""
    data = some_file(random.Random(seed))
    status, text, said = run([infer], data)
    if (status, said) != (0, b""):
        return f"{data.hex()}: inferring ended with status {status}: {said!r}"
    status, migrated, said = run([migrate, text.decode().rstrip("\n")], data)
    if (status, said) != (0, b""):
        return f"{data.hex()} at {text.decode()}migrating ended with status {status}: {said!r}"
    status, _, said = run([infer], migrated)
    if (status, said) != (0, b""):
        return f"{migrated.hex()}, which was written at {text.decode()}inferring ended with status {status}: {said!r}"
    return None


def main():
    parser = argparse.ArgumentParser(description=__doc__, formatter_class=argparse.RawDescriptionHelpFormatter)
    parser.add_argument("--infer", default=str(INFER), help="the built bson_infer")
    parser.add_argument("--migrate", default=str(MIGRATE), help="the built bson_migrate")
    parser.add_argument("--count", type=int, default=10_000, help="how many files")
    parser.add_argument("--seed", type=int, default=1)
    options = parser.parse_args()
    wrong = 0
    with concurrent.futures.ThreadPoolExecutor(4) as pool:
        for found in pool.map(lambda i: fault(options.infer, options.migrate, f"{options.seed}.{i}"), range(options.count)):
            if found is not None:
                wrong += 1
                print(found)
    print(f"{options.count} files were migrated at their inferred shapes: {wrong} faults")
    sys.exit(wrong > 0)


if __name__ == "__main__":
    main()
