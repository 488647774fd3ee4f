#!/usr/bin/env python3
"""Counts what it costs to read a value and to write it, over bytes and over trees in memory, by the program bson_halves.

Of 10,000 rows of a number and a name it prints, in millions of instructions by valgrind's cachegrind, each of the two halves over bytes and over trees, the
document in memory that is made of the bytes, and the ratio of the halves over trees to those over bytes.

    (cd crates/bson_halves && rt run -- start '{}' < stdin)    # builds the program
    python3 bench/halves.py
"""
import argparse, pathlib, tempfile

from bench import HERE, instructions, rows

PROGRAM = HERE.parent / "crates/bson_halves/out/bson_halves"


def main():
    parser = argparse.ArgumentParser(description=__doc__, formatter_class=argparse.RawDescriptionHelpFormatter)
    parser.add_argument("--program", default=str(PROGRAM), help="the built bson_halves")
    parser.add_argument("--rows", type=int, default=10_000, help="how many rows")
    options = parser.parse_args()
    shape, data = rows(options.rows)
    with tempfile.TemporaryDirectory() as folder:
        path = pathlib.Path(folder, "rows")
        path.write_bytes(data)
        steps = ("start", "read", "write", "document", "read-tree", "write-tree")
        costs = {step: instructions([options.program, step, shape], path) for step in steps}
    over_bytes = costs["read"] - costs["start"], costs["write"] - costs["read"]
    over_trees = costs["read-tree"] - costs["document"], costs["write-tree"] - costs["read-tree"]
    for name, (read, write) in (("bytes", over_bytes), ("trees", over_trees)):
        print(f"over {name}: read {read / 1e6:6.1f}, written {write / 1e6:6.1f}")
    print(f"the document in memory of the bytes: {(costs['document'] - costs['start']) / 1e6:6.1f}")
    print(f"over trees and over bytes: {sum(over_trees) / sum(over_bytes):.2f}")


if __name__ == "__main__":
    main()
