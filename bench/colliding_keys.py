#!/usr/bin/env python3
"""Measures what keys that were made to collide cost.

Makes documents of so many keys of 32 characters and numbers, once with keys that have one hash under std's FoldHasher, by which std's
HashMap finds them, and once with other keys; each with different keys, and with the first key twice, where the program reads in two
steps. Runs the built bson_recast on these at `any` and at `[string:i32]`, and the built bson_infer, which makes a document in memory of
them and finds their names; on files of such a document and of one with its keys in the reverse order, too. Counts instructions by
valgrind's cachegrind less those on the smallest input, and prints how many times those for the others the colliding ones take. Ends with
status 1 where that is more than --most. A program whose cost is the square of the number of colliding keys shows it at a few thousand:
their ratio grows with --count.

    python3 bench/colliding_keys.py                     # 100,000 keys, with the programs in crates/bson_recast/out and crates/bson_infer/out
    python3 bench/colliding_keys.py --count 2000 --program FILE --infer FILE

How keys collide: the hasher reads a key of 32 bytes as four numbers of 64 bits, the lowest byte first. It starts at a fixed state plus
the length. It multiplies the first number, xored with the state, by the second, xored with a constant, and joins the halves of the
product by xor to the next state; so it goes on with the third and the fourth. Where the third number is the state, the product is 0,
whatever the fourth is. So the keys have one beginning of 24 bytes, whose last eight are the state after the first sixteen, and any end.
"""
import argparse, pathlib, string as letters, struct, sys, tempfile

from bench import INFER, RECAST, SMALLEST, Draws, instructions
from elements import document, int32

LENGTH = 32
SEED = 0x243F6A8885A308D3
MULTIPLIER = 0x9E3779B97F4A7C15
ALPHABET = letters.ascii_letters + letters.digits


def folded_multiply(a, b):
    product = a * b
    return product % 2**64 ^ product >> 64


def state_after(start):
    """The hasher's state after the first sixteen bytes of a key of 32."""
    first, second = struct.unpack("<QQ", start)
    return folded_multiply(first ^ SEED + LENGTH, second ^ MULTIPLIER)


def word(draws, length):
    return "".join(draws.pick(ALPHABET) for _ in range(length))


def beginning(draws):
    """Twenty-four characters with which keys collide, whatever follows. The state has to be printable: about one in 2,800 is."""
    while True:
        start = word(draws, 16)
        state = struct.pack("<Q", state_after(start.encode()))
        if all(0x20 < byte < 0x7F for byte in state):
            return start + state.decode()


def different(make, count):
    keys = {}
    while len(keys) < count:
        keys[make()] = None
    return list(keys)


def key_lists(count):
    """So many keys that collide, and so many others."""
    draws = Draws(13)
    start = beginning(draws)
    colliding = different(lambda: start + word(draws, LENGTH - len(start)), count)
    others = different(lambda: word(draws, LENGTH), count)
    return [colliding, others]


def of_keys(keys):
    return document(int32(key, i) for i, key in enumerate(keys))


def once(keys):
    return of_keys(keys)


def first_twice(keys):
    return of_keys(keys + keys[:1])


def both_orders(keys):
    return of_keys(keys) + of_keys(keys[::-1])


def ratio(name, command, count, lists, make, folder):
    """How many times the instructions for other keys those for colliding ones are."""
    counts = []
    for keys in lists:
        path = pathlib.Path(folder, "input")
        path.write_bytes(make(keys))
        counts.append(instructions(command, path))
    path.write_bytes(SMALLEST)
    least = instructions(command, path)
    colliding, others = (total - least for total in counts)
    print(f"{count} {name:44} {colliding / count:9.0f} instructions for each that collides, "
          f"{others / count:6.0f} for each other, {colliding / others:.2f} times", flush=True)
    return colliding / others


def main():
    parser = argparse.ArgumentParser(description=__doc__, formatter_class=argparse.RawDescriptionHelpFormatter)
    parser.add_argument("--program", default=str(RECAST), help="the built bson_recast")
    parser.add_argument("--infer", default=str(INFER), help="the built bson_infer")
    parser.add_argument("--count", type=int, default=100_000, help="how many keys")
    parser.add_argument("--most", type=float, default=3.0, help="the largest ratio that passes")
    options = parser.parse_args()
    runs = [(f"{what} at {shape}", [options.program, shape], make)
            for what, make in (("different keys", once), ("keys, one twice,", first_twice)) for shape in ("any", "[string:i32]")]
    runs += [("different keys, inferred", [options.infer], once), ("keys, one twice, inferred", [options.infer], first_twice),
             ("keys in both orders, inferred", [options.infer], both_orders)]
    lists = key_lists(options.count)
    with tempfile.TemporaryDirectory() as folder:
        worst = max(ratio(name, command, options.count, lists, make, folder) for name, command, make in runs)
    sys.exit(worst > options.most)


if __name__ == "__main__":
    main()
