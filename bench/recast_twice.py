#!/usr/bin/env python3
"""Recasts random documents at random shapes, and recasts each output at the same shape: it must come back unchanged.

It tries on the built program what `law_recast_again` proves. Most documents are made for their shape, with all that a shape takes (numbers of either
width, byte strings as texts, arrays for structs, documents that stand for extended values, keys that repeat or that no field takes); some have bytes
changed. What is refused the first time is not counted.

    python3 bench/recast_twice.py                        # with crates/bson_recast/out/bson_recast
    python3 bench/recast_twice.py --count 100000         # that many recasts that are written
    python3 bench/recast_twice.py --seed 7               # other documents
"""
import argparse, concurrent.futures, pathlib, random, struct, subprocess, sys

from elements import array, binary, document, element, string

PROGRAM = pathlib.Path(__file__).resolve().parent.parent / "crates/bson_recast/out/bson_recast"
NAMES = ["a", "b", "c", "_id", "id", "$oid", "$date", "x y", "", "n1"]
TEXTS = ["", "a", "A", "hello", "caf\u00e9", "\u6771", "5", "507f1f77bcf86cd799439011", "936da01f-9abd-4d9d-80c7-02af85c822a8", "a\0b"]
NUMBERS = [0, 1, -1, 7, 127, 128, -129, 255, 256, 40000, 65536, 2**31 - 1, 2**31, -2**31, 2**32, 2**53, 2**63 - 1, -2**63]
KEYS = ["str", "string", "<a,b,c>"]
LEAVES = ["bool", "i8", "i16", "i32", "i64", "u8", "u16", "u32", "u64", "double", "char", "str", "string", "bytes", "bytebuf", "unit", "any", "ignored",
          "oid", "datetime", "timestamp", "binary", "uuid", "regex", "codews", "decimal", "dbpointer", "bson", "document"]


def quoted(name):
    plain = name != "" and not name[0].isdigit() and all(c.isascii() and (c.isalnum() or c == "_") for c in name)
    return name if plain else '"' + name.replace("\\", "\\\\").replace('"', '\\"') + '"'


# ---- values of each kind: a pair of the kind's number and the bytes

def int_value(draw, number):
    if -2**31 <= number < 2**31 and draw.random() < 0.7:
        return 0x10, struct.pack("<i", number)
    return 0x12, struct.pack("<q", number)


def text_value(draw, value=None):
    value = draw.choice(TEXTS) if value is None else value
    return (0x02, string(value)) if draw.random() < 0.9 else (0x05, binary(0, value.encode()))


def code(draw):
    return string(draw.choice(TEXTS))


def oid(draw):
    return draw.randbytes(12)


def scoped(draw):
    parts = code(draw) + some_document(draw, 1)
    return struct.pack("<i", len(parts) + 4) + parts


def some_binary(draw):
    subtype, data = draw.choice([1, 2, 3, 4, 5, 128]), draw.randbytes(draw.choice([0, 1, 16]))
    return binary(subtype, struct.pack("<i", len(data)) + data if subtype == 2 else data)


EXTENDED = {
    "oid": lambda d: (0x07, oid(d)),
    "datetime": lambda d: (0x09, struct.pack("<q", d.choice(NUMBERS))),
    "timestamp": lambda d: (0x11, d.randbytes(8)),
    "binary": lambda d: (0x05, some_binary(d)),
    "uuid": lambda d: (0x05, binary(4, d.randbytes(16))),
    "regex": lambda d: (0x0B, d.choice(["", "a", "a.b"]).encode() + b"\0" + d.choice(["", "xi", "ix", "smx"]).encode() + b"\0"),
    "codews": lambda d: (0x0F, scoped(d)),
    "decimal": lambda d: (0x13, d.randbytes(16)),
    "dbpointer": lambda d: (0x0C, code(d) + oid(d)),
    "code": lambda d: (0x0D, code(d)),
    "symbol": lambda d: (0x0E, code(d)),
    "undefined": lambda d: (0x06, b""),
    "max": lambda d: (0x7F, b""),
    "min": lambda d: (0xFF, b""),
}


# the wrapper keys of the documents that a shape takes
FITTING = {"oid": ["$oid"], "datetime": ["$date"], "timestamp": ["$timestamp"], "binary": ["$binary", "$uuid"], "uuid": ["$uuid", "$binary"],
           "regex": ["$regularExpression"], "codews": ["$code"], "decimal": ["$numberDecimalBytes"], "dbpointer": ["$dbPointer"]}


def stands_for(draw, keys=None):
    """A document with one of these wrapper keys, or with any, and a value that mostly fits it, with other keys about it now and then."""
    hexadecimal = draw.choice(["507f1f77bcf86cd799439011", "507F1F77BCF86CD799439011", "0" * 24, "0" * 23, ""])
    identity = (0x03, document([element(0x02, "$oid", string(hexadecimal))]))
    millis = (0x03, document([element(0x02, "$numberLong", string(str(draw.choice(NUMBERS))))]))
    time = document(element(0x12, key, struct.pack("<q", draw.choice([0, 1, 2**32 - 1]))) for key in ("t", "i"))
    body = {
        "$oid": (0x02, string(hexadecimal)),
        "$symbol": text_value(draw),
        "$numberInt": text_value(draw, str(draw.choice(NUMBERS))),
        "$numberLong": text_value(draw, str(draw.choice(NUMBERS))),
        "$numberDouble": text_value(draw, draw.choice(["1.5", "-0.25", "Infinity", "-Infinity", "NaN"])),
        "$numberDecimalBytes": (0x05, binary(0, draw.randbytes(16))),
        "$binary": (0x03, document([element(0x02, "base64", string(draw.choice(["", "AA==", "AAECAwQFBgcICQoLDA0ODw=="]))),
                                    element(0x02, "subType", string(draw.choice(["00", "04", "80"])))])),
        "$uuid": text_value(draw, draw.choice(["936da01f-9abd-4d9d-80c7-02af85c822a8", "936DA01F9ABD4D9D80C702AF85C822A8", "936da01f"])),
        "$timestamp": (0x03, time),
        "$date": draw.choice([millis, text_value(draw, "2020-02-29T12:00:00.5Z")]),
        "$minKey": int_value(draw, 1),
        "$maxKey": int_value(draw, 1),
        "$undefined": (0x08, b"\1"),
        "$code": text_value(draw),
        "$dbPointer": (0x03, document([element(0x02, "$ref", string("a")), element(identity[0], "$id", identity[1])])),
        "$regularExpression": (0x03, document([element(0x02, "pattern", string("a")), element(0x02, "options", string(draw.choice(["", "xi"])))])),
    }
    key = draw.choice(keys or sorted(body))
    elements = [element(body[key][0], key, body[key][1])]
    if key == "$code" and (keys or draw.random() < 0.5):
        elements.insert(draw.randrange(2), element(0x03, "$scope", some_document(draw, 1)))
    if draw.random() < 0.2:
        elements.insert(draw.randrange(2), element(0x10, "z", bytes(4)))
    return 0x03, document(elements)


def some_document(draw, depth):
    values = [(draw.choice(NAMES), some_value(draw, depth)) for _ in range(draw.randrange(4))]
    return document(element(kind, key, value) for key, (kind, value) in values)


def some_value(draw, depth):
    """A value of any kind."""
    pick = draw.randrange(11)
    if depth > 0 and pick < 3:
        return 0x03, some_document(draw, depth - 1)
    if depth > 0 and pick < 4:
        return 0x04, array([some_value(draw, depth - 1) for _ in range(draw.randrange(3))])
    if pick < 6:
        return draw.choice([stands_for(draw), EXTENDED[draw.choice(sorted(EXTENDED))](draw)])
    if pick < 8:
        return int_value(draw, draw.choice(NUMBERS))
    return draw.choice([text_value(draw), (0x01, struct.pack("<d", 1.5)), (0x08, b"\1"), (0x0A, b""), (0x05, binary(0, draw.randbytes(3)))])


# ---- shapes: a text, and a function that makes a value for it

def leaf_value(draw, word):
    if word in ("any", "ignored", "bson"):
        return some_value(draw, 2)
    if word in EXTENDED:
        return EXTENDED[word](draw) if draw.random() < 0.7 else stands_for(draw, FITTING[word])
    if word == "bool":
        return 0x08, bytes([draw.randrange(2)])
    if word[0] in "iu" and word[1:].isdigit():
        signed, bits = word[0] == "i", int(word[1:])
        low, high = (-(2**(bits - 1)), 2**(bits - 1) - 1) if signed else (0, min(2**bits, 2**63) - 1)
        return int_value(draw, draw.choice([low, high, 5]))
    if word == "document":
        return 0x03, some_document(draw, 2)
    if word == "bytebuf" and draw.random() < 0.3:
        return 0x04, array([int_value(draw, draw.randrange(256)) for _ in range(draw.randrange(4))])
    return {"double": (0x01, struct.pack("<d", draw.choice([0.0, -0.0, 1.5]))),
            "char": (0x02, string(draw.choice("a\u00e9\u6771"))),
            "bytes": draw.choice([(0x07, oid(draw)), text_value(draw), (0x05, binary(0, draw.randbytes(3)))]),
            "unit": (0x0A, b"")}.get(word) or text_value(draw)


def leaf_shape(draw):
    word = draw.choice(LEAVES)
    return word, lambda d: leaf_value(d, word)


def option_shape(draw, depth):
    text, make = shape(draw, depth - 1)
    return "?" + text, lambda d: (0x0A, b"") if d.random() < 0.3 else make(d)


def sequence_shape(draw, depth):
    text, make = shape(draw, depth - 1)
    return f"[{text}]", lambda d: (0x04, array([make(d) for _ in range(d.randrange(4))]))


def tuple_shape(draw, depth):
    parts = [shape(draw, depth - 1) for _ in range(draw.randrange(3))]
    name = draw.choice(["", "P"])
    more = lambda d: [some_value(d, 1)] * (d.random() < 0.2)
    return f"{name}({','.join(text for text, _ in parts)})", lambda d: (0x04, array([make(d) for _, make in parts] + more(d)))


def map_shape(draw, depth):
    key = draw.choice(KEYS)
    text, make = shape(draw, depth - 1)
    keys = "abc" if key.startswith("<") else NAMES
    return f"[{key}:{text}]", lambda d: (0x03, document(element(k, d.choice(keys), v) for k, v in (make(d) for _ in range(d.randrange(5)))))


def fields(draw, depth):
    return [(name, shape(draw, depth - 1)) for name in draw.sample(NAMES, draw.randrange(4))]


def fields_value(draw, parts):
    if draw.random() < 0.1:
        return 0x04, array([make(draw) for _, (_, make) in parts])
    elements = [element(kind, name, value) for name, (text, make) in parts if not (text[0] == "?" and draw.random() < 0.4) for kind, value in [make(draw)]]
    if draw.random() < 0.2:
        kind, value = some_value(draw, 1)
        elements.append(element(kind, "other", value))
    draw.shuffle(elements)
    return 0x03, document(elements)


def fields_text(parts):
    return "{%s}" % ",".join(f"{quoted(name)}:{text}" for name, (text, _) in parts)


def struct_shape(draw, depth):
    parts = fields(draw, depth)
    return draw.choice(["", "S"]) + fields_text(parts), lambda d: fields_value(d, parts)


def enum_shape(draw, depth):
    newtype, parts = shape(draw, depth - 1), fields(draw, depth)
    contents = {"N": newtype[1], "T": lambda d: (0x04, array([int_value(d, 5)])), "S": lambda d: fields_value(d, parts)}

    def make(d):
        name = d.choice(["A", "N", "T", "S"])
        if name == "A":
            return text_value(d, name)
        kind, value = contents[name](d)
        behind = [element(0x10, "x", bytes(4))] * (d.random() < 0.2)
        return 0x03, document([element(kind, name, value)] + behind)
    return f"<A,N={newtype[0]},T(i32),S{fields_text(parts)}>", make


def newtype_shape(draw, depth):
    text, make = shape(draw, depth - 1)
    return "W=" + text, make


def shape(draw, depth):
    if depth <= 0 or draw.random() < 0.3:
        return leaf_shape(draw)
    return draw.choice([option_shape, sequence_shape, tuple_shape, map_shape, struct_shape, struct_shape, enum_shape, newtype_shape])(draw, depth)


def top_shape(draw):
    """Mostly a shape that takes a document."""
    if draw.random() < 0.1:
        return shape(draw, 3)
    if draw.random() < 0.1:
        return draw.choice(["any", "bson", "document"]), lambda d: (0x03, some_document(d, 3))
    return draw.choice([struct_shape, struct_shape, map_shape, enum_shape])(draw, 3)


def case(seed):
    """A shape's text and the bytes of a document."""
    draw = random.Random(seed)
    text, make = top_shape(draw)
    data = bytearray(make(draw)[1])
    if data and draw.random() < 0.1:
        data[draw.randrange(len(data))] = draw.choice([0, 1, 5, 255, draw.randrange(256)])
    return text, bytes(data)


# ---- the program

def recast(program, text, data):
    done = subprocess.run([program, text], input=data, capture_output=True)
    return done.returncode, done.stdout, done.stderr


def tried(program, seed):
    """Whether the document of this seed is written, and what is wrong with its second recast."""
    text, data = case(seed)
    status, once, said = recast(program, text, data)
    if status not in (0, 1, 2):
        return False, f"{text} on {data.hex()} ended with status {status}: {said!r}"
    if status != 0:
        return False, None
    status, twice, said = recast(program, text, once)
    if (status, twice) == (0, once):
        return True, None
    return True, f"{text} on {data.hex()} differs\n  once  {once.hex()}\n  twice {twice.hex()} (status {status}: {said!r})"


def main():
    parser = argparse.ArgumentParser(description=__doc__, formatter_class=argparse.RawDescriptionHelpFormatter)
    parser.add_argument("--program", default=str(PROGRAM), help="the built bson_recast")
    parser.add_argument("--count", type=int, default=10_000, help="how many recasts that are written are tried")
    parser.add_argument("--seed", type=int, default=1)
    options = parser.parse_args()
    written, wrong, made = 0, 0, 0
    with concurrent.futures.ThreadPoolExecutor(4) as pool:
        while written < options.count and made < 20 * options.count + 2_000:
            seeds = [f"{options.seed}.{made + i}" for i in range(2_000)]
            made += len(seeds)
            for is_written, fault in pool.map(lambda seed: tried(options.program, seed), seeds):
                written += is_written
                if fault is not None:
                    wrong += 1
                    print(fault)
    print(f"{written} of {made} documents were written, and recast again: {wrong} faults")
    sys.exit(1 if wrong or written < options.count else 0)


if __name__ == "__main__":
    main()
