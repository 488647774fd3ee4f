#!/usr/bin/env python3
"""Measures the built program on inputs that it makes itself, beside a program over libbson.

For each workload: seconds and bytes a second, instructions for each byte of input, and peak memory. Instructions are counted by
valgrind's cachegrind, less those of the same program on the smallest input, so they tell the same on every run.

    python3 bench/bench.py                  # all workloads, with crates/bson_recast/out/bson_recast and bson_migrate's
    python3 bench/bench.py --only rows      # one of them

It needs valgrind; the ratios to libbson need gcc and libbson's header (Debian: libbson-dev), and are left out without them.
"""
import argparse, itertools, os, pathlib, re, shutil, string as letters, struct, subprocess, sys, tempfile, time

from elements import array, binary, document, element, int32, string, text

HERE = pathlib.Path(__file__).resolve().parent
RECAST = HERE.parent / "crates/bson_recast/out/bson_recast"
MIGRATE = HERE.parent / "crates/bson_migrate/out/bson_migrate"
STREAM = HERE.parent / "crates/bson_stream/out/bson_stream"
INFER = HERE.parent / "crates/bson_infer/out/bson_infer"
SMALLEST = b"\x05\0\0\0\0"


def rows(count):
    """`count` rows of a number, a text, and a boolean that no field takes."""
    def row(i):
        return document([int32("n", i), text("name", f"row{i}"), element(0x08, "ok", b"\1")])
    array = document(element(0x03, str(i), row(i)) for i in range(count))
    return "{rows:[{n:u32,name:string}]}", document([element(0x04, "rows", array)])


def names(count):
    """The first so many bare names of three characters: one word of a command line takes about 18,000 of them."""
    first, other = letters.ascii_letters, letters.ascii_letters + letters.digits
    return ["".join(name) for name in itertools.islice(itertools.product(first, other, other), count)]


def fields(count, turned):
    """One struct of so many fields, whose elements come in the shape's order or in the reverse order."""
    fields = names(count)
    shape = "{%s}" % ",".join(f"{name}:i8" for name in fields)
    order = reversed(fields) if turned else fields
    return shape, document(int32(name, 1) for name in order)


class Draws:
    """A sequence of numbers that is the same on every machine."""

    def __init__(self, seed):
        self.state = seed

    def below(self, limit):
        s = self.state
        s ^= (s << 13) & (2**64 - 1)
        s ^= s >> 7
        s ^= (s << 17) & (2**64 - 1)
        self.state = s
        return ((s * 0x2545F4914F6CDD1D & (2**64 - 1)) >> 11) % limit

    def pick(self, choices):
        return choices[self.below(len(choices))]

    def data(self, length):
        return bytes(self.below(256) for _ in range(length))


KEYS = ["id", "name", "value", "kind", "items", "children", "meta", "created_at", "flags", "x", "y", "description"]
TEXTS = ["", "x", "hello world", "caf\u00e9 cr\u00e8me", "2024-05-01T00:00:00Z",
         "a somewhat longer piece of text, as documents hold", "\u6771\u4eac\u90fd"]


def mixed_document(draws, depth):
    """One to seven elements with different keys."""
    first, count = draws.below(len(KEYS)), 1 + draws.below(7)
    elements = []
    for i in range(count):
        kind, value = mixed_value(draws, depth)
        elements.append(element(kind, KEYS[(first + i * 5) % len(KEYS)], value))
    return document(elements)


def mixed_value(draws, depth):
    """A value as JSON has them: documents and arrays to a depth of seven, texts, numbers, booleans and null."""
    choice = draws.below(12)
    if depth >= 7 and choice < 4:
        choice = 4 + draws.below(8)
    if choice < 2:
        return 3, mixed_document(draws, depth + 1)
    if choice < 4:
        return 4, array([mixed_value(draws, depth + 1) for _ in range(draws.below(6))])
    if choice < 7:
        return 2, string(draws.pick(TEXTS))
    if choice < 9:
        return 0x10, struct.pack("<i", draws.below(2**32) - 2**31)
    if choice == 9:
        return 0x12, struct.pack("<q", (draws.below(2**53) << 3) - 2**55)
    if choice == 10:
        return 1, struct.pack("<d", draws.below(10**9) / 64.0)
    return (8, bytes([draws.below(2)])) if draws.below(2) else (10, b"")


def mixed(size):
    """Documents as JSON has them, of so many bytes together."""
    draws, items, total = Draws(5), [], 0
    while total < size:
        value = mixed_document(draws, 2)
        items.append((3, value))
        total += len(value)
    return "any", document([element(4, "items", array(items))])


def deep(chains, depth):
    """So many chains of documents and some arrays inside one another."""
    def chain(i):
        value = document([int32("leaf", i)])
        for level in range(depth):
            if level % 4:
                value = document([element(3, "a", value)])
            elif level % 8 == 0:
                value = document([element(4, "b", array([(3, value)]))])
            else:
                value = document([int32("n", level), element(3, "a", value)])
        return value
    return "any", document([element(4, "c", array([(3, chain(i)) for i in range(chains)]))])


def wide(shape, count):
    """One document of so many different keys of twelve characters. At `any` the values are texts and numbers, else numbers alone."""
    draws = Draws(9)
    alphabet = letters.ascii_lowercase + letters.ascii_uppercase + letters.digits
    word = lambda: "".join(draws.pick(alphabet) for _ in range(12))
    keys = {}
    while len(keys) < count:
        keys[word()] = None
    mixed_values = shape == "any"
    return shape, document(text(key, word()) if mixed_values and i % 2 else int32(key, i) for i, key in enumerate(keys))


def texts(count):
    """An array of so many long texts, most of whose characters are not ASCII."""
    words = ["\u0434\u0430\u043d\u043d\u044b\u0435", "caf\u00e9", "\u6771\u4eac\u90fd", "\u0438", "\u0442\u0435\u043a\u0441\u0442\u0430", "in"]
    line = lambda i: " ".join(words[(i * 7 + j * 5) % len(words)] for j in range(110))
    return "{texts:[str]}", document([element(4, "texts", array((2, string(line(i))) for i in range(count)))])


def opened(count):
    """An array of so many documents of an ObjectId, a date and a binary of 16 bytes, which have no shape of their own at `any`."""
    draws = Draws(7)

    def one():
        user = binary(4, draws.data(16))
        return document([element(7, "_id", draws.data(12)), element(9, "at", struct.pack("<q", draws.below(2**41))), element(5, "user", user)])
    return "any", document([element(4, "items", array([(3, one()) for _ in range(count)]))])


def extended(count):
    """An array of so many documents of an ObjectId, a date, a UUID, texts, a number and a decimal, each at its own shape."""
    draws = Draws(11)

    def one():
        user = binary(4, draws.data(16))
        tags = array([(2, string(draws.pick(TEXTS))) for _ in range(draws.below(4))])
        number = struct.pack("<q", draws.below(2**53) - 2**52)
        price = struct.pack("<QQ", draws.below(10**6), (6176 - 2) << 49)  # hundredths: 6176 is added to the exponent, which is -2
        return document([element(7, "_id", draws.data(12)), element(9, "at", struct.pack("<q", draws.below(2**41))), element(5, "user", user),
                         element(4, "tags", tags), element(0x12, "n", number), element(0x13, "price", price)])
    shape = "{items:[{_id:oid,at:datetime,user:uuid,tags:[string],n:i64,price:decimal}]}"
    return shape, document([element(4, "items", array([(3, one()) for _ in range(count)]))])


PEOPLE = ["Ada", "Grace Hopper", "Zo\u00eb", "Jos\u00e9 Garc\u00eda", "Bj\u00f6rn", "Edsger W. Dijkstra", "\u041b\u0435\u0432", "\u674e\u96f7"]
TAGS = ["a", "admin", "beta", "eu-west", "caf\u00e9", "longer-tag-name", "\u65b0"]
CITIES = ["X", "Berlin", "Z\u00fcrich", "S\u00e3o Paulo", "Oslo", "\u6771\u4eac", "New York"]


def people(count, change=lambda elements: elements):
    """So many documents of persons. One in five has a key that no field takes; three in twenty have no address, three a null. The elements of each are changed."""
    draws = Draws(3)

    def one():
        elements = [element(7, "_id", draws.data(12)), text("name", draws.pick(PEOPLE)),
                    element(4, "tags", array([(2, string(draws.pick(TAGS))) for _ in range(draws.below(4))])),
                    element(9, "created", struct.pack("<q", draws.below(2**41)))]
        if draws.below(5) == 0:
            elements.append(int32("v", draws.below(100)))
        kind = draws.below(20)
        if kind < 14:
            elements.append(element(3, "address", document([text("city", draws.pick(CITIES))])))
        elif kind < 17:
            elements.append(element(10, "address", b""))
        return document(change(elements))
    return "{_id:oid,name:string,tags:[string],created:datetime,address:?{city:string}}", [one() for _ in range(count)]


def file(count):
    """A file of documents of persons, one behind another."""
    shape, documents = people(count)
    return shape, b"".join(documents)


def turned_file(count):
    """The same with the elements of each document in reverse order."""
    shape, documents = people(count, lambda elements: elements[::-1])
    return shape, b"".join(documents)


def missing_file(count):
    """The same at a shape with one more field in the middle, an option that no document has."""
    shape, documents = people(count)
    return shape.replace(",tags:", ",nick:?string,tags:"), b"".join(documents)


def dropping_file(count):
    """The same with a document, which no field takes, in front of each document's address."""
    dropped = element(3, "settings", document([int32("a", 1), text("b", "x")]))
    shape, documents = people(count, lambda elements: elements[:4] + [dropped] + elements[4:])
    return shape, b"".join(documents)


def mixed_with_ids(size):
    """Documents as JSON has them, of so many bytes together, with an ObjectId in front of each."""
    draws, ids, items, total = Draws(5), Draws(13), [], 0
    while total < size:
        value = document([element(7, "_id", ids.data(12)), mixed_document(draws, 2)[4:-1]])
        items.append((3, value))
        total += len(value)
    return "[string:bson]", document([element(4, "items", array(items))])


def events(count):
    """An array of so many values of an enum of three variants, each with contents."""
    draws = Draws(17)
    number = lambda: draws.below(2_000)

    def one():
        choice = draws.below(3)
        if choice == 0:
            return document([element(3, "Click", document([int32("x", number()), int32("y", number())]))])
        if choice == 1:
            return document([text("Key", draws.pick(TEXTS))])
        return document([element(4, "Move", array([(0x10, struct.pack("<i", number())) for _ in range(2)]))])
    return "{events:[<Click{x:i32,y:i32},Key=string,Move(i32,i32)>]}", document([element(4, "events", array([(3, one()) for _ in range(count)]))])


def small_file(count):
    """A file of so many documents of three fields, whose shape is inferred."""
    documents = [document([int32("n", i), text("name", f"name{i % 1000}"), element(8, "ok", bytes([i & 1]))]) for i in range(count)]
    return None, b"".join(documents)


def untyped_file(count):
    """A file of documents of persons, each at a map of values of any kind."""
    return "[string:bson]", file(count)[1]


WORKLOADS = {
    "rows": lambda: rows(100_000),
    "rows, a tenth": lambda: rows(10_000),
    "any": lambda: mixed(3_000_000),
    "deep": lambda: deep(400, 165),
    "wide": lambda: wide("any", 100_000),
    "wide, a tenth": lambda: wide("any", 10_000),
    "wide at a map": lambda: wide("[str:i32]", 100_000),
    "wide at a map, a tenth": lambda: wide("[str:i32]", 10_000),
    "texts": lambda: texts(3_000),
    "opened": lambda: opened(20_000),
    "extended": lambda: extended(20_000),
    "extended, a tenth": lambda: extended(2_000),
    "file": lambda: file(10_000),
    "file, a tenth": lambda: file(1_000),
    "file in reverse order": lambda: turned_file(10_000),
    "file, an option missing": lambda: missing_file(10_000),
    "file with a document dropped": lambda: dropping_file(10_000),
    "file at [string:bson]": lambda: untyped_file(10_000),
    "ObjectIds at [string:bson]": lambda: mixed_with_ids(3_000_000),
    "events": lambda: events(20_000),
    "infer": lambda: small_file(100_000),
    "18,000 fields in order": lambda: fields(18_000, False),
    "9,000 fields in order": lambda: fields(9_000, False),
    "18,000 fields in reverse": lambda: fields(18_000, True),
    "9,000 fields in reverse": lambda: fields(9_000, True),
}


def run(command, path):
    with open(path, "rb") as source, tempfile.TemporaryFile() as sink:
        start = time.perf_counter()
        child = subprocess.Popen(command, stdin=source, stdout=sink, stderr=subprocess.PIPE)
        _, status, usage = os.wait4(child.pid, 0)
        seconds = time.perf_counter() - start
        if status != 0:
            sys.exit(f"{command[0]} ended with {status}: {child.stderr.read()[:200]}")
        return seconds, usage.ru_maxrss


def instructions(command, path):
    with tempfile.TemporaryDirectory() as folder, open(path, "rb") as source:
        counted = ["valgrind", "--tool=cachegrind", "--cache-sim=no", f"--cachegrind-out-file={folder}/out"] + command
        done = subprocess.run(counted, stdin=source, stdout=subprocess.DEVNULL, stderr=subprocess.PIPE, check=True)
        return int(re.search(rb"I\s+refs:\s+([\d,]+)", done.stderr).group(1).replace(b",", b""))


def measure(name, command, path, smallest, smallest_path):
    size = os.path.getsize(path)
    best = min(run(command, path) for _ in range(5))
    count = instructions(command, path) - instructions(smallest, smallest_path)
    print(f"{name:28} {size:9} bytes  {size / best[0] / 1e6:7.1f} MB/s  "
          f"{count / size:7.1f} instructions a byte  {best[1] / 1024:6.1f} MiB", flush=True)
    return count


def libbson():
    """The program over libbson, built in a folder of its own, or None where it cannot be built."""
    flags = subprocess.run(["pkg-config", "--cflags", "--libs", "libbson-1.0"], capture_output=True, text=True)
    if flags.returncode != 0 or shutil.which("gcc") is None:
        return None
    target = pathlib.Path(tempfile.mkdtemp()) / "libbson_recast"
    subprocess.run(["gcc", "-O2", "-o", target, HERE / "libbson_recast.c"] + flags.stdout.split(), check=True)
    return target


def made(name, folder):
    """The shape and the file of a workload. Another process makes them, since the peak of a program counts that of its parent too."""
    path = os.path.join(folder, "input")
    subprocess.run([sys.executable, __file__, "--make", name, path], check=True)
    return pathlib.Path(path + ".shape").read_text(), path


def main():
    parser = argparse.ArgumentParser(description=__doc__, formatter_class=argparse.RawDescriptionHelpFormatter)
    parser.add_argument("--program", default=str(RECAST), help="the built bson_recast")
    parser.add_argument("--migrate", default=str(MIGRATE), help="the built bson_migrate, which takes the files of documents")
    parser.add_argument("--stream", default=str(STREAM), help="the built bson_stream, which takes the same files")
    parser.add_argument("--infer", default=str(INFER), help="the built bson_infer")
    parser.add_argument("--only", help="one workload")
    parser.add_argument("--make", nargs=2, metavar=("NAME", "FILE"), help="write the input of a workload to FILE, its shape to FILE.shape")
    options = parser.parse_args()
    if options.make:
        shape, data = WORKLOADS[options.make[0]]()
        pathlib.Path(options.make[1]).write_bytes(data)
        pathlib.Path(options.make[1] + ".shape").write_text(shape or "")
        return
    other = libbson()
    with tempfile.TemporaryDirectory() as folder:
        smallest = pathlib.Path(folder, "smallest")
        smallest.write_bytes(SMALLEST)
        nothing = pathlib.Path(folder, "nothing")
        nothing.write_bytes(b"")
        for name in WORKLOADS:
            if options.only not in (None, name):
                continue
            shape, path = made(name, folder)
            is_file = name.startswith("file")
            program, least = (options.migrate, nothing) if is_file else (options.program, smallest)
            if name == "infer":
                measure(name, [options.infer], path, [options.infer], nothing)
                continue
            ours = measure(name, [program, shape], path, [program, "{}"], least)
            if name == "file" and os.path.exists(options.stream):
                stream = measure("file, as a stream", [options.stream, shape], path, [options.stream, "{}"], least)
                print(f"{'file, as a stream':28} {stream / ours:.2f} of the instructions of bson_migrate")
            if other is not None and name in ("rows", "extended", "file"):
                theirs = measure(f"{name}, over libbson", [str(other), name], path, [str(other), name], least)
                print(f"{name:28} {ours / theirs:.2f} of the instructions of the program over libbson")


if __name__ == "__main__":
    main()
