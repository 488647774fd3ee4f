#!/usr/bin/env python3
"""Writes into docs/PROMISES.md which program with a stored run makes each public call that may answer that memory ran out, and fails where none does.

A clause lets such a call answer so at any time: a body that always does is seen only where a stored run calls it. The calls are those of the crate `bson` (the functions
that it re-exports, those of its modules, and the methods of its types), those of `bson_buffers`, and `to_datum`, `shape` and `from_datum` of each type that has them. A call
may answer so where its result names `AllocError`, an enum with the variant `NoMemory`, or a type with such a part.

A call is found by its name in the text of a program. Where types share the name of a method, RECEIVERS says on which type a function of a program calls it, and PRINTERS
which functions of a program call the methods of the type that they are given. Text does not show that a call is reached: what the program prints of it does.

Run at the top of the repository. It writes the page again; with --check it writes nothing, and ends with status 1 where the page differs. Where a call has no run
it ends with status 1 either way.
"""
import collections
import os
import re
import sys

PAGE = "docs/PROMISES.md"
TABLE = re.compile(r"(?<=<!-- stored calls: tools/stored_calls.py writes this table -->\n\n).*?(?=<!-- end of stored calls -->\n)", re.DOTALL)
SIGNATURE = re.compile(r"^( *)(pub )?fn (\w+)(?:<[^(]*>)?\(([^{]*?)\)(?: -> ([^{;]*?))?(?=\s+(?:where|ensures|requires)\b|\s*[{;])", re.MULTILINE)
BLOCK = re.compile(r"^impl\b([^{]*)\{\n(.*?)^\}", re.MULTILINE | re.DOTALL)
ENUM = re.compile(r"^pub(?:\(crate\))? enum (\w+)(.*?)^\}", re.MULTILINE | re.DOTALL)
STRUCT = re.compile(r"^pub struct (\w+)[^;{]*\{\n(.*?)^\}|^pub type (\w+)(.*?);", re.MULTILINE | re.DOTALL)
USE = re.compile(r"^pub use (\w+)(?:::(\w+|\{[^}]*\}))?(?: as (\w+))?;", re.MULTILINE)
CALLED = r"(?:::<(?:[^()]|\(\))*>)?\("
TRAITS = {"Serialize": ("to_datum",), "Deserialize": ("shape", "from_datum")}
# A public call of a crate below that `bson` does not re-export.
ALSO = (("bson_raw_builder", "raw_of_bson"),)
# Crates whose calls are the inside of another call, which is in the table.
INSIDE = {"bson_met": "read_value"}
# Methods that types of std have, too.
STD = {"append", "get", "insert", "into_owned", "next", "push", "reserve", "to_vec"}
RECEIVERS = {
    "bson_value_prints/documents": {"add_tree": "Document", "add_written": "Document", "one_text": "Document"},
    "bson_value_prints/elements": {"add_values": "RawDocument"},
    "bson_value_prints/ends": {"fill": "Out"},
    "bson_value_prints/errors": {"read_error": "Stop"},
    "bson_value_prints/shapes": {"add_parsed": "Shape"},
    "bson_value_prints/values": {
        "add_bytes_copy": "ByteStr", "add_regex_copy": "Regex", "add_text_copy": "Text", "is_copied": "Bson", "owned_bytes": "ByteStr", "owned_text": "Text",
    },
    "bson_writer_prints/calls": {
        "add_entry": "DocumentWriter", "add_part": "DocumentWriter", "add_writer": "DocumentWriter", "add_variant_part": "VariantWriter", "add_variant_writer": "VariantWriter",
    },
    "bson_writer_prints/structs": {"add_answers": "ValueWriter"},
    "bson_writer_prints/trees": {
        "add_map": "MapSerializer", "add_sequence": "ArraySerializer", "add_struct_variant": "StructVariantSerializer", "add_structure": "StructSerializer",
        "add_tuple": "TupleSerializer", "add_tuple_struct": "TupleStructSerializer", "add_tuple_variant": "TupleVariantSerializer",
    },
    "bson_prints/reading": {"owned": "Datum", "owned_array": "RawArr", "owned_document": "RawDoc"},
    "bson_example_types/cat": {"from_datum": "StructFields", "shape": "FieldShapes"},
}
PRINTERS = {"add_value": ("to_datum", "shape", "from_datum"), "add_read": ("from_datum",)}

Call = collections.namedtuple("Call", "kind owner name")


def read(path):
    """A file without its comments."""
    with open(path, encoding="utf-8") as file:
        return re.sub(r"^\s*//.*\n|(?<=\s)// .*$", "", file.read(), flags=re.MULTILINE)


def crates():
    """The files of each crate, by their names, lowest crate first."""
    found = {}
    for line in read("crates.txt").splitlines():
        if line and not line.startswith("#"):
            name = line.split()[0].rstrip(":")
            folder = f"crates/{name}/src"
            found[name] = {file[:-3]: read(f"{folder}/{file}") for file in sorted(os.listdir(folder))}
    return found


def signatures(text, spaces):
    """The name, the arguments and the result of each public function at this indentation."""
    for indent, public, name, arguments, result in SIGNATURE.findall(text):
        if public and len(indent) == spaces:
            yield name, arguments.strip(), " ".join(result.split())


def methods(text):
    """The type, the name, the arguments and the result of each public method of a file."""
    for head, body in BLOCK.findall(text):
        named = re.match(r"(?:<(?:[^<>]|<[^<>]*>)*>)? *(\w+)", head)
        if named and " for " not in head:
            for name, arguments, result in signatures(body, 4):
                yield named[1], name, arguments, result


def takes_self(arguments):
    return bool(re.match(r"(?:&(?:'\w+ )?)?(?:mut )?self\b", arguments))


class Surface:
    """The public calls that may answer that memory ran out."""

    def __init__(self, libraries):
        self.libraries = libraries
        self.texts = [text for files in libraries.values() for text in files.values()]
        self.memory = self.types_of_memory()
        self.calls = {}
        for crate, names, alias in USE.findall(libraries["bson"]["lib"]):
            if crate in INSIDE:
                continue
            if names:
                self.add_names(crate, names)
            else:
                self.add_crate(crate, f"{alias}::")
        self.add_crate("bson_buffers")
        for crate, name in ALSO:
            self.add(crate, name)
        self.add_traits()

    def types_of_memory(self):
        """The names of the types that say that memory ran out, or have a public part that does."""
        text = "\n".join(self.texts)
        names = {"AllocError"} | {name for name, variants in ENUM.findall(text) if re.search(r"\bNoMemory\b", variants)}
        parts = [(name or alias, " ".join(re.findall(r"pub .*", fields)) + aliased) for name, fields, alias, aliased in STRUCT.findall(text)]
        more = names
        while more:
            more = {name for name, words in parts if names & set(re.findall(r"\w+", words))} - names
            names |= more
        return names - {"Result"}

    def may_run_out(self, result):
        """Whether a result may say so; a `Result` of one argument is that of an error of reading or writing."""
        inner = re.match(r"(?!io::)(?:\w+::)*Result<(.*)>$", result)
        left = inner[1] if inner else ","
        while re.search(r"<[^<>]*>|\([^()]*\)", left):
            left = re.sub(r"<[^<>]*>|\([^()]*\)", "", left)
        return "," not in left or bool(self.memory & set(re.findall(r"\w+", result)))

    def add(self, crate, name, module=""):
        """Adds the calls of a name that a crate makes public, or a module of it."""
        files = self.libraries[crate]
        if re.search(rf"^pub mod {name};", files["lib"], re.MULTILINE):
            self.add_module(crate, name)
            return
        place = module.rstrip(":")
        for text in [files[place]] if place in files else files.values():
            for function, _, result in signatures(text, 0):
                if function == name and self.may_run_out(result):
                    self.calls[f"{module}{name}"] = Call("function", module, name)
            if re.search(rf"^pub (?:struct|enum) {name}\b", text, re.MULTILINE):
                self.add_type([text] if place in files else files.values(), name, module)
        for other, names, _ in USE.findall(files["lib"]):
            if other in self.libraries and other not in files and name in re.findall(r"\w+", names):
                self.add(other, name)

    def add_names(self, crate, names, module=""):
        for name in re.findall(r"(\w+)(?: as \w+)?", names):
            self.add(crate, name, module)

    def add_crate(self, crate, module=""):
        for _, names, _ in USE.findall(self.libraries[crate]["lib"]):
            self.add_names(crate, names, module)

    def add_module(self, crate, module):
        text = self.libraries[crate][module]
        names = [name for name, _, _ in signatures(text, 0)] + re.findall(r"^pub (?:struct|enum) (\w+)", text, re.MULTILINE)
        self.add_names(crate, " ".join(names), f"{module}::")

    def add_type(self, texts, name, module):
        for text in texts:
            for owner, method, arguments, result in methods(text):
                if owner == name and self.may_run_out(result):
                    kind = "method" if takes_self(arguments) else "static"
                    self.calls[f"{module}{name}::{method}"] = Call(kind, f"{module}{name}", method)

    def add_traits(self):
        for text in self.texts:
            for head, _ in BLOCK.findall(text):
                found = re.search(r"\b(Serialize|Deserialize)(?:<'de>)? for (\(\)|\w+)", head)
                for method in TRAITS[found[1]] if found else ():
                    self.calls[f"{found[2]}::{method}"] = Call("trait", found[2], method)


class Runs:
    """The calls in the text of the programs with a stored run."""

    def __init__(self, programs, texts):
        self.files = {f"{name}/{file}": text for name, files in programs.items() for file, text in files.items()}
        owners = collections.defaultdict(set)
        for text in texts:
            for owner, name, arguments, _ in methods(text):
                if takes_self(arguments):
                    owners[name].add(owner)
        self.shared = STD | {name for name, types in owners.items() if len(types) > 1}

    def makes(self, place, call):
        """Whether the file at a place makes a call."""
        text, called = self.files[place], call.name + CALLED
        if call.kind == "trait":
            printers = "|".join(printer for printer, names in PRINTERS.items() if call.name in names)
            return bool(re.search(rf"\b(?:{printers})::<{re.escape(call.owner)}(?:<.*>)?>\(", text))
        if call.kind == "static" or call.owner.endswith("::"):
            return bool(re.search(rf"\b{call.owner.rstrip(':')}::{called}", text))
        if call.kind == "function":
            is_used = re.search(rf"^use [^;]*\b{call.name}\b[^;]*;", text, re.MULTILINE)
            return bool(is_used and re.search(rf"(?<![\w.:]){called}", text))
        if call.name not in self.shared:
            return bool(re.search(rf"\.{called}", text))
        functions = [name for name, owner in RECEIVERS.get(place, {}).items() if owner == call.owner]
        return any(re.search(rf"\.{called}", self.body(place, name)) for name in functions)

    def body(self, place, function):
        found = re.search(rf"^( *)(?:pub )?fn {function}\b.*?^\1\}}", self.files[place], re.MULTILINE | re.DOTALL)
        return found[0] if found else sys.exit(f"RECEIVERS: {place} has no function {function}")

    def first(self, call):
        """The first file that makes a call, lowest crate first."""
        return next((place for place in self.files if self.makes(place, call)), None)


def listed(calls):
    """Calls as a cell of the table: those of one type or module together, and behind them the types with the same methods of the traits."""
    owned, methods_of, types = collections.defaultdict(list), collections.defaultdict(list), collections.defaultdict(list)
    for call in calls:
        (methods_of if call.kind == "trait" else owned)[call.owner.rstrip(":")].append(call.name)
    cells = [f"`{name}`" for name in owned.pop("", ())]
    for owner, names in owned.items():
        cells.append(f"`{owner}::{names[0]}`" if len(names) == 1 else f"`{owner}::{{{', '.join(names)}}}`")
    for owner, names in methods_of.items():
        types[", ".join(f"`{name}`" for name in names)].append(f"`{owner}`")
    return "; ".join([", ".join(cells)] * bool(cells) + [f"{names} of {', '.join(owners)}" for names, owners in types.items()])


def table(calls, runs):
    """The table, and the calls that no stored run makes."""
    rows = collections.defaultdict(list)
    for said, call in calls.items():
        place = runs.first(call)
        rows[place].append(call if place else said)
    missing = rows.pop(None, [])
    lines = [f"| `{place.replace('/', '/src/')}.rt` | {listed(rows[place])} |\n" for place in runs.files if place in rows]
    return "| program | calls |\n|---|---|\n" + "".join(lines), missing


def main():
    found = crates()
    surface = Surface({name: files for name, files in found.items() if "lib" in files})
    programs = {name: files for name, files in found.items() if "main" in files and os.path.exists(f"crates/{name}/stdout")}
    new, missing = table(surface.calls, Runs(programs, surface.texts))
    for said in missing:
        print(f"no stored run calls {said}")
    with open(PAGE, encoding="utf-8") as file:
        old = file.read()
    page = TABLE.sub(lambda _: new + "\n", old)
    if page != old and "--check" in sys.argv[1:]:
        print(f"{PAGE} differs from the programs")
        return 1
    if page != old:
        with open(PAGE, "w", encoding="utf-8") as file:
            file.write(page)
    return int(bool(missing))


if __name__ == "__main__":
    sys.exit(main())
