#!/usr/bin/env python3
"""Keeps the tour, which is the docs of the crate bson, in step with the examples: after each line that names a file of bson_examples, bson_example_values or bson_example_types, the block is that file.

The first two programs stand on the crates below bson, so that they are proved beside it: what they import from their module bson, and the definitions of the crates below, a user imports from the crate bson. Each name of that module is one that the crate has from the same place.

Run at the top of the repository. It writes crates/bson/src/lib.rt again; with --check it writes nothing, and ends with status 1 where a block differs, or a name of a module bson is none of the crate.
"""
import glob
import re
import sys

TOUR = "crates/bson/src/lib.rt"
DEFINITIONS = "crates/bson/specs/Lib.antt"
BLOCK = re.compile(r"(//! `(bson_example(?:s|_values|_types)/src/\w+\.rt)`:\n//!\n//! ```rust\n)(?:(?!//! ```).*\n)*(//! ```\n)")
PASSED_ON = re.compile(r"^pub use (Rattle\.bson_\w+\.specs\.([\w.]*?(\w+)))(?: as (\w+))?$", re.M)
NAMES = re.compile(r"^pub use (\w+)::\{?([\w, \n]+?),?\s*\}?;$", re.M)
ALIAS = re.compile(r"^pub use \w+ as \w+;$", re.M)


def text_of(name):
    with open(name, encoding="utf-8") as file:
        return file.read()


def as_imported(example):
    for found in PASSED_ON.finditer(text_of(DEFINITIONS)):
        example = re.sub(rf"{re.escape(found[1])}(?=\.\{{)", f"Rattle.bson.specs.{found[4] or found[3]}", example)
    return example.replace("use crate::bson::", "use bson::")


def block(found):
    lines = [f"//! {line}".rstrip() for line in as_imported(text_of(f"crates/{found[2]}")).splitlines()]
    return found[1] + "\n".join(lines) + "\n" + found[3]


def lines_of(names):
    return [f"pub use {found[1]}::{one.strip()};" for found in NAMES.finditer(names) for one in found[2].split(",")] + ALIAS.findall(names)


def foreign_names(tour):
    have = set(lines_of(tour))
    return [line for name in glob.glob("crates/bson_example*/src/bson.rt") for line in lines_of(text_of(name)) if line not in have]


def main():
    old = text_of(TOUR)
    new = BLOCK.sub(block, old)
    foreign = foreign_names(old)
    for line in foreign:
        print(f"{TOUR} has no line {line}")
    if "--check" in sys.argv[1:]:
        return int(new != old or foreign != [])
    with open(TOUR, "w", encoding="utf-8") as file:
        file.write(new)
    return int(foreign != [])


if __name__ == "__main__":
    sys.exit(main())
