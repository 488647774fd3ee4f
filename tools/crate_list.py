#!/usr/bin/env python3
"""Copies the list of crates from crates.txt to the pages that have it: docs/ARCHITECTURE.md (what each crate depends on, as a table and as a picture) and
docs/USING.md (those of `bson`).

Run at the top of the repository. It writes the pages again; with --check it writes nothing, and ends with status 1 where a page differs. What a crate is about
is written in docs/ARCHITECTURE.md, in a row for each crate, lowest crate first, and so are the groups of the picture.

It refuses a crates.txt with a dependency that no file of the crate names, or with a crate under another heading than the picture has it in: each line that
begins with `#` is the heading of the crates below it. What a crate uses of another one that passes it on (`pub use`) also names the crate that it is from,
since a contract in the same file may need that one.
"""
import os
import re
import sys
import textwrap

ARCHITECTURE, USING = "docs/ARCHITECTURE.md", "docs/USING.md"
ROW = re.compile(r"^\| `(\w+)` \| (.*) \| .* ?\|$")
TABLE = re.compile(r"(?<=\| crate \| subject \| depends on \|\n\|---\|---\|---\|\n)(?:\|.*\n)+")
PICTURE = re.compile(r"(?<=^```mermaid\n)(?:.*\n)+?(?=```$)", re.MULTILINE)
GROUP = re.compile(r'^  subgraph \w+\["(.*)"\]\n((?:.*\n)*?)  end$', re.MULTILINE)
DRAWN = re.compile(r'\b(\w+)\[(?!")')
LOOP = re.compile(r"(?<=^for name in )[^\n](?:[^\n]|\\\n)*(?=\ndo$)", re.MULTILINE)
LINES = re.compile(r"(?<=^```text\n)bson_\w+:.*\n(?:.*\n)*?(?=\w+: anyhow bson$)", re.MULTILINE)
COMMENT = {".rt": re.compile("//.*"), ".antt": re.compile("--.*")}
# A crate is named by a path that begins with it, by a `use` of the crate itself, and by the path of a definition of its specs/ or proofs/.
PASSED_ON = re.compile(r"\bpub use (\w+)::(?:(\w+)|\{([^{}]*)\});")
NAMED = re.compile(r"(?<![\w:.])(\w+)::|\buse (?!Rattle\b)(\w+)|\bRattle\.(\w+)")


def read(path):
    with open(path, encoding="utf-8") as file:
        return file.read()


def crates():
    """The line of each crate, the names after its colon, and its heading, in the order of crates.txt."""
    lines, below, headings, heading = {}, {}, {}, None
    for line in read("crates.txt").splitlines():
        if line.startswith("#"):
            heading = line.lstrip("#").strip()
        elif line:
            head, _, names = line.partition(":")
            name = head.split()[0]
            lines[name], below[name], headings[name] = line, names.split(), heading
    return lines, below, headings


def texts(name, parts):
    """The files of a crate in folders of it, without comments."""
    for part in parts:
        for at, _, files in os.walk(f"crates/{name}/{part}"):
            for file in files:
                yield COMMENT[os.path.splitext(file)[1]].sub("", read(f"{at}/{file}"))


def passed_on(name):
    """What a crate passes on, with the crate that it is from."""
    return [(item, crate) for text in texts(name, ["src"]) for crate, one, more in PASSED_ON.findall(text) for item in re.findall(r"\w+", one or more)]


def named(name, passed):
    """What the files of a crate name."""
    found = {word for text in texts(name, ["src", "specs", "proofs"]) for words in NAMED.findall(text) for word in words}
    for text in texts(name, ["src"]):
        for paths in re.findall(r"(?<![\w:.])\w+::[^;]*", text):
            used = set(re.findall(r"\w+", paths))
            found.update(crate for item, crate in passed.get(paths.partition("::")[0], ()) if item in used)
    return found


def refusals(below, headings, architecture):
    """What is wrong with crates.txt, a line each."""
    passed = {name: passed_on(name) for name in below}
    for name, names in below.items():
        found = named(name, passed)
        yield from (f"crates.txt: {name} does not name its dependency {other}" for other in names if other not in found)
    groups = {name: group for group, drawn in GROUP.findall(architecture) for name in DRAWN.findall(drawn)}
    for name, heading in headings.items():
        if groups.get(name) != heading:
            yield f"crates.txt: {name} is under {heading}, and in the picture of {ARCHITECTURE} under {groups.get(name)}"


def in_order(architecture, below):
    """The crates in the order of the table, where each stands below those that it depends on."""
    rows = [ROW.match(row)[1] for row in TABLE.search(architecture)[0].splitlines()]
    if sorted(rows) != sorted(below):
        sys.exit(f"{ARCHITECTURE}: the table has not each crate of crates.txt once: {', '.join(set(rows) ^ set(below)) or 'one is there twice'}")
    for at, name in enumerate(rows):
        late = [other for other in below[name] if other in rows[at:]]
        if late:
            sys.exit(f"{ARCHITECTURE}: in the table {name} stands above {late[0]}, which it depends on")
    return {name: below[name] for name in rows}


def all_below(name, below):
    found, left = {name}, [name]
    while left:
        for other in below[left.pop()]:
            if other in below and other not in found:
                found.add(other)
                left.append(other)
    return found


def direct(name, below):
    """What a crate depends on, without the crates that it has through another; the repository's first, the highest of them first."""
    own = [other for other in below if other in below[name]]
    through = set().union(*(all_below(other, below) - {other} for other in own))
    return [other for other in reversed(own) if other not in through] + [other for other in below[name] if other not in below]


def table(old, below):
    subjects = dict(ROW.match(row).group(1, 2) for row in old.splitlines())
    rows = ((name, subjects[name], ", ".join(f"`{other}`" for other in direct(name, below))) for name in below)
    return "".join(f"| `{name}` | {subject} | {others} |\n" if others else f"| `{name}` | {subject} | |\n" for name, subject, others in rows)


def picture(old, below):
    """The picture with an arrow from each crate to those that it depends on; a crate is a word in square brackets."""
    groups = [line for line in old.splitlines() if "-->" not in line]
    drawn = DRAWN.findall("\n".join(groups))
    if sorted(drawn) != sorted(below):
        sys.exit(f"{ARCHITECTURE}: the picture has not each crate of crates.txt once: {', '.join(set(drawn) ^ set(below)) or 'one is there twice'}")
    needed = ((name, [other for other in direct(name, below) if other in below]) for name in below)
    arrows = [f"  {name} --> {' & '.join(others)}" for name, others in needed if others]
    return "".join(line + "\n" for line in groups + arrows)


def loop(names):
    lines = textwrap.wrap(" ".join(names), 125)
    return " \\\n    ".join(lines)


def pages(lines, below, architecture):
    """Each page with its old text and its new one."""
    below, using = in_order(architecture, below), read(USING)
    used = [name for name in below if name in all_below("bson", below)]
    new = TABLE.sub(lambda found: table(found[0], below), architecture)
    new = PICTURE.sub(lambda found: picture(found[0], below), new)
    yield ARCHITECTURE, architecture, new
    new = LOOP.sub(lambda _: loop(used), using)
    yield USING, using, LINES.sub(lambda _: "".join(lines[name] + "\n" for name in used), new)


def main():
    architecture = read(ARCHITECTURE)
    lines, below, headings = crates()
    faults = list(refusals(below, headings, architecture))
    for path, old, new in pages(lines, below, architecture):
        if new != old and "--check" in sys.argv[1:]:
            faults.append(f"{path} differs from crates.txt")
        elif new != old:
            with open(path, "w", encoding="utf-8") as file:
                file.write(new)
    print("".join(fault + "\n" for fault in faults), end="")
    return 1 if faults else 0


if __name__ == "__main__":
    sys.exit(main())
