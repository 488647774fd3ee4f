#!/usr/bin/env python3
"""Copies the forms of shapes from docs/SHAPES.md to the README, whose table has the common ones without the types in Rust, and the forms and the rules to the man page of bson_recast.

Run at the top of the repository. It writes both again; with --check it writes nothing, and ends with status 1 where one differs. Which forms the README has is written there: each row begins
with the notation of a row of docs/SHAPES.md, and the other cells are copied from it.
"""
import re
import sys

SOURCE, README, MANUAL = "docs/SHAPES.md", "README.md", "docs/bson_recast.1"
HEAD = "| notation | what is read | what is written |"
TABLE = re.compile(re.escape(HEAD) + r".*\n(?:\|.*\n)+")
RULES = re.compile(r"(?<=^## Rules of the notation\n\n)(?:.+\n)+", re.MULTILINE)
SECTION = re.compile(r"(?<=^\.Ss Notation of shapes\n)(?:.*\n)*?(?=^\.Sh )", re.MULTILINE)
INTRODUCTION = """\
.Ar s
is any shape,
.Ar f
the name of a field.
A value of another kind than those that are named is refused.
An extended value is one of a kind that serde's data model lacks, such as an
ObjectId; a document represents one if it has a key such as
.Li $oid .
"""


def read(path):
    with open(path, encoding="utf-8") as file:
        return file.read()


def rows(table):
    """The cells of each row below the head of a table."""
    return [row.strip("| \n").split(" | ") for row in table.splitlines()[2:]]


def escaped(code):
    return code.replace("\\", "\\e").replace('"', "\\(dq").replace(" ", "\\ ").replace("-", "\\-")


def mdoc(text):
    """A sentence of Markdown as lines of mdoc, with each code as a macro."""
    lines, parts = [], text.split("`")
    for i, part in enumerate(parts):
        if i % 2:
            before = lines.pop()[:-1].rstrip() if lines and lines[-1].endswith("(") else None
            lines += [before] if before else []
            lines.append(f".Li {'( ' if before is not None else ''}{escaped(part)}")
        elif part.strip():
            marks = re.match(r"[,.;:)]*", part)[0] if i else ""
            lines[-1:] = [" ".join([lines[-1], *marks])] if lines else []
            lines += [part[len(marks):].strip()] if part[len(marks):].strip() else []
    return "".join(line + "\n" for line in lines)


def item(cells):
    notation, what, written = cells[:3]
    codes = " ".join(escaped(code) for code in re.findall(r"`([^`]*)`", notation))
    written = "the same" if written == what else written
    return f".It Sy {codes}\n{mdoc(what + '.')}Written: {mdoc(written + '.')}"


def manual(forms, rules):
    items = "".join(item(cells) for cells in forms)
    bullets = "".join(".It\n" + mdoc(" ".join(rule.split())) for rule in re.split(r"^- ", rules, flags=re.MULTILINE)[1:])
    return f'{INTRODUCTION}.Bl -tag -width "NAME(s,..)"\n{items}.El\n.Pp\n.Bl -bullet -compact\n{bullets}.El\n'


def short(forms, old):
    """The table of the README: the forms that it has, as docs/SHAPES.md says them."""
    by_notation = {cells[0]: cells for cells in forms}
    notations = [cells[0] for cells in rows(old)]
    if missing := [notation for notation in notations if notation not in by_notation]:
        sys.exit(f"{README}: {SOURCE} has no form {', '.join(missing)}")
    return HEAD + "\n|---|---|---|\n" + "".join(f"| {' | '.join(by_notation[notation][:3])} |\n" for notation in notations)


def main():
    source = read(SOURCE)
    forms, rules = rows(TABLE.search(source)[0]), RULES.search(source)[0]
    status = 0
    for path, pattern, made in ((README, TABLE, lambda found: short(forms, found[0])), (MANUAL, SECTION, lambda _: manual(forms, rules))):
        old = read(path)
        if not pattern.search(old):
            sys.exit(f"{path} has no place for the shapes")
        text = pattern.sub(made, old, count=1)
        if text != old and "--check" in sys.argv[1:]:
            print(f"{path} differs from {SOURCE}")
            status = 1
        elif text != old:
            with open(path, "w", encoding="utf-8") as file:
                file.write(text)
    return status


if __name__ == "__main__":
    sys.exit(main())
