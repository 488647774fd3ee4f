#!/usr/bin/env python3
"""Prints a shape over several lines, to be read and edited, or takes such lines back to the one line that the programs take.

    bson_infer < dump.bson | python3 tools/shape_lines.py > shape      # a line for each field, variant or part
    bson_migrate "$(python3 tools/shape_lines.py --join shape)" < dump.bson

Lines may be indented in any way, an empty line is left out, and so is a comment, from a `#` to the end of its line; text in quotes stays as it is.
"""
import argparse
import re
import sys

# A name or a text in quotes, in which a backslash stands before a quote or a backslash; a comment; the brace of a closed struct with its mark; else one character.
TOKEN = re.compile(r'"(?:[^"\\]|\\.)*"|#[^\n]*|\{!|.', re.DOTALL)
OPEN, CLOSE = ("{", "{!", "(", "<", "["), ("}", ")", ">", "]")


def tokens(text):
    return TOKEN.findall(text)


def joined(text):
    """The shape in one line: blanks and comments are left out except for those in quotes."""
    return "".join(token for token in tokens(text) if not token.isspace() and not token.startswith("#"))


def lines(shape):
    """The shape over lines: what stands in braces, angle brackets and parentheses has a line for each of its parts. Brackets of arrays and maps stay in their line."""
    made, depth, found = "", 0, tokens(joined(shape))
    for place, token in enumerate(found):
        after = found[place + 1] if place + 1 < len(found) else ""
        if token in OPEN and token != "[":
            is_empty = after in CLOSE
            depth += not is_empty
            made += token + ("" if is_empty else "\n" + "  " * depth)
        elif token in CLOSE and token != "]":
            is_empty = place and found[place - 1] in OPEN
            depth -= not is_empty
            made += token if is_empty else "\n" + "  " * depth + token
        elif token == ",":
            made += ",\n" + "  " * depth
        else:
            made += token
    return made


def main():
    parser = argparse.ArgumentParser(description=__doc__, formatter_class=argparse.RawDescriptionHelpFormatter)
    parser.add_argument("file", nargs="?", help="the file of the shape; standard input where it is left out")
    parser.add_argument("--join", action="store_true", help="take lines back to one")
    options = parser.parse_args()
    if options.file:
        with open(options.file, encoding="utf-8") as file:
            text = file.read()
    else:
        text = sys.stdin.read()
    print(joined(text) if options.join else lines(text))


if __name__ == "__main__":
    main()
