"""Shapes as people write them: over several lines, with blanks and comments. The library takes one line without them."""

from __future__ import annotations

import re
from typing import List, NamedTuple

# A name or a text in quotes, in which a backslash stands before a quote or a backslash; a comment; blanks; else one character.
_TOKEN = re.compile(r'"(?:[^"\\]|\\.)*"|#[^\n]*|\s+|.', re.DOTALL)
_OPEN, _CLOSE = ("{", "{!", "(", "<", "["), ("}", ")", ">", "]")
_PIECE = re.compile(r'"(?:[^"\\]|\\.)*"|\{!|.', re.DOTALL)


class Joined(NamedTuple):
    """A shape in one line, with the place in the text of each of its characters, and of its end."""

    notation: str
    places: List[int]


def joined(text: str) -> Joined:
    """The shape in one line: blanks and comments are left out except for those in quotes. A comment is what follows a `#` in its line."""
    parts: List[str] = []
    places: List[int] = []
    end = 0
    for token in _TOKEN.finditer(text):
        if token[0].startswith("#") or token[0].isspace():
            continue
        parts.append(token[0])
        places.extend(range(token.start(), token.end()))
        end = token.end()
    return Joined("".join(parts), [*places, end])


def lines(notation: str) -> List[str]:
    """The shape over lines: what stands in braces, angle brackets and parentheses has a line for each of its parts. Brackets of arrays and maps stay in their line."""
    made, depth, found = "", 0, _PIECE.findall(joined(notation).notation)
    for place, piece in enumerate(found):
        after = found[place + 1] if place + 1 < len(found) else ""
        if piece in _OPEN and piece != "[":
            is_empty = after in _CLOSE
            depth += not is_empty
            made += piece + ("" if is_empty else "\n" + "  " * depth)
        elif piece in _CLOSE and piece != "]":
            is_empty = place > 0 and found[place - 1] in _OPEN
            depth -= not is_empty
            made += piece if is_empty else "\n" + "  " * depth + piece
        else:
            made += piece + ("\n" + "  " * depth if piece == "," else "")
    return made.split("\n")


def name_text(name: str) -> str:
    """A name as the notation has it: between quotes where it is not a letter or `_` and then letters, digits and `_`."""
    if re.fullmatch(r"[A-Za-z_][A-Za-z0-9_]*", name):
        return name
    return '"' + re.sub(r'(["\\])', r"\\\1", name) + '"'
