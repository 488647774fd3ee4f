"""Paths of refusals, and those of many documents as one: `[*]` stands for any place of an array, `*` for any key of a map."""

from __future__ import annotations

import re
from typing import Dict, List, Optional, Tuple

from tbson.form import Enum, Form, Leaf, Mapping, Marked, Mode, Parts, Reference, Sequence, Struct, Table

_PLACE = re.compile(r"\[\d+\]")
_NEXT_KEY = re.compile(r".[^.\[]*", re.DOTALL)

Definitions = Dict[str, Form]


def _bare(form: Optional[Form], definitions: Definitions) -> Tuple[Optional[Form], Definitions]:
    """The form behind marks, references and tables, and the table around it. In a shape no name leads back to itself by these alone."""
    while True:
        if isinstance(form, Table):
            definitions = form.definitions
            form = form.inner
        elif isinstance(form, Reference):
            form = definitions.get(form.name)
        elif isinstance(form, Marked):
            form = form.inner
        elif isinstance(form, Mode):
            form = form.compact
        else:
            return form, definitions


def _is_step(rest: str, name: str) -> bool:
    """Whether the path goes on with the name."""
    return rest == name or (rest.startswith(name) and rest[len(name)] in ".[")


def _next_key(rest: str) -> str:
    """What is before the next step, and at least a character."""
    return _NEXT_KEY.match(rest)[0]  # type: ignore[index]


def _named(rest: str, fields: Dict[str, Optional[Form]]) -> Tuple[str, Optional[Form]]:
    """The key that the path goes on with: the longest name that it may be, or else what is before the next step."""
    names = [name for name in fields if _is_step(rest, name)]
    name = max(names, key=len) if names else _next_key(rest)
    return name, fields.get(name)


def _place(form: Optional[Form], text: str) -> Tuple[str, Optional[Form]]:
    """A step to a place of an array: of a tuple it stays, of a sequence any place is as good as another."""
    if isinstance(form, Parts):
        number = int(text[1:-1])
        return text, form.parts[number] if number < len(form.parts) else None
    return "[*]", form.item if isinstance(form, Sequence) else None


def _key(form: Optional[Form], rest: str) -> Tuple[str, str, Optional[Form]]:
    """A step to a key: how it is shown, the key itself, and the form behind it."""
    if isinstance(form, Mapping):
        is_last = isinstance(_bare(form.value, {})[0], Leaf)
        key = rest if is_last else _next_key(rest)
        return "*", key, form.value
    fields: Dict[str, Optional[Form]] = {}
    if isinstance(form, Struct):
        fields.update(form.fields)
    elif isinstance(form, Enum):
        fields.update(form.variants)
    key, behind = _named(rest, fields)
    return key, key, behind


def pattern(path: str, form: Optional[Form]) -> str:
    """The path with `[*]` for places and `*` for the keys of maps, of which the form tells; `.` is the whole document."""
    steps: List[str] = []
    rest, definitions = ("" if path == "." else path), {}  # type: Tuple[str, Definitions]
    while rest:
        form, definitions = _bare(form, definitions)
        place = _PLACE.match(rest)
        if place:
            step, key = place[0], place[0]
            step, form = _place(form, step)
        else:
            step, key, form = _key(form, rest)
            step = f".{step}" if steps else step
        steps.append(step)
        rest = rest[len(key) :]
        rest = rest[1:] if rest.startswith(".") else rest
    return "".join(steps) or path
