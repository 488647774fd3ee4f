"""A row of a profile in the words of its table."""

from __future__ import annotations

from typing import List, Optional

from tbson.profile.rows import KindRow, PathRow, Shown

_MOST_VALUES = 3
_FEWEST_SHARE = 0.005


def share_text(count: int, whole: int) -> str:
    """The share in percent: with a digit behind the point where it is small, and never 0 or 100 where that is rounded."""
    if not whole or count == whole:
        return "100 %"
    percent = 100 * count / whole
    if percent < 0.1 and count:
        return "< 0.1 %"
    return f"{min(percent, 99.9):.1f} %" if percent < 10 or percent > 99 else f"{percent:.0f} %"


def value_text(value: Shown) -> str:
    """A value: texts are between quotes where they would not be seen."""
    if isinstance(value, bool):
        return "true" if value else "false"
    if isinstance(value, (int, float)):
        return f"{value:,}" if isinstance(value, int) else repr(value)
    return value if value and value == value.strip() else f'"{value}"'


def _range(row: KindRow) -> Optional[str]:
    if row.least is None or row.greatest is None:
        return None
    return value_text(row.least) if row.least == row.greatest else f"{value_text(row.least)} .. {value_text(row.greatest)}"


def _lengths(row: KindRow) -> Optional[str]:
    unit = {"array": "item", "document": "field", "string": "byte", "binary": "byte"}.get(row.kind)
    if row.shortest is None or unit is None:
        return None
    units = unit if row.longest == 1 else f"{unit}s"
    return f"{row.shortest:,} {units}" if row.shortest == row.longest else f"{row.shortest:,} to {row.longest:,} {units}"


def _frequent(row: KindRow) -> Optional[str]:
    """The most frequent values, unless none stands out."""
    told = [(value, count) for value, count in row.frequent[:_MOST_VALUES] if count >= _FEWEST_SHARE * row.count and count > 1]
    if not told:
        return None
    rest = "" if row.distinct is None or row.distinct <= len(told) else f", and {row.distinct - len(told):,} more"
    return ", ".join(f"{value_text(value)} ({share_text(count, row.count)})" for value, count in told) + rest


def values_text(row: PathRow) -> str:
    """What the values are, in short."""
    parts: List[str] = []
    for kind in row.kinds:
        shown = [part for part in (_frequent(kind), _range(kind) if not kind.distinct or kind.distinct > _MOST_VALUES else None, _lengths(kind)) if part]
        # Lengths of texts are told where no value is.
        shown = shown[:-1] if len(shown) > 1 and kind.kind == "string" else shown
        if shown:
            parts.append((f"{kind.kind}: " if len(row.kinds) > 1 else "") + "; ".join(shown))
    if row.map_keys is not None:
        names = "very many" if row.map_key_count is None else f"{row.map_key_count:,}"
        parts.append(f"like a map: {names} keys" + (f", such as {', '.join(row.map_keys)}" if row.map_keys else ""))
    return "; ".join(parts)


def kinds_text(row: PathRow) -> str:
    """The kinds, with counts where there are several."""
    if len(row.kinds) == 1:
        return row.kinds[0].kind
    return ", ".join(f"{kind.kind} {kind.count:,}" for kind in row.kinds)


def variants_lines(row: PathRow) -> List[str]:
    """What is told where a field tells variants apart."""
    if row.variants is None:
        return []
    where = row.path or "the documents"
    lines = [f"{row.variants['field']} tells variants of {where} apart:"]
    for one in row.variants["values"]:
        fields = ", ".join(one["fields"]) or "no field of its own"
        lines.append(f"  {value_text(one['value'])}: {fields}")
    return lines
