"""A profile as one page of HTML that stands alone."""

from __future__ import annotations

from html import escape
from typing import Iterator, List

from tbson.profile.rows import KindRow, PathRow
from tbson.profile.run import Profile
from tbson.profile.words import kinds_text, share_text, value_text, values_text, variants_lines

_STYLE = """
body { font: 15px/1.45 system-ui, sans-serif; margin: 2rem auto; max-width: 82rem; padding: 0 1rem; color: #1c2733; background: #fff; }
h1 { font-size: 1.4rem; margin-bottom: .2rem; } p { margin: .3rem 0; }
table { border-collapse: collapse; width: 100%; margin-top: 1.2rem; }
th { text-align: left; font-weight: 600; border-bottom: 2px solid #c9d3dd; padding: .35rem .6rem; }
td { border-bottom: 1px solid #e3e9ee; padding: .35rem .6rem; vertical-align: top; }
td.path { font-family: ui-monospace, monospace; font-size: .9em; overflow-wrap: anywhere; max-width: 24rem; }
td.number { text-align: right; white-space: nowrap; font-variant-numeric: tabular-nums; }
td.values { overflow-wrap: anywhere; max-width: 30rem; }
.bar { display: flex; width: 9rem; height: .8rem; border-radius: .2rem; overflow: hidden; background: #e8edf1; }
.bar span { display: block; } .there { background: #2f7ebc; } .null { background: #e0a93b; }
.most { display: grid; grid-template-columns: minmax(6rem, 14rem) 6rem auto; gap: .1rem .5rem; align-items: center; }
.most .bar { width: 6rem; height: .6rem; } .most .name { overflow: hidden; text-overflow: ellipsis; white-space: nowrap; }
summary { cursor: pointer; } .key span { display: inline-block; width: .8rem; height: .8rem; border-radius: .2rem; margin: 0 .3rem 0 1rem; }
pre { background: #f4f7f9; padding: .6rem .9rem; border-radius: .3rem; white-space: pre-wrap; }
"""


def _bar(parts: List[tuple[str, float]]) -> str:
    spans = "".join(f'<span class="{name}" style="width:{100 * share:.2f}%"></span>' for name, share in parts)
    return f'<div class="bar">{spans}</div>'


def _presence(row: PathRow) -> str:
    """The bar of a path: in how many of the documents around it the field has a value, is null, or is missing."""
    around = row.values + (row.missing or 0)
    return _bar([("there", (row.values - row.null) / around), ("null", row.null / around)]) if around else ""


def _most(kind: KindRow) -> str:
    """The most frequent values of a kind, each with a bar."""
    told = [(value, count) for value, count in kind.frequent if count > 1]
    if not told:
        return ""
    lines = "".join(
        f'<span class="name" title="{escape(value_text(value))}">{escape(value_text(value))}</span>{_bar([("there", count / kind.count)])}'
        f"<span>{share_text(count, kind.count)}</span>"
        for value, count in told
    )
    return f'<details><summary>the most frequent</summary><div class="most">{lines}</div></details>'


def _row(row: PathRow, whole: int) -> str:
    documents = f"{row.documents:,}<br>{share_text(row.documents, whole)}" if row.documents is not None else f"{row.values:,} values"
    cells = [
        f'<td class="path">{escape(row.path)}</td><td>{_presence(row)}</td><td class="number">{documents}</td>',
        f'<td class="number">{f"{row.null:,}" if row.null else ""}</td><td class="number">{f"{row.missing:,}" if row.missing else ""}</td>',
        f'<td>{escape(kinds_text(row))}</td><td class="values">{escape(values_text(row))}{"".join(map(_most, row.kinds))}</td>',
    ]
    return f"<tr>{''.join(cells)}</tr>"


def _head(profile: Profile, files: List[str]) -> Iterator[str]:
    names = escape(", ".join(files))
    yield f'<!doctype html><html lang="en"><head><meta charset="utf-8"><title>{names}</title><style>{_STYLE}</style></head><body>'
    yield f"<h1>{names}</h1><p>{profile.documents:,} documents, {profile.size:,} bytes</p>"
    if profile.passed_over:
        told = "\n".join(f"{wrong.file}: document {wrong.index:,}: {wrong.text}" for wrong in profile.told)
        count = "1 damaged document is" if profile.passed_over == 1 else f"{profile.passed_over:,} damaged documents are"
        yield f"<p>{count} not counted below; the first:</p><pre>{escape(told)}</pre>"
    yield '<p class="key">Of the documents around a field:<span class="there"></span>it has a value<span class="null"></span>it is null; in the rest it is missing.</p>'


def page_of(profile: Profile, rows: List[PathRow], files: List[str]) -> str:
    """The page."""
    notes = [line for row in rows for line in variants_lines(row)]
    titles = "".join(f"<th>{title}</th>" for title in ("path", "", "documents", "null", "missing", "kinds", "values"))
    parts = [*_head(profile, files)]
    parts += [f"<pre>{escape(chr(10).join(notes))}</pre>"] if notes else []
    parts += [f"<table><thead><tr>{titles}</tr></thead><tbody>", *(_row(row, profile.whole.count) for row in rows[1:]), "</tbody></table></body></html>\n"]
    return "\n".join(parts)
