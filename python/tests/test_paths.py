"""Paths of refusals in a summary."""

import pytest
from tbson.errors import Refused
from tbson.form import form_of
from tbson.paths import pattern
from tbson.summary import Summary

SHAPE = '{a:[{b:i32}],m:[string:{n:[i32]}],flat:[string:i32],t:(i32,{x:i32}),"d.e":{f:i32},e:<A,B=[i32]>,o:?[i32],r:&(node={n:i32,next:?@node,all:[@node]})@node,any:bson}'


@pytest.mark.parametrize(
    "path, expected",
    [
        (".", "."),
        ("a[17].b", "a[*].b"),
        ("a", "a"),
        ("m.Ada.n[3]", "m.*.n[*]"),
        ("m.Ada", "m.*"),
        ("flat.x.y[3]", "flat.*"),
        ("t[1].x", "t[1].x"),
        ("d.e.f", "d.e.f"),
        ("e.B[5]", "e.B[*]"),
        ("o[2]", "o[*]"),
        ("r.next.all[4].next.n", "r.next.all[*].next.n"),
        ("any.x[12].y", "any.x[*].y"),
        ("gone.x[1]", "gone.x[*]"),
        ("a[1]..", "a[*].."),
        ("[x", "[x"),
    ],
)
def test_paths(path, expected):
    assert pattern(path, form_of(SHAPE)) == expected


def test_a_summary_counts_by_path_and_cause():
    summary = Summary(form_of("{a:[i8]}"))
    for index, text in enumerate(["error at a[0]: integer 300 out of range", "error at .: missing field a", "error at a[7]: integer -200 out of range", "document too short"]):
        summary.add(Refused(text), index)
    assert [(row.path, row.cause, row.count, row.first_index, row.first_cause) for row in summary.rows()] == [
        ("a[*]", "integer out of range", 2, 0, "integer 300 out of range"),
        (".", "missing field a", 1, 1, "missing field a"),
        (".", "document too short", 1, 3, "document too short"),
    ]


def test_a_summary_is_bounded(monkeypatch):
    monkeypatch.setattr(Summary, "MOST", 3)
    summary = Summary(None)
    for index in range(10):
        summary.add(Refused(f"error at a{index}: x"), index)
    assert (len(summary.rows()), summary.others, summary.count) == (3, 7, 10)
