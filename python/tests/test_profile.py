"""What a profile tells, against counts made here from the documents that were written."""

import json
import random
from collections import Counter

import pytest
from documents import array, binary, boolean, date, document, double, element, inner, int32, int64, null, object_id, text
from tbson.inputs import InputRefused
from tbson.profile import tree
from tbson.profile.page import page_of
from tbson.profile.rows import json_of_profile, rows_of
from tbson.profile.run import Batch, Wanted, add_batch, profile_of
from tbson.profile.values import MOST_KEPT, Values
from tbson.profile.words import share_text, values_text, variants_lines


def profiled(*pieces, wanted=Wanted()):
    profile = wanted.new()
    add_batch(profile, wanted, Batch("people.bson", 0, 0, b"".join(pieces)))
    return profile


def rows_by_path(profile):
    return {row.path: row for row in rows_of(profile)}


def test_presence_null_and_missing():
    rows = rows_by_path(profiled(document(int32("a", 1)), document(null("a")), document(), document(int64("a", 2), inner("b", text("c", "x"))), document(inner("b"))))
    a, b, c = rows["a"], rows["b"], rows["b.c"]
    assert (a.documents, a.values, a.missing, a.null) == (3, 3, 2, 1)
    assert [(kind.kind, kind.count) for kind in a.kinds] == [("int32", 1), ("int64", 1)]
    assert (b.documents, b.missing, c.documents, c.missing, c.null) == (2, 3, 1, 1, 0)


def test_arrays_are_counted_by_documents_and_by_values():
    rows = rows_by_path(
        profiled(
            document(array("a", int32("0", 1), int32("1", 1), text("2", "x"))),
            document(array("a", inner("0", int32("n", 5)), inner("1", int32("n", 6)), inner("2"))),
            document(array("a")),
        )
    )
    assert (rows["a"].documents, rows["a"].kinds[0].shortest, rows["a"].kinds[0].longest, rows["a"].kinds[0].mean_length) == (3, 0, 3, 2.0)
    items, numbers = rows["a[*]"], rows["a[*].n"]
    assert (items.documents, items.values, items.missing) == (2, 6, None)
    assert [(kind.kind, kind.count) for kind in items.kinds] == [("document", 3), ("int32", 2), ("string", 1)]
    assert (numbers.documents, numbers.values, numbers.missing) == (1, 2, 1)


def test_every_kind_has_its_name():
    kinds = {
        "double": double("v", 1.5),
        "string": text("v", "x"),
        "document": inner("v"),
        "array": array("v"),
        "binary": binary("v", 4, b"x"),
        "undefined": element(6, "v"),
        "objectId": object_id("v", "507f1f77bcf86cd799439011"),
        "bool": boolean("v", True),
        "date": date("v", 1672531200000),
        "regex": element(0x0B, "v", b"a\0i\0"),
        "dbPointer": element(0x0C, "v", b"\2\0\0\0a\0" + bytes(12)),
        "javascript": element(0x0D, "v", b"\2\0\0\0a\0"),
        "symbol": element(0x0E, "v", b"\2\0\0\0a\0"),
        "javascriptWithScope": element(0x0F, "v", b"\x0f\0\0\0\2\0\0\0a\0" + document()),
        "int32": int32("v", 7),
        "timestamp": element(0x11, "v", bytes(8)),
        "int64": int64("v", 7),
        "decimal128": element(0x13, "v", bytes(16)),
        "minKey": element(0xFF, "v"),
        "maxKey": element(0x7F, "v"),
    }
    for name, value in kinds.items():
        row = rows_by_path(profiled(document(value, int32("after", 1))))["v"]
        assert [(kind.kind, kind.count) for kind in row.kinds] == [(name, 1)]


def test_ranges_lengths_and_values():
    rows = rows_by_path(
        profiled(
            *(document(int32("n", n - 3), double("d", n / 2), text("t", "é" * n), date("at", 86400000 * n), boolean("b", n == 0), text("long", "x" * (60 + n))) for n in range(10)),
            document(double("d", float("nan"))),
        )
    )
    n, d, t, at, b, long = (rows[name].kinds[0] for name in ("n", "d", "t", "at", "b", "long"))
    assert (n.least, n.greatest, n.distinct) == (-3, 6, 10)
    assert (d.least, d.greatest) == (0.0, 4.5)
    assert (t.shortest, t.longest, t.mean_length) == (0, 18, 9.0)
    assert (at.least, at.greatest) == ("1970-01-01T00:00:00Z", "1970-01-10T00:00:00Z")
    assert b.frequent == [(False, 9), (True, 1)]
    assert (long.shortest, long.longest, long.mean_length) == (60, 69, 64.5)


def test_the_most_frequent_values_of_very_many():
    chance = random.Random(5)
    written = ["often"] * 3000 + ["sometimes"] * 1500 + ["value %d" % chance.randrange(10**9) for _ in range(20000)]
    chance.shuffle(written)
    values = Values(2)
    for start in range(0, len(written), 700):
        values.add(Counter(one.encode() for one in written[start : start + 700]))
    (first, first_count), (second, second_count) = values.frequent(2)
    assert (first, second) == (b"often", b"sometimes")
    for told, true in ((first_count, 3000), (second_count, 1500)):
        assert told <= true <= told + values.lost
    assert values.distinct is None and len(values.most) <= 2 * MOST_KEPT
    assert (values.shortest, values.longest) == (5, max(map(len, written)))


def test_values_of_which_none_stands_out():
    values = Values(2)
    for start in range(0, 50000, 500):
        values.add({b"%d" % n: 1 for n in range(start, start + 500)})
    assert values.frequent(3) == [] and values.distinct is None
    assert (values.shortest, values.longest) == (1, 5)


def test_a_merge_is_what_all_documents_give():
    chance = random.Random(3)
    pieces = [
        document(
            int32("_id", n),
            *([text("name", chance.choice("abc"))] if n % 3 else []),
            array("a", *(inner(str(i), chance.choice([int32("n", 1), text("n", "x"), null("n")])) for i in range(chance.randrange(3)))),
            text("type", "ab"[n % 2]),
            *([int32("x", 1)] if n % 2 else [int32("y", 1)]),
        )
        for n in range(400)
    ]
    whole = profiled(*pieces)
    parts = [Wanted().new() for _ in range(3)]
    for number in range(0, 400, 20):
        add_batch(parts[number // 20 % 3], Wanted(), Batch("people.bson", number, number, b"".join(pieces[number : number + 20])))
    parts[0].merge(parts[1])
    parts[0].merge(parts[2])
    assert json_of_profile(parts[0], ["f"]) == json_of_profile(whole, ["f"])


@pytest.mark.parametrize("suffix, workers", [("", 1), ("", 3), (".gz", 2)])
def test_files_on_several_processes(tmp_path, monkeypatch, suffix, workers):
    import gzip

    from tbson.profile import run

    monkeypatch.setattr(run, "_SMALL", 0)
    monkeypatch.setattr(run, "BATCH", 500)
    pieces = [document(int32("n", n), text("t", "x" * (n % 7))) for n in range(300)]
    paths = [tmp_path / f"a.bson{suffix}", tmp_path / f"b.bson{suffix}"]
    for path, part in zip(paths, (pieces[:200], pieces[200:])):
        path.write_bytes(gzip.compress(b"".join(part)) if suffix else b"".join(part))
    told = []
    profile = profile_of(paths, Wanted(), workers, told.append)
    assert json_of_profile(profile, []) == json_of_profile(profiled(*pieces), [])
    assert told == sorted(told) and told[-1] == sum(path.stat().st_size for path in paths)


def test_a_broken_file_ends_the_processes(tmp_path, monkeypatch):
    from tbson.profile import run

    monkeypatch.setattr(run, "_SMALL", 0)
    (tmp_path / "a.bson").write_bytes(document(int32("n", 1)) * 10 + b"\4\0\0\0")
    with pytest.raises(InputRefused, match="broken at byte 120"):
        profile_of([tmp_path / "a.bson"], Wanted(), 2)


DAMAGED = b"\x0c\0\0\0\x99n\0\7\0\0\0\0"


def test_damaged_documents_are_passed_over():
    profile = profiled(document(int32("n", 1)), DAMAGED, document(int32("n", 2)))
    assert (profile.documents, profile.whole.count, profile.passed_over) == (3, 2, 1)
    assert [(wrong.file, wrong.index, wrong.text) for wrong in profile.told] == [("people.bson", 1, "error at .: unknown kind 153")]
    assert rows_by_path(profile)["n"].kinds[0].greatest == 2


def test_keys_that_look_like_those_of_a_map():
    chance = random.Random(1)
    names = ["key%d" % n for n in range(40)]
    sparse = rows_by_path(profiled(*(document(inner("m", *(int32(name, 1) for name in chance.sample(names, 3)))) for _ in range(200))))
    assert (sparse["m"].map_key_count, len(sparse["m"].map_keys), sparse["m.*"].values, sparse["m.*"].documents) == (40, 5, 600, None)
    numbers = rows_by_path(profiled(*(document(inner("m", *(int32(str(n), 1) for n in range(24)))) for _ in range(10))))
    assert "m.*" in numbers
    fixed = rows_by_path(profiled(*(document(inner("m", *(int32(name, 1) for name in names))) for _ in range(10))))
    assert "m.*" not in fixed and fixed["m.key7"].documents == 10
    unlike = rows_by_path(profiled(*(document(inner("m", *(text(name, "1") for name in chance.sample(names, 2)), double("d", 1.0))) for _ in range(200))))
    assert "m.*" not in unlike


def test_more_keys_than_are_told_apart(monkeypatch):
    monkeypatch.setattr(tree, "MOST_NAMES", 50)
    monkeypatch.setattr(tree, "_MOST_SLOTS", 100)
    for count in (60, 400):
        profile = profiled(*(document(inner("m", int32("key%d" % n, n))) for n in range(count)), document(inner("m", text("other", "x"))))
        row = rows_by_path(profile)["m.*"]
        assert [(kind.kind, kind.count) for kind in row.kinds] == [("int32", count), ("string", 1)]
        assert (row.kinds[0].least, row.kinds[0].greatest, row.values) == (0, count - 1, count + 1)
        assert rows_by_path(profile)["m"].map_key_count is None


def test_a_field_that_tells_variants_apart():
    pieces = []
    for n in range(1600):
        kind = "click" if n // 16 % 3 else "view"
        own = [int32("x", 1), int32("y", 2)] if kind == "click" else [text("url", "/")]
        pieces.append(document(inner("event", text("color", "red" if n // 16 % 2 else "blue"), text("type", kind), *own)))
    row = rows_by_path(profiled(*pieces))["event"]
    assert row.variants["field"] == "type"
    assert [(one["value"], one["fields"]) for one in row.variants["values"]] == [("click", ["x", "y"]), ("view", ["url"])]
    assert variants_lines(row) == ["type tells variants of event apart:", "  click: x, y", "  view: url"]


def test_no_field_tells_variants_apart_where_no_other_depends_on_it():
    pieces = [document(text("color", "red" if n // 16 % 2 else "blue"), int32("n", 1)) for n in range(1600)]
    assert rows_of(profiled(*pieces))[0].variants is None


def test_words():
    assert [share_text(*shares) for shares in [(0, 10), (1, 100000), (1, 12), (9999, 10000), (1, 2), (3, 3)]] == ["0.0 %", "< 0.1 %", "8.3 %", "99.9 %", "50 %", "100 %"]
    rows = rows_by_path(profiled(*(document(text("t", "a" if n % 4 else "b"), int32("n", n), int32("one", 1)) for n in range(1000)), document(text("t", ""), null("n"))))
    assert values_text(rows["t"]) == "a (75 %), b (25 %), and 1 more"
    assert values_text(rows["n"]) == "0 .. 999"
    assert values_text(rows["one"]) == "1 (100 %)"


def test_the_page_stands_alone_and_holds_no_markup_of_values():
    profile = profiled(*(document(text("<b>", "<script>alert(1)</script>")) for _ in range(5)), DAMAGED)
    page = page_of(profile, rows_of(profile), ["people.bson"])
    assert "<script" not in page and "&lt;script&gt;" in page and "&lt;b&gt;" in page
    assert "http" not in page and "unknown kind 153" in page


def test_json_is_json():
    profile = profiled(document(text("t", "\u0000"), double("d", float("inf")), date("at", 1 << 62)))
    paths = {row["path"]: row for row in json_of_profile(profile, ["a.bson"])["paths"]}
    assert paths["at"]["kinds"][0]["least"] == f"{1 << 62} ms"
    assert (paths["d"]["kinds"][0]["least"], paths["d"]["kinds"][0]["frequent"]) == ("Infinity", [{"value": "Infinity", "count": 1}])
    json.dumps(json_of_profile(profile, ["a.bson"]), allow_nan=False)
