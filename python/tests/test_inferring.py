"""Shapes that are inferred. The rules are those of the man page of bson_infer, and the comments are counted here by hand."""

import pytest
import tbson
from documents import array, binary, boolean, date, document, double, element, inner, int32, int64, null, object_id, text
from tbson.inferring import Inference, lines_of, notation_of_inferred
from tbson.notation import joined
from tbson.profile.run import Batch, Wanted, add_batch


def inferred(*pieces, maps=False):
    profile = Wanted(values=False, sound_only=True).new()
    add_batch(profile, Wanted(values=False, sound_only=True), Batch("people.bson", 0, 0, b"".join(pieces)))
    return profile, Inference(maps).whole(profile.whole)


def shape(*pieces, maps=False):
    return notation_of_inferred(inferred(*pieces, maps=maps)[1])


SCOPED = element(0x0F, "v", b"\x0f\0\0\0\2\0\0\0a\0" + document())
KINDS = [
    (int32("v", 1), "i32"),
    (int64("v", 1), "i64"),
    (double("v", 1.0), "double"),
    (text("v", ""), "string"),
    (boolean("v", True), "bool"),
    (object_id("v", "507f1f77bcf86cd799439011"), "oid"),
    (date("v", 0), "datetime"),
    (binary("v", 0, b"x"), "bytebuf"),
    (binary("v", 4, b"x"), "binary"),
    (null("v"), "unit"),
    (element(0x0B, "v", b"a\0\0"), "regex"),
    (element(0x0C, "v", b"\2\0\0\0a\0" + bytes(12)), "dbpointer"),
    (SCOPED, "codews"),
    (element(0x11, "v", bytes(8)), "timestamp"),
    (element(0x13, "v", bytes(16)), "decimal"),
    (element(0x0D, "v", b"\2\0\0\0a\0"), "bson"),
    (element(0x0E, "v", b"\2\0\0\0a\0"), "bson"),
    (element(0x06, "v"), "bson"),
    (element(0xFF, "v"), "bson"),
    (element(0x7F, "v"), "bson"),
    (inner("v"), "{}"),
    (array("v"), "[<>]"),
]


@pytest.mark.parametrize("value, word", KINDS)
def test_each_kind(value, word):
    assert shape(document(value)) == "{v:%s}" % word
    assert shape(document(value), document()) == "{v:?%s}" % word


@pytest.mark.parametrize(
    "values, word",
    [
        ((int32("v", 1), int64("v", 2)), "i64"),
        ((binary("v", 0, b""), binary("v", 4, b"")), "binary"),
        ((int32("v", 1), null("v")), "?i32"),
        ((int32("v", 1), text("v", "x")), "bson"),
        ((inner("v"), text("v", "x")), "bson"),
        ((array("v"), array("v", int32("0", 1))), "[i32]"),
        ((array("v", null("0"), int32("1", 1)),), "[?i32]"),
        ((array("v", null("0")),), "[unit]"),
        ((array("v", inner("0", int32("a", 1)), inner("1", text("b", "x"))),), "[{a:?i32,b:?string}]"),
        ((inner("v", int32("a", 1)), inner("v", int32("a", 1), int32("b", 1))), "{a:i32,b:?i32}"),
    ],
)
def test_values_together(values, word):
    pieces = [document(value) for value in values]
    assert shape(*pieces) == "{v:%s}" % word
    assert tbson.check_file(shape(*pieces), b"".join(pieces)) == []


def test_fields_are_in_the_order_in_which_they_came_first():
    assert shape(document(int32("a", 1), int32("c", 1)), document(int32("b", 1), int32("a", 1), int32("c", 1))) == "{a:i32,c:i32,b:?i32}"
    assert shape(document(int32("first-name", 1), int32("1", 1))) == '{"first-name":i32,"1":i32}'


def test_lines_and_comments():
    pieces = [document(int32("n", 1), inner("a", text("t", "x")), null("z")), document(int64("n", 1), inner("a"), int32("z", 1)), document(inner("a", text("t", "y")), text("z", "x"))]
    profile, found = inferred(*pieces)
    assert lines_of(found) == [
        "{",
        "  n: ?i64,  # 1 of 3 lacks it; 1 int32, 1 int64",
        "  a: {",
        "    t: ?string  # 1 of 3 lacks it",
        "  },",
        "  z: bson  # 1 int32, 1 string; null in 1",
        "}",
    ]
    assert joined("\n".join(lines_of(found))).notation == notation_of_inferred(found)


def test_maps():
    pieces = [document(inner("m", int32("key%d" % (n % 25), n), *([null("key%d" % (n % 25 + 1))] if n % 2 else []))) for n in range(100)]
    assert shape(*pieces, maps=True) == "{m:[string:?i32]}"
    assert shape(*pieces).startswith("{m:{key0:?i32,key1:?i32,")
    assert lines_of(inferred(*pieces)[1])[1] == "  m: {  # looks like a map of 26 keys: see --maps"
    assert lines_of(inferred(*pieces, maps=True)[1])[1] == "  m: [string:?i32]  # a map of 26 keys, such as key0, key1, key2; null in 50"
    for maps in (False, True):
        assert tbson.check_file(shape(*pieces, maps=maps), b"".join(pieces)) == []


def test_documents_that_are_passed_over():
    pieces = [
        document(int32("n", 1)),
        b"\x0c\0\0\0\x99n\0\7\0\0\0\0",
        document(inner("r", text("$ref", "x"))),
        document(text("n", "x"), text("n", "y")),
        document(inner("a", inner("b", int32("n", 1), int32("n", 1)))),
        document(element(0x0F, "v", b"\x1b\0\0\0\2\0\0\0a\0" + document(int32("$where", 1)) )),
        document(int32("n", 2), double("d", 1.0)),
    ]
    profile, found = inferred(*pieces)
    assert notation_of_inferred(found) == "{n:i32,d:?double}"
    assert (profile.documents, profile.whole.count, profile.passed_over) == (7, 2, 5)
    assert [(wrong.index, wrong.text) for wrong in profile.told] == [
        (1, "error at .: unknown kind 153"),
        (2, "error at r.$ref: a key begins with $"),
        (3, "error at n: the key is there twice"),
        (4, "error at a.b.n: the key is there twice"),
        (5, "error at v.$where: a key begins with $"),
    ]


def test_values_with_dollar_signs_in_their_bytes_are_sound():
    assert shape(document(text("t", "a\x02$b"), double("d", 7.748604185e-304), binary("b", 0, b"\x02$x\0"))) == "{t:string,d:double,b:bytebuf}"
