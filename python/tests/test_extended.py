"""Values as JSON: as json_util of pymongo has them in its relaxed form."""

import json

import pytest
from documents import array, binary, boolean, date, document, double, element, inner, int32, int64, null, object_id, text
from tbson.elements import elements, find
from tbson.extended import json_of

bson = pytest.importorskip("bson")
json_util = pytest.importorskip("bson.json_util")
Decimal128 = bson.decimal128.Decimal128

DECIMALS = "0 -0 1 12.50 0.001234 0.00000012 -1234567890123456789012345678901234 1E+3 1.23E+6144 1E-6176 0E+3 0E-8 9.999E-6143 NaN Infinity -Infinity".split()

VALUES = [
    double("v", 1.5),
    double("v", float("nan")),
    double("v", float("-inf")),
    text("v", "Zürich\n"),
    inner("v", int32("a", 1), array("b", int64("0", 2), null("1"))),
    binary("v", 0, b"\x00\xff"),
    binary("v", 128, bytes(range(16))),
    object_id("v", "507f1f77bcf86cd799439011"),
    boolean("v", True),
    date("v", 0),
    date("v", 1672531200123),
    date("v", -1),
    null("v"),
    element(0x0D, "v", b"\2\0\0\0a\0"),
    element(0x0F, "v", b"\x0f\0\0\0\2\0\0\0a\0" + document()),
    int32("v", -7),
    element(0x11, "v", b"\2\0\0\0\1\0\0\0"),
    int64("v", 1 << 40),
    *(element(0x13, "v", Decimal128(digits).bid) for digits in DECIMALS),
    element(0x13, "v", b"\xff" * 15 + b"\x6f"),
    element(0xFF, "v"),
    element(0x7F, "v"),
]


@pytest.mark.parametrize("value", VALUES)
def test_values_as_json_are_those_of_pymongo(value):
    data = document(int32("before", 1), value, int32("after", 2))
    expected = json.loads(json_util.dumps(bson.decode(data)["v"], json_options=json_util.RELAXED_JSON_OPTIONS))
    assert json_of(data, find(data, b"v")) == expected
    assert [one.key for one in elements(data)] == [b"before", b"v", b"after"]


def test_kinds_that_pymongo_reads_as_others():
    """After the specification of Extended JSON. In pymongo a pointer becomes a DBRef, a symbol a text, undefined None, and a date in the year 10000 an error."""
    for value, expected in [
        (element(0x0C, "v", b"\2\0\0\0a\0" + bytes.fromhex("507f1f77bcf86cd799439011")), {"$dbPointer": {"$ref": "a", "$id": {"$oid": "507f1f77bcf86cd799439011"}}}),
        (element(0x0E, "v", b"\2\0\0\0a\0"), {"$symbol": "a"}),
        (element(0x06, "v"), {"$undefined": True}),
        (binary("v", 4, bytes(16)), {"$binary": {"base64": "AAAAAAAAAAAAAAAAAAAAAA==", "subType": "04"}}),
        (date("v", 253402300800000), {"$date": {"$numberLong": "253402300800000"}}),
        (element(0x0B, "v", b"a.b\0im\0"), {"$regularExpression": {"pattern": "a.b", "options": "im"}}),
    ]:
        data = document(value)
        assert json_of(data, find(data, b"v")) == expected
