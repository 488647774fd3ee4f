"""Two shapes, compared. The expected differences come from the table of compatible shapes."""

import pytest

import tbson


def test_compatible_shapes():
    assert tbson.differences("{n:i32}", b"{n:i64,m:?bool}") == []


def test_differences():
    assert tbson.differences("{n:i64,list:[{a:i32}]}", "{n:i32,list:[{b:i32}],m:bool}") == [
        (".", "{n:i64,list:[{a:i32}]}", "{n:i32,list:[{b:i32}],m:bool}", "the new field m is no option, and the old struct lacks it"),
        ("n", "i64", "i32", "the new type lacks numbers of the old one"),
        ("list[0]", "{a:i32}", "{b:i32}", "the new field b is no option, and the old struct lacks it"),
    ]


def test_many_differences():
    names = [f"field{n}" for n in range(200)]
    found = tbson.differences("{}", "{%s}" % ",".join(f"{name}:i32" for name in names))
    assert [one.reason for one in found] == [f"the new field {name} is no option, and the old struct lacks it" for name in names]


@pytest.mark.parametrize(
    "old, new, status, place, said",
    [
        ("{n:i33}", "{n:i32}", tbson.Status.OLD_REFUSED, 6, "not a shape"),
        ("{n:i32}", "{n:i33}", tbson.Status.NEW_REFUSED, 6, "not a shape"),
        ("ignored", "{n:i32}", tbson.Status.OLD_REFUSED, 0, "the old shape is not plain"),
        ("{n:i32}", "ignored", tbson.Status.NEW_REFUSED, 0, "the new shape is not plain"),
    ],
)
def test_refused_shapes(old, new, status, place, said):
    with pytest.raises(tbson.ShapeRefused) as caught:
        tbson.differences(old, new)
    assert (caught.value.status, caught.value.place, caught.value.text) == (status, place, said)
