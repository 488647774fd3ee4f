"""Shapes as people write them, and what they are told. The notation is that of docs/SHAPES.md."""

import pytest
import tbson
from tbson.form import form_of
from tbson.notation import joined, lines, name_text
from tbson.shape_text import ShapeText, ShapeTextRefused, shape_of_text

WRITTEN = """
# People.
{
  name: string,     # the first name
  "a # b": ?i64,    # a name with a number sign, and a blank

  tags: [ string ]
}
"""


def test_line_breaks_blanks_and_comments():
    notation = '{name:string,"a # b":?i64,tags:[string]}'
    assert joined(WRITTEN).notation == notation
    assert shape_of_text(ShapeText(WRITTEN)).text == notation
    made, places = joined(WRITTEN)
    assert [WRITTEN[place] for place in places[:-1]] == list(made) and places[-1] == WRITTEN.rindex("}") + 1


def test_lines_are_joined_again():
    for notation in ["{a:i32,b:{!c:?[string],d:<A,B(i32,i32)>},e:{}}", '{"x, y":[string:(i32,bool)]}', "&(t={a:?@t})@t", "i32"]:
        assert joined("\n".join(lines(notation))).notation == notation
    assert lines("{a:i32,b:[{c:i32}]}") == ["{", "  a:i32,", "  b:[{", "    c:i32", "  }]", "}"]


def test_names():
    assert [name_text(name) for name in ["a1_", "_id", "", "1a", "first-name", 'a"b\\', "é"]] == ["a1_", "_id", '""', '"1a"', '"first-name"', '"a\\"b\\\\"', '"é"']


# Each text, the line and the column of the caret, and the reason.
REFUSED = [
    ("{name:strng}", 1, 7, "`strng` is no type: did you mean `string`?"),
    ("{at:date}", 1, 5, "`date` is no type: did you mean `datetime`?"),
    ("{\n  name: string, # text\n\tat: Date\n}", 3, 6, "`Date` is no type: did you mean `datetime`?"),
    ("{n:int}", 1, 4, "`int` is no type: did you mean `i32` or `i64`?"),
    ("{n:i33}", 1, 4, "`i33` is no type: did you mean `i32`?"),
    ("{n:objectId}", 1, 4, "`objectId` is no type: did you mean `oid`?"),
    ("{n:qqqqq}", 1, 4, "`qqqqq` is no type"),
    ("{n:list}", 1, 4, "`list` is no type: did you mean `[s]`, of what its items are?"),
    ("{a:i32,}", 1, 8, "expected a name, and found `}`"),
    ("{a i32}", 1, 4, "expected `,` or `:` between two words"),
    ("{a:i32\n b:i32}", 2, 2, "expected `,` or `:` between two words"),
    ("{a:i32", 1, 7, "expected `,` or `}`, and found the end"),
    ("{a}", 1, 3, "expected `:` and the shape of a, and found `}`"),
    ("{a:?}", 1, 5, "expected a shape, and found `}`"),
    ("{a:i32}}", 1, 8, "expected the end of the shape, and found `}`"),
    ("[string:i32", 1, 12, "expected `]`, and found the end"),
    ('{"a":i32}', 1, 4, 'expected no quotes around a, and found `"`'),
    ("{a-b:i32}", 1, 3, "expected `:` and the shape of a, and found `-`; a name with other characters than letters, digits and `_` is put between double quotes"),
    ("", 1, 1, "expected a shape, and found the end"),
    ("{a:i32,\n b:bool,\n a:string}", 3, 2, "the name a is there twice"),
    ("[bytes:i32]", 1, 1, "map key is not a text"),
]


@pytest.mark.parametrize("text, line, column, reason", REFUSED)
def test_what_is_told_of_no_shape(text, line, column, reason):
    with pytest.raises(ShapeTextRefused) as caught:
        shape_of_text(ShapeText(text, "people.shape"))
    first, shown, caret = str(caught.value).split("\n")
    assert first == f"people.shape:{line}:{column}: {reason}"
    assert shown == "  " + text.split("\n")[line - 1]
    assert caret.index("^") == column + 1


def test_a_caret_under_a_whole_word_and_under_tabs():
    with pytest.raises(ShapeTextRefused) as caught:
        shape_of_text(ShapeText("{\n\tat:\tDate}"))
    assert str(caught.value).split("\n")[1:] == ["  \tat:\tDate}", "  \t   \t^^^^"]


def test_what_is_read_is_what_the_library_takes():
    shapes = "bool %(i32,?string) ^~[i32] [string:i32] (i32,bool) () {} {!a:i32} N{a:i32} N=i32 N(i32) N! <> <A,B=i32,C(i32),D{a:i32}> &(t={a:?@t})@t"
    for notation in shapes.split(" "):
        tbson.check_shape(notation)
        form_of(notation)
