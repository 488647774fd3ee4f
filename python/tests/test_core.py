"""Tests of the calls. The bytes that are expected come from the BSON format (bsonspec.org), and the texts from the pages of the repository."""

import mmap
import os
import pickle
import subprocess
import sys
import threading

import pytest
import tbson
from documents import document, inner, int32, int64, text
from tbson import errors
from tbson._library import library

ADA = document(text("name", "Ada"), int32("age", 36))


def test_a_shape():
    tbson.check_shape("{name:string,age:i64}")
    tbson.check_shape('{"é":?[oid]}')


@pytest.mark.parametrize(
    "shape, place, said",
    [
        ("", 0, "not a shape"),
        ("{age:i33}", 8, "not a shape"),
        ("(i32,{a:i32,a:bool})", 5, "repeated name"),
        ("[bytes:i32]", 0, "map key is not a text"),
        (b'"a\xff', 2, "not UTF-8"),
    ],
)
def test_no_shapes(shape, place, said):
    for call in (tbson.check_shape, tbson.Shape):
        with pytest.raises(tbson.ShapeRefused) as caught:
            call(shape)
        assert (caught.value.place, caught.value.text) == (place, said)


def test_a_shape_that_was_checked():
    shape = tbson.Shape("{age:i64}")
    assert (str(shape), repr(shape), shape.text) == ("{age:i64}", "Shape('{age:i64}')", "{age:i64}")
    assert shape == tbson.Shape(b"{age:i64}") and shape != tbson.Shape("{age:i32}") and shape != "{age:i64}"
    assert pickle.loads(pickle.dumps(shape)) == shape and len({shape, tbson.Shape("{age:i64}")}) == 1
    assert tbson.recast(shape, ADA) == document(int64("age", 36))
    assert tbson.migrate(shape, ADA).output == document(int64("age", 36))


def test_a_field_is_taken_and_widened():
    assert tbson.recast("{age:i64}", ADA) == document(int64("age", 36))


def test_a_document_as_it_is():
    assert tbson.recast("any", ADA) == ADA


def test_an_output_is_a_bytearray_or_bytes():
    for into in (bytearray, bytes):
        assert type(tbson.recast("any", ADA, into=into)) is into
        assert type(tbson.migrate("any", ADA, into=into).output) is into
        assert [type(one) for one in tbson.documents(ADA, into=into)] == [into]
    assert type(tbson.recast("any", ADA)) is type(tbson.migrate("any", ADA).output) is bytearray
    assert [type(one) for one in tbson.documents(ADA)] == [memoryview]
    first, second = tbson.recast("any", ADA), tbson.recast("{age:i64}", ADA)
    assert first == ADA and second == document(int64("age", 36))


def test_bytes_serve_where_pymongo_wants_them():
    raw_bson = pytest.importorskip("bson.raw_bson")
    assert raw_bson.RawBSONDocument(tbson.recast("{age:i64}", ADA, into=bytes))["age"] == 36


@pytest.mark.parametrize("count", [20000, 1000, 10])
def test_documents_of_any_size(count):
    narrow = document(*(int32(str(n), n) for n in range(count)))
    wide = document(*(int64(str(n), n) for n in range(count)))
    for into in (bytearray, bytes):
        assert tbson.recast("[string:i64]", narrow, into=into) == wide


@pytest.mark.parametrize(
    "kind, shape, given, path, cause",
    [
        (tbson.ReadRefused, "{name:u8}", ADA, "name", "invalid type: String"),
        (tbson.ReadRefused, "{size:u8}", ADA, ".", "missing field size"),
        (tbson.ShapeRefused, "{age:i33}", ADA, None, "not a shape"),
        (tbson.WriteRefused, "[char:i32]", document(int32("n", 7)), ".", "invalid map key type: String"),
    ],
)
def test_a_refusal_is_a_value_error_with_its_parts(kind, shape, given, path, cause):
    for call in (tbson.recast, tbson.check):
        with pytest.raises(ValueError) as caught:
            call(shape, given)
        refused = caught.value
        assert type(refused) is kind and str(refused) == refused.text
        assert refused.text == (cause if path is None else f"error at {path}: {cause}")
        assert (refused.path, refused.cause, refused.index, refused.offset) == (path, cause, None, None)
        copy = pickle.loads(pickle.dumps(refused))
        assert (type(copy), copy.__dict__) == (kind, refused.__dict__)


def test_the_statuses_of_refusals():
    for kind, status in [
        (tbson.ShapeRefused, tbson.Status.SHAPE_REFUSED),
        (tbson.ReadRefused, tbson.Status.READ_REFUSED),
        (tbson.WriteRefused, tbson.Status.WRITE_REFUSED),
        (tbson.Broken, tbson.Status.BROKEN),
    ]:
        assert type(errors.failure(status, "said", 3)) is kind
    assert type(errors.failure(tbson.Status.NO_MEMORY, "", 0)) is MemoryError


def test_a_status_that_is_not_known_is_told():
    failed = errors.failure(99, "", 0)
    assert type(failed) is tbson.UnknownStatus and "99" in str(failed)
    refused = errors.refused_in_file(99, b"error at a: new", 12)
    assert type(refused) is tbson.Refused and refused.status == 99 and refused.cause == "unknown status 99: new"


def test_any_bytes():
    memory = mmap.mmap(-1, len(ADA))
    memory[:] = ADA
    for given in [bytearray(ADA), memoryview(ADA), memoryview(b"." + ADA)[1:], memory]:
        assert tbson.recast(b"{age:i64}", given) == document(int64("age", 36))
    memory.close()
    for call in (tbson.recast, tbson.check, tbson.migrate, tbson.check_file):
        with pytest.raises(TypeError):
            call("{age:i64}", "a text")
        with pytest.raises(BufferError):
            call("{age:i64}", memoryview(ADA)[::2])


def test_checked_only():
    assert tbson.check("{age:i64}", ADA) == len(document(int64("age", 36)))
    with pytest.raises(tbson.ReadRefused) as caught:
        tbson.check("{%s:u8}" % ("n" * 1000), ADA)
    assert caught.value.cause == "missing field " + "n" * 1000


def test_an_output_that_is_many_times_the_input():
    names = ["field%d" % n for n in range(50)]
    shape = "{list:[{%s}]}" % ",".join("%s:?i32" % name for name in names)
    empty = document(b"\x04list\0" + document(*(inner(str(n)) for n in range(100))))
    nulls = document(*(b"\x0a" + name.encode() + b"\0" for name in names))
    full = document(b"\x04list\0" + document(*(b"\x03%d\0" % n + nulls for n in range(100))))
    assert len(full) > 10 * (len(empty) + len(shape))
    assert tbson.recast(shape, empty) == full
    assert tbson.migrate(shape, empty).output == full


def test_a_long_text():
    name = "n" * 1000
    with pytest.raises(tbson.ReadRefused) as caught:
        tbson.recast("{%s:u8}" % name, document(text(name, "Ada")))
    assert caught.value.text == f"error at {name}: invalid type: String"


FILE = document(int32("n", 7)) + document() + document(int32("n", 8))


def test_documents():
    assert list(tbson.documents(FILE)) == [document(int32("n", 7)), document(), document(int32("n", 8))]
    assert list(tbson.documents(b"")) == []


def test_a_broken_file():
    for call in (lambda: list(tbson.documents(FILE[:-1])), lambda: tbson.migrate("{n:u32}", FILE[:-1]), lambda: tbson.check_file("{n:u32}", FILE[:-1])):
        with pytest.raises(tbson.Broken) as caught:
            call()
        assert caught.value.place == 17


def test_a_migration():
    migration = tbson.migrate("{n:u32}", FILE)
    assert migration.output == document(int64("n", 7)) + document(int64("n", 8))
    for refused in (migration.refused, tbson.check_file("{n:u32}", FILE)):
        assert [(r.index, r.offset, r.status, r.text, r.path, r.cause) for r in refused] == [
            (1, 12, tbson.Status.READ_REFUSED, "error at .: missing field n", ".", "missing field n")
        ]


def test_a_file_that_fits():
    assert tbson.check_file("{}", FILE) == []
    assert tbson.migrate("{n:u32}", b"") == (b"", [])


def test_refused_in_writing_and_without_a_path():
    file = document(int32("n", 7)) + b"\5\0\0\0\1" + document()
    migration = tbson.migrate("[char:i32]", file)
    assert migration.output == document()
    for refused in (migration.refused, tbson.check_file("[char:i32]", file)):
        assert [(type(r), r.index, r.offset, r.path, r.cause) for r in refused] == [
            (tbson.WriteRefused, 0, 0, ".", "invalid map key type: String"),
            (tbson.ReadRefused, 1, 12, None, "document not terminated"),
        ]


def test_no_file_for_a_shape_that_is_none():
    for call in (tbson.migrate, tbson.check_file):
        with pytest.raises(tbson.ShapeRefused) as caught:
            call("{n:u33}", FILE)
        assert (caught.value.place, caught.value.cause) == (6, "not a shape")


def test_many_refused_documents():
    migration = tbson.migrate("{n:u32}", 10000 * document())
    assert migration.output == b""
    for refused in (migration.refused, tbson.check_file("{n:u32}", 10000 * document())):
        assert [(r.index, r.offset, r.text) for r in refused] == [(n, 5 * n, "error at .: missing field n") for n in range(10000)]


def test_names_with_line_breaks_and_colons():
    name = "a: b\n"
    refused = tbson.migrate('{"a: b\n":u8}', document(text(name, "Ada"))).refused
    assert [(r.path, r.cause) for r in refused] == [(name, "invalid type: String")]


@pytest.fixture
def counted(monkeypatch):
    """How often a call of the library is made while something is done."""

    def count(name, work):
        function, calls = getattr(library, name), []
        monkeypatch.setattr(library, name, lambda *given: (calls.append(given), function(*given))[1])
        work()
        return len(calls)

    return count


@pytest.mark.parametrize(
    "name, work",
    [
        ("tbson_recast", lambda numbers: tbson.recast("[string:i64]", numbers)),
        ("tbson_recast", lambda numbers: tbson.recast("[string:i64]", numbers[:4] + numbers[4:], into=bytes)),
        ("tbson_recast", lambda numbers: tbson.check("[string:i64]", numbers)),
        ("tbson_migrate_and_list", lambda numbers: tbson.migrate("[string:i64]", 100 * numbers)),
        ("tbson_migrate_and_list", lambda numbers: tbson.migrate("{n:u32}", 2000 * document())),
        ("tbson_migrate_and_list", lambda numbers: tbson.check_file("{n:u32}", 2000 * document())),
    ],
)
def test_one_call_of_the_library(counted, name, work):
    numbers = document(*(int32(str(n), n) for n in range(1000)))
    assert counted(name, lambda: work(numbers)) == 1


def test_one_call_for_a_long_text(counted):
    name = "n" * 100000

    def refused():
        with pytest.raises(tbson.ReadRefused):
            tbson.recast("{%s:u8}" % name, document(text(name, "Ada")))

    assert counted("tbson_recast", refused) == 1


@pytest.mark.parametrize("path", ["/nowhere/libtbson.so", "/lib/x86_64-linux-gnu/libc.so.6", __file__])
def test_a_missing_library_and_another_one(path):
    ran = subprocess.run([sys.executable, "-c", "import tbson"], env={**os.environ, "TBSON_LIBRARY": path}, capture_output=True, text=True)
    assert ran.returncode == 1
    last = ran.stderr.splitlines()[-1]
    for said in ["ImportError: tbson: ", path, "make -C", "TBSON_LIBRARY"]:
        assert said in last


def test_calls_at_once():
    wrong = []

    def work(n):
        for _ in range(200):
            if tbson.recast("{n:i64}", document(int32("n", n))) != document(int64("n", n)):
                wrong.append(n)

    threads = [threading.Thread(target=work, args=(n,)) for n in range(8)]
    for thread in threads:
        thread.start()
    for thread in threads:
        thread.join()
    assert wrong == []


def test_versions():
    assert tbson.version() == tbson.VERSION
    numbers = tbson.__version__.split(".")
    assert len(numbers) == 3 and all(number.isdigit() for number in numbers)


def test_names():
    assert len(set(tbson.__all__)) == len(tbson.__all__)
    assert all(hasattr(tbson, name) for name in tbson.__all__)
