"""Whole files: what comes in, what goes out, and bad input. What is expected of a file comes from the calls on all of its bytes at once, or from the format."""

import gzip
import json
import os
import random

import pytest
import tbson
from documents import document, int32, text
from tbson import files, inputs
from tbson.inputs import InputRefused, Source
from tbson.outputs import OutputRefused, Outputs

SHAPE = tbson.Shape("{_id:i64,name:?string}")


def people(count, refused=()):
    """So many documents of which those with these numbers do not fit."""
    return [document(int32("_id", n), int32("name", n) if n in refused else text("name", "x" * (n % 50))) for n in range(count)]


@pytest.fixture
def small_parts(monkeypatch):
    """Parts of a few hundred bytes, so that a short file has many."""
    monkeypatch.setattr(Source.parts, "__defaults__", (300,))


def test_parts_are_the_file(tmp_path):
    chance = random.Random(1)
    pieces = [document(text("t", "x" * chance.randrange(2000))) for _ in range(200)]
    for name, data in [("a.bson", b"".join(pieces)), ("a.bson.gz", gzip.compress(b"".join(pieces))), ("b.bson.gz", b"".join(map(gzip.compress, pieces)))]:
        (tmp_path / name).write_bytes(data)
        for length in (5, 100, 1999, 4096, 1 << 20):
            with Source(tmp_path / name) as source:
                parts = list(source.parts(length))
            assert b"".join(part.data for part in parts) == b"".join(pieces)
            assert [part.index for part in parts] == [sum(one.count for one in parts[:place]) for place in range(len(parts))]
            assert [part.offset for part in parts] == [sum(len(one.data) for one in parts[:place]) for place in range(len(parts))]


@pytest.mark.parametrize("suffix", ["", ".gz"])
def test_a_migration_is_that_of_the_whole(tmp_path, small_parts, suffix):
    refused = {3, 4, 77, 299}
    whole = b"".join(people(300, refused))
    path, out, rejects = tmp_path / f"in.bson{suffix}", tmp_path / f"out.bson{suffix}", tmp_path / "refused.bson"
    path.write_bytes(gzip.compress(whole) if suffix else whole)
    outcome = files.migrate_file(SHAPE, path, out, rejects=rejects, workers=3)
    expected = tbson.migrate(SHAPE, whole)
    assert (gzip.decompress(out.read_bytes()) if suffix else out.read_bytes()) == expected.output
    assert (outcome.documents, outcome.refused) == (300, 4)
    assert rejects.read_bytes() == b"".join(people(300, refused)[n] for n in sorted(refused))
    lines = [json.loads(line) for line in (tmp_path / "refused.jsonl").read_text().splitlines()]
    assert lines == [{"index": one.index, "offset": one.offset, "_id": one.index, "path": one.path, "cause": one.cause} for one in expected.refused]
    assert [one.index for one in expected.refused] == sorted(refused)


def test_a_check_is_that_of_the_whole(tmp_path, small_parts):
    (tmp_path / "in.bson").write_bytes(b"".join(people(300, {9, 200})))
    outcome = files.check_file_at(SHAPE, tmp_path / "in.bson")
    assert (outcome.documents, outcome.refused) == (300, 2)
    assert [(row.path, row.cause, row.count, row.first_index) for row in outcome.summary.rows()] == [("name", "invalid type: Int32", 2, 9)]


@pytest.mark.parametrize("suffix", ["", ".gz"])
def test_an_empty_collection(tmp_path, suffix):
    path, out = tmp_path / f"in.bson{suffix}", tmp_path / f"out.bson{suffix}"
    path.write_bytes(gzip.compress(b"") if suffix else b"")
    assert files.migrate_file(SHAPE, path, out).documents == 0
    assert (gzip.decompress(out.read_bytes()) if suffix else out.read_bytes()) == b""


@pytest.mark.parametrize("suffix, out_suffix", [("", ""), (".gz", ""), ("", ".gz"), (".gz", ".gz")])
def test_the_metadata_goes_along(tmp_path, suffix, out_suffix):
    (tmp_path / "typed").mkdir()
    path, out = tmp_path / f"in.bson{suffix}", tmp_path / "typed" / f"out.bson{out_suffix}"
    path.write_bytes(gzip.compress(b"") if suffix else b"")
    (tmp_path / f"in.metadata.json{suffix}").write_bytes(gzip.compress(b"{}") if suffix else b"{}")
    files.migrate_file(SHAPE, path, out)
    written = (tmp_path / "typed" / f"out.metadata.json{out_suffix}").read_bytes()
    assert (gzip.decompress(written) if out_suffix else written) == b"{}"


BROKEN = document(int32("n", 1)) * 3
# Each name, what is in the file, and words of the line.
BAD_INPUT = [
    ("cut.bson", BROKEN[:-1], ["broken at byte 24", "the 2 documents before it are whole"]),
    ("short.bson", BROKEN + b"\4\0", ["broken at byte 36", "the 3 documents before it are whole"]),
    ("zero.bson", BROKEN + bytes(20), ["broken at byte 36"]),
    ("long.bson", BROKEN + b"\0\0\0\x7f" + bytes(20), ["broken at byte 36"]),
    ("renamed.bson", gzip.compress(BROKEN), ["is compressed by gzip", ".gz"]),
    ("plain.bson.gz", BROKEN, ["is not compressed by gzip"]),
    ("empty.bson.gz", b"", ["is not compressed by gzip"]),
    ("cut.bson.gz", gzip.compress(BROKEN)[:-9], ["cut off"]),
    ("broken.bson.gz", gzip.compress(BROKEN + b"\4\0"), ["broken at byte 36 of the unpacked file"]),
    ("wrong.bson.gz", gzip.compress(BROKEN)[:-8] + bytes(8), ["gzip cannot read it"]),
    ("people.json", b'{"name": "Ada"}\n', ["JSON text"]),
    ("people.json", b'[\n  {"name": "Ada"}\n]\n', ["JSON text"]),
    ("dump.archive", b"\x6d\xe2\x99\x81" + BROKEN, ["mongodump --archive"]),
]


@pytest.mark.parametrize("name, data, said", BAD_INPUT, ids=[f"{place}-{one[0]}" for place, one in enumerate(BAD_INPUT)])
def test_bad_input_is_told_and_nothing_is_written(tmp_path, small_parts, name, data, said):
    (tmp_path / name).write_bytes(data)
    for call in (lambda: files.migrate_file("{n:i32}", tmp_path / name, tmp_path / "out.bson", rejects=tmp_path / "refused.bson"), lambda: files.check_file_at("{n:i32}", tmp_path / name)):
        with pytest.raises(InputRefused) as caught:
            call()
        assert str(caught.value).startswith(f"{tmp_path / name}: ") and all(words in str(caught.value) for words in said)
    assert os.listdir(tmp_path) == [name]


def test_no_file_a_directory_and_a_pipe(tmp_path):
    os.mkfifo(tmp_path / "pipe")
    os.mkdir(tmp_path / "folder")
    writer = os.open(tmp_path / "pipe", os.O_RDWR)
    for name, said in [("gone", "No such file or directory"), ("folder", "is a directory"), ("pipe", "is no regular file")]:
        with pytest.raises(InputRefused, match=said):
            Source(tmp_path / name)
    os.close(writer)


def test_documents_that_begin_as_other_files_do(tmp_path):
    lengths = [0x00088B1F, 0x7B]
    data = b"".join(document(text("t", "x" * (length - 13))) for length in lengths)
    assert data.startswith(b"\x1f\x8b\x08") and data[lengths[0] :].startswith(b"{")
    for name, contents in [("a.bson", data), ("b.bson", data[lengths[0] :])]:
        (tmp_path / name).write_bytes(contents)
        assert files.check_file_at("{t:string}", tmp_path / name).refused == 0


def test_a_file_that_grows_and_one_that_shrinks(tmp_path, monkeypatch):
    for size in (600, 10):
        path = tmp_path / "in.bson"
        path.write_bytes(b"\5\0\0\0\0" * 100)
        cut = inputs.cut

        def change(*given, size=size):
            path.write_bytes(bytes([5, 0, 0, 0, 0]) * (size // 5))
            return cut(*given)

        monkeypatch.setattr(inputs, "cut", change)
        with pytest.raises(InputRefused, match=f"was written to meanwhile: it had 500 bytes at first, and has {size} now"):
            files.migrate_file("{}", path, tmp_path / "out.bson")
        monkeypatch.undo()
        assert os.listdir(tmp_path) == ["in.bson"]


def test_outputs_that_cannot_be_written(tmp_path):
    (tmp_path / "in.bson").write_bytes(b"\5\0\0\0\0")
    (tmp_path / "taken.bson").write_bytes(b"kept")
    (tmp_path / "folder").mkdir()
    for out, said in [("taken.bson", "is there already"), ("folder", "is a directory"), ("no/out.bson", "No such file or directory")]:
        with pytest.raises(OutputRefused, match=said):
            files.migrate_file("{}", tmp_path / "in.bson", tmp_path / out)
    with pytest.raises(OutputRefused, match="is there already"):
        files.migrate_file("{}", tmp_path / "in.bson", tmp_path / "out.bson", rejects=tmp_path / "taken.bson")
    assert sorted(os.listdir(tmp_path)) == ["folder", "in.bson", "taken.bson"]
    assert (tmp_path / "taken.bson").read_bytes() == b"kept"
    files.migrate_file("{}", tmp_path / "in.bson", tmp_path / "taken.bson", overwrite=True)
    assert (tmp_path / "taken.bson").read_bytes() == b"\5\0\0\0\0"


def test_a_file_over_itself(tmp_path):
    path = tmp_path / "in.bson"
    path.write_bytes(b"".join(people(10)))
    expected = tbson.migrate(SHAPE, path.read_bytes()).output
    files.migrate_file(SHAPE, path, path, overwrite=True)
    assert path.read_bytes() == expected


def test_outputs_stay_only_where_all_is_done(tmp_path):
    with pytest.raises(RuntimeError), Outputs(False) as outputs:
        outputs.open(tmp_path / "a").write(b"1")
        raise RuntimeError
    assert os.listdir(tmp_path) == []
    with Outputs(False) as outputs:
        outputs.open(tmp_path / "a").write(b"1")
        outputs.open(tmp_path / "b")
        assert not {"a", "b"} & set(os.listdir(tmp_path))
    assert ((tmp_path / "a").read_bytes(), (tmp_path / "b").read_bytes()) == (b"1", b"")
