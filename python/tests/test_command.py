"""The command as a person calls it: what is printed, the exit status, and which files are there afterwards."""

import gzip
import json
import os
import pty
import random
import re
import signal
import subprocess
import sys
from pathlib import Path

import pytest
import tbson
from documents import array, document, inner, int32, int64, object_id, text

SHAPE = "{_id:oid,name:string,age:i64,tags:[i32]}"
IDS = ["%024x" % n for n in range(1000)]


def person(number, *, age=None, tags=()):
    elements = [object_id("_id", IDS[number]), text("name", f"person {number}"), age or int32("age", number % 90)]
    return document(*elements, array("tags", *tags))


def people(count=100, refused=(7, 50)):
    """So many people, of whom those with these numbers have an age that is a text."""
    return [person(number, age=text("age", "40") if number in refused else None) for number in range(count)]


@pytest.fixture
def folder(tmp_path, monkeypatch):
    """An empty folder, in which the command runs, with a file of people."""
    monkeypatch.chdir(tmp_path)
    Path("people.bson").write_bytes(b"".join(people()))
    return tmp_path


def tbson_command(*words, before=(), **how):
    return subprocess.run([*before, sys.executable, "-m", "tbson", *words], capture_output=True, text=True, timeout=60, **how)


def files():
    return sorted(path.name for path in Path(".").iterdir())


def test_help_is_enough():
    ran = tbson_command("--help")
    assert ran.returncode == 0
    for name in ("profile", "infer", "check", "migrate", "merge", "diff"):
        assert name in ran.stdout
        helped = tbson_command(name, "-h")
        assert helped.returncode == 0 and "Usage: tbson " + name in helped.stdout and "Exit status" in helped.stdout


def test_version():
    assert tbson_command("--version").stdout == f"tbson {tbson.__version__}\n"


def test_a_migration(folder):
    ran = tbson_command("migrate", SHAPE, "people.bson", "typed.bson", "--rejects", "refused.bson")
    assert (ran.returncode, ran.stderr) == (1, "")
    assert "98 of 100 documents written to typed.bson; 2 refused" in ran.stdout
    assert re.search(r"^ *2 +age +invalid type: String +document 7$", ran.stdout, re.MULTILINE)
    whole = Path("people.bson").read_bytes()
    assert Path("typed.bson").read_bytes() == tbson.migrate(SHAPE, whole).output
    assert Path("refused.bson").read_bytes() == people()[7] + people()[50]
    assert [json.loads(line) for line in Path("refused.jsonl").read_text().splitlines()] == [
        {"index": n, "offset": sum(map(len, people()[:n])), "_id": {"$oid": IDS[n]}, "path": "age", "cause": "invalid type: String"} for n in (7, 50)
    ]
    assert files() == ["people.bson", "refused.bson", "refused.jsonl", "typed.bson"]


def test_a_migration_of_all(folder):
    ran = tbson_command("migrate", "{_id:oid}", "people.bson", "typed.bson.gz")
    assert (ran.returncode, ran.stderr) == (0, "") and "100 documents, all written to typed.bson.gz" in ran.stdout
    assert gzip.decompress(Path("typed.bson.gz").read_bytes()) == tbson.migrate("{_id:oid}", b"".join(people())).output


def test_paths_of_arrays_are_one(folder):
    Path("people.bson").write_bytes(b"".join(person(n, tags=[int32(str(i), i) for i in range(n)] + [int64(str(n), 1 << 40)]) for n in range(5)))
    ran = tbson_command("check", SHAPE, "people.bson")
    assert ran.returncode == 1 and re.search(r"^ *5 +tags\[\*\] +integer out of range +document 0: integer 1099511627776 out of range$", ran.stdout, re.MULTILINE)


def test_a_shape_in_a_file(folder):
    Path("people.shape").write_text("{ _id: oid, # the id\n  name: string }\n")
    assert tbson_command("check", "-f", "people.shape", "people.bson").returncode == 0
    Path("people.shape").write_text("{ _id: oid, # the id\n  name: sting }\n")
    for words in (("check", "-f", "people.shape", "people.bson"), ("migrate", "-f", "people.shape", "people.bson", "out.bson")):
        ran = tbson_command(*words)
        assert (ran.returncode, ran.stdout) == (2, "")
        assert ran.stderr == "tbson: people.shape:2:9: `sting` is no type: did you mean `string`?\n    name: sting }\n          ^^^^^\n"
    ran = tbson_command("check", "people.shape", "people.bson")
    assert ran.returncode == 2 and "a shape in a file is given by -f" in ran.stderr
    ran = tbson_command("check", "-f", "gone.shape", "people.bson")
    assert (ran.returncode, ran.stderr) == (2, "tbson: gone.shape: No such file or directory\n")


NOT_TAKEN = [("migrate",), ("migrate", "{}", "a"), ("migrate", "{}", "a", "b", "c"), ("check", "{}"), ("check",), ("merge", "a", "b", "c"), ("profile",), ("infer",), ("diff", "{}"), ("diff", "{}", "{}", "{}"), ("gone",), ("migrate", "{}", "a", "b", "--rejects", "c.txt")]


@pytest.mark.parametrize("words", NOT_TAKEN, ids=map(" ".join, NOT_TAKEN))
def test_words_that_are_not_taken(folder, words):
    ran = tbson_command(*words)
    assert (ran.returncode, ran.stdout) == (2, "") and "Usage: tbson" in ran.stderr and "Error: " in ran.stderr
    assert files() == ["people.bson"]


def test_a_check(folder):
    ran = tbson_command("check", SHAPE, "people.bson")
    assert ran.returncode == 1 and "2 of 100 documents do not fit" in ran.stdout
    ran = tbson_command("check", "{_id:oid}", "people.bson", "people.bson")
    assert ran.returncode == 0 and ran.stdout == 2 * "people.bson: 100 documents, all fit\n"
    assert files() == ["people.bson"]


def test_compatible_shapes(folder):
    Path("old.shape").write_text("{ n: i32 } # as it was\n")
    for words in (("old.shape", "{n:i64,m:?bool}"), ("{n:i32}", "old.shape"), ("string", "string")):
        ran = tbson_command("diff", *words)
        assert (ran.returncode, ran.stdout, ran.stderr) == (0, "compatible: what is written at the old shape is read at the new one\n", "")


def test_differences_of_shapes(folder):
    Path("old.shape").write_text("{\n  n: i64,\n  list: [{a: i32}]\n}\n")
    ran = tbson_command("diff", "./old.shape", "{n:i32,list:[{b:i32}],m:bool}")
    assert (ran.returncode, ran.stderr) == (1, "")
    first, _, *rows = ran.stdout.splitlines()
    assert first == "3 differences: what is written at the old shape need not be read at the new one"
    assert [re.split(" {3,}", row) for row in rows] == [
        [".", "{n:i64,list:[{a:i32}]}", "{n:i32,list:[{b:i32}],m:bool}", "the new field m is no option, and the old struct lacks it"],
        ["n", "i64", "i32", "the new type lacks numbers of the old one"],
        ["list[0]", "{a:i32}", "{b:i32}", "the new field b is no option, and the old struct lacks it"],
    ]


def test_shapes_that_are_not_compared(folder):
    Path("old.shape").write_text("{ n: i33 }\n")
    for words, said in (
        (("old.shape", "{}"), "old.shape:1:6: `i33` is no type"),
        (("{n:i32}", "{n:i33}"), "the shape, at character 4: `i33` is no type"),
        (("{n:i32}", "gone.shape"), "gone.shape: No such file or directory"),
        (("ignored", "{}"), "ignored: the old shape is not plain"),
        (("{}", "{n:ignored}"), "{n:ignored}: the new shape is not plain"),
    ):
        ran = tbson_command("diff", *words)
        assert (ran.returncode, ran.stdout) == (2, "") and ran.stderr.startswith(f"tbson: {said}"), words


def test_an_empty_collection(folder):
    Path("empty.bson").write_bytes(b"")
    ran = tbson_command("migrate", SHAPE, "empty.bson", "typed.bson")
    assert (ran.returncode, ran.stdout) == (0, "empty.bson: 0 documents, all written to typed.bson\n")
    assert tbson_command("check", SHAPE, "empty.bson").returncode == 0
    assert tbson_command("profile", "empty.bson").returncode == 0
    ran = tbson_command("infer", "empty.bson")
    assert (ran.returncode, ran.stdout, ran.stderr) == (1, "", "tbson: there is no document to infer a shape from\n")


BAD = [
    ("cut.bson", b"".join(people())[:-1], "broken at byte"),
    ("renamed.bson", gzip.compress(b"".join(people())), "compressed by gzip"),
    ("people.json", b'{"name": "Ada"}', "JSON text"),
    ("dump.archive", b"\x6d\xe2\x99\x81" + bytes(100), "mongodump --archive"),
    ("folder", None, "is a directory"),
    ("gone.bson", None, "No such file or directory"),
]


@pytest.mark.parametrize("name, data, said", BAD, ids=[name for name, _, _ in BAD])
def test_bad_input(folder, name, data, said):
    if data is not None:
        Path(name).write_bytes(data)
    elif name == "folder":
        Path(name).mkdir()
    before = files()
    for words in (("migrate", SHAPE, name, "out.bson", "--rejects", "no.bson"), ("check", SHAPE, name), ("profile", name), ("infer", name), ("merge", name, name, name, "out.bson")):
        ran = tbson_command(*words)
        assert (ran.returncode, ran.stdout) == (2, ""), words
        assert ran.stderr.count("\n") == 1 and ran.stderr.startswith(f"tbson: {name}: "), words
        assert said in ran.stderr or words[0] == "merge", words
        assert files() == before


def test_an_output_that_is_there(folder):
    Path("typed.bson").write_bytes(b"kept")
    ran = tbson_command("migrate", SHAPE, "people.bson", "typed.bson")
    assert (ran.returncode, ran.stderr) == (2, "tbson: typed.bson: is there already; --overwrite replaces it\n")
    assert Path("typed.bson").read_bytes() == b"kept"
    assert tbson_command("migrate", SHAPE, "people.bson", "typed.bson", "--overwrite").returncode == 1
    assert Path("typed.bson").read_bytes() != b"kept"


@pytest.mark.parametrize("limit", [0, 1000, 5000])
def test_a_full_disk(folder, limit):
    Path("typed.bson").write_bytes(b"kept")
    ran = tbson_command("migrate", SHAPE, "people.bson", "typed.bson", "--overwrite", before=["prlimit", f"--fsize={limit}"])
    assert (ran.returncode, ran.stdout) == (2, "")
    assert ran.stderr == "tbson: typed.bson: File too large; nothing was written\n"
    assert files() == ["people.bson", "typed.bson"] and Path("typed.bson").read_bytes() == b"kept"


def test_an_output_that_nobody_reads_to_the_end(folder):
    ran = subprocess.run(f"{sys.executable} -m tbson profile people.bson people.bson | head -n 1", shell=True, capture_output=True, text=True)
    assert (ran.returncode, ran.stderr) == (0, "") and ran.stdout.count("\n") == 1


LONG_RUNS = [
    ("migrate", SHAPE, "large.bson", "out.bson", "--rejects", "no.bson", "--workers", "1"),
    ("profile", "large.bson", "--html", "page.html"),
    ("infer", "large.bson"),
]


@pytest.mark.parametrize("number", [signal.SIGINT, signal.SIGTERM, signal.SIGHUP])
@pytest.mark.parametrize("words", LONG_RUNS, ids=[words[0] for words in LONG_RUNS])
def test_an_interrupted_run_leaves_no_file(folder, words, number):
    Path("large.bson").write_bytes(b"".join(people(1000)) * 200)
    before = files()
    mine, theirs = os.pipe()
    paused = [sys.executable, str(Path(__file__).with_name("paused.py")), str(theirs), *words]
    started = subprocess.Popen(paused, stdout=subprocess.PIPE, stderr=subprocess.PIPE, text=True, start_new_session=True, pass_fds=[theirs])
    os.close(theirs)
    assert os.read(mine, 1) == b"!"
    os.close(mine)
    assert any(name.endswith(".tbson") for name in files()) == (words[0] == "migrate")
    os.killpg(started.pid, number) if number == signal.SIGINT else started.send_signal(number)
    printed, errors = started.communicate(timeout=60)
    assert (started.returncode, printed, errors) == (130, "", "tbson: interrupted\n")
    assert files() == before


def on_terminal(*words):
    """What the command writes to a terminal at standard error."""
    mine, theirs = pty.openpty()
    started = subprocess.Popen([sys.executable, "-m", "tbson", *words], stdout=subprocess.DEVNULL, stderr=theirs, env={**os.environ, "TERM": "xterm"})
    os.close(theirs)
    written = b""
    try:
        while True:
            written += os.read(mine, 65536)
    except OSError:
        pass
    os.close(mine)
    assert started.wait(timeout=60) == 0
    return written.decode(errors="replace")


def test_progress_is_shown_where_somebody_looks(folder):
    shown = on_terminal("migrate", "{_id:oid}", "people.bson", "out.bson")
    assert "people.bson" in shown and "kB" in shown
    assert tbson_command("migrate", "{_id:oid}", "people.bson", "out.bson", "--overwrite").stderr == ""


def test_infer_and_use_what_was_inferred(folder):
    ran = tbson_command("infer", "people.bson")
    assert (ran.returncode, ran.stderr) == (0, "")
    assert ran.stdout == "# people.bson: 100 documents\n{\n  _id: oid,\n  name: string,\n  age: bson,  # 98 int32, 2 string\n  tags: [<>]  # all are empty\n}\n"
    Path("people.shape").write_text(ran.stdout)
    ran = tbson_command("migrate", "-f", "people.shape", "people.bson", "same.bson")
    assert ran.returncode == 0 and Path("same.bson").read_bytes() == Path("people.bson").read_bytes()


def test_infer_tells_what_it_passes_over(folder):
    with open("people.bson", "ab") as file:
        file.write(b"\x0c\0\0\0\x99n\0\7\0\0\0\0" + document(inner("a", int32("$x", 1))))
    ran = tbson_command("infer", "people.bson")
    assert ran.returncode == 1 and ran.stdout.startswith("# people.bson: 100 documents; 2 documents passed over\n{")
    assert ran.stderr.splitlines()[1:] == ["  people.bson: document 100: error at .: unknown kind 153", "  people.bson: document 101: error at a.$x: a key begins with $"]


def test_a_profile(folder):
    ran = tbson_command("profile", "people.bson")
    assert (ran.returncode, ran.stderr) == (0, "") and ran.stdout.startswith(f"people.bson: 100 documents, {os.path.getsize('people.bson'):,} bytes\n")
    assert re.search(r"^age +100 +100 % +int32 98, string 2 +", ran.stdout, re.MULTILINE)
    found = json.loads(tbson_command("profile", "--json", "people.bson").stdout)
    assert (found["documents"], found["damaged"]) == (100, 0)
    assert [path["path"] for path in found["paths"]] == ["", "_id", "name", "age", "tags"]
    assert tbson_command("profile", "--html", "page.html", "people.bson").returncode == 0
    assert Path("page.html").read_text().startswith("<!doctype html>")


def test_names_that_a_terminal_would_obey_are_told_by_numbers(folder):
    Path("bad.bson").write_bytes(document(text("a\x1b[31m", "x\x1b[2J")))
    for words in (("profile", "bad.bson"), ("check", '{"a\x1b[31m":i32}', "bad.bson"), ("check", "{\x1b[31m}", "bad.bson")):
        ran = tbson_command(*words)
        assert "\\x1b" in ran.stdout + ran.stderr and "\x1b" not in ran.stdout + ran.stderr, words
    assert tbson_command("infer", "bad.bson").stdout == '# bad.bson: 1 document\n{\n  "a\x1b[31m": string\n}\n'


def repaired(numbers):
    return b"".join(person(n) for n in numbers)


def test_repaired_documents_are_merged(folder):
    tbson_command("migrate", SHAPE, "people.bson", "typed.bson", "--rejects", "refused.bson")
    Path("repaired.bson").write_bytes(repaired([50, 7]))
    assert tbson_command("migrate", SHAPE, "repaired.bson", "repaired.typed.bson").returncode == 0
    ran = tbson_command("merge", "typed.bson", "refused.jsonl", "repaired.typed.bson", "whole.bson")
    assert (ran.returncode, ran.stdout, ran.stderr) == (0, "whole.bson: 100 documents, 2 of them put back\n", "")
    assert Path("whole.bson").read_bytes() == tbson.migrate(SHAPE, b"".join(people(100, ()))).output


def test_documents_that_are_still_missing(folder):
    tbson_command("migrate", SHAPE, "people.bson", "typed.bson", "--rejects", "refused.bson")
    Path("repaired.bson").write_bytes(repaired([50]))
    Path("none.bson").write_bytes(b"")
    ran = tbson_command("merge", "typed.bson", "refused.jsonl", "none.bson", "repaired.bson", "whole.bson")
    assert (ran.returncode, ran.stdout) == (1, "whole.bson: 99 documents, 1 of them put back\nstill missing: 1 document of the first file: 7\n")
    typed = list(tbson.documents(Path("typed.bson").read_bytes(), into=bytes))
    assert Path("whole.bson").read_bytes() == b"".join([*typed[:49], repaired([50]), *typed[49:]])


@pytest.mark.parametrize("seed", range(8))
def test_merges_of_any_places(folder, seed):
    chance = random.Random(seed)
    count = chance.choice([1, 5, 100])
    refused = sorted(chance.sample(range(count), chance.randrange(count + 1)))
    Path("people.bson").write_bytes(b"".join(people(count, refused)))
    tbson_command("migrate", SHAPE, "people.bson", "typed.bson", "--rejects", "refused.bson")
    order = chance.sample(refused, len(refused))
    Path("repaired.bson").write_bytes(tbson.migrate(SHAPE, repaired(order)).output)
    ran = tbson_command("merge", "typed.bson", "refused.jsonl", "repaired.bson", "whole.bson")
    assert (ran.returncode, ran.stderr) == (0, "")
    assert Path("whole.bson").read_bytes() == tbson.migrate(SHAPE, b"".join(people(count, ()))).output


def test_merges_without_ids_go_by_the_order(folder):
    plain = [document(int32("n", n) if n % 10 else text("n", "x")) for n in range(30)]
    Path("people.bson").write_bytes(b"".join(plain))
    tbson_command("migrate", "{n:i32}", "people.bson", "typed.bson", "--rejects", "refused.bson")
    Path("repaired.bson").write_bytes(b"".join(document(int32("n", n)) for n in (0, 10, 20)))
    assert tbson_command("merge", "typed.bson", "refused.jsonl", "repaired.bson", "whole.bson").returncode == 0
    assert Path("whole.bson").read_bytes() == b"".join(document(int32("n", n)) for n in range(30))
    Path("repaired.bson").write_bytes(document(int32("n", 0)))
    ran = tbson_command("merge", "typed.bson", "refused.jsonl", "repaired.bson", "other.bson")
    assert ran.returncode == 2 and "3 rejects and 1 repaired documents" in ran.stderr and not Path("other.bson").exists()


def test_merges_of_files_that_do_not_belong_together(folder):
    tbson_command("migrate", SHAPE, "people.bson", "typed.bson", "--rejects", "refused.bson")
    Path("other.bson").write_bytes(repaired([8]))
    ran = tbson_command("merge", "typed.bson", "refused.jsonl", "other.bson", "whole.bson")
    assert ran.returncode == 2 and 'other.bson: document 0: its _id is {"$oid": "%s"}' % IDS[8] in ran.stderr
    Path("few.bson").write_bytes(repaired([1]))
    Path("repaired.bson").write_bytes(repaired([7, 50]))
    ran = tbson_command("merge", "few.bson", "refused.jsonl", "repaired.bson", "whole.bson")
    assert ran.returncode == 2 and "few.bson: has " in ran.stderr
    Path("lines.jsonl").write_text('{"index": 3}\n{"index": 2}\n')
    ran = tbson_command("merge", "typed.bson", "lines.jsonl", "repaired.bson", "whole.bson")
    assert ran.returncode == 2 and "lines.jsonl:2: " in ran.stderr
    assert not Path("whole.bson").exists()
