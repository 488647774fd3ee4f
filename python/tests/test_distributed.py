"""A migration over a local cluster of Dask. What is expected comes from the calls on all of the file's bytes at once."""

import os
import signal
import threading
import time

import pytest
import tbson
from documents import document, int32, text

distributed = pytest.importorskip("distributed")
from tbson import files  # noqa: E402
from tbson.distributed import migrate  # noqa: E402
from tbson.inputs import InputRefused  # noqa: E402

SHAPE = "{_id:i64,name:string,pad:string}"


def people(count):
    return b"".join(document(int32("_id", n), int32("name", n) if n % 997 == 0 else text("name", f"person {n}"), text("pad", "x" * (n % 400))) for n in range(count))


@pytest.fixture(scope="module")
def client(tmp_path_factory):
    """Three workers, each a process of its own."""
    os.environ["DASK_DISTRIBUTED__LOGGING__DISTRIBUTED"] = "critical"
    folder = str(tmp_path_factory.mktemp("dask"))
    options = {"n_workers": 3, "threads_per_worker": 1, "processes": True, "dashboard_address": None, "local_directory": folder, "silence_logs": 50}
    with distributed.LocalCluster(**options) as cluster, distributed.Client(cluster) as client:
        yield client


def test_the_output_is_that_of_one_run(client, tmp_path):
    whole = people(3000)
    (tmp_path / "in.bson").write_bytes(whole)
    (tmp_path / "in.metadata.json").write_bytes(b"{}")
    outcome = migrate(client, SHAPE, tmp_path / "in.bson", tmp_path / "out.bson", rejects=tmp_path / "refused.bson", part=50_000)
    one = files.migrate_file(SHAPE, tmp_path / "in.bson", tmp_path / "one.bson", rejects=tmp_path / "one_refused.bson")
    assert (tmp_path / "out.bson").read_bytes() == tbson.migrate(SHAPE, whole).output
    for name in ("refused.bson", "refused.jsonl"):
        assert (tmp_path / name).read_bytes() == (tmp_path / f"one_{name}").read_bytes()
    assert (outcome.documents, outcome.refused) == (one.documents, one.refused) == (3000, 4)
    assert (tmp_path / "out.metadata.json").exists() and not [name for name in os.listdir(tmp_path) if name.startswith(".")]


def test_a_worker_that_is_lost_in_the_middle(client, tmp_path):
    whole = people(20000)
    (tmp_path / "in.bson").write_bytes(whole)
    workers = client.run(os.getpid)
    lost = sorted(workers.values())[0]

    def lose():
        """Ends a worker when a fifth of the output is written."""
        while not any(beside.stat().st_size > len(whole) // 5 for beside in tmp_path.glob(".out.bson.*.tbson")):
            time.sleep(0.001)
        assert not (tmp_path / "out.bson").exists()
        os.kill(lost, signal.SIGKILL)

    loser = threading.Thread(target=lose)
    loser.start()
    outcome = migrate(client, SHAPE, tmp_path / "in.bson", tmp_path / "out.bson", part=10_000)
    loser.join()
    assert (tmp_path / "out.bson").read_bytes() == tbson.migrate(SHAPE, whole).output
    assert outcome.documents == 20000
    deadline = time.monotonic() + 30
    while lost in client.run(os.getpid).values() and time.monotonic() < deadline:
        time.sleep(0.1)
    assert lost not in client.run(os.getpid).values()
    assert sorted(os.listdir(tmp_path)) == ["in.bson", "out.bson"]


def test_bad_input_leaves_no_file(client, tmp_path):
    (tmp_path / "in.bson").write_bytes(people(100)[:-1])
    (tmp_path / "in.bson.gz").write_bytes(b"")
    for name, said in [("in.bson", "broken at byte"), ("in.bson.gz", "cannot be cut")]:
        with pytest.raises(InputRefused, match=said):
            migrate(client, SHAPE, tmp_path / name, tmp_path / "out.bson")
    with pytest.raises(tbson.ShapeRefused):
        migrate(client, "{a:i33}", tmp_path / "in.bson", tmp_path / "out.bson")
    assert sorted(os.listdir(tmp_path)) == ["in.bson", "in.bson.gz"]
