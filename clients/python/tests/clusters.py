"""A scheduler and workers as processes, for tests of `bkd.shards`."""
import os
import shutil
import subprocess

import distributed
import pytest

from conftest import EACH, HERE, REAL, STAND_IN
from plain import HIGH, LOW, box_of, drawn, nearest_of  # noqa: F401

# seconds that workers may take to start
PATIENCE = EACH / 2
KILLS = int(os.environ.get("BKD_CLUSTER_KILLS", 4))


class Cluster:
    """A scheduler and two workers, each a process, which find this package; a context manager that ends them."""

    def __init__(self, top):
        self.top, self.workers = top, {}
        self.file = str(top / "scheduler.json")
        self.scheduler = self._begun("dask-scheduler", "--port", "0", "--no-dashboard", "--scheduler-file", self.file)
        for name in ("w0", "w1"):
            self.start(name)

    def _begun(self, command, *words):
        kept = {name: value for name, value in os.environ.items() if name != "STAND_IN_COMMANDS"}
        paths = os.pathsep.join([str(HERE.parent), str(HERE)])
        return subprocess.Popen([shutil.which(command), *words], cwd=self.top, stdin=subprocess.DEVNULL,
                                stdout=subprocess.DEVNULL, stderr=subprocess.DEVNULL,
                                env=kept | {"PYTHONPATH": paths, "STAND_IN_FILES": "1"})

    def start(self, name):
        self.workers[name] = self._begun(
            "dask-worker", "--scheduler-file", self.file, "--no-nanny", "--nthreads", "1", "--name", name,
            "--no-dashboard", "--local-directory", str(self.top / name))

    def kill(self, name):
        self.workers[name].kill()
        self.workers[name].wait()

    def __enter__(self):
        self.client = distributed.Client(scheduler_file=self.file, direct_to_workers=True, timeout=PATIENCE)
        self.client.wait_for_workers(2, timeout=PATIENCE)
        return self

    def __exit__(self, *_):
        self.client.close()
        for process in (*self.workers.values(), self.scheduler):
            process.kill()
            process.wait()


@pytest.fixture(scope="module")
def cluster(tmp_path_factory):
    with Cluster(tmp_path_factory.mktemp("cluster")) as made:
        yield made


@pytest.fixture
def client(cluster):
    return cluster.client


@pytest.fixture
def doomed(cluster):
    """The cluster for a test that kills workers, which are there again behind it."""
    yield cluster
    for name, process in list(cluster.workers.items()):
        if process.poll() is not None:
            cluster.start(name)
    cluster.client.wait_for_workers(2, timeout=PATIENCE)


@pytest.fixture
def words():
    """The words of a program, as they go to workers."""
    return REAL.words if REAL else STAND_IN


def folders(tmp_path, count=3):
    return [tmp_path / f"shard {i}" for i in range(count)]
