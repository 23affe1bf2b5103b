"""The second reader beside the program: both find the same documents, and the same damage."""
import os
import random
import shutil

import pytest

import bkd
from bkd import requests
from bkd.formats import open_stored, read_commit
from conftest import REAL, works
from writer import write_index


@pytest.mark.parametrize("dims, leaf", [(1, None), (1, 2), (2, None), (2, 7), (3, 50), (5, None), (8, 111)])
def test_the_same_documents(real, tmp_path, dims, leaf):
    """Coordinates of all sizes, so that leaves have all forms, prefixes of all lengths and runs."""
    points = [tuple((i * 2654435761 * (d + 1) % (1 << (1 + (i + 7 * d) % 32))) - (1 << ((i + 7 * d) % 32))
                    for d in range(dims))
              for i in range(2500)]
    points += [tuple(i // 300 for _ in range(dims)) for i in range(1500)]
    with bkd.open(tmp_path, dims, leaf, create=True, program=real) as index:
        index.add_many(points)
        index.flush()
        index.delete_many(range(0, 4000, 17))
        index.add_many([[points[i], points[-i]] for i in range(1, 50)])
        index.flush()
    stored = open_stored(tmp_path)
    stored.check()
    documents = dict(bkd.export(tmp_path))
    wanted = {n: (p,) for n, p in enumerate(points) if n % 17}
    wanted |= {4000 + i: tuple(sorted({points[i + 1], points[-i - 1]})) for i in range(49)}
    assert documents == wanted
    commit = stored.commit
    assert commit == read_commit(tmp_path) and commit.dims == dims and commit.next == 4049
    assert commit.given == len(points) + sum(len({points[i], points[-i]}) for i in range(1, 50))
    assert {name for name in os.listdir(tmp_path) if name.endswith(".bkd")} == stored.files()


def test_generated(real, tmp_path):
    """Segments of the program's own drawing."""
    told = bkd.generate(tmp_path, 20_000, 7, program=real)
    stored = open_stored(tmp_path)
    stored.check()
    assert sum(part.live.count for part in stored.parts) == told["live"] == 18_000


@pytest.fixture(scope="module")
def small(tmp_path_factory):
    """A folder with two segments, a deletion and a document of several points."""
    program = REAL
    if program is None:
        pytest.skip("no program is built; set BKD")
    folder = tmp_path_factory.mktemp("small")
    with bkd.open(folder, leaf=4, create=True, program=program) as index:
        index.ask([requests.add((i, i * i % 11)) for i in range(12)] + [requests.FLUSH])
        index.ask([requests.add([(1, 1), (2, 2)]), requests.add((3, 3)), requests.delete(4), requests.FLUSH])
    return program, folder


def damage_of(reading):
    """The text of the damage that a reading tells, None where it tells none."""
    try:
        reading()
        return None
    except bkd.Damaged as error:
        return str(error.damage)


def told(folder):
    """What the second reader says of a folder; the program's `check`, where it has that command, says the same."""
    said = damage_of(lambda: open_stored(folder).check())
    if works("check"):
        assert damage_of(lambda: bkd.check(folder, program=REAL)) == said
    return said


def told_by_run(program, folder):
    """What a run says that opens all files, and whose box and nearest read all leaves."""
    def reading():
        with bkd.open(folder, create=True, program=program) as index:
            index.ask([requests.box((-(1 << 31),) * 2, ((1 << 31) - 1,) * 2), requests.nearest(10_000, (0, 0))])

    return damage_of(reading)


def changed(small, tmp_path, name, change):
    folder = tmp_path / "changed"
    shutil.rmtree(folder, ignore_errors=True)
    shutil.copytree(small, folder)
    path = folder / name
    path.write_bytes(change(bytearray(path.read_bytes())))
    return folder


@pytest.mark.parametrize("change, wanted", [
    (lambda data: data[:-1], "has {less} bytes, needs {size}"),
    (lambda data: data + b"x", "has {more} bytes, needs {size}"),
    (lambda data: b"", "has 0 bytes, needs 4096"),
    (lambda data: data[:4000], "has 4000 bytes, needs 4096"),
])
def test_sizes(small, tmp_path, change, wanted):
    program, whole = small
    for name in sorted(name for name in os.listdir(whole) if name.endswith(".bkd")):
        size = (whole / name).stat().st_size
        folder = changed(whole, tmp_path, name, change)
        text = f"{name} " + wanted.format(size=size, less=size - 1, more=size + 1)
        assert told(folder) == told_by_run(program, folder) == text


def test_missing_files(small, tmp_path):
    program, whole = small
    for name in sorted(name for name in os.listdir(whole) if name.endswith(".bkd")):
        if name != "commit.bkd":
            folder = changed(whole, tmp_path, name, bytes)
            (folder / name).unlink()
            assert told(folder) == told_by_run(program, folder) == f"{name} missing"


def drawn(count, dims, seed, most=3):
    """Documents of 1 to `most` points whose coordinates are of all sizes."""
    draw = random.Random(seed)
    def point():
        return tuple(draw.randint(-(1 << wide), (1 << wide) - 1) for wide in draw.choices(range(32), k=dims))
    return {n: sorted({point() for _ in range(draw.randint(1, most))}) for n in draw.sample(range(count * 3), count)}


@pytest.mark.parametrize("form", [1, 2, 3])
@pytest.mark.parametrize("dims, leaf, count", [(1, 2, 300), (2, 333, 2000), (2, 5, 1), (3, 9, 700), (8, 111, 500)])
def test_every_form_as_it_is_written(tmp_path, form, dims, leaf, count):
    """Files of all three forms and both layouts of the commit, which another hand wrote; read by the program too."""
    documents = drawn(count, dims, seed=form)
    live = [n for n in sorted(documents) if n % 4]
    more = {n + 3 * count: points for n, points in drawn(50, dims, seed=9).items()}
    segments = [(2, 7, form, documents, live), (5, 1, 3, more, list(more))]
    given = 3 * count + 150 if count > 50 else 1 << 20
    write_index(tmp_path, dims, leaf, segments, given, given, layout=form % 2 + 1)
    stored = open_stored(tmp_path)
    stored.check()
    wanted = {n: tuple(points) for n, points in documents.items() if n in live} | {n: tuple(p) for n, p in more.items()}
    assert dict(bkd.export(tmp_path)) == wanted
    assert [part.segment.head.form for part in stored.parts] == [form, 3]
    if (program := REAL) is not None:
        low, high = (-(1 << 31),) * dims, ((1 << 31) - 1,) * dims
        with bkd.open(tmp_path, create=True, program=program) as index:
            assert index.box(low, high) == sorted(wanted)
            at = (5,) * dims
            near = sorted((min(sum((a - b) ** 2 for a, b in zip(p, at)) for p in points), n)
                          for n, points in wanted.items())
            assert index.nearest(9, at) == [(n, d) for d, n in near[:9]]


ONE = {0: [(1, 1)], 1: [(2, 2), (3, 3)], 2: [(4, 4)]}
MANY = {0: [(i, i) for i in range(17)]}


@pytest.mark.parametrize("segments, following, given, wanted", [
    ([(0, 1, 3, ONE, [0, 1, 2])], 3, 4, None),
    ([(0, 1, 3, ONE, [0, 1, 2])], 2, 4, "document 2 beyond 2"),
    ([(0, 1, 3, ONE, [0, 1, 2])], 1, 4, "document 1 beyond 1"),
    ([(0, 1, 3, ONE, [0, 1, 2])], 3, 3, "commit.bkd says 3, found 4"),
    ([(0, 1, 3, ONE, [0, 1]), (1, 1, 3, ONE, [1, 2])], 3, 8, "document 1 twice"),
    ([(0, 1, 3, ONE, [0, 1]), (1, 1, 3, ONE, [2])], 3, 8, None),
    ([(0, 1, 3, ONE, [0, 2]), (1, 1, 3, ONE, [1, 2])], 2, 8, "document 2 beyond 2"),
    ([(0, 1, 3, MANY, [0])], 1, 17, "document 0 twice"),
    ([(0, 1, 3, MANY, [])], 1, 17, None),
    ([(0, 1, 3, {0: ONE[0], 2: ONE[1]}, [0, 1, 2])], 3, 4, f"live-{0:016x}-{1:016x}.bkd says 3, found 2"),
])
def test_what_a_folder_holds(tmp_path, segments, following, given, wanted):
    write_index(tmp_path, 2, 20, segments, following, given)
    assert told(tmp_path) == wanted


def test_a_point_twice(tmp_path):
    """A leaf can't spell an entry twice, so the two stand in two leaves."""
    documents = {n: [(5, 5)] for n in range(3)}
    write_index(tmp_path, 2, 2, [(0, 1, 3, documents, [0, 1, 2])], 3, 3)
    assert told(tmp_path) is None
    import writer
    leaves = [[(0, (5, 5)), (1, (5, 5))], [(1, (5, 5))]]
    kept, writer.tree_of = writer.tree_of, lambda entries, leaf: (0, 5, *leaves)
    try:
        write_index(tmp_path, 2, 2, [(0, 1, 3, {0: [(5, 5)], 1: [(5, 5), (5, 5)]}, [0, 1])], 3, 3)
    finally:
        writer.tree_of = kept
    assert told(tmp_path) == "document 1 twice"
