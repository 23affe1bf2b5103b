"""What an index answers, over every program and transport."""
import pytest

import bkd
from bkd import Refused, requests

SQUARES = {"type": "Polygon",
           "coordinates": [[[0, 0], [10, 0], [10, 10], [0, 10], [0, 0]], [[4, 4], [6, 4], [6, 6], [4, 6], [4, 4]]]}
M, N = -(1 << 31), (1 << 31) - 1
EVERY = ((M, M), (N, N))


class Shape:
    """What shapely's polygons look like."""

    __geo_interface__ = {"type": "Feature", "properties": {}, "geometry": SQUARES}


def test_points_boxes_polygons_and_the_nearest(program, tmp_path):
    with bkd.open(tmp_path / "new", create=True, program=program) as index:
        assert [index.add(p) for p in ((5, 5), (4, 5), (1, 1), (11, 5))] == [0, 1, 2, 3]
        assert index.add([(2, 2), (5, 5), (2, 2)]) == 4
        assert index.box((0, 0), (5, 5)) == [0, 1, 2, 4]
        assert index.box((5, 5), (0, 0)) == []
        for shape in (SQUARES, SQUARES["coordinates"], Shape()):
            assert index.polygon(shape) == [1, 2, 4]
        assert index.nearest(2, (0, 0)) == [(2, 2), (4, 8)]
        assert index.delete(2) is True and index.delete(2) is False and index.delete(99) is False
        assert index.delete_box((11, 0), (12, 9)) == 1
        index.flush()
        index.merge()
        assert index.box((0, 0), (50, 50)) == [0, 1, 4]
        index.commit()
        index.reopen()
    with bkd.open(tmp_path / "new", create=True, program=program) as index:
        assert index.dims == 2 and index.box((0, 0), (50, 50)) == [0, 1, 4]
        assert index.add((0, 0)) == 5


@pytest.mark.parametrize("dims", [1, 2, 3, 8])
def test_the_ends_of_coordinates(program, tmp_path, dims):
    with bkd.open(tmp_path, dims, create=True, program=program) as index:
        assert index.add((M,) * dims) == 0 and index.add((N,) * dims) == 1
        assert index.box((M,) * dims, (N,) * dims) == [0, 1]
        assert index.nearest(10, (M,) * dims) == [(0, 0), (1, dims * (2**32 - 1) ** 2)]
        if dims == 1:
            assert index.add(7) == 2 and index.box(7, 7) == [2]


def test_refused_lines_change_nothing(program, tmp_path):
    with bkd.open(tmp_path, create=True, program=program) as index:
        index.add((1, 1))
        for wrong, reason in [
            (lambda: index.add((1, 2, 3)), "wrong words"),
            (lambda: index.add((1, 1 << 31)), "bad number in word 3"),
            (lambda: index.nearest(0, (1, 1)), "bad k"),
            (lambda: index.delete(-1), "bad number in word 2"),
            (lambda: index.polygon({"type": "Point", "coordinates": [0, 0]}), "not a polygon"),
            (lambda: index.polygon([[[0, 0], [4, 0], [4, 4], [0, 4]]]), "polygon ring 0 is not closed"),
            (lambda: index.polygon([[[0, 0], [1.5, 0], [4, 4], [0, 0]]]), "polygon ring 0 position 1 is not whole"),
        ]:
            with pytest.raises(Refused) as told:
                wrong()
            assert told.value.reason == reason and told.value.others == ()
        assert index.box((M, M), (N, N)) == [0]


def test_what_python_refuses_itself(program, tmp_path):
    with bkd.open(tmp_path, create=True, program=program) as index:
        for wrong in (1.5, "1", None, (1.0, 2), ("1", "2"), [(1, 2), (3.5, 4)]):
            with pytest.raises(TypeError):
                index.add(wrong)
        with pytest.raises(ValueError):
            index.polygon([[[0, float("nan")], [1, 1], [2, 0], [0, 0]]])
        with pytest.raises(TypeError):
            index.polygon([[["a", object()]]])
        for name in ("", "a b", "a\nbox", "@", "x" * 33, "é"):
            with pytest.raises(ValueError):
                requests.snapshot(name)
        assert index.add((1, 1)) == 0


def test_many_at_once(program, tmp_path):
    with bkd.open(tmp_path, create=True, program=program) as index:
        assert list(index.add_many([])) == []
        assert index.add_many((i, -i) for i in range(20_000)) == range(20_000)
        first, second = index.add_many([[(1, 1), (2, 2)], (3, 3)])
        assert (first, second) == (20_000, 20_001)
        assert index.delete_many([5, 5, 7, 99_999]) == 2
        assert index.box((0, -10), (10, 0)) == [0, 1, 2, 3, 4, 6, 8, 9, 10]
        assert index.box((1, 1), (2, 2)) == [20_000]


def test_some_of_many_are_refused(program, tmp_path):
    with bkd.open(tmp_path, create=True, program=program) as index:
        index.flush()
        with pytest.raises(Refused) as told:
            index.add_many([(0, 0), (1 << 40, 0), (1, 1), (0, 1 << 40), (2, 2)])
        assert told.value.reason == "bad number in word 2" and told.value.line == f"add {1 << 40} 0"
        assert [(r.reason, r.line) for r in told.value.others] == [("bad number in word 3", f"add 0 {1 << 40}")]
        assert list(told.value.answers) == [0, 1, 2]
        assert index.box((0, 0), (9, 9)) == [0, 1, 2]


def test_arrays(program, tmp_path):
    numpy = pytest.importorskip("numpy")
    with bkd.open(tmp_path / "a", create=True, program=program, arrays=True) as index:
        numbers = index.add_many(numpy.array([[1, 2], [3, 4], [5, 6]], dtype=numpy.int64))
        assert numbers.dtype == numpy.uint32 and numbers.tolist() == [0, 1, 2]
        assert index.add(numpy.array([7, 8])) == 3 and index.add(numpy.array([[7, 8], [9, 9]])) == 4
        found = index.box(numpy.array([0, 0]), (9, 9))
        assert found.dtype == numpy.uint32 and found.tolist() == [0, 1, 2, 3, 4]
        assert index.polygon([numpy.array([[0, 0], [4, 0], [4, 4], [0, 4], [0, 0]])]).tolist() == [0, 1]
        numbers, distances = index.nearest(2, (1, 2))
        assert (numbers.dtype, numbers.tolist(), distances.dtype, distances.tolist()) == \
            (numpy.uint32, [0, 1], numpy.uint64, [0, 8])
        assert index.box((50, 50), (60, 60)).dtype == numpy.uint32
        assert index.delete_many(found[:2]) == 2
        for wrong in (numpy.zeros((2, 2)), numpy.array([["1", "2"]])):
            with pytest.raises(TypeError):
                index.add_many(wrong)
        for wrong in (numpy.zeros((2, 3), int), numpy.zeros(2, int), numpy.zeros((2, 2, 2), int)):
            with pytest.raises(ValueError):
                index.add_many(wrong)
    with bkd.open(tmp_path / "b", 1, create=True, program=program) as index:
        assert index.add_many(numpy.arange(3)) == range(3)
        assert index.add_many(numpy.arange(3).reshape(3, 1)) == range(3, 6)


def test_snapshots_and_begun_merges(program, tmp_path):
    with bkd.open(tmp_path, 1, create=True, program=program) as index:
        index.add_many([1, 2])
        with index.snapshot("a") as kept:
            with pytest.raises(Refused, match="name taken"):
                index.snapshot("a")
            assert index.delete(0)
            assert kept.box(0, 9) == [0, 1] and index.box(0, 9) == [1]
            assert kept.nearest(1, 0) == [(0, 1)]
            with pytest.raises(Refused, match="not two dimensions"):
                kept.polygon(SQUARES)
        with pytest.raises(Refused, match="unknown snapshot"):
            kept.box(0, 9)
        index.flush()
        with index.merge_begun(0, 1):
            with pytest.raises(Refused, match="merge begun"):
                index.merge_begun().__enter__()
            index.delete(1)
        assert index.box(0, 9) == []


def test_requests_in_one_go(program, tmp_path):
    with bkd.open(tmp_path, create=True, program=program) as index:
        asked = [requests.add((i, i)) for i in range(300)] + [requests.box((i, 0), (i, 300)) for i in range(300)]
        values = index.ask(asked + [requests.create(2)])
        assert values[:300] == list(range(300)) and values[300:600] == [[i] for i in range(300)]
        assert isinstance(values[-1], Refused) and values[-1].reason == "index exists"
        assert index.ask([]) == []


def test_closed(program, tmp_path):
    index = bkd.open(tmp_path, create=True, program=program)
    index.close()
    index.close()
    index.abandon()
    for use in (lambda: index.add((1, 1)), index.commit, index.check, lambda: index.box((0, 0), (1, 1))):
        with pytest.raises(bkd.Closed):
            use()


def test_documents_by_their_numbers(program, tmp_path):
    with bkd.open(tmp_path, create=True, program=program) as index:
        assert 0 not in index and index.get(0) is None and list(index.items(*EVERY)) == []
        index.add_many([(5, 5), [(2, 2), (1, 1), (2, 2)], (9, 9), (1, 7)])
        index.commit()
        index.delete(2)
        assert index.get(1) == ((1, 1), (2, 2)) and index.get(0) == ((5, 5),) and index.get(3) == ((1, 7),)
        assert index.get(2) is None and index.get(4, "none") == "none" and index.get(-1) is None
        assert [number in index for number in (0, 1, 2, 3, 4, -1)] == [True, True, False, True, False, False]
        assert "0" not in index and len(index) == 3
        assert list(index.items((0, 0), (2, 9))) == [(1, ((1, 1), (2, 2))), (3, ((1, 7),))]
        with pytest.raises(TypeError):
            index.get("0")


def test_what_is_not_committed_is_seen(program, tmp_path):
    with bkd.open(tmp_path, create=True, program=program) as index:
        index.add((1, 1))
        index.commit()
        index.add((50, 50))
        assert 1 in index and index.get(0) == ((1, 1),) and list(index.items((0, 0), (9, 9))) == [(0, ((1, 1),))]
        assert index.get(1) == ((50, 50),) and list(index) == list(index.items(*EVERY)) == \
            [(0, ((1, 1),)), (1, ((50, 50),))]
        assert index.count(*EVERY) == 2 and index.grid(0, 50, 1, 50, (0, 0), (99, 99)) == [(0, 0, 1), (1, 1, 1)]
        index.delete(0)
        assert index.count(*EVERY) == 1 and index.grid(0, 50, 1, 50, (0, 0), (99, 99)) == [(1, 1, 1)]
        assert len(index) == 1 and index.info().live == index.check().live == 1 and index.info().next == 1
        index.commit()
        assert index.info().next == index.check().next == 2 and list(index) == [(1, ((50, 50),))]


def test_a_batch_is_over_what_is_stored(program, tmp_path):
    with bkd.open(tmp_path, create=True, program=program) as index:
        index.add((1, 1))
        with pytest.raises(bkd.Uncommitted):
            index.batch([requests.box(*EVERY)])
        index.commit()
        assert index.batch([requests.box(*EVERY)]) == [[0]] and index.info().live == 1
        index.delete(5)
        assert index.batch([requests.box(*EVERY)]) == [[0]]
        index.delete(0)
        with pytest.raises(bkd.Uncommitted):
            index.batch([requests.box(*EVERY)])
