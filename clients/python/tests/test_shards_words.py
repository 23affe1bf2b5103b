"""Each word of an index over folders beside the same word of one plain index, with the same documents. The workers'
keepers are in this process; no cluster is needed."""
import random

import pytest

numpy = pytest.importorskip("numpy")

import bkd
from bkd import shards
from stepping import created, opened, steps, words  # noqa: F401

SQUARE = [[(-20, -20), (20, -20), (25, 15), (0, 30), (-20, -20)]]
SHAPES = [SQUARE, {"type": "Polygon", "coordinates": [*SQUARE, [(0, 0), (9, 0), (0, 9), (0, 0)]]},
          {"type": "MultiPolygon", "coordinates": [SQUARE, [[(10, 10), (50, 10), (50, 50), (10, 10)]]]},
          {"type": "FeatureCollection", "features": []},
          {"type": "Feature", "geometry": {"type": "Polygon", "coordinates": SQUARE}}]


def document(draw, dims):
    return [tuple(draw.choice([draw.randint(-40, 40), draw.randint(-10**9, 10**9)]) for _ in range(dims))
            for _ in range(draw.randint(1, 3))]


def box_of(draw, dims, wide):
    corners = [sorted(draw.randint(-wide, wide) for _ in range(2)) for _ in range(dims)]
    if draw.random() < .1:
        corners[0].reverse()
    return tuple(low for low, _ in corners), tuple(high for _, high in corners)


def same(ours, plain, draw, dims):
    """All that asks, of both."""
    for wide in (12, 45, 10**9, 2**31 - 1):
        low, high = box_of(draw, dims, wide)
        assert ours.box(low, high).tolist() == plain.box(low, high)
        assert ours.count(low, high) == plain.count(low, high)
        k = draw.randint(1, 30)
        assert ours.nearest(k, low) == plain.nearest(k, low)
        if dims > 1:
            x, y = draw.sample(range(dims), 2)
            steps = [min(draw.choice([wide // 50 + 1, wide // 7 + 1, wide, 3 * wide]), (1 << 32) - 1) for _ in range(2)]
            asked = (x, steps[0], y, steps[1], low, high)
            assert ours.grid(*asked) == plain.grid(*asked)
    if dims == 2:
        for shape in SHAPES:
            assert ours.polygon(shape).tolist() == plain.polygon(shape)
    assert list(ours.export()) == list(plain.export())


@pytest.mark.parametrize("by, dims", [("number", 2), ("cells", 1), ("cells", 2), ("cells", 3)])
def test_word_by_word(words, steps, tmp_path, by, dims):
    """Added and deleted in turns, in a snapshot, and behind a rebalance; keys are the plain index's numbers."""
    draw = random.Random(f"{by} {dims}")
    created(tmp_path, by=by, dims=dims, leaf=8)
    ours = opened(tmp_path, words, steps)
    with bkd.open(tmp_path / "plain", dims, create=True, program=words) as plain:
        same(ours, plain, draw, dims)
        for turn in range(3):
            some = [document(draw, dims) for _ in range(120)]
            assert ours.add_many(some).tolist() == list(plain.add_many(some))
            assert ours.add(some[0]) == plain.add(some[0])
            numbers = [draw.randint(0, 121 * (turn + 1)) for _ in range(30)]
            assert ours.delete_many(numbers) == plain.delete_many(numbers)
            assert ours.delete(numbers[0]) == plain.delete(numbers[0]) is False
            low, high = box_of(draw, dims, 20)
            assert ours.delete_box(low, high) == plain.delete_box(low, high)
            if turn % 2:
                plain.commit()
            same(ours, plain, draw, dims)
            with ours.snapshot() as then:
                same(then, plain, draw, dims)
        ours.merge()
        ours.rebalance()
        same(ours, plain, draw, dims)
        plain.commit()
        assert sum(one.live for _, one in ours.check()) == plain.check().live == len(plain)


REFUSED = [
    lambda index: index.box((1000,), (1009,)), lambda index: index.box((1000, 0), (1 << 31, 9)),
    lambda index: index.count((1000,), (1009,)), lambda index: index.count((1000, 0), (1 << 31, 9)),
    lambda index: index.grid(0, 0, 1, 1, (1000, 1000), (1009, 1009)),
    lambda index: index.grid(0, 1, 0, 1, (1000, 1000), (1009, 1009)),
    lambda index: index.grid(0, 1, 2, 1, (1000, 1000), (1009, 1009)),
    lambda index: index.grid(0, 1, 1, 1 << 32, (1000, 1000), (1009, 1009)),
    lambda index: index.grid(0, 1, 1, 1, (1000, 1000), (1255, 1255)),
    lambda index: index.grid(0, 1, 1, 1, (1000, 1000), (1255, 1256)),
    lambda index: index.grid(0, 1, 1, 1, (0, 0), (9,)),
    lambda index: index.polygon({"type": "Point", "coordinates": [1, 1]}),
    lambda index: index.polygon([[(1000, 1000), (1001, 1001)]]),
    lambda index: index.polygon([[(1000, 1000), (1001, 1001), (1000, 1001), (1002, 1002)]]),
    lambda index: index.polygon([[(1000, 1000), (1001, 1 << 31), (1000, 1001), (1000, 1000)]]),
    lambda index: index.polygon({"type": "Polygon", "coordinates": [[[1000, 1000], [1001, 1001, 3], [1, 1], [1, 1]]]}),
    lambda index: index.polygon({"type": "Polygon", "coordinates": 7}),
    lambda index: index.nearest(1, (0,)), lambda index: index.nearest(1, (0, 1 << 31)),
]
WRITING = [lambda index: index.delete_box((0,), (1, 1)), lambda index: index.delete_box((0, 0), (1, 1 << 31))]



def told(use, index):
    """The reason that it is refused for, and None where it isn't."""
    try:
        use(index)
        return None
    except bkd.Refused as error:
        return error.reason


def test_what_is_refused_word_by_word(words, steps, tmp_path):
    """Also where no folder has anything near, and where none is made yet."""
    created(tmp_path, by="cells")
    ours = opened(tmp_path, words, steps)
    with bkd.open(tmp_path / "plain", create=True, program=words) as plain:
        wanted = [told(use, plain) for use in REFUSED + WRITING]
        assert wanted.count(None) == 1
        assert [told(use, ours) for use in REFUSED + WRITING] == wanted
        ours.add_many([(i, i) for i in range(50)])
        assert [told(use, ours) for use in REFUSED + WRITING] == wanted
        with ours.snapshot() as then:
            assert [told(use, then) for use in REFUSED] == wanted[:len(REFUSED)]
        assert ours.count((0, 0), (99, 99)) == 50


def test_keys_of_several_polygons(words, steps, tmp_path):
    """Each once, though documents in several have it, or several documents."""
    created(tmp_path)
    ours = opened(tmp_path, words, steps)
    ours.add_many([[(1, 1), (31, 31)], (2, 1), (32, 31)], [7, 7, 5])
    near, far = ([[(x, x), (x + 9, x), (x + 9, x + 9), (x, x)]] for x in (0, 30))
    assert ours.polygon(near).tolist() == [7, 7]
    assert ours.polygon({"type": "MultiPolygon", "coordinates": [near, far]}).tolist() == [5, 7]
    assert shards.polygon(near) == shards.polygon({"type": "Polygon", "coordinates": near})
