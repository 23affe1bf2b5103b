"""What is found on the globe, beside a look at each point; at the date line and the poles too."""
import math
import random

import pytest

import bkd
from bkd import geo, ways

PLACES = [(0, 0), (179.99, 10), (-179.99, -10), (180, 0), (-180, 0), (13.4, 52.5), (0, 90), (77, -90), (120, 89.9),
          (-60, -89.5), (10, 66), (540, 45)]


def drawn(draw, count, near):
    """Places all over the globe, and round some, each as many."""
    some = [(draw.uniform(-180, 180), math.degrees(math.asin(draw.uniform(-1, 1)))) for _ in range(count)]
    for lon, lat in near:
        for _ in range(count // len(near)):
            x, y = lon + draw.gauss(0, 2), lat + draw.gauss(0, 1)
            some.append((math.remainder(x, 360), min(90, max(-90, y))))
    return [tuple(round(c * geo.UNIT) / geo.UNIT for c in place) for place in some]


def way_to(document, lon, lat):
    return min(geo.great_circle(math.remainder(lon, 360), float(lat), x, y) for x, y in document)


@pytest.mark.parametrize("decimals, several", [(7, False), (None, False), (7, True), (2, False)])
def test_beside_each_point(program, tmp_path, decimals, several):
    draw = random.Random(f"{decimals} {several}")
    places = [*drawn(draw, 300, PLACES), (180, 0), (-180, 0), (0, 90), (5, 90), (9, -90)]
    documents = [[place, draw.choice(places)] if several and i % 3 == 0 else [place] for i, place in enumerate(places)]
    if decimals == 2:
        documents = [[(round(x, 2), round(y, 2)) for x, y in document] for document in documents]
    with bkd.open(tmp_path, create=True, decimals=decimals, program=program) as index:
        index.add_many(documents if decimals is not None else
                       [[geo.point(x, y, "nearest") for x, y in document] for document in documents])
        index.commit()
        index.delete(3)
        for lon, lat in PLACES:
            wanted = sorted((way_to(document, lon, lat), n) for n, document in enumerate(documents) if n != 3)
            for k in (1, 7, 40):
                assert geo.nearest(index, k, lon, lat) == [(n, way) for way, n in wanted[:k]]
            for metres in (0, 1000, wanted[20][0], 3_000_000, 19_000_000, 30_000_000):
                assert geo.radius(index, lon, lat, metres) == sorted(n for way, n in wanted if way <= metres)


def test_few_and_none(program, tmp_path):
    """Fewer than are wanted, far away and on the other side; and what is no place on the globe."""
    with bkd.open(tmp_path, create=True, decimals=7, program=program) as index:
        assert geo.nearest(index, 3, 0, 0) == [] and geo.radius(index, 0, 0, 1e9) == []
        index.add_many([(180, 0), (200, 0), (0, 100), (0, 0), (-180, 0)])
        found, metres = zip(*geo.nearest(index, 5, 0, 0))
        assert found == (3, 0, 4) and metres == pytest.approx((0, math.pi * geo.RADIUS, math.pi * geo.RADIUS))
        assert geo.radius(index, 179.9999, 0, 20) == [0, 4] and geo.radius(index, 0, 0, 0) == [3]


def test_what_is_wrong_is_told(program, tmp_path):
    with bkd.open(tmp_path / "a", 3, create=True, program=program) as index:
        with pytest.raises(ValueError, match="3 dimensions"):
            geo.nearest(index, 1, 0, 0)
    with bkd.open(tmp_path / "b", create=True, decimals=7, program=program) as index:
        for place in ((0, 90.1), (math.nan, 0), (0, math.nan), (math.inf, 0)):
            with pytest.raises(ValueError, match="no place on the globe"):
                geo.nearest(index, 1, *place)
        for metres in (-1, math.nan):
            with pytest.raises(ValueError, match="metres"):
                geo.radius(index, 0, 0, metres)
        for k in (0, 10_001):
            with pytest.raises(bkd.Refused, match="bad k"):
                geo.nearest(index, k, 0, 0)


def test_bounds_of_boxes():
    """No place of a box is nearer than its nearest or farther than its farthest, and some nearly are."""
    draw = random.Random(5)
    for _ in range(300):
        lon, lat = draw.uniform(-180, 180), draw.uniform(-90, 90)
        west, east = sorted((draw.uniform(-180, 180), draw.uniform(-180, 180)))
        south, north = sorted((draw.uniform(-90, 90), draw.uniform(-90, 90)))
        box = west, south, east, north
        steps = [i / 40 for i in range(41)]
        found = [geo.great_circle(lon, lat, west + (east - west) * i, south + (north - south) * j)
                 for i in steps for j in steps]
        least, most = ways.nearest_in(lon, lat, box), ways.farthest_in(lon, lat, box)
        assert least - .5 <= min(found) <= least + 600_000 and most - 600_000 <= max(found) <= most + .5
