"""Shapes of many kinds, boxes over the date line, the globe, arrays, and data frames."""
import json
import math
import random

import pytest
from hypothesis import given, strategies as st

import bkd
from bkd import geo
from bkd.scale import Scale, polygons_of

SQUARE = [[[0, 0], [4, 0], [4, 4], [0, 4], [0, 0]]]
OTHER = [[[3, 3], [9, 3], [9, 9], [3, 9], [3, 3]]]


class Shape:
    """What shapely's shapes look like."""

    def __init__(self, shape):
        self.__geo_interface__ = shape


def feature(shape):
    return {"type": "Feature", "properties": {}, "geometry": shape}


POLYGON = {"type": "Polygon", "coordinates": SQUARE}
MULTI = {"type": "MultiPolygon", "coordinates": [SQUARE, OTHER]}
SHAPES = [
    (POLYGON, 1), (SQUARE, 1), (MULTI, 2), (feature(MULTI), 2), (feature(None), 0), (Shape(MULTI), 2),
    ({"type": "FeatureCollection", "features": [feature(POLYGON), Shape(feature(MULTI))]}, 3),
    ({"type": "GeometryCollection", "geometries": [POLYGON, MULTI]}, 3), (Shape(feature(Shape(POLYGON))), 1),
    ({"type": "FeatureCollection", "features": []}, 0), ({"type": "MultiPolygon", "coordinates": []}, 0),
]


@pytest.mark.parametrize("shape, count", SHAPES)
def test_polygons_in_shapes(shape, count):
    assert len(list(polygons_of(shape))) == count
    assert all(one["type"] == "Polygon" for one in geo.polygons(shape)) and len(geo.polygons(shape)) == count


@pytest.mark.parametrize("wrong", [{"type": "Point", "coordinates": [0, 0]}, {"type": "Polygon"}, {}, "x", None, 5,
                                   {"type": "GeometryCollection", "geometries": [{"type": "LineString"}]}])
def test_what_is_no_shape(wrong):
    with pytest.raises(ValueError):
        geo.polygons(wrong)


@pytest.mark.parametrize("arrays", [False, True])
@pytest.mark.parametrize("decimals", [None, 3])
def test_shapes_are_the_union_of_their_polygons(program, tmp_path, arrays, decimals):
    pytest.importorskip("numpy")
    points = [(x, y) for x in range(10) for y in range(10)]
    with bkd.open(tmp_path, create=True, program=program, arrays=arrays, decimals=decimals) as index:
        index.add_many(points)
        in_square = {i for i, (x, y) in enumerate(points) if x <= 4 and y <= 4}
        in_other = {i for i, (x, y) in enumerate(points) if 3 <= x <= 9 and 3 <= y <= 9}
        wanted = {0: set(), 1: in_square, 2: in_square | in_other, 3: in_square | in_other}
        for shape, count in SHAPES:
            assert list(index.polygon(shape)) == sorted(wanted[count])
        with index.snapshot("a") as kept:
            assert list(kept.polygon(MULTI)) == sorted(wanted[2])
        if decimals is None:
            with pytest.raises(bkd.Refused, match="not a polygon"):
                index.polygon({"type": "Point", "coordinates": [0, 0]})
        else:
            with pytest.raises(ValueError, match="not a polygon"):
                index.polygon({"type": "Point", "coordinates": [0, 0]})


def test_heights_are_left_out():
    assert geo.polygon([[(0, 0, 5), (1, 0, 5), (1, 1, 5), (0, 0, 5)]])["coordinates"][0][1] == [10**7, 0]


def test_boxes_over_the_date_line(program, tmp_path):
    with bkd.open(tmp_path, create=True, program=program) as index:
        index.add_many([geo.point(lon, 0) for lon in (-180, -179, -170, 0, 170, 179, 180)])
        assert geo.within(index, 175, -1, -175, 1) == [0, 1, 5, 6]
        assert geo.within(index, -175, -1, 175, 1) == [2, 3, 4]
        assert geo.within(index, 0, 0, 0, 0) == [3]
    assert geo.boxes(1, 0, 2, 1) == [geo.box(1, 0, 2, 1)] and len(geo.boxes(2, 0, 1, 1)) == 2
    # a box so small that it holds no whole number is no box round the globe
    assert len(geo.boxes("0.00000001", 0, "0.00000002", 1)) == 1


@pytest.mark.parametrize("one, other, metres", [
    ((0, 0), (0, 0), 0.0), ((0, 0), (180, 0), math.pi * geo.RADIUS), ((0, 90), (77, -90), math.pi * geo.RADIUS),
    ((0, 0), (90, 0), math.pi / 2 * geo.RADIUS), ((179, 0), (-179, 0), math.radians(2) * geo.RADIUS),
    ((-0.1278, 51.5074), (2.3522, 48.8566), 343_556.5),  # London and Paris
])
def test_great_circles(one, other, metres):
    assert geo.great_circle(*one, *other) == pytest.approx(metres, abs=0.5)


@given(st.floats(-180, 180), st.floats(-90, 90), st.floats(0, 2e7), st.floats(0, 360), st.floats(0, 1))
def test_caps_hold_what_is_near(lon, lat, metres, bearing, part):
    """A place that is reached by going so far is in one of the boxes."""
    angle, course = part * metres / geo.RADIUS, math.radians(bearing)
    up = math.radians(lat)
    height = math.sin(up) * math.cos(angle) + math.cos(up) * math.sin(angle) * math.cos(course)
    north = math.asin(max(-1, min(1, height)))
    across = math.atan2(math.sin(course) * math.sin(angle) * math.cos(up),
                        math.cos(angle) - math.sin(up) * math.sin(north))
    there = (math.degrees(math.radians(lon) + across) + 540) % 360 - 180, math.degrees(north)
    if geo.great_circle(lon, lat, *there) <= metres:
        slack = 1e-6
        assert any(west - slack <= there[0] <= east + slack and south - slack <= there[1] <= upper + slack
                   for west, south, east, upper in geo.cap(lon, lat, metres)) or abs(abs(there[0]) - 180) < slack


@given(st.integers(0, 9), st.floats(-1e10, 1e10), st.sampled_from([None, "nearest", "down", "up"]))
def test_arrays_as_single_values(decimals, value, rounding):
    numpy = pytest.importorskip("numpy")
    scale = Scale(decimals)
    for given in (value, value / 10**decimals, round(value / 1e5, decimals)):
        try:
            wanted = scale.whole(given, rounding)
        except ValueError:
            with pytest.raises(ValueError):
                scale.array(numpy.array([given]), rounding)
        else:
            assert scale.array(numpy.array([given]), rounding).tolist() == [wanted]


# ---- frames

def cities(count, seed=1):
    draw = random.Random(seed)
    return [(draw.uniform(-180, 180), math.degrees(math.asin(draw.uniform(-1, 1)))) for _ in range(count)]


@pytest.fixture
def frame(program, monkeypatch):
    """A frame of places over the globe, with the poles and the date line among them."""
    pandas = pytest.importorskip("pandas")
    pytest.importorskip("bkd.frames")
    monkeypatch.setenv("BKD", program.words[0])
    if len(program.words) > 1:
        pytest.skip("the stand-in can't be named by BKD")
    points = cities(3000) + [(0, 90), (180, 0), (-180, 0), (179.9999999, 10), (-179.9999999, 10), (5, -90)]
    return pandas.DataFrame(points, columns=["lon", "lat"])


def test_rows_in_boxes_and_polygons(frame):
    lon, lat = frame.lon.to_numpy(), frame.lat.to_numpy()
    inside = (lon >= 0) & (lon <= 40) & (lat >= 30) & (lat <= 60)
    assert frame.bkd.query((0, 30, 40, 60)).tolist() == inside.nonzero()[0].tolist()
    shape = {"type": "Polygon", "coordinates": [[[0, 30], [40, 30], [40, 60], [0, 60], [0, 30]]]}
    assert frame.bkd.query(shape, predicate="intersects").tolist() == inside.nonzero()[0].tolist()
    assert frame.bkd.query(shape).tolist() == inside.nonzero()[0].tolist()
    over = ((lon >= 170) | (lon <= -170)) & (abs(lat) <= 20)
    assert frame.bkd.query((170, -20, -170, 20)).tolist() == over.nonzero()[0].tolist()
    assert len(frame.bkd) == frame.bkd.size == 3006 and not frame.bkd.is_empty
    with pytest.raises(ValueError, match="predicate"):
        frame.bkd.query(shape, predicate="touches")


@pytest.mark.parametrize("at", [(12, 42), (179.99, 3), (-180, 0), (0, 89.9), (33, -90), (-179.5, 60)])
def test_the_nearest_rows_on_the_globe(frame, at):
    import numpy
    metres = geo.great_circle(*at, frame.lon.to_numpy(), frame.lat.to_numpy())
    for k in (1, 7, 100):
        places, distances = frame.bkd.nearest(at, k, on_globe=True, return_distance=True)
        assert numpy.allclose(distances, numpy.sort(metres)[:k], atol=1e-6)
        assert numpy.allclose(metres[places], distances)
    for near in (0, 50_000, 2_000_000, 3e7):
        assert frame.bkd.radius(*at, near).tolist() == (metres <= near).nonzero()[0].tolist()


def test_the_nearest_rows_on_the_plane(frame):
    at = (10.5, 20.25)
    places, distances = frame.bkd.nearest(at, 5, return_distance=True)
    found = sorted((math.dist(at, point), i) for i, point in enumerate(zip(frame.lon, frame.lat)))[:5]
    assert places.tolist() == [i for _, i in found]
    assert distances.tolist() == pytest.approx([d for d, _ in found], abs=1e-6)


def test_a_frame_into_a_folder(frame, tmp_path, program):
    from bkd import frames
    with frames.from_dataframe(frame, tmp_path / "a", program=program, arrays=True) as index:
        assert index.info().live == len(frame) and index.decimals == 7
    with pytest.raises(ValueError, match="holds documents already"):
        frames.from_dataframe(frame, tmp_path / "a", program=program)
    for wrong in ({"x": "lon", "y": "none"}, {"x": "none"}):
        with pytest.raises(ValueError, match="no columns"):
            frames.from_dataframe(frame, tmp_path / "b", program=program, **wrong)
    for value in (float("nan"), 1e9):
        with pytest.raises(ValueError, match="some values"):
            frames.from_dataframe(frame.assign(lon=value), tmp_path / "b", program=program)
    assert not (tmp_path / "b").exists()
    named = frame.rename(columns={"lon": "east", "lat": "north"})
    with pytest.raises(ValueError, match="no geometry"):
        len(named.bkd.index)
    assert named.bkd.on("east", "north").query((0, 30, 40, 60)).tolist() == frame.bkd.query((0, 30, 40, 60)).tolist()
    assert list(frame.iloc[:0].bkd.nearest((0, 0), on_globe=True)) == []


@pytest.mark.slow
def test_geodataframes_in_and_out(frame, tmp_path, program):
    geopandas = pytest.importorskip("geopandas")
    from shapely.geometry import MultiPolygon, Point, shape
    from bkd import frames
    places = geopandas.GeoDataFrame(frame, geometry=geopandas.points_from_xy(frame.lon, frame.lat), crs="EPSG:4326")
    tree = places.sindex
    for area in (shape({"type": "Polygon", "coordinates": [[[-60, -40], [70, -20], [90, 60], [-10, 70], [-60, -40]]]}),
                 MultiPolygon([Point(0, 0).buffer(20), Point(90, 30).buffer(15)])):
        wanted = sorted(tree.query(area, predicate="intersects").tolist())
        assert places.bkd.query(area, predicate="intersects").tolist() == wanted
        assert places.bkd.query(area).tolist() == sorted(tree.query(area).tolist())
    assert places.bkd.nearest(Point(12, 42)).tolist() == [int(places.distance(Point(12, 42)).argmin())]
    with frames.from_dataframe(places, tmp_path / "a", program=program) as index:
        index.add([(1, 2), (3, 4)])
        index.commit()
        back = frames.to_geodataframe(index)
    assert back.crs == places.crs and len(back) == len(places) + 1
    assert back.geometry[:len(places)].distance(places.geometry, align=False).max() < 1e-7
    assert json.loads(back.geometry.iloc[-1:].to_json())["features"][0]["geometry"]["type"] == "MultiPoint"
    with pytest.raises(ValueError, match="no point"):
        places.buffer(1).to_frame("geometry").set_geometry("geometry").bkd.query((0, 0, 1, 1))
