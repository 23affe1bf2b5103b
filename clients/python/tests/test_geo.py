"""Degrees as whole numbers: exact, at the ends too, and rounded at most once."""
from decimal import Decimal
from fractions import Fraction

import pytest
from hypothesis import given, strategies as st

from bkd import geo

WHOLE = st.integers(geo.LEAST, geo.GREATEST)


@given(WHOLE)
def test_there_and_back(number):
    assert geo.whole(geo.degrees(number)) == number
    assert geo.whole(geo.exact_degrees(number)) == number
    assert geo.whole(str(geo.exact_degrees(number))) == number
    assert geo.whole(Fraction(number, 10**7)) == number


@pytest.mark.parametrize("given, number", [
    (-214.7483648, -(1 << 31)), (214.7483647, (1 << 31) - 1), ("-214.7483648", -(1 << 31)), (0, 0), (-0.0, 0),
    (180, 1_800_000_000), (-180.0, -1_800_000_000), (13.404954, 134_049_540), (0.3, 3_000_000), (1e-7, 1),
    ("1e2", 10**9),
])
def test_values(given, number):
    assert geo.whole(given) == number


@pytest.mark.parametrize("wrong", [
    214.7483648, -214.7483649, "214.7483648", 1e-8, 0.12345678, Decimal("0.00000001"), Fraction(1, 3), float("nan"),
    float("inf"), "x", "", None, 1e300,
])
def test_what_cannot_be_held(wrong):
    with pytest.raises(ValueError):
        geo.whole(wrong)


@pytest.mark.parametrize("given, nearest, down, up", [
    ("0.00000005", 0, 0, 1), ("0.00000015", 2, 1, 2), ("-0.00000005", 0, -1, 0), (0.00000005, 0, 0, 1),
    ("0.00000004999", 0, 0, 1), (0.3, 3_000_000, 3_000_000, 3_000_000),
    (Fraction(1, 3), 3_333_333, 3_333_333, 3_333_334),
])
def test_rounding_is_asked_for(given, nearest, down, up):
    assert [geo.whole(given, r) for r in ("nearest", "down", "up")] == [nearest, down, up]
    with pytest.raises(ValueError, match="no rounding"):
        geo.whole(given, "sometimes")


def test_a_box_holds_what_is_within():
    assert geo.box(0.00000001, 0, 0.00000029, 1) == ((1, 0), (2, 10_000_000))


def test_polygons():
    ring = [(0.1, 0), (1, 0), (1, "1.5"), (0.1, 0)]
    wanted = {"type": "Polygon", "coordinates": [[[1_000_000, 0], [10**7, 0], [10**7, 15_000_000], [1_000_000, 0]]]}
    assert geo.polygon([ring]) == wanted
    assert geo.polygon({"type": "Feature", "geometry": {"type": "Polygon", "coordinates": [ring]}}) == wanted
    for wrong in ({"type": "Point", "coordinates": [0, 0]}, {"type": "Polygon"}, [[(0, 0, 0, 0)]], [[(0.00000001, 0)]],
                  "x"):
        with pytest.raises(ValueError):
            geo.polygon(wrong)
    assert geo.polygon([[(0.00000001, 0)]], "nearest")["coordinates"] == [[[0, 0]]]


@given(st.lists(WHOLE, max_size=20))
def test_arrays_there_and_back(numbers):
    numpy = pytest.importorskip("numpy")
    found = geo.points(numpy.array(numbers) / 1e7)
    assert found.dtype == numpy.int32 and found.tolist() == numbers


@given(st.floats(-214, 214))
def test_arrays_as_single_ones(degrees):
    numpy = pytest.importorskip("numpy")
    for rounding in (None, "nearest", "down", "up"):
        try:
            wanted = geo.whole(degrees, rounding)
        except ValueError:
            with pytest.raises(ValueError):
                geo.points(numpy.array([[degrees]]), rounding)
        else:
            assert geo.points(numpy.array([[degrees]]), rounding).tolist() == [[wanted]]
    with pytest.raises(ValueError):
        geo.points(numpy.array([0, float("nan")]))
