"""The page in a browser: what it draws is what the program answers, and what is stored now."""
import math

import pytest

import bkd
from bkd import lock, requests
from viewing import answered, browser, counting, needs_browser, page, shown, told, towns_folder  # noqa: F401


@pytest.mark.slow
@needs_browser
def test_by_mouse(page):
    """A box, a polygon, the nearest and a zoom: numbers are the program's, and what is found is drawn and told."""
    assert "8,000 live documents" in page.value("byId('fresh').textContent")
    assert page.value("state.view.points") == 8000 and "8,000 points in view" in page.value("byId('shown').textContent")
    page.value("choose('box')")
    page.drag(250, 200, 520, 480)
    found = answered(page, "box")
    left, bottom, right, top = page.value("state.query.frame")
    wanted = told(page, requests.box([math.ceil(left), math.ceil(bottom)], [math.floor(right), math.floor(top)]))
    assert len(wanted) > 10 and found["count"] == len(wanted) and found["numbers"] == wanted[:500]
    assert sum(n for *_, n in found["drawn"]["squares"]) == found["drawn"]["points"] == len(wanted)
    assert f"documents found{len(wanted):,}" in page.value("byId('answer').textContent")
    page.value("choose('polygon')")
    for x, y in ((300, 150), (700, 200), (600, 600), (250, 500), (400, 300)):
        page.click(x, y)
    page.click(400, 300, clicks=2)
    found = answered(page, "polygon")
    ring = [[round(x), round(y)] for x, y in page.value("state.query.ring")]
    wanted = told(page, requests.polygon([[*ring, ring[0]]]))
    assert len(ring) == 5 and found["count"] == len(wanted) and found["numbers"] == wanted[:500]
    partly = sum(n for *_, n in found["drawn"]["partly"])
    assert found["drawn"]["points"] <= len(wanted) <= found["drawn"]["points"] + partly
    page.value("choose('nearest')")
    page.click(500, 400)
    found = answered(page, "nearest")
    at = [round(c) for c in page.value("state.query.at")]
    assert [tuple(pair) for pair in found["near"]] == told(page, requests.nearest(10, at))
    assert found["drawn"]["points"] == 10 and found["drawn"]["across"] == 1
    before = page.value("frame")
    page.call("Input.dispatchMouseEvent", type="mouseWheel", x=500, y=400, deltaX=0, deltaY=-200)
    page.wait(f"frame[2] - frame[0] < {(before[2] - before[0]) * .9}")
    page.value("choose('move')")
    page.drag(500, 400, 600, 450)
    page.value("(undo(), undo())")
    assert page.value("frame") == before and page.value("state.answer.kind") == "nearest"
    colour = "ink.getImageData(0, 0, plane.width, plane.height).data"
    assert page.value(f"new Set(Array.from({colour}).filter((v, i) => i % 4 === 2)).size") > 10


@pytest.mark.slow
@needs_browser
def test_what_is_committed_meanwhile(page):
    """Is seen within about a second, and so is the answer over it; a writer that stays is told."""
    page.value("choose('box')")
    page.drag(250, 200, 520, 480)
    before = answered(page, "box")["count"]
    left, bottom, right, top = page.value("state.query.frame")
    with bkd.open(page.folder, wait=30, program=page.program) as index:
        numbers = index.add_many([(int((left + right) / 2), int((bottom + top) / 2))] * 7)
    page.wait(f"state.answer && state.answer.count === {before + 7}", seconds=30)
    assert page.value("state.view.points") == 8007 and "8,007" in page.value("byId('fresh').textContent")
    with bkd.open(page.folder, wait=30, program=page.program) as index:
        index.delete_many(numbers)
    page.wait("state.view.points === 8000", seconds=30)
    with lock.locked(str(page.folder), wait=30):
        page.value("byId('in').click()")
        page.wait("byId('error').textContent.includes('another process writes')", seconds=30)
        assert page.value("state.view.points") == 8000
    page.value("byId('check').click()")
    page.wait("byId('checked').textContent.includes('whole')", seconds=60)
