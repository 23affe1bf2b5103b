"""What the page tells of what it draws: counts in cells, hits told and drawn, coast lines, what is damaged."""
import os
import struct

import pytest

import bkd
from bkd.formats import open_stored, read_commit
from bkd.view import coasts, drawn
from conftest import works
from test_export import made
from viewing import (answered, browser, counting, fetch, needs_browser, page, points_of, shown,  # noqa: F401
                     towns_folder)

# the view is drawn by its smaller squares
CELLS = "state.cells !== null && toScreen(state.view.across, 0)[0] - toScreen(0, 0)[0] < 16"


def ring_file(path, rings):
    """A shape file of one polygon for each ring."""
    data = b"\x00\x00\x27\x0a".ljust(100, b"\0")
    for number, ring in enumerate(rings):
        body = (5).to_bytes(4, "little") + bytes(32) + (1).to_bytes(4, "little")
        body += len(ring).to_bytes(4, "little") + bytes(4) + b"".join(map(packed, ring))
        data += (number + 1).to_bytes(4, "big") + (len(body) // 2).to_bytes(4, "big") + body
    path.write_bytes(data)
    return path


def packed(place):
    return struct.pack("<dd", *place)


def test_coast_lines(tmp_path):
    """Edges of one land alone are coasts; where the map is cut is none; what lacks is told by name."""
    west = [(0, 0), (0, 9), (5, 9), (5, 0), (0, 0)]
    east = [(5, 0), (5, 9), (180, 9), (180, 0), (5, 0)]
    told = coasts.told(ring_file(tmp_path / "two.shp", [west, east]))
    assert told["lines"] == [[0, 0, 0, 9, 5, 9], [5, 0, 0, 0], [5, 9, 180, 9], [180, 0, 5, 0]]
    assert "Natural Earth" in told["source"] and "lacks" not in told
    whole = (tmp_path / "two.shp").read_bytes()
    for text in (b"", b"no shapes", whole[:-9], whole[:104], whole[:150]):
        (tmp_path / "bad.shp").write_bytes(text)
        told = coasts.told(tmp_path / "bad.shp")
        assert told["lines"] == [] and "bad.shp of the package python3-geopandas can't be read" == told["lacks"], text
    assert "installed without them" in coasts.told(tmp_path / "none.shp")["lacks"]


def test_coast_lines_of_the_package(counting, tmp_path, shown, monkeypatch):
    server = shown(made(tmp_path / "a", counting), counting)
    status, told = fetch(server, "coasts")
    assert status == 200 and bool(told["lines"]) == ("lacks" not in told)
    for line in told["lines"]:
        assert len(line) >= 4 and len(line) % 2 == 0
        assert all(-180 <= x <= 180 for x in line[::2]) and all(-90 <= y <= 90 for y in line[1::2])
    monkeypatch.setattr(coasts, "_MODULE", "no_such_module_is_installed")
    status, told = fetch(server, "coasts")
    assert status == 200 and told["lines"] == [] and "python3-geopandas" in told["lacks"]


def test_what_is_damaged(counting, tmp_path, shown):
    """By its parts, with what can be done: the program's rescue only where there is one."""
    if not works("check"):
        pytest.skip("the program has no check")
    folder = made(tmp_path / "a", counting)
    server = shown(folder, counting)
    name = next(name for name in sorted(os.listdir(folder)) if name.startswith("live-"))
    os.rename(folder / name, tmp_path / name)
    told = checked(server)
    assert told["state"] == "damaged" and told["damage"] == {"kind": "missing", "file": name}
    assert str(folder) in told["remedy"][0] and name in told["remedy"][0]
    assert told["remedy"][-1].startswith("The program has" if works("rescue") else "This program has no rescue")
    os.rename(tmp_path / name, folder / name)
    told = checked(server)
    assert told["state"] == "whole" and "damage" not in told and "remedy" not in told


@pytest.mark.parametrize("most", [1, 2])
def test_dead_points(counting, tmp_path, shown, most):
    """Of each segment as many as its leaves have; at most so many, where documents have several points."""
    documents = [[(i, 0), (i, 1)][:1 + i % most] for i in range(300)]
    with bkd.open(tmp_path, create=True, program=counting) as index:
        index.add_many(documents)
        index.flush()
        index.delete_many(range(0, 300, 3))
    status, about = fetch(shown(tmp_path, counting), "about")
    stored = open_stored(tmp_path)
    dead = [0] * len(stored.parts)
    for at, leaf, places in stored.entries():
        dead[at] += len(leaf.numbers) - len(places)
    assert about["single"] == (most == 1) and sum(dead) == sum(len(one) for one in documents[::3])
    told = [segment["dead"] for segment in about["segments"]]
    assert told == dead if most == 1 else all(a >= b for a, b in zip(told, dead))


def checked(server):
    _, told = fetch(server, "check", b"")
    while told["state"] == "runs":
        told = fetch(server, "check")[1]
    return told


@pytest.mark.slow
@needs_browser
def test_counts_in_cells(page):
    """Cells have all points in view between them, room for their number, and can be hidden; near there are none."""
    page.wait(CELLS + " && state.view.points === 8000")
    cells = page.value("state.cells")
    inside = {}
    for x, y in points_of(page.folder):
        at = x // cells["across"] * cells["across"], y // cells["up"] * cells["up"]
        inside[at] = inside.get(at, 0) + 1
    assert {tuple(cell["at"]): cell["n"] for cell in cells["cells"]} == inside and len(inside) > 5
    wide, high = page.value("[toScreen(state.cells.across, 0)[0] - toScreen(0, 0)[0],"
                            " toScreen(0, 0)[1] - toScreen(0, state.cells.up)[1]]")
    assert 84 <= wide < 2 * 84 and 52 <= high < 2 * 52
    dots = ("Array.from(ink.getImageData(0, 0, plane.width, plane.height).data)"
            ".reduce((a, b) => (a * 31 + b) % 65521, 7)")
    counted = page.value(dots)
    page.value("plane.focus()")
    page.key("t")
    assert page.value("state.cells") is None and page.value("byId('counts').checked") is False
    assert page.value(dots) != counted
    page.key("t")
    assert page.value(dots) == counted
    page.value("[1, 2, 3, 4, 5, 6].forEach(() => byId('in').click())")
    page.wait(f"isOne(state.view) && state.view.points <= {drawn.MOST_POINTS}")
    assert page.value("state.cells") is None and "drawn one by one" in page.value("byId('shown').textContent")


@pytest.mark.slow
@needs_browser
def test_hits_told_and_drawn(page):
    """Both numbers are told, how they are drawn, and of squares that an edge meets how many points those have."""
    page.value("choose('box')")
    page.drag(120, 160, 840, 700)
    found = answered(page, "box")
    squares = len(found["drawn"]["squares"])
    text = page.value("byId('drawn').textContent")
    assert found["count"] > drawn.MOST_POINTS
    count = f"{found['count']:,}"
    assert text.startswith(f"{count} documents found, {count} points of them drawn by {squares:,} squares of")
    assert f"The first 500 of {found['count']:,} numbers" in page.value("byId('numbers').textContent")
    page.value("choose('polygon')")
    for x, y in ((150, 150), (840, 200), (600, 700)):
        page.click(x, y)
    page.value("closeRing()")
    found = answered(page, "polygon")
    partly = sum(n for *_, n in found["drawn"]["partly"])
    text = page.value("byId('drawn').textContent")
    assert partly > 0 and f"{found['drawn']['points']:,} points of them drawn by" in text
    assert f"{partly:,} points more, of which some are found, in {len(found['drawn']['partly']):,} squares" in text
    page.value("choose('nearest')")
    page.click(500, 400)
    answered(page, "nearest")
    assert page.value("byId('drawn').textContent") == "10 documents found, 10 points as near drawn one by one."


@pytest.mark.slow
@needs_browser
def test_coast_lines_are_drawn(page):
    """In degrees alone, and with whose they are; where there are none their lack is told."""
    assert page.value("byId('coasts').hidden")
    page.value("byId('degrees').click()")
    page.wait("byId('coasts').textContent !== ''")
    text = page.value("byId('coasts').textContent")
    if coasts.told()["lines"]:
        assert text == "Coast lines: Natural Earth, 1:110 million, from the package python3-geopandas."
    else:
        assert text.startswith("No coast lines: the package python3-geopandas")
    page.value("state.coasts = null")
    page.value("fetched = async () => ({ lines: [], lacks: 'the package python3-geopandas is not installed' })")
    page.value("tellCoasts()")
    assert page.value("byId('coasts').textContent") == "No coast lines: the package python3-geopandas is not installed."
    page.value("byId('degrees').click()")
    assert page.value("byId('coasts').hidden")


@pytest.mark.slow
@needs_browser
def test_the_damage_is_told(page, browser, counting, tmp_path, shown):
    """The check's panel: progress, what is damaged, and what can be done."""
    if not works("check"):
        pytest.skip("the program has no check")
    folder = made(tmp_path / "a", counting)
    browser.call("Page.navigate", url=shown(folder, counting).url)
    browser.wait("document.body && document.body.dataset.ready === 'yes'")
    name = next(name for name in sorted(os.listdir(folder)) if name.startswith("seg-"))
    with open(folder / name, "r+b") as file:
        file.seek(-4000, os.SEEK_END)
        file.write(b"?")
    browser.value("byId('check').click()")
    browser.wait("byId('checked').textContent.startsWith('It is damaged')", seconds=60)
    told = browser.value("byId('damage').textContent")
    assert not browser.value("byId('damage').hidden") and f"file{name}" in told and "kindpage" in told
    assert ("This program has no rescue" in told) == (not works("rescue"))


@pytest.mark.slow
@needs_browser
def test_dead_points_and_snapshots_are_told(page, towns_folder):
    """The share of dead points in each segment's row, and that a folder has no snapshots; and what is left over."""
    rows = page.value("Array.from(byId('segments').rows, row => Array.from(row.cells, cell => cell.textContent))")
    commit = read_commit(towns_folder)
    assert [row[3] for row in rows] == [f"{round(100 - 100 * one.live / one.entries)} %" for one in commit.listed]
    assert any(one.live < one.entries for one in commit.listed)
    assert page.value("byId('snapshots').textContent") == \
        "Snapshots: none is stored. Each is its session's own, and ends with it."
    assert "of deleted documents11 %" in page.value("byId('about').textContent")
    assert page.value("deadShare(300, 2)") == "0.67 %" and page.value("deadShare(0, 0)") == "0 %"
    left = "[{ kind: 'left over', size: 4096 }, { kind: 'needed', size: 1 }]"
    assert page.value(f"snapshotsOf({left})").endswith("1 file of 4,096 bytes can go, by the program's clean.")
    page.value("state.about.single = false")
    assert page.value("deadShare(300, 30)") == "\u2264 10 %" and page.value("deadShare(300, 0)") == "0 %"
    page.value("state.about.single = true")
