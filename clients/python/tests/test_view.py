"""The page's server: what it shows is what the program counts, and what it asks is what the program answers."""
import http.client
import os
import random
import socket
import threading

import pytest

import bkd
from bkd import lock, requests
from bkd.view import drawn, serve
from conftest import works
from model import in_polygon
from test_export import made
from viewing import counted, counting, fetch, points_of, shown, view  # noqa: F401

FAR = 1 << 31


def test_it_shows_what_the_files_hold(counting, tmp_path, shown):
    folder = made(tmp_path / "a", counting)
    server = shown(folder, counting)
    status, about = fetch(server, "about")
    assert status == 200 and about["dims"] == 2 and about["next"] == 81
    points = points_of(folder)
    assert sum(segment["live"] for segment in about["segments"]) == about["live"] == len(dict(bkd.export(folder)))
    (left, bottom), (right, top) = about["bounds"]
    assert all(left <= x <= right and bottom <= y <= top for x, y in points)
    assert about["bytes"] == sum(file["size"] for file in about["files"] if file["kind"] == "needed")
    kinds = {file["name"]: file["kind"] for file in about["files"]}
    assert kinds["commit.bkd"] == "needed" and all(os.path.exists(folder / name) for name in kinds)
    for frame in ((-5.5, -5.5, 30.5, 30.5), (-FAR, -FAR, FAR - 1, FAR - 1), (1, 1, 1, 1), (7.2, 0, 7.8, 40)):
        told = view(server, frame)
        assert told["across"] == told["up"] == 1
        assert {(x, y): n for x, y, n in told["squares"]} == counted(points, frame) and told["partly"] == []
        assert told["points"] == sum(counted(points, frame).values())


def test_it_counts_what_it_does_not_draw(counting, tmp_path, shown):
    draw = random.Random(1)
    points = [(draw.randint(-3000, 3000), draw.randint(-999, 999)) for _ in range(3000)]
    with bkd.open(tmp_path, create=True, program=counting) as index:
        index.add_many(points)
    server = shown(tmp_path, counting)
    for frame in ((-2999, -3000, 3000, 3000), (-1, -7, 2500, 999), (-3000, -1000, 2999, 999)):
        told = view(server, frame, 40, 30)
        inside = counted(points, frame)
        if sum(inside.values()) > drawn.MOST_POINTS:
            assert told["across"] > 1 and len(told["squares"]) <= 40 * 30
        wanted = {}
        for (x, y), n in inside.items():
            at = x // told["across"] * told["across"], y // told["up"] * told["up"]
            wanted[at] = wanted.get(at, 0) + n
        assert {(x, y): n for x, y, n in told["squares"]} == wanted
        assert told["points"] == sum(inside.values()) and told["most"] == max(wanted.values())


def test_it_asks_the_program(counting, tmp_path, shown):
    folder = made(tmp_path / "a", counting)
    server = shown(folder, counting)
    with bkd.open(folder, program=counting) as index:
        box, near = index.box((0, 0), (20, 20)), index.nearest(7, (10, 12))
        corners = [(0, 0), (30, 0), (0, 10), (0, 0)]
        inside = index.polygon([corners])
        explained = index.explain([requests.box((0, 0), (20, 20))])[0]
    points, place = points_of(folder), {"x": 0, "y": 1}
    _, told = fetch(server, "ask", {"kind": "box", "frame": [-0.5, -0.9, 20.4, 20.9], **place})
    assert told["numbers"] == box and told["count"] == len(box)
    assert told["explained"] == {"tested": explained.tested, "touched": explained.touched}
    assert {(x, y): n for x, y, n in told["drawn"]["squares"]} == counted(points, (0, 0, 20, 20))
    _, told = fetch(server, "ask", {"kind": "nearest", "k": 7, "at": [10.2, 11.8], **place})
    assert [tuple(pair) for pair in told["near"]] == near
    found = {(x, y) for x, y, _ in told["drawn"]["squares"]}
    assert found == {(x, y) for x, y in points if (x - 10) ** 2 + (y - 12) ** 2 <= near[-1][1]}
    for ring, axes in (([[0, 0], [30, 0], [0, 10]], place), ([[0, 0], [0, 30], [10, 0]], {"x": 1, "y": 0})):
        _, told = fetch(server, "ask", {"kind": "polygon", "ring": ring, **axes})
        assert told["numbers"] == inside
        found = {(x, y) if axes["x"] == 0 else (y, x) for x, y, _ in told["drawn"]["squares"]}
        assert found == {point for point in points if in_polygon([corners], point)}


def test_squares_of_shapes():
    """A square is found where all its coordinates are, and partly where only some are or may be."""
    draw = random.Random(3)
    for _ in range(60):
        side = draw.choice([1, 2, 4, 8])
        squares = [(x * side, y * side, 1) for x in range(-4, 4) for y in range(-4, 4)]
        corners = [(draw.randint(-30, 30), draw.randint(-30, 30)) for _ in range(draw.randint(3, 6))]
        at, most = (draw.randint(-9, 9), draw.randint(-9, 9)), draw.randint(0, 600)
        shapes = [(drawn.in_ring(drawn.Drawn(side, side, squares), corners),
                   lambda p: in_polygon([[*corners, corners[0]]], p)),
                  (drawn.in_circle(drawn.Drawn(side, side, squares), at, most),
                   lambda p: (p[0] - at[0]) ** 2 + (p[1] - at[1]) ** 2 <= most)]
        for told, is_in in shapes:
            for x, y, n in squares:
                inside = [is_in((x + i, y + j)) for i in range(side) for j in range(side)]
                if (x, y, n) in told.squares:
                    assert all(inside)
                elif (x, y, n) not in told.partly:
                    assert not any(inside)
                assert side > 1 or (x, y, n) not in told.partly


@pytest.mark.parametrize("dims", [1, 3])
def test_other_dimensions(counting, tmp_path, shown, dims):
    with bkd.open(tmp_path, dims, create=True, program=counting) as index:
        index.add_many([(i,) + (i % 7,) * (dims - 1) for i in range(100)])
    server = shown(tmp_path, counting)
    place = {"x": 0, "y": dims - 1}
    _, told = fetch(server, "ask", {"kind": "box", "frame": [9.5, -1, 20.5, 9], **place})
    assert told["numbers"] == list(range(10, 21))
    assert [x for x, _, n in told["drawn"]["squares"]] == list(range(10, 21))
    assert view(server, (-1e6, -1e6, 1e6, 1e6), **place)["points"] == 100
    _, told = fetch(server, "ask", {"kind": "nearest", "k": 1, "at": [50, 1], **place})
    assert told["count"] == 1 and (told["drawn"] is None) == (dims == 3)
    status, told = fetch(server, "ask", {"kind": "polygon", "ring": [[0, 0], [9, 0], [0, 9]], **place})
    assert status == 400


BAD = [
    ("view?x=0&y=5&frame=0,0,1,1&columns=1&rows=1", None, {}),
    ("view?x=0&y=0&frame=0,0,1,1&columns=1&rows=1", None, {}),
    ("view?x=0&y=1&frame=nan,0,1,1&columns=1&rows=1", None, {}),
    ("view?x=0&y=1&frame=3,0,1,1&columns=1&rows=1", None, {}),
    ("view?x=0&y=1&frame=0,0,1e300,1&columns=1&rows=1", None, {}),
    ("view?x=0&y=1&frame=0,0,1,1&columns=99999&rows=1", None, {}),
    ("view", None, {}), ("ask", b"", {}), ("ask", b"{", {}), ("ask", b"[" * 9999, {}), ("ask", b"[]", {}),
    ("ask", {"kind": "box"}, {}), ("ask", {"kind": "nearest", "k": 1, "at": [10 ** 400, 0], "x": 0, "y": 1}, {}),
    ("ask", {"kind": "what", "x": 0, "y": 1}, {}), ("ask", {"kind": "box", "x": 0, "y": 1, "frame": {}}, {}),
    ("ask", {"kind": "nearest", "k": 0, "at": [0, 0], "x": 0, "y": 1}, {}),
    ("ask", {"kind": "nearest", "k": "many", "at": [0, 0], "x": 0, "y": 1}, {}),
    ("ask", {"kind": "nearest", "k": 1, "at": [None, 0], "x": 0, "y": 1}, {}),
    ("ask", {"kind": "polygon", "ring": [[0, 0]], "x": 0, "y": 1}, {}),
    ("ask", {"kind": "polygon", "ring": [[0, 0]] * 5000, "x": 0, "y": 1}, {}),
    ("ask", b"x" * 300_000, {}), ("ask", {"a": 1}, {"Content-Type": "text/plain"}),
    ("ask", {"a": 1}, {"Content-Length": "-1"}), ("ask", {"a": 1}, {"Content-Length": "two"}),
]


def test_bad_requests(counting, tmp_path, shown, capfd):
    """Each is answered by 400 and a line, and nothing is said on standard error."""
    with pytest.raises(bkd.NoIndex):
        serve(tmp_path, 0, program=counting)
    server = shown(made(tmp_path / "a", counting), counting)
    for path, body, headers in BAD:
        status, told = fetch(server, path, body, **headers)
        assert status == 400 and told["error"] and "\n" not in told["error"], (path, body)
    for path, headers, status in (("nothing", {}, 404), ("about", {"Host": "example.org"}, 403)):
        assert fetch(server, path, **headers)[0] == status
    assert fetch(server, "about", method="DELETE")[0] == 400
    kept, server.token = server.token, "guessed"
    connection = http.client.HTTPConnection(*server.server_address, timeout=60)
    connection.request("GET", f"/{kept}/about")
    assert connection.getresponse().status == 403
    for line in (b"\xff\xfe\r\n\r\n", b"GET\r\n\r\n", b"GET /x HTTP/9.9\r\n\r\n",
                 b"GET / HTTP/1.1\r\n" + b"a: b\r\n" * 200 + b"\r\n"):
        with socket.create_connection(server.server_address, timeout=60) as one:
            one.sendall(line)
            assert b" 400 " in one.recv(4096)
    with lock.locked(str(tmp_path / "a")):
        server.token = kept
        status, told = fetch(server, "ask", {"kind": "nearest", "k": 1, "at": [0, 0], "x": 0, "y": 1})
        assert status == 409 and "another process writes" in told["error"]
    assert capfd.readouterr().err == ""


def test_slow_bodies(counting, tmp_path, shown, monkeypatch):
    """They end when their time is over, more of them than there are threads; others are answered after them."""
    monkeypatch.setattr("bkd.view.server._SECONDS", 1.0)
    server = shown(made(tmp_path / "a", counting), counting)
    before = threading.active_count()
    slow = []
    for _ in range(9):
        one = socket.create_connection(server.server_address, timeout=60)
        one.sendall(f"POST /{server.token}/ask HTTP/1.1\r\nHost: 127.0.0.1:{server.server_address[1]}\r\n"
                    "Content-Type: application/json\r\nContent-Length: 1000\r\n\r\n{".encode())
        slow.append(one)
    assert fetch(server, "mark")[0] == 200
    assert threading.active_count() <= before + 6
    for one in slow:
        assert b" 400 " in one.recv(4096)
        one.close()


def test_another_commit_is_seen(counting, tmp_path, shown):
    folder = made(tmp_path / "a", counting)
    server = shown(folder, counting)
    before = fetch(server, "about")[1]
    assert fetch(server, "mark")[1]["mark"] == before["mark"]
    with bkd.open(folder, program=counting) as index:
        index.add((1, 1))
    after = fetch(server, "about")[1]
    assert after["next"] == before["next"] + 1 and after["mark"] != before["mark"]
    assert fetch(server, "mark")[1]["mark"] == after["mark"]


def test_it_does_not_keep_writers_out(counting, tmp_path, shown):
    """The folder's lock is had for no longer than an answer takes, and shared."""
    folder = made(tmp_path / "a", counting)
    server = shown(folder, counting)
    with lock.locked(str(folder), shared=True):
        assert view(server, (-100, -100, 100, 100))["points"] == len(points_of(folder))
        assert fetch(server, "ask", {"kind": "nearest", "k": 1, "at": [0, 0], "x": 0, "y": 1})[0] == 200
    for _ in range(20):
        view(server, (-100, -100, 100, 100))
        with bkd.open(folder, program=counting) as index:
            index.add((1, 1))


def test_the_check(counting, tmp_path, shown):
    folder = made(tmp_path / "a", counting)
    server = shown(folder, counting)
    assert fetch(server, "check")[1] == {"state": "none"}

    def checked():
        _, told = fetch(server, "check", b"")
        while told["state"] == "runs":
            assert told["size"] > 0
            told = fetch(server, "check")[1]
        return told

    told = checked()
    assert told["state"] == "whole" and told["said"].startswith("ok dims 2")
    if not works("check"):
        return
    name = next(name for name in sorted(os.listdir(folder)) if name.startswith("seg-"))
    with open(folder / name, "r+b") as file:
        file.seek(-4000, os.SEEK_END)
        file.write(b"?")
    told = checked()
    assert told["state"] == "damaged" and name in told["said"]
