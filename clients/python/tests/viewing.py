"""The page's server and a browser for tests, and what they are asked."""
import http.client
import json
import os
import random
import shutil
import threading
from urllib.parse import urlencode

import pytest

import bkd
from bkd.view import serve
from conftest import REAL, STAND_IN, works


@pytest.fixture
def counting(filed, monkeypatch):
    """A program that has `count`, with files that hold what it answers."""
    monkeypatch.setenv("STAND_IN_COMMANDS", "run|session|explain|check|count")
    return filed if works("count") else bkd.find(filed.words)


@pytest.fixture
def shown():
    """Serves a folder; what is made ends with the test."""
    servers = []

    def start(folder, program):
        server = serve(folder, 0, program=program)
        threading.Thread(target=server.serve_forever, kwargs={"poll_interval": 0.05}, daemon=True).start()
        servers.append(server)
        return server

    yield start
    for server in servers:
        server.shutdown()
        server.server_close()


def fetch(server, path, body=None, method=None, **headers):
    connection = http.client.HTTPConnection(*server.server_address, timeout=60)
    if body is not None:
        headers = {"Content-Type": "application/json"} | headers
        body = body if isinstance(body, bytes) else json.dumps(body).encode()
    connection.request(method or ("GET" if body is None else "POST"), f"/{server.token}/{path}", body, headers)
    reply = connection.getresponse()
    return reply.status, json.loads(reply.read())


def view(server, frame, columns=200, rows=200, x=0, y=1):
    status, told = fetch(server, "view?" + urlencode({"x": x, "y": y, "frame": ",".join(map(str, frame)),
                                                      "columns": columns, "rows": rows}))
    assert status == 200, told
    return told


def points_of(folder):
    return [point for _, points in bkd.export(folder) for point in points]


def counted(points, frame):
    left, bottom, right, top = frame
    found = {}
    for x, y in points:
        if left <= x <= right and bottom <= y <= top:
            found[x, y] = found.get((x, y), 0) + 1
    return found


# ---- the browser

needs_browser = pytest.mark.skipif(shutil.which("chromium") is None, reason="no chromium")
ANSWERED = "document.body.dataset.answered === 'yes' && state.answer !== null"


def towns(count=9000):
    """Points that gather round some places, as people do."""
    draw = random.Random(4)
    centres = [(draw.uniform(-9e5, 9e5), draw.uniform(-6e5, 6e5), draw.uniform(2e4, 1.6e5)) for _ in range(14)]
    for _ in range(count):
        x, y, wide = draw.choice(centres)
        yield int(draw.gauss(x, wide)), int(draw.gauss(y, wide))


@pytest.fixture(scope="module")
def browser(tmp_path_factory):
    from chromium import Chromium
    with Chromium(tmp_path_factory.mktemp("profile")) as page:
        yield page


@pytest.fixture(scope="module")
def towns_folder(tmp_path_factory):
    folder = tmp_path_factory.mktemp("towns")
    os.environ["STAND_IN_FILES"] = "1"
    with bkd.open(folder, leaf=64, create=True, program=REAL or STAND_IN) as index:
        points = list(towns())
        numbers = index.add_many(points[:6000])
        index.flush()
        index.add_many(points[6000:])
        index.delete_many(numbers[::6])
    return folder


@pytest.fixture
def page(browser, towns_folder, counting, shown):
    """The page of the towns, at 1280 by 800."""
    server = shown(towns_folder, counting)
    browser.size(1280, 800)
    browser.scheme("light")
    browser.errors.clear()
    browser.call("Page.navigate", url=server.url)
    browser.wait("document.body && document.body.dataset.ready === 'yes'")
    browser.folder, browser.program = towns_folder, counting
    yield browser
    assert browser.errors == []
    browser.call("Page.navigate", url="about:blank")


def told(page, request):
    """What the program answers."""
    with bkd.open(page.folder, read=True, wait=30, program=page.program) as index:
        return index.ask([request])[0]


def answered(page, kind):
    page.wait(ANSWERED + f" && state.answer.kind === '{kind}'")
    return page.value("state.answer")
