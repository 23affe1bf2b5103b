"""Commands that run once, and those that a program lacks."""
import random

import pytest

import bkd
from bkd import commands, lock, requests
from bkd.formats import open_stored
from conftest import STAND_IN, need


def test_load(real, tmp_path):
    table = "name,lon,lat\nBerlin,13404954,52520008\nParis,2352222,48856613\nRome,12496366,41902782\n"
    assert bkd.load(tmp_path, ["lon", "lat"], table, program=real) == (3, 3)
    for columns, text, reason in ((["lon"], table, "columns do not match dims 2"), (["a", "b"], table, "no column a"),
                                  (["lon", "lat"], "lon,lat\n1,x\n", "record 1 column lat is not a whole number")):
        with pytest.raises(bkd.Refused) as told:
            bkd.load(tmp_path, columns, text, program=real)
        assert told.value.reason == reason
    for wrong, error in ((["a,,b"], ValueError), ([], ValueError), (["a"] * 9, ValueError), ("lon", TypeError)):
        with pytest.raises(error):
            bkd.load(tmp_path / "none", wrong, table, program=real)
    assert not (tmp_path / "none").exists()
    with open(tmp_path / "table.csv", "w+") as file:
        file.write(table)
        file.seek(0)
        assert bkd.load(tmp_path, ["lon", "lat"], file.buffer, program=real) == (3, 6)
    with bkd.open(tmp_path, create=True, program=real) as index:
        assert index.nearest(1, (12000000, 42000000)) == [(2, 255830545480)]


def test_generate_and_explain(real, tmp_path):
    assert bkd.generate(tmp_path, 1, 1, program=real) == {"docs": 1, "live": 0, "box hits": 0, "nearest sum": 0}
    with pytest.raises(bkd.Refused, match="index exists"):
        bkd.generate(tmp_path, 1, 1, program=real)
    with bkd.open(tmp_path / "x", 1, 2, create=True, program=real) as index:
        index.add_many([5, 7, 7, 7, 7])
        index.flush()
        index.commit()
        asked = [requests.box(7, 8), requests.nearest(1, 5), requests.FLUSH]
        found = index.explain(asked)
        assert found[:2] == [bkd.Explained(2, 3, 4), bkd.Explained(None, 1, 1)]
        assert isinstance(found[2], bkd.Refused) and found[2].reason == "not a query"


def test_what_a_program_lacks(tmp_path, monkeypatch):
    monkeypatch.setenv("STAND_IN_COMMANDS", "run|session")
    program = bkd.find(STAND_IN)
    with bkd.open(tmp_path, create=True, program=program) as index:
        for use, name in [
            (index.check, "check"), (lambda: index.count((0,), (1,)), "count"),
            (lambda: index.grid(0, 1, 1, 1, (0, 0), (1, 1)), "count"), (lambda: index.batch([]), "batch"),
            (lambda: index.explain([]), "explain"),
        ]:
            with pytest.raises(bkd.Unsupported, match=f"no command {name}"):
                use()
        assert index.count((0, 0), (1, 1)) == 0  # (by the session)
    monkeypatch.setenv("STAND_IN_COMMANDS", "run")
    program = bkd.find(STAND_IN)
    for use, name in [
        (lambda: bkd.open(tmp_path / "s", create=True, program=program), "session"),
        (lambda: bkd.open_ranges(tmp_path / "r", create=True, program=program), "session"),
        (lambda: bkd.generate(tmp_path, 1, 1, program=program), "generate"),
        (lambda: bkd.load(tmp_path, ["a"], "a\n", program=program), "load"),
    ]:
        with pytest.raises(bkd.Unsupported, match=f"no command {name}"):
            use()


def test_a_command_that_is_listed_and_does_not_work(tmp_path, monkeypatch, stand_in):
    """`check` is in the list before it is there, and then ends as wrong words do."""
    bkd.open(tmp_path, create=True, program=stand_in).close()
    stand_in.commands  # read before the list gets shorter
    monkeypatch.setenv("STAND_IN_COMMANDS", "run")
    with pytest.raises(bkd.Unsupported, match="doesn't know these words"):
        bkd.check(tmp_path, program=stand_in)


def drawn(index, seed, count=400):
    """Documents of 1 to 3 points in segments, some deleted; answers the live ones by number, as sets of points."""
    draw = random.Random(seed)
    points = [[tuple(draw.randint(-50, 50) for _ in range(index.dims)) for _ in range(draw.choice((1, 1, 1, 3)))]
              for _ in range(count)]
    kept = {}
    for at in range(0, count, 100):
        kept |= {number: set(found) for number, found in zip(index.add_many(points[at:at + 100]), points[at:])}
        index.flush()
    gone = draw.sample(sorted(kept), count // 9)
    index.delete_many(gone)
    index.commit()
    return {number: found for number, found in kept.items() if number not in gone}


def test_check(has, tmp_path):
    program = has("check")
    (tmp_path / "empty").mkdir()
    assert bkd.check(tmp_path / "empty", program=program) is None
    with bkd.open(tmp_path / "a", leaf=9, create=True, program=program) as index:
        live = drawn(index, 1)
        assert index.check() == bkd.check(tmp_path / "a", program=program, held=lock.Held())
    found = bkd.check(tmp_path / "a", program=program)
    assert (found.dims, found.leaf, found.next, found.live) == (2, 9, 400, len(live))
    if program.words != STAND_IN:
        assert found.segments == len(open_stored(tmp_path / "a").parts)


def test_a_damaged_folder_is_told(real, tmp_path):
    need(real, "check")
    with bkd.open(tmp_path, create=True, program=real) as index:
        index.add((1, 1))
    name = next(path for path in tmp_path.iterdir() if path.name.startswith("seg-"))
    data = bytearray(name.read_bytes())
    data[4096 + 5] ^= 1
    name.write_bytes(data)
    with pytest.raises(bkd.Damaged) as told:
        bkd.check(tmp_path, program=real)
    assert (told.value.file, told.value.page, told.value.kind) == (name.name, 1, "page")
    with pytest.raises(bkd.Damaged):
        bkd.clean(tmp_path, program=real)


@pytest.mark.parametrize("dims", [2, 3])
def test_count_as_a_scan(has, tmp_path, dims):
    program = has("count")
    draw = random.Random(dims)
    with bkd.open(tmp_path, dims, leaf=7, create=True, program=program) as index:
        points = [point for found in drawn(index, dims).values() for point in found]
        for _ in range(6):
            ends = [sorted((draw.randint(-60, 60), draw.randint(-60, 60))) for _ in range(dims)]
            low, high = zip(*ends)
            inside = [p for p in points if all(a <= c <= b for a, c, b in zip(low, p, high))]
            assert index.count(low, high) == len(inside)
            (x, step_x), (y, step_y) = ((d, draw.randint(1, 40)) for d in draw.sample(range(dims), 2))
            buckets = {}
            for p in inside:
                at = (p[x] - low[x]) // step_x, (p[y] - low[y]) // step_y
                buckets[at] = buckets.get(at, 0) + 1
            assert index.grid(x, step_x, y, step_y, low, high) == [(*at, n) for at, n in sorted(buckets.items())]
        assert index.count(high, low) == (0 if low != high else len(inside))


def test_lines_of_count_that_are_refused(real, tmp_path):
    need(real, "count")
    assert commands.count(tmp_path, [commands.points_in((0, 0), (1, 1))], program=real)[0].reason == "no index"
    with bkd.open(tmp_path, create=True, program=real) as index:
        index.commit()
        for wrong, reason in [
            (lambda: index.grid(0, 1, 0, 1, (0, 0), (9, 9)), "bad grid"),
            (lambda: index.grid(0, 0, 1, 1, (0, 0), (9, 9)), "bad grid"),
            (lambda: index.grid(0, 1, 2, 1, (0, 0), (9, 9)), "bad grid"),
            (lambda: index.grid(0, 1, 1, 1, (0, 0), (1000, 1000)), "too many buckets"),
            (lambda: index.count((0,), (9,)), "wrong words"),
        ]:
            with pytest.raises(bkd.Refused) as told:
                wrong()
            assert told.value.reason == reason
        assert index.grid(0, 1, 1, 1, (5, 5), (0, 0)) == []


def test_batch(has, tmp_path):
    program = has("batch")
    with bkd.open(tmp_path, leaf=7, create=True, program=program) as index:
        drawn(index, 3)
        asked = [requests.box((-9, -9), (9, i)) for i in range(9)] + [requests.nearest(4, (i, -i)) for i in range(9)]
        asked += [requests.polygon([[(-30, -30), (30, -30), (0, 30), (-30, -30)]]), requests.box((0,), (1,))]
        answers = index.ask(asked)
        for forks in (0, 2):
            found = index.batch(asked, forks)
            assert found[:-1] == answers[:-1] and isinstance(found[-1], bkd.Refused)
    assert bkd.batch(tmp_path, asked, merge=True, program=program)[:-1] == answers[:-1]
    if program.words != STAND_IN:
        assert len(open_stored(tmp_path).parts) == 1


def test_a_command_that_hangs(tmp_path):
    """A program that lists check and never ends."""
    path = tmp_path / "stuck"
    path.write_text("#!/bin/sh\n"
                    "[ $# -eq 0 ] && echo 'usage: bkd FOLDER load|check|generate' >&2 && exit 1\n"
                    "exec sleep 3600\n")
    path.chmod(0o755)
    how = {"program": path, "timeout": 0.5}
    for use in (lambda: bkd.check(tmp_path, **how), lambda: bkd.load(tmp_path, ["a"], "a\n1\n", **how),
                lambda: bkd.generate(tmp_path, 1, 1, **how)):
        with pytest.raises(bkd.Hung):
            use()


def test_a_launcher_that_builds_first(tmp_path, capfd):
    """What it says of that is passed on."""
    launcher = tmp_path / "launcher"
    launcher.write_text("#!/bin/sh\necho 'bkd: building the program: 1 of 2 crates' >&2\n"
                        "echo 'usage: bkd FOLDER run|check [options]' >&2\nexit 1\n")
    launcher.chmod(0o755)
    assert bkd.find(launcher).commands == {"run", "check"}
    assert capfd.readouterr().err == "bkd: building the program: 1 of 2 crates\n"


def test_programs_that_are_not_there(tmp_path, monkeypatch):
    with pytest.raises(bkd.NotFound):
        bkd.find(tmp_path / "none")
    with pytest.raises(bkd.NotFound, match="not bkd"):
        bkd.open(tmp_path, create=True, program=("true",))
    with pytest.raises(bkd.NotFound):
        bkd.open(tmp_path, create=True, program=(str(tmp_path / "none"),))
    monkeypatch.setenv("BKD", "/bin/true")
    assert bkd.find().words == ("/bin/true",) and bkd.find() is bkd.find()
    monkeypatch.setenv("BKD", str(tmp_path / "none"))
    with pytest.raises(bkd.NotFound, match="BKD names no file"):
        bkd.find()


def test_a_folder_that_is_not_there(tmp_path, stand_in):
    with pytest.raises(bkd.FolderFault):
        commands.explain(tmp_path / "none", [], program=stand_in)
