"""Opening: what makes an index, what is refused, what is kept beside the files."""
import os
import subprocess

import pytest

import bkd
from bkd import kept, requests
from conftest import BUILT, TOP


def listed(folder):
    """The files of a folder with what they hold."""
    return {path.name: path.read_bytes() for path in folder.iterdir()}


def test_nothing_is_made_without_being_asked(program, tmp_path):
    with pytest.raises(bkd.NoIndex, match="is no folder; with create=True"):
        bkd.open(tmp_path / "a", program=program)
    assert not (tmp_path / "a").exists()
    (tmp_path / "b").mkdir()
    with pytest.raises(bkd.NoIndex, match="holds no index; with create=True"):
        bkd.open(tmp_path / "b", program=program)
    assert listed(tmp_path / "b") == {}


def test_what_is_made_is_stored_at_once(program, tmp_path):
    index = bkd.open(tmp_path / "a" / "b", 3, leaf=20, create=True, program=program)
    index.add((1, 1, 1))
    index.abandon()
    with bkd.open(tmp_path / "a" / "b", program=program) as index:
        assert index.dims == 3 and index.box((0,) * 3, (9,) * 3) == []
    with bkd.open(tmp_path / "a" / "b", create=True, program=program) as index:
        assert index.dims == 3


@pytest.mark.parametrize("wrong, error", [
    ({"dims": 0}, ValueError), ({"dims": 9}, ValueError), ({"dims": "2"}, TypeError), ({"dims": 2.0}, TypeError),
    ({"dims": True}, ValueError), ({"leaf": 1}, ValueError), ({"leaf": 334}, ValueError), ({"cache": 0}, ValueError),
    ({"dims": 8, "leaf": 112}, ValueError),
    ({"cache": 65_537}, ValueError), ({"cache": None}, TypeError), ({"forks": 7}, ValueError),
    ({"forks": -1}, ValueError), ({"wait": -1}, ValueError), ({"wait": 3601}, ValueError),
    ({"timeout": 0}, ValueError), ({"decimals": 10}, ValueError),
    ({"decimals": 1.5}, TypeError), ({"read": True}, ValueError),
])
def test_options_that_can_not_be(program, tmp_path, wrong, error):
    with pytest.raises(error):
        bkd.open(tmp_path / "a", create=True, program=program, **wrong)
    assert not (tmp_path / "a").exists()


def test_an_index_of_another_form(program, tmp_path):
    bkd.open(tmp_path, 3, leaf=20, create=True, program=program).close()
    before = listed(tmp_path)
    for wrong in ({"dims": 2}, {"leaf": 19}):
        with pytest.raises(ValueError, match="3 dimensions and leaves of 20"):
            bkd.open(tmp_path, program=program, **wrong)
    bkd.open(tmp_path, 3, leaf=20, read=True, program=program).close()
    assert listed(tmp_path) == before


@pytest.mark.parametrize("create", [False, True])
def test_a_folder_whose_commit_is_gone(program, tmp_path, create):
    """What is there may be the only copy: nothing is written over."""
    with bkd.open(tmp_path, create=True, program=program) as index:
        index.add_many((i, i) for i in range(100))
    if not any(path.name.startswith("seg-") for path in tmp_path.iterdir()):
        (tmp_path / "seg-0000000000000000.bkd").write_bytes(b"x")  # (the stand-in writes none)
    (tmp_path / "commit.bkd").rename(tmp_path.parent / "commit.bkd.aside")
    before = listed(tmp_path)
    with pytest.raises(bkd.Damaged) as told:
        bkd.open(tmp_path, create=create, program=program)
    assert (told.value.file, told.value.kind) == ("commit.bkd", "missing")
    assert "other files of an index are there" in told.value.cause and listed(tmp_path) == before


def test_a_commit_that_is_damaged(real, tmp_path):
    bkd.open(tmp_path, create=True, program=real).close()
    data = bytearray((tmp_path / "commit.bkd").read_bytes())
    data[9] ^= 1
    (tmp_path / "commit.bkd").write_bytes(data)
    before = listed(tmp_path)
    for options in ({}, {"create": True}, {"read": True}):
        with pytest.raises(bkd.Damaged) as told:
            bkd.open(tmp_path, program=real, **options)
        assert (told.value.file, told.value.page, told.value.kind) == ("commit.bkd", 0, "page")
    assert listed(tmp_path) == before


def test_what_can_not_be_made(program, tmp_path):
    (tmp_path / "file").write_text("x")
    with pytest.raises(OSError):
        bkd.open(tmp_path / "file" / "a", create=True, program=program)
    with pytest.raises(bkd.NoIndex, match="is no folder"):
        bkd.open(tmp_path / "file", program=program)


def test_the_launcher_itself(tmp_path):
    """Where the checkout's launcher needn't build a program."""
    released = TOP / "release" / "sources.sha256"
    sums = [subprocess.run([TOP / "release" / "checksum"], capture_output=True, text=True).stdout]
    sums += [path.read_text() for path in (released, BUILT.with_suffix(".sha256")) if path.exists()]
    if sums[0] not in sums[1:]:
        pytest.skip("the launcher would have to build the program first")
    with bkd.open(tmp_path, create=True, program=TOP / "bkd") as index:
        assert index.add((1, 1)) == 0
        index.commit()
        assert index.explain([requests.box((0, 0), (1, 1))])[0].found == 1
        words = [TOP / "bkd", tmp_path, "explain"]
        beside = subprocess.run(words, stdin=subprocess.DEVNULL, capture_output=True, text=True)
        assert beside.returncode == 4 and "folder fault" in beside.stderr
    # what the client finds by itself is what the launcher starts
    assert bkd.find().words[0] in (str(BUILT), str(TOP / "release" / "bkd"), str(TOP / "bkd"), os.environ.get("BKD"))


# ---- what is kept beside the files

def test_ranges_are_opened_as_ranges(program, tmp_path):
    bkd.open_ranges(tmp_path / "r", create=True, program=program).close()
    bkd.open(tmp_path / "p", create=True, program=program).close()
    for use, text in ((lambda: bkd.open(tmp_path / "r", program=program), "holds ranges, not points"),
                      (lambda: bkd.open_ranges(tmp_path / "p", program=program), "holds points, not ranges")):
        with pytest.raises(bkd.OtherKind, match=text):
            use()
    # a folder that the program made alone may be either
    (tmp_path / "r" / kept.NAME).unlink()
    bkd.open(tmp_path / "r", program=program).close()
    bkd.open_ranges(tmp_path / "r", program=program).close()


def test_a_scale_is_kept(program, tmp_path):
    with bkd.open(tmp_path, create=True, decimals=6, program=program) as index:
        assert index.decimals == 6
        berlin = index.add((13.404954, 52.520008))
        paris, rome = index.add_many([(2.352222, 48.856613), ("12.496366", 41.902782)])
        assert index.box((0, 45), (15, 55)) == [berlin, paris]
        assert index.nearest(1, (12, 42)) == [(rome, 255830545480)]
        assert index.polygon([[(0, 40), (20, 40), (20, 50), (0, 50), (0, 40)]]) == [paris, rome]
        assert index.delete_box((12.4, 41.9), (12.5, 42)) == 1
        for wrong in ((float("nan"), 0), (3000, 0), ("x", 0), (None, 1)):
            with pytest.raises((ValueError, TypeError)):
                index.add(wrong)
        index.commit()
        assert index.count((0, 0), (90, 90)) == 2 and index.info().decimals == 6
        assert list(index)[0] == (0, ((13404954, 52520008),))
    with bkd.open(tmp_path, program=program) as index:
        assert index.decimals == 6 and index.box((13.404954, 52.520008), (13.404954, 52.520008)) == [0]
        assert index.box((13.4049541, 52.520008), (13.404954, 52.520008)) == []
    with pytest.raises(bkd.OtherKind, match="has 6 decimals, not 7"):
        bkd.open(tmp_path, decimals=7, program=program)
    bkd.open(tmp_path / "whole", create=True, program=program).close()
    with pytest.raises(bkd.OtherKind, match="has no scale, not 7"):
        bkd.open(tmp_path / "whole", decimals=7, program=program)


@pytest.mark.parametrize("text", ["{", "[]", '{"holds": "lines"}', '{"holds": "points", "decimals": "x"}'])
def test_a_note_that_can_not_be_understood(program, tmp_path, text):
    bkd.open(tmp_path, create=True, program=program).close()
    (tmp_path / kept.NAME).write_text(text)
    with pytest.raises(bkd.OtherKind):
        bkd.open(tmp_path, program=program)


def test_what_a_client_of_today_keeps_is_small(program, tmp_path):
    bkd.open(tmp_path, create=True, decimals=7, program=program).close()
    assert (tmp_path / kept.NAME).read_text() == '{"holds": "points", "decimals": 7}\n'
