"""What is exported, cleaned and drawn is what the program says is there."""
import io
import os
import subprocess

import pytest

import bkd
from bkd import exporting, requests
from bkd.formats import open_stored
from conftest import REAL, need


def made(folder, program, leaf=3):
    """An index with several segments, deletions, documents of several points, and files that are left over."""
    with bkd.open(folder, leaf=leaf, create=True, program=program) as index:
        index.ask([requests.add((i * 7 % 50, i * 3 % 40)) for i in range(60)] + [requests.FLUSH])
        index.ask([requests.add([(i, -i), (i, i), (0, 0)]) for i in range(20)] + [requests.FLUSH])
        index.ask([requests.delete(i) for i in range(0, 80, 9)])
        index.add((99, 99))
    return folder


def damaged(folder):
    """Changes a byte of a leaf, and answers its file."""
    segment = next(name for name in sorted(os.listdir(folder)) if name.startswith("seg-"))
    data = bytearray((folder / segment).read_bytes())
    data[-5000] ^= 1
    (folder / segment).write_bytes(data)
    return segment


def test_export(filed, tmp_path):
    documents = dict(bkd.export(made(tmp_path / "a", filed)))
    wanted = {i: ((i * 7 % 50, i * 3 % 40),) for i in range(60)}
    wanted |= {60 + i: tuple(sorted({(i, -i), (i, i), (0, 0)})) for i in range(20)} | {80: ((99, 99),)}
    wanted = {n: points for n, points in wanted.items() if n >= 80 or n % 9}
    assert documents == wanted and list(documents) == sorted(documents)


def test_export_by_the_program(has, tmp_path):
    """The command's text is read as it comes; the second reader says the same where there are files."""
    program = has("export")
    with bkd.open(tmp_path, leaf=3, create=True, program=program) as index:
        index.add_many([(i, -i), (i, i), (0, 0)] for i in range(500))
        index.delete_many(range(0, 500, 9))
        index.commit()
        wanted = [(i, tuple(sorted({(i, -i), (i, i), (0, 0)}))) for i in range(500) if i % 9]
        assert list(index) == list(index.export()) == wanted
        first = next(iter(index))
        assert first == wanted[0]
    assert list(bkd.export(tmp_path, program=program)) == wanted
    if program is REAL:
        assert list(exporting._of_files(str(tmp_path))) == wanted
    (tmp_path / "none").mkdir()
    with pytest.raises(bkd.NoIndex):
        bkd.export(tmp_path / "none", program=program)


def test_info(has, real, tmp_path):
    """By the program's command, and by the commit's file where there is none."""
    with bkd.open(tmp_path, create=True, program=real) as index:
        index.add_many([(1, 1), [(2, 2), (3, 3)], (4, 4)])
        index.flush()
        index.delete(0)
    sizes = sum(path.stat().st_size for path in tmp_path.iterdir() if path.suffix == ".bkd")
    lacking = bkd.Program(real.words)
    lacking.commands = real.commands - {"info"}
    found = bkd.info(tmp_path, program=lacking)
    assert found == bkd.Info(2, 333, 3, 4, 2, 1, sizes)
    with pytest.raises(bkd.NoIndex):
        bkd.info(tmp_path.parent, program=lacking)
    program = has("info")
    with bkd.open(tmp_path / "a", create=True, program=program) as index:
        index.add_many([(1, 1), [(2, 2), (3, 3)], (4, 4)])
        index.commit()
        told = index.info()
        assert (told.dims, told.leaf, told.next, told.points, told.live) == (2, 333, 3, 4, 3) and len(index) == 3
    with bkd.open(tmp_path / "a", read=True, program=program) as index:
        assert len(index) == 3
    (tmp_path / "b").mkdir()
    with pytest.raises(bkd.NoIndex):
        bkd.info(tmp_path / "b", program=program)


def test_built_anew_with_another_leaf_size(filed, tmp_path):
    folder = made(tmp_path / "a", filed)
    documents = list(bkd.export(folder))
    with bkd.open(tmp_path / "b", leaf=100, create=True, program=filed) as index:
        numbers = index.add_many(points for _, points in documents)
        anew = dict(zip((number for number, _ in documents), numbers))
        with bkd.open(folder, create=True, program=filed) as old:
            for low, high in (((0, 0), (50, 50)), ((-5, -5), (5, 5)), ((99, 99), (99, 99))):
                assert [anew[n] for n in old.box(low, high)] == index.box(low, high)


def test_csv(real, filed, tmp_path):
    folder = made(tmp_path / "a", filed)
    text = io.StringIO()
    lines = bkd.export_csv(folder, text)
    rows = text.getvalue().splitlines()
    assert rows[0] == "doc,c1,c2" and len(rows) == lines + 1 and rows[-1] == "80,99,99"
    assert bkd.load(tmp_path / "b", ["c1", "c2"], text.getvalue(), program=real) == (lines, lines)
    named = io.StringIO()
    bkd.export_csv(folder, named, ["x", "y"])
    assert named.getvalue() == text.getvalue().replace("c1,c2", "x,y")
    with pytest.raises(ValueError):
        bkd.export_csv(folder, named, ["x"])


def test_csv_of_ranges(has, tmp_path):
    """The lower ends, then the upper ones; as the program's own option has them."""
    program, text = has("export"), io.StringIO()
    with bkd.open_ranges(tmp_path / "a", 2, create=True, program=program) as index:
        index.add(((1, 2), (3, 4)), ((0, 0), (9, 9)))
        index.add(((-5, 5), (5, 5)))
        index.commit()
        assert list(index.export()) == [(0, (((0, 0), (9, 9)), ((1, 2), (3, 4)))), (1, (((-5, 5), (5, 5)),))]
    assert bkd.export_csv(tmp_path / "a", text, as_ranges=True, program=program) == 3
    assert text.getvalue() == "doc,l1,l2,h1,h2\n0,0,0,9,9\n0,1,2,3,4\n1,-5,5,5,5\n"
    words = [*program.words, tmp_path / "a", "export", "--as-ranges"]
    assert subprocess.run(words, stdin=subprocess.DEVNULL, capture_output=True, text=True).stdout == text.getvalue()
    bkd.open(tmp_path / "b", 3, create=True, program=program).close()
    with pytest.raises(bkd.Refused, match="not ranges"):
        bkd.export_csv(tmp_path / "b", text, as_ranges=True, program=program)


def test_arrays_of_all(has, tmp_path, monkeypatch):
    """By the program's command, and from the files; of an index without documents too."""
    numpy = pytest.importorskip("numpy")
    monkeypatch.setattr(exporting, "_LINES", 1000)
    program = has("export")
    with bkd.open(tmp_path, leaf=3, create=True, program=program) as index:
        numbers, points = index.to_arrays()
        assert numbers.shape == (0,) and points.shape == (0, 2)
        index.add_many([(i % 7, -i), (i, i)] for i in range(3000))
        index.delete_many(range(0, 3000, 9))
        before = index.to_arrays()
        index.commit()
        numbers, points = index.to_arrays()
        assert (before[0] == numbers).all() and (before[1] == points).all()
        assert (before[0].dtype, before[1].dtype) == (numpy.uint32, numpy.int32)
        assert (numbers.dtype, points.dtype) == (numpy.uint32, numpy.int32)
        wanted = [(number, *point) for number, document in index for point in document]
        assert numpy.column_stack([numbers, points]).tolist() == [list(row) for row in wanted]
    again = bkd.to_arrays(tmp_path, program=program)
    assert (again[0] == numbers).all() and (again[1] == points).all()


def test_an_export_of_a_damaged_folder(real, tmp_path):
    """Nothing of it is answered."""
    need(real, "export")
    folder = made(tmp_path / "a", real)
    segment = damaged(folder)
    for use in (bkd.export, bkd.to_arrays, lambda at, program: bkd.export_csv(at, io.StringIO(), program=program)):
        with pytest.raises(bkd.Damaged) as told:
            use(folder, program=real)
        assert told.value.file == segment


def test_no_index(tmp_path, stand_in):
    for use in (lambda: bkd.export(tmp_path), lambda: bkd.clean(tmp_path, program=stand_in)):
        with pytest.raises(bkd.NoIndex):
            use()


def test_clean(filed, tmp_path):
    folder = made(tmp_path / "a", filed)
    bkd.clean(folder, program=filed)
    before = sorted(os.listdir(folder))
    assert bkd.clean(folder, program=filed) == [] and sorted(os.listdir(folder)) == before
    left = ["commit.new", "live-00000000000000ff-0000000000000001.bkd", "seg-00000000000000ff.bkd"]
    for name in left + ["mine.txt", "seg-x.bkd"]:
        (folder / name).write_bytes(b"x")
    assert bkd.clean(folder, program=filed) == left
    assert sorted(os.listdir(folder)) == sorted(before + ["mine.txt", "seg-x.bkd"])


def test_nothing_is_cleaned_in_a_damaged_folder(filed, tmp_path):
    folder = made(tmp_path / "a", filed)
    (folder / "commit.new").write_bytes(b"x")
    segment = damaged(folder)
    with pytest.raises(bkd.Damaged) as told:
        bkd.clean(folder, program=filed)
    assert told.value.file == segment and (folder / "commit.new").exists()


@pytest.mark.slow
def test_pictures(filed, tmp_path):
    plot = pytest.importorskip("bkd.plot")
    from matplotlib.figure import Figure
    folder = made(tmp_path / "a", filed)
    with bkd.open(folder, create=True, program=filed) as index:
        hits, near = index.box((0, 0), (20, 20)), index.nearest(5, (30, 30))
    plot.picture(folder, tmp_path / "a.png", query=((0, 0), (20, 20)), hits=hits)
    assert (tmp_path / "a.png").read_bytes().startswith(b"\x89PNG")
    axes = Figure().add_subplot()
    plot.points(axes, folder)
    dead, live = (len(drawn.get_offsets()) for drawn in axes.collections)
    stored = open_stored(folder)
    assert live == sum(len(points) for _, points in bkd.export(folder))
    assert live + dead == sum(part.listed.entries for part in stored.parts)
    plot.cells(axes, stored)
    assert sum(len(c.get_paths()) for c in axes.collections[2:]) == sum(p.segment.head.leaves for p in stored.parts)
    plot.polygon(axes, [[(0, 0), (9, 0), (9, 9), (0, 0)], [(1, 1), (2, 1), (2, 2), (1, 1)]])
    plot.nearest(axes, (30, 30), near)
    assert len(axes.patches) == 2
    with bkd.open(tmp_path / "line", 1, create=True, program=filed) as index:
        index.add_many(range(1000))
    plot.picture(tmp_path / "line", tmp_path / "line.png")
