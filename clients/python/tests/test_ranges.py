"""Documents that have ranges: the client's queries over a session beside the program's own command, and a list."""
import random
import subprocess

import pytest

import bkd
from bkd import ranges
from conftest import need


def drawn(count, dims, seed=1, wide=50):
    draw = random.Random(seed)

    def one():
        ends = [sorted((draw.randint(-wide, wide), draw.randint(-wide, wide))) for _ in range(dims)]
        return tuple(low for low, _ in ends), tuple(high for _, high in ends)

    return [[one() for _ in range(draw.choice((1, 1, 2, 5)))] for _ in range(count)]


def meets(low, high, lo, hi):
    return all(a <= d and c <= b for a, b, c, d in zip(low, high, lo, hi))


def lies(low, high, lo, hi):
    return all(c <= a and b <= d for a, b, c, d in zip(low, high, lo, hi))


def listed(documents, test, lo, hi):
    return [n for n, found in documents.items() if any(test(low, high, lo, hi) for low, high in found)]


@pytest.mark.parametrize("dims", [1, 2, 4])
def test_as_a_list(program, tmp_path, dims):
    with bkd.open_ranges(tmp_path, dims, create=True, program=program) as index:
        made = drawn(300, dims)
        documents = dict(zip(index.add_many(made), made))
        assert index.dims == dims and len(index) == 300
        assert index.delete_many(range(0, 300, 7)) == 43
        documents = {n: found for n, found in documents.items() if n % 7}
        for [(lo, hi), *_] in drawn(25, dims, 2):
            assert index.intersects(lo, hi) == listed(documents, meets, lo, hi)
            assert index.within(lo, hi) == listed(documents, lies, lo, hi)
            assert index.contains(lo, hi) == [n for n, found in documents.items()
                                              if any(lies(lo, hi, low, high) for low, high in found)]
        index.commit()
        assert dict(index) == {n: tuple(sorted(set(found))) for n, found in documents.items()}


def test_as_the_command_of_the_program(real, tmp_path):
    need(real, "ranges")
    with bkd.open_ranges(tmp_path / "a", 2, create=True, program=real) as index:
        made = drawn(200, 2)
        index.add_many(made)
        asked = [ends for [ends, *_] in drawn(30, 2, 3)]
        values = index.ask([verb(lo, hi) for lo, hi in asked
                            for verb in (ranges.intersects, ranges.within, ranges.contains)])
    script = ["create 2"] + ["add" + "".join(f" {c}" for low, high in found for c in low + high) for found in made]
    verbs = ("intersects", "within", "contains")
    script += [" ".join(map(str, (verb, *lo, *hi))) for lo, hi in asked for verb in verbs]
    (tmp_path / "b").mkdir()
    run = subprocess.run([*real.words, tmp_path / "b", "ranges"], input="\n".join(script), capture_output=True,
                         text=True)
    said = run.stdout.split("hits ")[1:]
    assert run.returncode == 0 and [list(map(int, one.split()[1:])) for one in said] == values
    # and the one reads what the other wrote
    with bkd.open_ranges(tmp_path / "b", program=real) as index:
        assert index.dims == 2 and index.intersects(*asked[0]) == values[0]
    run = subprocess.run([*real.words, tmp_path / "a", "ranges"], input=script[-3], capture_output=True, text=True)
    assert list(map(int, run.stdout.split()[2:])) == values[-3]


def test_opening_hours(program, tmp_path):
    with bkd.open_ranges(tmp_path, create=True, program=program) as hours:
        assert hours.add((540, 1080)) == 0 and hours.add((600, 720), (780, 1320)) == 1
        assert hours.intersects(1100, 1200) == [1] and hours.contains(700, 800) == [0]
        with hours.snapshot("then") as then:
            assert hours.delete(0) and not hours.delete(0)
            assert then.contains(700, 800) == [0] and hours.contains(700, 800) == []
        hours.rollback()
        assert len(hours) == 0
        hours.add((1, 2))
    with bkd.open_ranges(tmp_path, read=True, program=program) as hours:
        assert hours.within(0, 9) == [0]
        with pytest.raises(bkd.ReadOnly):
            hours.add((1, 2))


def test_what_is_no_range(program, tmp_path):
    numpy = pytest.importorskip("numpy")
    with bkd.open_ranges(tmp_path, create=True, program=program) as index:
        for wrong in (lambda: index.add((5, 1)), lambda: index.within(5, 1), lambda: index.add((1, (2, 3))),
                      lambda: index.add_many(numpy.array([[1, 2], [5, 1]]))):
            with pytest.raises(bkd.Refused, match="not a range"):
                wrong()
        with pytest.raises(bkd.Refused, match="not a range"):
            index.add_many([[(1, 2)], [(2, 1)]])
        with pytest.raises(bkd.Refused, match="wrong words"):
            index.add(*[(i, i) for i in range(17)])
        assert len(index) == len(index.given) == 0
        assert index.add_many(numpy.array([[1, 2], [3, 5]])) == range(2) and index.within(3, 5) == [1]
    for wrong in (0, 5, "1"):
        with pytest.raises((ValueError, TypeError)):
            bkd.open_ranges(tmp_path / "b", wrong, create=True, program=program)
    with bkd.open(tmp_path / "c", 3, create=True, program=program):
        pass
    (tmp_path / "c" / "client.json").unlink()
    with pytest.raises(ValueError, match="which are no ranges"):
        bkd.open_ranges(tmp_path / "c", program=program)
    with pytest.raises(ValueError, match="2 dimensions"):
        bkd.open_ranges(tmp_path, 2, program=program)
