"""Bytes of the formats and what they spell: values worked out by hand, apart from this package."""
import pytest

from bkd.formats.commit import Commit, Listed, parse_commit
from bkd.formats.cursor import Cursor, Malformed, coordinate, key
from bkd.formats.leaf import read_leaf
from bkd.formats.live import parse_live
from bkd.formats.pages import FileName, is_own_name
from bkd.formats.tree import Place, read_tree

LOW, HIGH = -(1 << 31), (1 << 31) - 1
LEAF = "000200000380000000000507"


def anywhere(dims):
    return (LOW,) * dims, (HIGH,) * dims


@pytest.mark.parametrize("value, spelled",
                         [(LOW, "00000000"), (-1, "7fffffff"), (0, "80000000"), (5, "80000005"), (HIGH, "ffffffff")])
def test_keys(value, spelled):
    assert key(value).hex() == spelled and coordinate(bytes.fromhex(spelled)) == value


@pytest.mark.parametrize("value, spelled",
                         [(0, "00"), (127, "7f"), (128, "8001"), (300, "ac02"), (333, "cd02"),
                          (2**32 - 1, "ffffffff0f")])
def test_vints(value, spelled):
    cursor = Cursor(bytes.fromhex(spelled))
    assert cursor.vint() == value
    cursor.end()


@pytest.mark.parametrize("spelled", ["8000", "80", "", "ffffffff10", "ffffffffff01", "8080808000"])
def test_what_is_no_vint(spelled):
    with pytest.raises(Malformed):
        Cursor(bytes.fromhex(spelled)).vint()


@pytest.mark.parametrize("spelled, dims, numbers, columns", [
    (LEAF, 1, (0, 1), ((5, 7),)),
    ("000200020480000007", 1, (2, 3), ((7, 7),)),
    ("000100040480000007", 1, (4,), ((7,),)),
    ("000501030001060205030380000080000000010201020201141e0a3228", 2, (3, 4, 9, 5, 8),
     ((1, 1, 1, 2, 2), (20, 30, 10, 50, 40))),
])
def test_leaves(spelled, dims, numbers, columns):
    leaf = read_leaf(bytes.fromhex(spelled), dims, len(numbers), anywhere(dims))
    assert leaf.numbers == numbers and leaf.columns == columns


@pytest.mark.parametrize("spelled, count, cell", [
    (LEAF, 1, anywhere(1)),                                 # another count than said
    ("000201000001" + LEAF[8:], 2, anywhere(1)),            # numbers that follow one by one, in form 1
    (LEAF[:20] + "0705", 2, anywhere(1)),                   # entries out of order
    (LEAF + "00", 2, anywhere(1)),                          # a byte more
    (LEAF[:-2], 2, anywhere(1)),                            # a byte less
    (LEAF, 2, ((5,), (6,))),                                # an entry out of its cell
    (LEAF, 2, ((6,), (7,))),
    ("0002000002" + "8000" + "0000" + "0000" + "0507", 2, anywhere(1)),     # a prefix shorter than it is
    ("000200000480000005", 1, anywhere(1)),
    ("000200000380000000010201" + "0500" + "0700", 2, anywhere(1)),         # runs where plain is shorter
    ("00020201" + "0000" + "0005" + "0380000000000507", 2, anywhere(1)),    # two bytes where one holds them
    ("00020101" + "01" + "05" + "0380000000000507", 2, anywhere(1)),        # a least number that is less than all
    ("000200ffffff07" + LEAF[8:], 2, anywhere(1)),          # numbers above the greatest
    ("000204" + LEAF[6:], 2, anywhere(1)),
])
def test_what_is_no_leaf(spelled, count, cell):
    with pytest.raises(Malformed):
        read_leaf(bytes.fromhex(spelled), 1, count, cell)


def test_a_leaf_sorted_by_the_wrong_dimension():
    # both dimensions take two values behind their prefix, and the least dimension is the sorted one
    right = "0002000003038000008000000000" + "0102" + "0304"
    wrong = "0002000003038000008000000100" + "0304" + "0102"
    assert read_leaf(bytes.fromhex(right), 2, 2, anywhere(2)).columns == ((1, 2), (3, 4))
    with pytest.raises(Malformed):
        read_leaf(bytes.fromhex(wrong), 2, 2, anywhere(2))


TABLE = "800000058000000700800000070080000007" + "000000000000000c" + "00000000000c0009" + "0000000000150009"
PACKED = "80000005800000070307001506" + "04000c010c09" + "09"
CELLS = ("8000000580000007" + "0307001516" + "04000c09" + "0c8000000580000007" + "098000000780000007"
         + "098000000780000007")
PLACES = (Place(0, 0, 12), Place(0, 12, 9), Place(0, 21, 9))


@pytest.mark.parametrize("form, body, cells", [
    (1, TABLE, [((5,), (7,)), ((7,), (7,)), ((7,), (7,))]),
    (2, PACKED, [((5,), (7,)), ((7,), (7,)), ((7,), (7,))]),
    (3, CELLS, [((5,), (7,)), ((7,), (7,)), ((7,), (7,))]),
    (3, CELLS.replace("0c8000000580000007", "0c8000000580000005"), [((5,), (5,)), ((7,), (7,)), ((7,), (7,))]),
])
def test_trees(form, body, cells):
    tree = read_tree(form, 1, 3, bytes.fromhex(body))
    assert tree.places == PLACES and tree.root == ((5,), (7,)) and tree.leaf_pages == 1
    assert [cell for _, cell in tree.leaves()] == cells
    assert [(node.depth, node.split, node.leaf) for node in tree.nodes] == [
        (0, (0, 7), None), (1, (0, 7), None), (2, None, 0), (2, None, 1), (1, None, 2)]


@pytest.mark.parametrize("form, body", [
    (2, PACKED[:16] + "020007" + PACKED[20:]),      # a prefix shorter than the key shares
    (2, PACKED.replace("001506", "001505")),        # another length of the left child
    (2, PACKED.replace("001506", "001406")),        # another place of the right child
    (2, PACKED + "00"),
    (2, PACKED[:-2]),
    (2, TABLE),
    (1, TABLE.replace("00000000000c0009", "00000000000d0009")),
    (1, TABLE.replace("00800000070080000007", "01800000070080000007")),     # a dimension that isn't there
    (1, TABLE.replace("00800000070080000007", "00800000080080000007")),     # a split value out of its cell
    (1, TABLE[:16].replace("8000000580000007", "8000000780000005") + TABLE[16:]),
    (3, CELLS.replace("0c8000000580000007", "0c8000000480000007")),         # an own cell out of its path cell
])
def test_what_is_no_tree(form, body):
    with pytest.raises(Malformed):
        read_tree(form, 1, 3, bytes.fromhex(body))


LIVE = "424b44504c495631" + "0000000000000002" + "0000000000000001" + "00000003" + "00000007" + "00000003" + "43"


def test_live_bits():
    live = parse_live(2, 1, bytes.fromhex(LIVE))
    assert list(live) == [3, 4, 9] and live.count == 3
    assert [n for n in range(12) if n in live] == [3, 4, 9]


@pytest.mark.parametrize("segment, body", [
    (3, LIVE), (2, LIVE + "00"), (2, LIVE[:-2]), (2, LIVE[:-2] + "c3"), (2, LIVE[:-10] + "00000002" + "43"),
    (2, LIVE.replace("0000000300000007", "00ffffff00000007")),
])
def test_what_are_no_live_bits(segment, body):
    with pytest.raises(Malformed):
        parse_live(segment, 1, bytes.fromhex(body))


SEGMENT = "0000000000000000" + "0000000000000001" + "00000001" + "00000001"
FIRST = "424b4450434f4d31" + "02014d00000001" + "0000000000000001" + "0001" + SEGMENT
SECOND = ("424b4450434f4d32" + "02014d" + "00000001" + "00000002" + "0000000000000001" + "0001" + SEGMENT[:32]
          + "0000000200000001")


@pytest.mark.parametrize("body, commit", [
    (FIRST, Commit(2, 333, 1, 1, 1, (Listed(0, 1, 1, 1),))),
    (SECOND, Commit(2, 333, 1, 2, 1, (Listed(0, 1, 2, 1),))),
    ("424b4450434f4d31" + "02014d" + "01000000" + "0000000000000000" + "0000", Commit(2, 333, 1 << 24, 1 << 24, 0, ())),
])
def test_commits(body, commit):
    assert parse_commit(bytes.fromhex(body)) == commit


@pytest.mark.parametrize("body", [
    FIRST.replace("434f4d31", "434f4d33"), FIRST + "00", FIRST[:-2],
    SECOND.replace("00000002" + "0000", "00000000" + "0000", 1),
    FIRST.replace("02014d", "02014e"), FIRST.replace("02014d", "09014d"), FIRST.replace("02014d", "020001"),
    FIRST[:-8] + "00000002", FIRST[:-16] + "0000000000000000",
    FIRST[:46] + "0002" + SEGMENT + SEGMENT,
    FIRST.replace("00000001" + "0000000000000001", "00000001" + "0000000000000000", 1),
    "424b4450434f4d31" + "02014d" + "01000001" + "0000000000000000" + "0000",
])
def test_what_is_no_commit(body):
    with pytest.raises(Malformed):
        parse_commit(bytes.fromhex(body))


def test_names():
    assert FileName.segment(10).text == "seg-000000000000000a.bkd"
    assert FileName.live(10, 255).text == "live-000000000000000a-00000000000000ff.bkd"
    own = [FileName.segment(2**64 - 1).text, FileName.live(0, 1).text, "commit.bkd", "commit.new"]
    assert all(map(is_own_name, own))
    assert not any(map(is_own_name,
                       ["seg-000000000000000A.bkd", "seg-0.bkd", "commit.bkd2", "live-" + "0" * 16 + ".bkd", "a"]))
