"""What goes wrong is told with its line, file and cause, by exceptions that go whole to another process."""
import os
import pickle

import pytest

import bkd
from bkd import lock, requests
from bkd.errors import cause_of, fault_of, notes_on
from conftest import STAND_IN

FULL = "bkd: writing seg-0000000000000003.bkd: no space left on device\n"


@pytest.mark.parametrize("status, said, kind, file, cause", [
    (4, FULL + "folder fault\n", bkd.FolderFault, "seg-0000000000000003.bkd",
     "writing seg-0000000000000003.bkd: no space left on device"),
    (4, "folder fault\n", bkd.FolderFault, None, None),
    (4, "another line\n" + FULL + "folder fault\n", bkd.FolderFault, "seg-0000000000000003.bkd",
     "writing seg-0000000000000003.bkd: no space left on device"),
    (4, "bkd: bringing to the disk commit.new: input/output error\nfolder fault\n", bkd.FolderFault, "commit.new",
     "bringing to the disk commit.new: input/output error"),
    (4, "bkd: bringing the names in the folder to the disk: input/output error\nfolder fault\n", bkd.FolderFault, None,
     "bringing the names in the folder to the disk: input/output error"),
    (4, FULL + "something else\nfolder fault\n", bkd.FolderFault, None, None),
    (4, "bkd: line 2: expected: add C1 .. CD\n" + FULL + "folder fault\n", bkd.FolderFault,
     "seg-0000000000000003.bkd", "writing seg-0000000000000003.bkd: no space left on device"),
    (4, "bkd: line 2: expected: add C1 .. CD\nfolder fault\n", bkd.FolderFault, None, None),
    (3, "bkd: reading the input: input/output error\nsource fault\n", bkd.SourceFault, None,
     "reading the input: input/output error"),
    (7, "out of memory\n", bkd.OutOfMemory, None, None),
])
def test_causes(status, said, kind, file, cause):
    error = fault_of(status, said, 3, "add 1 1")
    assert type(error) is kind and (error.file, error.cause, error.done, error.last) == (file, cause, 3, "add 1 1")
    assert cause is None or cause in str(error)
    again = pickle.loads(pickle.dumps(error))
    assert type(again) is kind and str(again) == str(error) and again.__dict__ == error.__dict__


@pytest.mark.parametrize("note", ["another run works in the folder", "the folder is held by another run",
                                  "another run has committed meanwhile: run this again"])
def test_another_run_on_the_folder(note):
    error = fault_of(4, f"bkd: {note}\nfolder fault\n")
    assert type(error) is bkd.Locked and note in str(error) and error.cause == note


def test_words_that_the_program_refuses():
    error = fault_of(1, "bkd: expected, each option once: run\nbkd: --cache: 1 to 65,536\nusage: bkd FOLDER run|load\n")
    assert type(error) is bkd.Unsupported
    assert str(error).endswith("doesn't know these words: expected, each option once: run; --cache: 1 to 65,536")
    assert cause_of("") is None and cause_of("usage: x") is None and cause_of("bkd: a\nb\n") == "a"


def test_damage_has_its_file():
    error = fault_of(6, "bkd: see rescue\ndamaged: seg-0000000000000000.bkd page 2\n", 1, "box 0 0 1 1")
    assert type(error) is bkd.Damaged
    assert (error.file, error.page, error.kind, error.cause) == ("seg-0000000000000000.bkd", 2, "page", "see rescue")


def test_the_program_is_asked_for_its_notes(tmp_path, monkeypatch, stand_in):
    """A session, and a command that runs once, tell the note that stands before the fault."""
    bkd.open(tmp_path, create=True, program=stand_in).close()
    monkeypatch.setenv("STAND_IN_AT", "3:noted")
    index = bkd.open(tmp_path, program=stand_in)
    index.add((1, 1))
    with pytest.raises(bkd.FolderFault) as told:
        index.commit()
    assert told.value.file == "seg-0000000000000003.bkd" and told.value.cause.endswith("no space left on device")
    assert (told.value.done, told.value.last) == (2, "add 1 1")
    monkeypatch.setenv("STAND_IN_AT", "1:noted")
    with pytest.raises(bkd.FolderFault, match="no space left on device"):
        bkd.open(tmp_path, program=stand_in)
    monkeypatch.setenv("STAND_IN_COMMANDS", "batch")
    with pytest.raises(bkd.FolderFault, match="no space left on device"):
        bkd.batch(tmp_path, [requests.box((0, 0), (1, 1))], program=bkd.find(STAND_IN))


NOTE = "expected: add C1 .. CD, as in: add 1 2"


def test_notes_of_lines():
    said = "bkd: opening\nbkd: line 2: a\nbkd: line 11: b: c\nbkd: line 2: d\nrefused 2\n"
    assert notes_on(said) == {2: "a; d", 11: "b: c"}
    assert notes_on("") == notes_on("bkd: line x: a\n bkd: line 1: a\n") == {}


def test_a_refusal_has_the_note_of_its_line(tmp_path, monkeypatch, stand_in):
    """Whichever way a line went: alone, among others, among many, or to a command that runs once."""
    monkeypatch.setenv("STAND_IN_NOTES", "1")
    with bkd.open(tmp_path, create=True, program=stand_in) as index:
        index.add((1, 1))
        for wrong in (lambda: index.add((1, 2, 3)), lambda: index.add_many([(1, 1), (1, 2, 3), (2, 2)])):
            with pytest.raises(bkd.Refused, match=NOTE) as told:
                wrong()
            assert (told.value.cause, told.value.reason, told.value.line) == (NOTE, "wrong words", "add 1 2 3")
        assert list(told.value.answers) == [1, 2]
        values = index.ask([requests.add((5, 5)), requests.add((1, 2, 3)), requests.add((6, 6))])
        assert (values[0], values[1].cause, values[2]) == (3, NOTE, 4)
        assert pickle.loads(pickle.dumps(values[1])).cause == NOTE
    monkeypatch.setenv("STAND_IN_COMMANDS", "batch")
    once = bkd.batch(tmp_path, [requests.box((0, 0), (9, 9)), requests.nearest(0, (1, 1))],
                     program=bkd.find(STAND_IN))
    assert once[0] == [0, 1, 2, 3, 4] and once[1].cause == NOTE


def test_a_refusal_without_a_note(tmp_path, stand_in):
    with bkd.open(tmp_path, create=True, program=stand_in) as index:
        with pytest.raises(bkd.Refused) as told:
            index.add((1, 2, 3))
    assert told.value.cause is None and str(told.value) == "wrong words: add 1 2 3"


def test_the_notes_of_lines_are_no_cause_of_a_fault(tmp_path, monkeypatch, stand_in):
    monkeypatch.setenv("STAND_IN_NOTES", "1")
    bkd.open(tmp_path, create=True, program=stand_in).close()
    monkeypatch.setenv("STAND_IN_AT", "3:damaged")
    index = bkd.open(tmp_path, program=stand_in)
    with pytest.raises(bkd.Refused, match=NOTE):
        index.add((1, 2, 3))
    with pytest.raises(bkd.Damaged) as told:
        index.add((1, 1))
    assert (told.value.file, told.value.cause, told.value.last) == ("seg-0000000000000000.bkd", None, "add 1 2 3")


def test_a_lock_has_its_folder_and_the_note(real, tmp_path):
    bkd.open(tmp_path, create=True, program=real).close()
    with lock.locked(os.fspath(tmp_path)):
        for ask in (lambda: bkd.open(tmp_path, program=real, wait=0), lambda: bkd.check(tmp_path, program=real)):
            with pytest.raises(bkd.Locked) as told:
                ask()
            error = pickle.loads(pickle.dumps(told.value))
            assert (error.folder, error.cause) == (str(tmp_path), "another run works in the folder")
            assert error.cause in str(error)
    with bkd.open(tmp_path, program=real):
        with pytest.raises(bkd.Locked, match="this process has") as told:
            bkd.open(tmp_path, program=real)
        assert (told.value.folder, told.value.cause) == (str(tmp_path), None)


def test_words_have_the_note_as_cause(real, tmp_path):
    """What a caller can't say by the client, as a program of another age would refuse it."""
    with pytest.raises(bkd.Unsupported, match="run takes no --foo"):
        real.output(str(tmp_path), ["run", "--foo"])


def test_a_refusal_has_its_line(program, tmp_path):
    with bkd.open(tmp_path, create=True, program=program) as index:
        with pytest.raises(bkd.Refused) as told:
            index.add((1, 1 << 31))
    error = told.value
    assert (error.line, error.reason) == (f"add 1 {1 << 31}", "bad number in word 3") and error.number >= 3
    again = pickle.loads(pickle.dumps(error))
    assert str(again) == str(error) and again.line == error.line
