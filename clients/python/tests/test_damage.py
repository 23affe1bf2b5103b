"""Some of the changes of bench/damage.py: a byte at a time, over which `check`, the second reader and a run agree."""
import damage
import pytest

from conftest import need

CHANGES = 120


@pytest.mark.parametrize("name", damage.FOLDERS)
def test_a_byte_changed(real, name):
    need(real, "check")
    counts, wrong = damage.part(real.words, name, CHANGES, 0, 1)
    assert wrong == []
    assert sum(counts.values()) == CHANGES
    assert {kind for _, kind, _ in counts} >= {"page", "body", "leaf", "ok"}


def test_what_is_wrong_is_told(real, tmp_path):
    """A program that says ok of every folder."""
    liar = tmp_path / "liar"
    liar.write_text(f"#!/bin/sh\n[ $2 = check ] && echo ok dims 2 leaf 3 next 47 live 45 segments 2 && exit\n"
                    f"exec {' '.join(real.words)} \"$@\"\n")
    liar.chmod(0o755)
    counts, wrong = damage.part([str(liar)], "flat", 20, 0, 1)
    assert len(wrong) >= 10 and all("check (0, 'ok dims" in line for line in wrong)
