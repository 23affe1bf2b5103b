"""Watches the checks that one rt ci starts, and counts the processor seconds of each."""
import os
import time

TICKS = os.sysconf("SC_CLK_TCK")
PARTS = ("src", "specs", "proofs")
PROOF, TESTS, SEED, EDITS, SOUND, OTHER = "proof", "tests", "seed", "edits", "sound", "other"


def stat(pid):
    """Returns the process's own processor seconds, those of its ended children, and when it began;
    none where it is gone."""
    try:
        with open(f"/proc/{pid}/stat", "rb") as it:
            said = it.read().rpartition(b")")[2].split()
        return (int(said[11]) + int(said[12])) / TICKS, (int(said[13]) + int(said[14])) / TICKS, int(said[19])
    except (OSError, IndexError):
        return None


def children(pid):
    found = []
    try:
        for thread in os.listdir(f"/proc/{pid}/task"):
            with open(f"/proc/{pid}/task/{thread}/children", "rb") as it:
                found += [int(it) for it in it.read().split()]
    except OSError:
        pass
    return found


def used(pid):
    """Returns what the process and all that it started have used, ended or not."""
    own = stat(pid)
    return own[0] + own[1] + sum(used(it) for it in children(pid)) if own else 0.0


def texts(folder):
    """Returns the crate's files and what stands in them."""
    found = {}
    for part in PARTS:
        for at, _, names in os.walk(f"{folder}/{part}"):
            for name in names:
                with open(f"{at}/{name}", "rb") as it:
                    found[os.path.relpath(f"{at}/{name}", folder)] = it.read()
    return found


def edit_in(crate, was, now):
    """Returns the name of the must-fail edit that makes these texts of the crate's own, if one does."""
    path = next((it for it in was if now.get(it) != was[it]), None)
    for at, _, names in os.walk(f"{crate}/must-fail"):
        for name in sorted(names):
            with open(f"{at}/{name}", encoding="utf-8", errors="replace") as it:
                lines = it.read().split("\n")
            text = was[path].decode(errors="replace") if f"file: {path}" in lines else ""
            for old, new in zip(lines, lines[1:]):
                if old.startswith("old: ") and new.startswith("new:"):
                    text = text.replace(old[5:], new[4:].removeprefix(" "))
            if text and text == now.get(path, b"").decode(errors="replace"):
                return name.removesuffix(".edit")
    return "an edit"


class Check:
    """A check that rt started: of which crate, what for, and its processor seconds so far."""

    def __init__(self):
        self.crate, self.kind, self.edit, self.seconds = None, OTHER, None, 0.0


class Gate:
    """One rt ci and what it has started since the watching began."""

    def __init__(self, pid):
        self.pid, self.began, self.folder = pid, time.time(), os.readlink(f"/proc/{pid}/cwd")
        own = stat(pid)
        self.born, self.before, self.own = own[2], own[1], own[0]
        self.ended, self.attributed = own[1], own[1]
        self.checks, self.live, self.pending, self.seeded = [], {}, [], set()
        self.other = 0.0

    def look(self):
        """Looks once, and returns whether the gate still runs."""
        own = stat(self.pid)
        if not own or own[2] != self.born:
            self.pending += self.live.values()
            self.live = {}
            self.settle(True)
            return False
        # (before the children, so that what ends meanwhile is counted at the next look)
        self.own, self.ended = own[0], own[1]
        there = {}
        for pid in children(self.pid):
            child = stat(pid)
            if not child:
                continue
            check = there[pid, child[2]] = self.live.get((pid, child[2])) or Check()
            if check.crate is None:
                self.name(check, pid)
            check.seconds = max(check.seconds, used(pid))
        self.pending += [it for key, it in self.live.items() if key not in there]
        self.live = there
        self.settle(False)
        return True

    def settle(self, is_end):
        """Gives the checks that ended what they used between the last look and their end."""
        # rt's guard is among the living, and no check
        checks = [it for it in self.pending if it.crate]
        left = self.ended - self.attributed - sum(it.seconds for it in self.pending)
        if left < -0.02 and not is_end:
            return
        for it in checks:
            it.seconds += max(left, 0) / len(checks)
        if not checks:
            self.other += max(left, 0)
        self.other += sum(it.seconds for it in self.pending if not it.crate)
        self.attributed = max(self.attributed, self.ended)
        self.pending = []

    def name(self, check, pid):
        """Finds out which crate the process checks, and what for."""
        try:
            with open(f"/proc/{pid}/cmdline", "rb") as it:
                words = it.read().decode(errors="replace").split("\0")
            folder = os.readlink(f"/proc/{pid}/cwd")
        except OSError:
            return
        if "--crate-name" not in words:
            return
        check.crate = words[words.index("--crate-name") + 1]
        self.checks.append(check)
        if not os.path.basename(folder).startswith("rt-edit-"):
            check.kind = TESTS if "--test" in words else PROOF
            return
        check.edit = self.edit(f"{self.folder}/crates/{check.crate}", folder)
        kept = words[words.index("--incremental") + 1] if "--incremental" in words else None
        # what is tried first over a folder fills it, be it the crate itself or its first edit; in kit 13f an edit has a
        # folder of its own, which begins as a copy of the seed's and is named by a number
        is_seed = kept and kept not in self.seeded and not (check.edit and os.path.basename(kept).isdigit())
        self.seeded.add(kept)
        check.kind = SEED if is_seed else EDITS if check.edit else SOUND

    def edit(self, crate, folder):
        """Returns the edit that the folder's copy of the crate has, or none where it is the crate itself."""
        try:
            was, now = texts(crate), texts(folder)
            return edit_in(crate, was, now) if was != now else None
        except OSError:
            return "an edit"

    def seconds(self, crate, *kinds):
        return sum(it.seconds for it in self.checks if it.crate == crate and it.kind in kinds)

    def has(self, crate, *kinds):
        return any(it.crate == crate and it.kind in kinds for it in self.checks)

    def edits(self, crate):
        """Returns the checks of the crate with one of its edits."""
        return [it for it in self.checks if it.crate == crate and it.edit]
