#!/usr/bin/env python3
"""Shows what the program bkd does on a disk that fails, which has to be built (rt run in crates/bkd).

usage: bench/failures.py full | denied | calls | memory | all

full     file systems (tmpfs, and ext4 in a file) with little room, more each time, until all goes well; of a run over
         an index that is there, how much it needs beside that, and how much the files have that it writes
denied   folders that may not be written, read or entered, that are none, and a file system that is only read
calls    each call on the folder's files failing alone, and with all calls behind it (by Debian's strace)
memory   each request for memory refused alone, and with all requests behind it

Each run has to end with status 4 (7 where memory is refused), or 0 where all was done; what it wrote has to be whole
lines that the whole run begins with; what is stored afterwards has to be the last commit before them or the one in
flight, all or nothing of load and generate; and a further run has to go on from there once nothing fails any more.
What isn't so is told, and the status is 1. Mounts are made in a name space of their own, as root or by a user who may.
BKD names the program where it is not crates/bkd/out/bkd.
"""
import os
import re
import shutil
import subprocess
import sys
import tempfile

from failing import Seen, answer, asked, made, own_files, started, works

NOBODY = 65534
# what a call fails with
ERRORS = {"statx": "EACCES", "openat": "EACCES", "pread64": "EIO", "read": "EIO", "lseek": "EIO", "write": "ENOSPC",
          "fsync": "EIO", "fdatasync": "EIO", "rename": "EIO", "unlink": "EACCES"}


# ---- full disks

def tmpfs(room, place):
    return ["mount", "-t", "tmpfs", "-o", "size=1m", "tmpfs", place]


def ext4(room, place):
    """A file system in a file, over a loop device."""
    image = os.path.join(room, "image")
    with open(image, "wb") as file:
        file.truncate(1 << 20)
    words = ["mkfs.ext4", "-q", "-F", "-O", "^has_journal", "-b", "1024", "-m", "0", "-N", "64", image]
    subprocess.run(words, check=True, capture_output=True)
    return ["mount", "-o", "loop", image, place]


def is_mounted(mount, room, place, size, work):
    """Mounts a file system with the folder of a run, and fills it until so many KB are free."""
    try:
        os.makedirs(place, exist_ok=True)
        subprocess.run(mount(room, place), capture_output=True, check=True)
    except (OSError, subprocess.CalledProcessError):
        return False
    os.rename(made(work, place), os.path.join(place, "index"))
    there = os.statvfs(place)
    # (as much of it as goes: on ext4 a file needs some room for the list of its blocks)
    with open(os.path.join(place, "ballast"), "wb", buffering=0) as file:
        file.write(bytes(there.f_bavail * there.f_frsize - (size << 10)))
    return True


def on_disk(room, mount, size, work):
    """The run on a disk with so many KB, and a copy of the folder elsewhere; None where the disk can't be had."""
    place = os.path.join(room, "disk")
    if not is_mounted(mount, room, place, size, work):
        return None, None
    try:
        folder = os.path.join(place, "index")
        run = started(work.words, work.source, folder)
        kept = os.path.join(room, "copy")
        shutil.rmtree(kept, ignore_errors=True)
        shutil.copytree(folder, kept)
        inside = asked(folder)
    finally:
        subprocess.run(["umount", place], check=True)
    if inside != asked(kept):
        Seen.faults.append("%s, a disk of %d KB: there it says %r" % (work.name, size, inside))
    return run, kept


def full(room):
    for mount in (tmpfs, ext4):
        for work in (it for it in works() if not it.made or it.name in ("a deletion", "a merge")):
            own = " (its files have %d KB)" % own_files(work, room) if work.made else ""
            seen, size, status = Seen(""), 0, 4
            while status == 4 and size <= 400:
                run, kept = on_disk(room, mount, size, work)
                if run is None:
                    print("| %s can't be mounted here | | | | | | |" % mount.__name__)
                    break
                status = run.returncode
                seen.look(work, "%s with %d KB" % (mount.__name__, size), run, kept)
                size += 2
            if seen.runs:
                seen.name = "%s%s: %s with 0, 2, .. %d KB" % (work.name, own, mount.__name__, size - 2)
                seen.tell()


# ---- folders that may not be used

def denied(room):
    """Folders of which the user nobody lacks a right, where this is root; and a file system that is read only."""
    as_nobody = {"user": NOBODY, "group": NOBODY, "extra_groups": []} if os.getuid() == 0 else {}
    os.chmod(room, 0o755)
    for work in works():
        for mode, name in ((0o555, "may not be written"), (0o333, "may not be read"), (0o000, "may not be used")):
            folder = made(work, room)
            os.chmod(folder, mode)
            run = started(work.words, work.source, folder, **as_nobody)
            os.chmod(folder, 0o755)
            told(work, "a folder that " + name, run, folder)
        folder = made(work, room)
        bind = [["mount", "--bind", folder, folder], ["mount", "-o", "remount,ro,bind", folder]]
        if all(subprocess.run(words, capture_output=True, check=False).returncode == 0 for words in bind):
            run = started(work.words, work.source, folder)
            subprocess.run(["umount", folder], check=True)
            told(work, "a file system that is read only", run, folder)
        # (the launcher looks for the folder before; the program sees a folder without a commit)
        for name, path in (("a file", __file__), ("nothing", os.path.join(room, "none"))):
            told_without(work, name + " in place of a folder", started(work.words, work.source, path))


def told(work, where, run, folder):
    seen = Seen("%s: %s" % (work.name, where))
    seen.look(work, where, run, folder)
    seen.tell()


def told_without(work, where, run):
    """Tells of a run that has no folder: it can store nothing, and no query finds anything."""
    seen, text = Seen("%s: %s" % (work.name, where)), run.stdout.decode()
    seen.count(run)
    if not (run.returncode == 4 and work.text.startswith(text)) and not (work.made and text == answer(None)):
        Seen.faults.append("%s, %s: status %d, it wrote %r" % (work.name, where, run.returncode, text))
    seen.tell()


# ---- each call

def traced(work, room):
    """The calls of a run on its folder's files: the call's name, and how many of the name the run has made by then."""
    folder = made(work, room)
    log = os.path.join(room, "log")
    run = started(work.words, work.source, folder, ["strace", "-y", "-o", log])
    if run.returncode != 0 or run.stdout.decode() != work.text:
        raise SystemExit("%s under strace: %s" % (work.name, run))
    counts, calls = {}, []
    with open(log, encoding="utf-8", errors="replace") as lines:
        for line in lines:
            call = re.match(r"(\w+)\(", line)
            if call:
                counts[call[1]] = counts.get(call[1], 0) + 1
                if folder in line and call[1] in ERRORS:
                    calls.append((call[1], counts[call[1]]))
    return calls


def injected(calls, at, and_all_behind):
    """strace's words for the call at this place failing, or with all of the folder's calls behind it."""
    names = dict(reversed(calls[at:])) if and_all_behind else dict([calls[at]])
    words = ["strace", "-o", "/dev/null", "-e", "trace=" + ",".join(names)]
    for name, number in names.items():
        more = "+" if and_all_behind else ""
        words += ["-e", "inject=%s:error=%s:when=%d%s" % (name, ERRORS[name], number, more)]
    return words


def each_call(room):
    for work in works():
        calls = traced(work, room)
        for and_all_behind in (False, True):
            seen = Seen("%s: each call %s" % (work.name, "and all behind it" if and_all_behind else "alone"))
            for at, (call, number) in enumerate(calls):
                folder = made(work, room)
                run = started(work.words, work.source, folder, injected(calls, at, and_all_behind))
                seen.look(work, "%s %d" % (call, number), run, folder)
                shutil.rmtree(folder)
            seen.tell()


# ---- each request for memory

# requests for memory are counted in a file, and those from FIRST to LAST are refused
REFUSING = """
#include <fcntl.h>
#include <stdlib.h>
#include <sys/mman.h>
void *__libc_malloc(size_t), *__libc_realloc(void *, size_t);
static long none, *count = &none, first, last;
__attribute__((constructor)) static void begin(void)
{
    count = mmap(NULL, sizeof *count, PROT_READ | PROT_WRITE, MAP_SHARED, open(getenv("COUNT"), O_RDWR), 0);
    first = atol(getenv("FIRST"));
    last = atol(getenv("LAST"));
}
static int refused(void) { return ++*count >= first && *count <= last; }
void *malloc(size_t n) { return refused() ? NULL : __libc_malloc(n); }
void *realloc(void *p, size_t n) { return refused() ? NULL : __libc_realloc(p, n); }
"""


class Refusing:
    """Runs of which some requests for memory are refused."""

    def __init__(self, room):
        self.library, self.counted = os.path.join(room, "refusing.so"), os.path.join(room, "count")
        words = ["cc", "-shared", "-fPIC", "-fno-builtin", "-x", "c", "-o", self.library, "-"]
        subprocess.run(words, input=REFUSING.encode(), check=True)

    def run(self, work, folder, first, last):
        """A run, and how many requests it made."""
        with open(self.counted, "wb") as file:
            file.write(bytes(8))
        around = {"LD_PRELOAD": self.library, "FIRST": str(first), "LAST": str(last), "COUNT": self.counted}
        run = started(work.words, work.source, folder, env=os.environ | around)
        with open(self.counted, "rb") as file:
            return run, int.from_bytes(file.read(), "little")


def memory(room):
    refusing = Refusing(room)
    for work in works():
        _, count = refusing.run(work, made(work, room), 1 << 40, 1 << 40)
        for and_all_behind in (False, True):
            name = "and all behind it" if and_all_behind else "alone"
            seen = Seen("%s: each request for memory %s" % (work.name, name), status=7)
            for number in range(1, count + 1):
                folder = made(work, room)
                run, _ = refusing.run(work, folder, number, 1 << 40 if and_all_behind else number)
                seen.look(work, "request %d of %d %s" % (number, count, name), run, folder)
                shutil.rmtree(folder)
            seen.tell()


KINDS = {"full": full, "denied": denied, "calls": each_call, "memory": memory}


def main(words):
    if len(words) != 1 or words[0] not in (*KINDS, "all"):
        raise SystemExit(__doc__)
    if "BKD_FAILURES" not in os.environ:
        space = ["unshare", "--mount"] + ([] if os.getuid() == 0 else ["--map-root-user"])
        os.execvpe(space[0], [*space, sys.executable, __file__, *words], os.environ | {"BKD_FAILURES": "1"})
    print(Seen.HEAD)
    with tempfile.TemporaryDirectory(prefix="bkd-failures-") as room:
        # (in memory, where a sync takes no time)
        subprocess.run(["mount", "-t", "tmpfs", "tmpfs", room], capture_output=True, check=False)
        for kind in KINDS if words[0] == "all" else words:
            KINDS[kind](room)
        subprocess.run(["umount", room], capture_output=True, check=False)
    for fault in Seen.faults:
        print("WRONG: " + fault)
    return 1 if Seen.faults else 0


if __name__ == "__main__":
    sys.exit(main(sys.argv[1:]))
