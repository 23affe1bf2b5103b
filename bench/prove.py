#!/usr/bin/env python3
"""Proves a crate and all that it stands on, side by side on all processors, and links it if it is a program.

usage: bench/prove.py CRATE             it tells each crate as it begins, in a line `== NAME`
       bench/prove.py --below CRATE     all that it stands on, and not the crate itself

Each is proved as `rt ci` proves it: from nothing, over the statements of the crates below. What was proved so stays,
by its text and the libraries that it stood on. Where `rt check` has kept work of one of them, each is proved as it
proves them, over what it kept. Of those that can begin the one with the longest way to CRATE comes first, with three
jobs; others on a way that is nearly as long have two, and the rest one, and give way. Whether a call can meet each
contract is left to `rt ci`. It asks the kit's own `rt` for all that it does. Its status is 1 where a crate was not
proved, and 2 where this kit can't be asked so.
"""
import concurrent.futures
import importlib.machinery
import importlib.util
import os
import shutil
import sys
import tempfile
import threading

ROOT = os.path.realpath(os.path.join(os.path.dirname(os.path.abspath(__file__)), ".."))

# How long the way of a crate that others wait for is at least: this part of the longest, or so many lines less; the
# jobs of the first of them that runs, and of the others. The rest have one job: forks cost a seventh of a check.
KEEN, KEEN_LINES, FIRST_JOBS, KEEN_JOBS = 0.9, 600, 3, 2

# What a check takes of the memory, in kilobytes.
ROOM = 3_500_000


def kit():
    """Returns the program `rt` of this machine as a module."""
    sys.dont_write_bytecode = True
    loader = importlib.machinery.SourceFileLoader("rt", os.path.realpath(shutil.which("rt")))
    module = importlib.util.module_from_spec(importlib.util.spec_from_loader("rt", loader))
    sys.modules["rt"] = module
    loader.exec_module(module)
    return module


def crate_of(rt, name):
    """Returns the crate, held to what `rt ci` holds it to."""
    rt.rtlib.Crate = rt.Crate
    rt.Crate.allowed = rt.handles_of(ROOT)
    return rt.Crate(f"{ROOT}/crates/{name}", ROOT, {})


class Work:
    """Crates that are proved, the lowest first."""

    def __init__(self, rt, crates):
        self.rtlib, self.left, self.running, self.done = rt.rtlib, list(crates), {}, set()
        self.ways, self.jobs = ways(crates), {}
        self.is_anew = not any(it.has_kept() for it in crates)
        rt.Crate.cuts_libraries = self.is_anew
        # (contracts that no call can meet are not looked for: the gate does, and a proved program calls none of them)
        said = self.rtlib.help_of
        self.rtlib.help_of = lambda word: said(word).replace("--empty-contracts", "")

    def mark(self, crate):
        """Returns a sum of the crate's text and of the libraries below it as they stand, and of its own."""
        formats = [self.rtlib.sum_of(f"{it.rlib}/format") for it in [*crate.below(), crate]]
        return "\n".join([crate.stamp(), *formats])

    def make(self, crate, flags):
        """Makes the crate's library, or its program, and returns the status."""
        if crate.makes_rlib():
            return crate.build_rlib(flags, self.is_anew)
        to = f"out/{crate.name}"
        if self.is_anew:
            words = ["--toolchain", f"{self.rtlib.KIT}/toolchain", "--backend", "llvm", "-o", f"{to}.o"]
            status = crate.prove(["build", *crate.words(flags, keeps=False), *words])
        else:
            status = crate.compile(flags, f"{to}.o")
        return status or crate.link(f"{to}.o", to)

    def prove(self, crate, jobs):
        """Proves a crate over the libraries below it, unless that was done. Returns its status, and what it said."""
        os.makedirs(f"{crate.folder}/out", exist_ok=True)
        has_mark = self.is_anew and crate.makes_rlib()
        file, stamp = f"{crate.folder}/out/rlib/proved", crate.stamp()
        if has_mark and self.rtlib.text_of(file) == self.mark(crate):
            return 0, ""
        with tempfile.TemporaryFile("a+", errors="replace") as crate.out:
            try:
                self.rtlib.stop_on_links(crate.folder)
                self.rtlib.stop_on_text(crate, "verdict" if self.is_anew else "check")
                status = self.make(crate, ["--jobs", str(jobs)])
            except SystemExit:
                status = 1
            # (what changed meanwhile was not proved)
            if status == 0 and has_mark and stamp == crate.stamp():
                with open(file, "w", encoding="utf-8") as it:
                    it.write(self.mark(crate))
            crate.out.seek(0)
            return status, crate.out.read()

    def begin(self, keen, calm, most):
        """Begins what can begin: as many crates as processors, and one more where each of them has one job."""
        longest = max(map(self.ways.get, [*self.left, *self.running.values()]), default=0)
        ready = sorted((it for it in self.left if self.done >= {*it.below()}), key=self.ways.get, reverse=True)
        for it in ready:
            taken = [self.jobs[other] for other in self.running.values()]
            if len(taken) >= most and sum(taken) > most:
                break
            is_keen = self.ways[it] >= min(KEEN * longest, longest - KEEN_LINES)
            keen_jobs = KEEN_JOBS if FIRST_JOBS in taken else FIRST_JOBS
            self.jobs[it] = min(keen_jobs, most) if is_keen else 1
            print(f"== {it.name}", flush=True)
            self.running[(keen if is_keen else calm).submit(self.prove, it, self.jobs[it])] = it
            self.left.remove(it)

    def end(self):
        """Waits until some have ended, and stops at one that was not proved."""
        ended, _ = concurrent.futures.wait(self.running, return_when=concurrent.futures.FIRST_COMPLETED)
        for future in ended:
            (status, said), it = future.result(), self.running.pop(future)
            if status:
                print(f"{said}== {it.name} was not proved", flush=True)
                # (what still runs ends with this process, as the kit guards it)
                os._exit(1)
            self.done.add(it)

    def all(self):
        """Proves all, side by side."""
        most = lanes()
        pool = concurrent.futures.ThreadPoolExecutor
        with pool(most + 1) as keen, pool(most + 1, initializer=give_way) as calm:
            while self.left or self.running:
                self.begin(keen, calm, most)
                self.end()


def give_way():
    """Lets what this thread starts give way to the other checks."""
    os.setpriority(os.PRIO_PROCESS, threading.get_native_id(), 5)


def lanes():
    """Returns how many crates are proved at a time: as many as processors, as far as memory goes."""
    with open("/proc/meminfo", encoding="ascii") as file:
        [free] = [int(line.split()[1]) for line in file if line.startswith("MemAvailable:")]
    return max(min(len(os.sched_getaffinity(0)), free // ROOM), 1)


def size(crate):
    """Returns about how long the crate takes: the lines of its sources, which tell more than those of its proofs."""
    count = 0
    for folder, _, files in os.walk(f"{crate.folder}/src"):
        for file in files:
            with open(os.path.join(folder, file), "rb") as text:
                count += text.read().count(b"\n")
    return count


def ways(crates):
    """Returns for each crate how much is to be proved from it on, along the longest way to the last one."""
    sizes, longest = {it: size(it) for it in crates}, {}
    for it in reversed(crates):
        above = [longest[other] for other in longest if it in other.below()]
        longest[it] = sizes[it] + max(above, default=0)
    return longest


def main():
    words = sys.argv[1:]
    is_below = words[:1] == ["--below"]
    if len(words) != 1 + is_below or not shutil.which("rt"):
        print(__doc__.strip(), file=sys.stderr)
        sys.exit(2)
    try:
        rt = kit()
        # (it sets what the signals do, which only this thread may)
        rt.rtlib.guarded()
        os.chdir(f"{ROOT}/crates/{words[-1]}")
        last = crate_of(rt, words[-1])
        crates = [*last.below()] + ([] if is_below else [last])
        held = rt.rtlib.lock(crates)
        Work(rt, crates).all()
    except (AttributeError, ImportError, OSError, TypeError) as fault:
        print(f"prove.py: {fault}", file=sys.stderr)
        sys.exit(2)
    for it in held:
        os.close(it)


if __name__ == "__main__":
    main()
