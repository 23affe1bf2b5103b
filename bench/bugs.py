#!/usr/bin/env python3
"""Tells the wrong bodies of bench/bugs.tsv: each with the place to plant it again, and what came of it.

usage: bench/bugs.py [CRATE [FUNCTION]]

To try one again write it as an edit, a file as those in must-fail/, and plant it in a copy:
bench/only.py CRATE --only FUNCTION --edit FILE. With names left out it tells how many rows each crate has.
"""
import collections
import csv
import glob
import os
import re
import sys

ROOT = os.path.join(os.path.dirname(os.path.abspath(__file__)), "..")
CAME = ("refused", "only a name", "not alone", "not tried")


def rows():
    with open(os.path.join(ROOT, "bench/bugs.tsv"), encoding="utf-8") as text:
        lines = [line for line in text if not line.startswith("#")]
    return list(csv.DictReader(lines, delimiter="\t", quoting=csv.QUOTE_NONE))


def places_in(crate):
    """Where each function of a crate stands: FILE:LINE, the first of a name."""
    places = {}
    for path in sorted(glob.glob(os.path.join(ROOT, "crates", crate, "src/**/*.rt"), recursive=True)):
        with open(path, encoding="utf-8") as text:
            for number, line in enumerate(text, 1):
                for name in re.findall(r"\bfn (\w+)", line):
                    places.setdefault(name, "%s:%d" % (os.path.relpath(path, ROOT), number))
    return places


def faults():
    """What of the rows isn't so: a crate or a function that isn't there, a word that says nothing of what came."""
    known = {}
    for row in rows():
        crate = row["crate"]
        there = known.setdefault(crate, places_in(crate))
        for name in row["function"].split():
            if name not in there:
                yield "bench/bugs.tsv names %s of %s, which isn't there" % (name, crate)
        if row["came"] not in CAME:
            yield "bench/bugs.tsv says %r of a mistake in %s" % (row["came"], crate)
    print("%-24s %4d rows of wrong bodies that were tried" % ("bench/bugs.tsv", len(rows())))


def main(words):
    if not words:
        for crate, count in collections.Counter(row["crate"] for row in rows()).items():
            print("%4d %s" % (count, crate))
        return 0
    if words[0][0] == "-" or len(words) > 2:
        raise SystemExit(__doc__.strip())
    places = places_in(words[0])
    for row in rows():
        names = row["function"].split()
        if row["crate"] == words[0] and (len(words) == 1 or words[1] in names):
            at = ", ".join(places.get(name, name) for name in names) or "crates/" + words[0]
            print("%s: %s (%s%s)" % (at, row["mistake"], row["clause"] + ": " if row["clause"] else "", row["came"]))
    return 0


if __name__ == "__main__":
    sys.exit(main(sys.argv[1:]))
