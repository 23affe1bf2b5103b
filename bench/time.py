#!/usr/bin/env python3
"""Times the program crates/bench, which has to be built (rt run in its folder), and prints ratios of one run.

usage: bench/time.py csv | rings | leaves | partition | build | walks
"""
import hashlib
import os
import random
import resource
import subprocess
import sys
import tempfile
import time

HERE = os.path.dirname(os.path.abspath(__file__))
PROGRAM = os.path.join(HERE, "..", "crates", "bench", "out", "bench")

LOOP = r"""
#include <stdio.h>
#include <stdlib.h>
/* the plainest loop: commas and line ends, no quotes; the second and third column of each line */
int main(void) {
    size_t room = 1 << 26, size = 0, n;
    char *text = malloc(room);
    while ((n = fread(text + size, 1, room - size, stdin)) > 0) {
        size += n;
        if (size == room) text = realloc(text, room *= 2);
    }
    long points = -1, sum = 0;
    int *kept = malloc(size * sizeof(int) / 4 + 64);
    size_t filled = 0, at = 0;
    while (at < size) {
        int column = 0;
        while (at < size && text[at] != '\n') {
            long value = 0;
            int minus = text[at] == '-';
            if (minus) at++;
            while (at < size && text[at] != ',' && text[at] != '\n') value = value * 10 + (text[at++] - '0');
            if (column > 0 && points >= 0) kept[filled++] = (int)(minus ? -value : value);
            if (at < size && text[at] == ',') at++;
            column++;
        }
        at++;
        points++;
    }
    for (size_t i = 0; i < filled; i++) sum += kept[i];
    printf("points %ld sum %ld\n", points, sum);
    return 0;
}
"""


def best(words, text=None, times=5):
    """The least wall time of some runs, in seconds, and what the last one printed."""
    least, said = None, ""
    for _ in range(times):
        begun = time.perf_counter()
        run = subprocess.run(words, input=text, capture_output=True, check=True)
        spent = time.perf_counter() - begun
        least = spent if least is None else min(least, spent)
        said = run.stdout.decode().strip()
    return least, said


def csv():
    draw = random.Random(1)
    lines = ["id,x,y"]
    for i in range(1_000_000):
        lines.append("%d,%d,%d" % (i, draw.randint(-10**8, 10**8), draw.randint(-10**8, 10**8)))
    text = ("\n".join(lines) + "\n").encode()
    with tempfile.TemporaryDirectory() as folder:
        source = os.path.join(folder, "loop.c")
        with open(source, "w") as file:
            file.write(LOOP)
        plain = os.path.join(folder, "loop")
        subprocess.run(["cc", "-O2", "-o", plain, source], check=True)
        ours, said = best([PROGRAM, "csv", "x", "y"], text)
        theirs, told = best([plain], text)
    print("csv: a million records of three columns, %d bytes" % len(text))
    print("  read_entries %5.0f ms  %s" % (ours * 1000, said))
    print("  a C loop    %6.0f ms  %s" % (theirs * 1000, told))
    print("  ratio       %6.2f" % (ours / theirs))


def rings():
    print("rings: a star-shaped ring, points and cells of a hundredth of its width; building taken off")
    for positions, queries in ((1000, 100_000), (60_000, 4_000)):
        size = str(positions)
        empty, _ = best([PROGRAM, "rings", "tree", size, "0"], times=7)
        tree, said = best([PROGRAM, "rings", "tree", size, str(queries)])
        plain, told = best([PROGRAM, "rings", "plain", size, str(queries)], times=3)
        if said != told:
            sys.exit("the answers differ: %s, %s" % (said, told))
        tree, plain = max(tree - empty, 1e-6), max(plain - empty, 1e-6)
        print("  %6d positions, %6d queries: %s" % (positions, queries, said))
        print("    plain list %9.2f us a query" % (plain / queries * 1e6))
        print("    edge tree  %9.2f us a query" % (tree / queries * 1e6))
        print("    ratio      %9.1f" % (plain / tree))


def partition():
    with tempfile.TemporaryDirectory() as folder:
        plain = os.path.join(folder, "partition")
        subprocess.run(["rustc", "-O", "-o", plain, os.path.join(HERE, "partition.rs")], check=True)
        drawn = {PROGRAM: None, plain: None}
        parted = {PROGRAM: None, plain: None}
        said = {}
        # in turns, so that both meet the same spells of the machine
        for _ in range(5):
            for program in (PROGRAM, plain):
                for kind, least in (("draw", drawn), ("tree", parted)):
                    spent, answer = best([program, "partition", kind, "1000000", "5"], times=1)
                    least[program] = spent if least[program] is None else min(least[program], spent)
                    said[program, kind] = answer
    if said[PROGRAM, "tree"] != said[plain, "tree"]:
        sys.exit("the orders differ: %s, %s" % (said[PROGRAM, "tree"], said[plain, "tree"]))
    ours, theirs = ((parted[program] - drawn[program]) / 5 for program in (PROGRAM, plain))
    print("partition: a million drawn entries of two dimensions into leaves of 333; drawing taken off, %s"
          % said[PROGRAM, "tree"])
    print("  cut and arrange                        %6.1f ms" % (ours * 1000))
    print("  select_nth_unstable_by and sort (Rust) %6.1f ms" % (theirs * 1000))
    print("  ratio                                  %6.2f" % (ours / theirs))


def key(x):
    return (x + 2**31).to_bytes(4, "big")


def spelled(entries):
    """The leaf of entries with numbers in no row and below 65,536 apart, of which no point is twice:
    see docs/FORMATS.md."""
    dims, least = len(entries[0][1]), min(doc for doc, _ in entries)
    prefixes, spreads = [], []
    for d in range(dims):
        keys = [key(point[d]) for _, point in entries]
        shared = len(os.path.commonprefix(keys))
        prefixes.append(keys[0][:shared])
        spreads.append(len({k[shared] for k in keys}))
    s = spreads.index(min(spreads))
    entries = sorted(entries, key=lambda entry: (entry[1][s], entry[0]))
    lengths = [len(prefix) for prefix in prefixes]
    sorted_bytes = bytes(key(point[s])[lengths[s]] for _, point in entries)
    pieces = []
    for byte in sorted_bytes:
        if pieces and pieces[-1][0] == byte and pieces[-1][1] < 255:
            pieces[-1][1] += 1
        else:
            pieces.append([byte, 0])
    out = len(entries).to_bytes(2, "big") + bytes([2]) + vint(least)
    out += b"".join((doc - least).to_bytes(2, "big") for doc, _ in entries)
    out += bytes(lengths) + b"".join(prefixes) + bytes([s])
    if 2 * len(pieces) < len(entries):
        out += bytes([1, len(pieces)]) + b"".join(map(bytes, pieces))
    else:
        out += bytes([0]) + sorted_bytes
    for _, point in entries:
        out += b"".join(key(point[d])[lengths[d] + (d == s):] for d in range(dims))
    return out


def vint(n):
    out = b""
    while n >= 128:
        out += bytes([128 + n % 128])
        n //= 128
    return out + bytes([n])


def leaves():
    draw = random.Random(1)
    side = 3_000
    points = [(draw.randint(0, side), draw.randint(0, side)) for _ in range(333)]
    leaf = spelled(list(zip(draw.sample(range(60_000), 333), points)))
    times = 100_000
    empty, _ = best([PROGRAM, "leaves", "333", "0"], leaf)
    ours, said = best([PROGRAM, "leaves", "333", str(times)], leaf)
    if not said.startswith("leaves %d " % times):
        sys.exit("not read: %s" % said)
    begun = time.perf_counter()
    for _ in range(20_000):
        hashlib.sha256(leaf + bytes(4077 - len(leaf))).digest()
    digest = (time.perf_counter() - begun) / 20_000
    each = (ours - empty) / times
    print("leaves: one of 333 entries of two dimensions, %d bytes, read and each entry looked at" % len(leaf))
    print("  LeafView::read and all entries %6.2f us, %.1f ns an entry" % (each * 1e6, each / 333 * 1e9))
    print("  SHA-256 of a page (OpenSSL)    %6.2f us" % (digest * 1e6))
    print("  ratio                          %6.2f" % (each / digest))


def build():
    rounds = 5
    print("build: a million drawn entries of two dimensions, leaves of 333; drawing counted in")
    alone = None
    for forks in (0, 1, 2, 3):
        spent, said = best([PROGRAM, "build", str(forks), "1000000", str(rounds)], times=3)
        alone = spent if alone is None else alone
        print("  forks %d %7.1f ms a tree  ratio %5.2f  %s" % (forks, spent / rounds * 1000, spent / alone, said))


def processor_time(words):
    """The processor time of a run of one thread, in seconds, and what it printed."""
    before = resource.getrusage(resource.RUSAGE_CHILDREN)
    run = subprocess.run(words, capture_output=True, check=True)
    after = resource.getrusage(resource.RUSAGE_CHILDREN)
    return after.ru_utime + after.ru_stime - before.ru_utime - before.ru_stime, run.stdout.decode().strip()


def walks():
    count, scanned = 1_000_000, 200
    with tempfile.TemporaryDirectory() as folder:
        plain = os.path.join(folder, "scan")
        subprocess.run(["rustc", "-O", "-o", plain, os.path.join(HERE, "scan.rs")], check=True)
        ours = {"inside": 100, "tested": 50, "boxes": 100_000, "near": 100_000}
        runs = [([PROGRAM] + (["walk"] if kind != "near" else []) + [kind, str(count)], times)
                for kind, times in ours.items()]
        runs += [([plain, kind, str(count)], scanned) for kind in ("boxes", "near")]
        spent, said = {}, {}
        # in turns, so that all meet the same spells of the machine
        for _ in range(3):
            for words, times in runs:
                kind, program = words[-2], words[0]
                for rounds in {0, times} if kind in ("inside", "tested") else {0, scanned, times}:
                    seconds, said[kind, program, rounds] = processor_time(words + [str(rounds)])
                    spent[kind, program, rounds] = min(spent.get((kind, program, rounds), seconds), seconds)
    each = {kind: (spent[kind, PROGRAM, times] - spent[kind, PROGRAM, 0]) / times for kind, times in ours.items()}
    print("walks: a million drawn entries of two dimensions in memory, leaves of 333, all pages kept; processor time, "
          "the building taken off")
    for kind, name in (("inside", "a walk that takes all leaves  "), ("tested", "a walk that tests all entries")):
        print("  %s %7.2f ns an entry" % (name, each[kind] / count * 1e9))
    for kind, name in (("boxes", "a box of a width of 1,000     "), ("near", "the ten nearest              ")):
        if said[kind, PROGRAM, scanned] != said[kind, plain, scanned]:
            sys.exit("the answers differ: %s, %s" % (said[kind, PROGRAM, scanned], said[kind, plain, scanned]))
        scan = (spent[kind, plain, scanned] - spent[kind, plain, 0]) / scanned
        print("  %s %7.2f us, a plain scan (Rust) %.0f us, ratio %.0f"
              % (name, each[kind] * 1e6, scan * 1e6, scan / each[kind]))


if __name__ == "__main__":
    kinds = {"csv": csv, "rings": rings, "leaves": leaves, "partition": partition, "build": build, "walks": walks}
    if len(sys.argv) != 2 or sys.argv[1] not in kinds:
        sys.exit(__doc__)
    kinds[sys.argv[1]]()
