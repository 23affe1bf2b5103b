#!/usr/bin/env python3
"""Times batches by forks over a million drawn points in one segment, beside a run over kept pages and Apache Lucene 8.

usage: bench/batch.py [--points COUNT] [--queries COUNT]

The queries are small and of three kinds in turn: a box, ten nearest, and a triangle. The text of each batch is compared
with that of the run. A time is the least of three on the wall; that of a batch of one query, which loads the copy, is
told beside it. Lucene (Debian's liblucene8-java and a JDK) answers the same queries by as many threads as a batch has
parts, warm, and writes no text; how many documents its boxes find is compared.
"""
import argparse
import os
import random
import subprocess

from peers import jars
from runs import COUNT, HERE, Data, Run, bkd, compare, write

FORKS = (0, 1, 2)


def queries(count):
    """Mixed small queries, the same each time."""
    drawn = random.Random(1)
    for i in range(count):
        x, y = drawn.randint(-100_000, 100_000), drawn.randint(-100_000, 100_000)
        if i % 3 == 0:
            yield f"box {x} {y} {x + 300} {y + 300}"
        elif i % 3 == 1:
            yield f"nearest 10 {x} {y}"
        else:
            ring = f"[[{x},{y}],[{x + 400},{y}],[{x},{y + 400}],[{x},{y}]]"
            yield f'polygon {{"type":"Polygon","coordinates":[{ring}]}}'


def timed(folder, source, *words):
    """The text of a call, and the least of three times on the wall."""
    done = [bkd(folder, *words, source=source, keep=True).done() for _ in range(3)]
    return done[0].text, min(call.wall for call in done)


def found_by_boxes(text, lines):
    """How many documents the boxes among the lines found."""
    with open(lines, encoding="utf-8") as asked:
        kinds = iter([line.split()[0] for line in asked])
    return sum(int(line.split()[1]) for line in text.splitlines()
               if line.startswith(("hits ", "near ")) and next(kinds) == "box")


def lucene(data, lines):
    """A function that answers the lines by so many threads: how many documents the boxes found, and the seconds."""
    paths, classes, folder = jars(), data.empty("classes"), data.empty("mixed")
    subprocess.run(["javac", "-cp", paths, "-d", classes, os.path.join(HERE, "Mixed.java")], check=True)
    start = ["java", "-Xmx2g", "-cp", f"{paths}:{classes}", "Mixed"]
    points = write(data.path("points"), [f"{x} {y}" for x, y in data.points])
    Run([*start, "index", points, folder]).done()

    def asked(threads):
        run = Run([*start, "ask", folder, lines, "5", str(threads)], keep=True).done()
        return int(run.text), float(run.said.split()[-1])

    return asked


def main():
    parser = argparse.ArgumentParser(description=__doc__, formatter_class=argparse.RawDescriptionHelpFormatter)
    parser.add_argument("--points", type=int, default=COUNT)
    parser.add_argument("--queries", type=int, default=100_000)
    asked = parser.parse_args()
    data = Data(asked.points)
    folder = data.merged()
    lines = write(data.path("lines"), queries(asked.queries))
    one = write(data.path("one"), ["box 0 0 0 0"])
    expected, run = timed(folder, lines, "run", "--cache", "65536")
    print("| Call | Seconds | Of it loading | A second | To the run |")
    print("|---|---|---|---|---|", flush=True)
    print(f"| run | {run:.2f} | | {asked.queries / run:,.0f} | 1.0 |", flush=True)
    for forks in FORKS:
        words = ("batch", "--forks", str(forks))
        loading = timed(folder, one, *words)[1]
        text, wall = timed(folder, lines, *words)
        compare(text, expected)
        each = f"{asked.queries / wall:,.0f} | {run / wall:.1f}"
        print(f"| batch, forks {forks} | {wall:.2f} | {loading:.2f} | {each} |", flush=True)
    answer, wanted = lucene(data, lines), found_by_boxes(expected, lines)
    for threads in (2 ** forks for forks in FORKS):
        found, seconds = answer(threads)
        compare([found], [wanted])
        each = f"{asked.queries / seconds:,.0f} | {run / seconds:.1f}"
        print(f"| Lucene, {threads} threads | {seconds:.2f} | | {each} |", flush=True)


if __name__ == "__main__":
    main()
