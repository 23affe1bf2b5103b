#!/usr/bin/env python3
"""Prints the numbers of the house and checks them: status 1 where one is beyond its bound.

usage: bench/house.py [--diagram] [--reading [N]] [--exceptions]

--diagram     draws docs/images/crates.svg anew, from crates.txt and the floors in docs/ARCHITECTURE.md
--reading     writes the counts in docs/READING.md anew, from the definitions that its chapters unfold to; with N it
              only prints chapter N as it is read: the definitions, and the words of others that they say
--exceptions  writes bench/house.txt anew: the numbers of today's code that is beyond a bound, which may only fall
"""
import os
import re
import sys

# the checkout stays as it is
sys.dont_write_bytecode = True

from bugs import faults as faults_of_bugs
from house_clauses import faults_of_places
from house_diagram import crates_of, draw, faults_of, floors_of
from house_names import faults_of_names
from house_reading import fresh_reading, printed
from house_unused import unused
from words import stale

ROOT = os.path.join(os.path.dirname(os.path.abspath(__file__)), "..")
PICTURE, FLOORS, READING = "docs/images/crates.svg", "docs/ARCHITECTURE.md", "docs/READING.md"
EXCEPTIONS = "bench/house.txt"
COLUMNS, PROOF_COLUMNS, FILE_LINES, BODY_LINES = 120, 160, 300, 40
README_LINES, CELL_WORDS, STATUS_LINES, CONTRIBUTING_LINES = 120, 25, 20, 12
# a crate is one line of crates.txt, and a text that an edit names one of its file
ONE_LINE = ("crates.txt", ".edit")
MADE = (PICTURE, "LICENSE")
TEXTS = (".rt", ".antt", ".md", ".py", ".rs", ".java", ".txt", ".edit")


def read(path):
    with open(os.path.join(ROOT, path), encoding="utf-8") as text:
        return text.read()


def write(path, text):
    with open(os.path.join(ROOT, path), "w", encoding="utf-8") as out:
        out.write(text)


def texts():
    """The texts of the repository, made ones left out."""
    for folder, below, names in os.walk(ROOT):
        below[:] = sorted(b for b in below if b not in ("out", ".git", "release", "__pycache__") and b[:4] != ".bkd")
        for name in sorted(names):
            path = os.path.relpath(os.path.join(folder, name), ROOT)
            if (name.endswith(TEXTS) or name in ("bkd", "run")) and path not in MADE:
                yield path


def is_code(path):
    return not path.endswith(".md")


def group_of(path):
    """Where long lines are counted together: the sources, definitions or proofs of a crate, or a file."""
    parts = path.split("/")
    return "/".join(parts[:3]) if parts[0] == "crates" and len(parts) > 3 else path


def bodies(path, lines):
    """The functions of a file with the lines of their bodies."""
    if path.endswith(".py"):
        yield from python_bodies(lines)
    if not path.endswith(".rt"):
        return
    name = None
    for i, line in enumerate(lines):
        found = re.match(r"( *)(?:pub(?:\([a-z]+\))? )?(?:const )?fn (\w+)", line)
        if found:
            indent, name = found.groups()
            begun = i if line.endswith("{") else None
        elif name and begun is None and line == indent + "{":
            begun = i
        elif name and begun is not None and line == indent + "}":
            yield name, i - begun - 1
            name = None


def python_bodies(lines):
    name = None
    for i, line in enumerate(lines + [""]):
        ends = name and line.strip() and len(line) - len(line.lstrip()) <= indent
        if name and (ends or i == len(lines)):
            yield name, last - begun
            name = None
        found = re.match(r"( *)def (\w+)", line)
        if found:
            name, indent, begun = found.group(2), len(found.group(1)), i
        if line.strip():
            last = i


def code_numbers():
    """What is beyond a bound, by file or group: how many lines are too long, and how long files and bodies are."""
    numbers = {}
    for path in texts():
        lines = read(path).splitlines()
        columns = PROOF_COLUMNS if "/proofs/" in path else COLUMNS
        long = sum(len(line) > columns for line in lines)
        if long and not path.endswith(ONE_LINE):
            key = ("long-lines", group_of(path))
            numbers[key] = numbers.get(key, 0) + long
        if len(lines) > FILE_LINES:
            numbers["file-lines", path] = len(lines)
        for name, count in bodies(path, lines):
            if count > BODY_LINES:
                numbers["body-lines", path + ":" + name] = count
    return numbers


def exceptions():
    rows = [line.split() for line in read(EXCEPTIONS).splitlines() if line and line[0] != "#"]
    return {(kind, path): int(number) for number, kind, path in rows}


def code_faults(numbers):
    known = exceptions()
    for (kind, path), number in sorted(numbers.items()):
        if number > known.get((kind, path), 0):
            yield "%s %s: %d, and %d is the most" % (kind, path, number, known.get((kind, path), 0))
    for kind, path in sorted(key for key in known if not is_code(key[1])):
        yield "%s %s: no exception is made for a document" % (kind, path)


def page_faults():
    """The pages for people: how long they are, and how wide the cells of README's tables."""
    for path, most in (("README.md", README_LINES), ("docs/STATUS.md", STATUS_LINES),
                       ("CONTRIBUTING.md", CONTRIBUTING_LINES)):
        count = len(read(path).splitlines())
        print("%-24s %4d lines of %d" % (path, count, most))
        if count > most:
            yield "%s has %d lines, and %d are the most" % (path, count, most)
    cells = [cell for line in read("README.md").splitlines() if line.startswith("|")
             for cell in line.strip("|").split("|")]
    widest = max((len(cell.split()) for cell in cells), default=0)
    print("%-24s %4d words of %d in a cell" % ("README.md", widest, CELL_WORDS))
    if widest > CELL_WORDS:
        yield "README.md has a cell of %d words, and %d are the most" % (widest, CELL_WORDS)


def link_faults():
    for path in texts():
        if not path.endswith(".md"):
            continue
        for target in re.findall(r"\]\(([^)#:]+)(?:#[^)]*)?\)", read(path)):
            there = os.path.normpath(os.path.join(os.path.dirname(path), target))
            if not os.path.exists(os.path.join(ROOT, there)):
                yield "%s links to %s, which isn't there" % (path, there)


def diagram_faults():
    crates, floors = crates_of(read("crates.txt")), floors_of(read(FLOORS))
    print("%-24s %4d crates on %d floors" % ("crates.txt", len(crates), len(floors)))
    faults = faults_of(crates, floors)
    yield from faults
    if not faults and read(PICTURE) != draw(read("crates.txt"), read(FLOORS)):
        yield "%s is not that of crates.txt: bench/house.py --diagram" % PICTURE


def reading_faults():
    fresh, total = fresh_reading(ROOT, read(READING))
    print("%-24s %4d definitions in %d files behind the top call" % (READING, total[0], total[1]))
    if fresh != read(READING):
        yield "%s counts what isn't so: bench/house.py --reading" % READING
    answers = re.search(r"\*\*(\d+ files, \d+ lines)", fresh).group(1)
    if answers not in read("README.md"):
        yield "README.md doesn't say that the answers have %s" % answers


def words_faults():
    for name, _ in stale():
        yield "%s doesn't agree with docs/commands.txt: bench/words.py" % name


def write_exceptions():
    lines = ["# What of the code is beyond a bound of bench/house.py: no number here may rise.", "#"]
    lines += ["%5d %s %s" % (number, kind, path) for (kind, path), number in sorted(code_numbers().items())
              if is_code(path)]
    write(EXCEPTIONS, "\n".join(lines + [""]))


def main(words):
    if words[:1] == ["--reading"] and words[1:]:
        print("\n".join(printed(ROOT, read(READING), int(words[1]))))
        return 0
    if "--diagram" in words:
        write(PICTURE, draw(read("crates.txt"), read(FLOORS)))
    if "--reading" in words:
        write(READING, fresh_reading(ROOT, read(READING))[0])
    if "--exceptions" in words:
        write_exceptions()
    numbers = code_numbers()
    for kind in ("long-lines", "file-lines", "body-lines"):
        of_kind = {path: number for (k, path), number in numbers.items() if k == kind}
        print("%-24s %4d places beyond the bound, %d in sum" % (kind, len(of_kind), sum(of_kind.values())))
    faults = list(code_faults(numbers)) + list(page_faults()) + list(diagram_faults()) + list(reading_faults())
    faults += list(link_faults()) + list(words_faults()) + list(faults_of_places(ROOT)) + list(unused(ROOT))
    faults += list(faults_of_names(ROOT)) + list(faults_of_bugs())
    for fault in faults:
        print("FAULT " + fault)
    print("%d faults" % len(faults))
    return 1 if faults else 0


if __name__ == "__main__":
    sys.exit(main(sys.argv[1:]))
