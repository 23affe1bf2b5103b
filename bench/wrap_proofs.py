#!/usr/bin/env python3
"""Breaks lines of proofs that are longer than 160 columns, and lays the files out.

usage: bench/wrap_proofs.py CRATE..     of each crate all proofs/**/*.antt

A line is broken where the fewest brackets are open, and in no text: behind `in`, behind `=`, `↦` or the dot of a λ,
before a sign between parts, before an argument. A list or record is broken as a whole, as the formatter does it. A line
never is broken behind `where` or `do`, and goes on deeper than its own first column, so antt reads it as going on. The
formatter says where it goes on, and that the program is the same. Afterwards the tokens are compared with those of
before. Where nothing is left to break a line stays, and is counted. Answers can't be split into files (rattle reads
only what the file declares): a file of them that would so have over 300 lines, and more than now, is left as it is.
"""
import glob
import os
import re
import subprocess
import sys

sys.dont_write_bytecode = True

from wrap import imports

ROOT = os.path.join(os.path.dirname(os.path.abspath(__file__)), "..")
RATTLE = os.environ.get("RATTLE", "rattle")
COLUMNS, FILE_LINES, PASSES = 160, 300, 60
CLOSED_BY = {"(": ")", "[": "]", "{": "}"}
# signs by how loosely they bind
SIGNS = [{"→"}, {"×", "⊎", "↔"}, {"∙", "∙∙"}, {"≡", "≤", "<", "≢", "≃"}, {"∷", "++", "&&", "||"},
         {"+", "-", "*", "/", "%"}]
HEADS = {"=": 1, "↦": 1, "in": 0}
ARGUMENT, LIST = 8, 9
NEVER_BEHIND = {"", "λ", ":", "let", "elim", "as", "at", "where", "do", "record", "use", "pub", "module", "_", "|",
                "¬", "data", "abbrev", "unfoldable", "unfolding", "open"}
NEVER_BEFORE = {"=", ":", "↦", "in", "as", "at", "where", "0"}
FIRST, FAR, SMALL = 12, 24, 100


class Group:
    """A bracket of a line: where it opens and closes, how many are open around it, and whether it is a list."""
    def __init__(self, opens, depth, around):
        self.opens, self.depth, self.around, self.closes, self.is_list = opens, depth, around, None, False


def words_of(line):
    """The words of a line with the bracket that each begins in and its depth, and all brackets. None where a text
    doesn't end or a comment begins."""
    words, groups, around, closed = [], [], None, 0
    at = len(line) - len(line.lstrip())
    while at < len(line):
        begun, begun_in, is_text = at, around, False
        depth = (around.depth if around else 0) - closed
        while at < len(line) and (is_text or line[at] != " "):
            sign = line[at]
            is_text ^= sign == '"'
            if not is_text and sign in CLOSED_BY:
                around = Group(at, (around.depth if around else 0) + 1, around)
                groups.append(around)
            elif not is_text and sign in ")]}":
                if around:
                    around.closes = at
                    around = around.around
                else:
                    # what an earlier line opened
                    closed += 1
            elif not is_text and sign in ",;" and around:
                around.is_list = True
            at += 1
        word = line[begun:at]
        if is_text or word.startswith("--"):
            return None, None
        if word in ("|", "↦") and begun_in:
            begun_in.is_list = True
        words.append((begun, at, word, begun_in, depth))
        at += 1
    return words, groups


def outermost_list(group):
    found = None
    while group:
        if group.is_list:
            found = group
        group = group.around
    return found


def rank(before, after):
    """How good a place between two words is, the least first. None: never."""
    if after == "let" and (before in HEADS or before.endswith(".")):
        return 0
    if before in HEADS:
        return HEADS[before]
    if before.lstrip("([{") in NEVER_BEHIND or after in NEVER_BEFORE:
        return None
    if before.endswith(".") and len(before) > 1:
        return 1
    for i, signs in enumerate(SIGNS):
        if after in signs:
            return 2 + i
        if before in signs:
            return None
    return ARGUMENT


class Place:
    def __init__(self, at, behind, depth, how):
        self.at, self.behind, self.depth, self.how = at, behind, depth, how


def places(line):
    """Where the line may be broken."""
    words, groups = words_of(line)
    if not words:
        return
    for (_, end, before, _, _), (begun, _, after, group, depth) in zip(words, words[1:]):
        how = rank(before, after)
        if how is not None and not outermost_list(group):
            yield Place(end, begun, depth, how)
    for group in groups:
        if group.is_list and outermost_list(group) is group and group.closes and group.closes > group.opens + 1:
            small = group.closes - group.opens < SMALL
            begun = group.opens + 1 + (line[group.opens + 1] == " ")
            yield Place(group.opens + 1, begun, group.depth - 0.5 + 3 * small, LIST)


def laid_out(line, begun):
    """The list, record or match that the rest of a line is, which the formatter breaks by itself."""
    rest = line[begun:]
    words, groups = words_of(rest)
    outer = [g for g in groups or [] if g.depth == 1]
    if not outer or not outer[-1].is_list or outer[-1].closes != len(rest.rstrip(" ;,")) - 1:
        return None
    opens = outer[-1].opens
    whole = len(outer) == 1 and rest[:opens] in ("", "record ") or rest.startswith("elim ") and rest[opens] == "["
    return begun + opens if whole and begun + opens < COLUMNS else None


def equals(line):
    """Where the `=` of a clause stands whose left side this line has, else -1."""
    words, _ = words_of(line)
    return next((begun for begun, _, word, group, _ in words or [] if word == "=" and not group), -1)


def chosen(line):
    """The places where the line is broken now."""
    indent = len(line) - len(line.lstrip())
    found = list(places(line))
    fits = [p for p in found if p.at <= COLUMNS]

    def fit_behind(p):
        return len(line) - p.behind + indent + 4 <= COLUMNS

    def goes(p):
        if p.how > 1:
            return p.how == LIST or p.at > indent + FIRST
        return p.at > indent + FAR or fit_behind(p) or p.depth == 0 and indent == 0 or p.how == 0

    left = equals(line)
    right = [p for p in fits if p.at > left and goes(p)] or [p for p in fits if goes(p)]
    if not right:
        return []
    best = min(right, key=lambda p: (p.depth, p.how, -p.at))
    if best.how == 1 and not fit_behind(best):
        opens = laid_out(line, best.behind)
        for p in found:
            if opens is not None and p.how == LIST and p.at == opens + 1:
                return [p]
    if best.how == 0:
        return [p for p in right if p.how == 0 and p.depth == best.depth]
    return [best]


def broken(line):
    if len(line) <= COLUMNS:
        return [line]
    if use := re.match(r"((?:pub )?use [\w.]+)\.\{(.*)\}(;?)$", line.strip()):
        indent = len(line) - len(line.lstrip())
        lines = imports(indent, *use.groups(), COLUMNS)
        # as many lines, of about the same length
        even = next(n for n in range(COLUMNS // 2, COLUMNS + 1) if len(imports(indent, *use.groups(), n)) == len(lines))
        return imports(indent, *use.groups(), even)
    deeper = " " * (len(line) - len(line.lstrip()) + 4)
    parts, begun = [], 0
    for place in chosen(line):
        parts.append(line[begun:place.at])
        begun = place.behind
    parts.append(line[begun:])
    return [parts[0]] + [deeper + part for part in parts[1:]]


def read(path):
    with open(path, encoding="utf-8") as file:
        return file.read()


def long_lines(path):
    return sum(len(line) > COLUMNS for line in read(path).split("\n"))


def tokens(text):
    """The tokens of a text, separators at the end of a list left out, and imports by their names."""
    text = re.sub(r"(?m)^((?:pub )?use [\w.]+)\.\{(.*)\}$",
                  lambda use: "\n".join("%s.{%s}" % (use[1], name.strip()) for name in use[2].split(",")), text)
    text = re.sub(r"\s+", " ", re.sub(r"([(){}\[\],;])", r" \1 ", text))
    return re.sub(r"\[ \|", "[", re.sub(r"[,;] ([)\]}])", r"\1", text)).split()


def heads(text):
    """The first words of the lines at the left, which are the declarations."""
    return [line.split()[0] for line in text.split("\n")
            if line[:1].strip() and not line.startswith(("use", "pub use")) and line[0] not in ")]}"]


def leave(path, text, why):
    with open(path, "w", encoding="utf-8") as file:
        file.write(text)
    print("%s: %s, and left as it was" % (os.path.relpath(path, ROOT), why))


def wrap(path):
    before = read(path)
    for _ in range(PASSES):
        text = read(path)
        new = "\n".join(part for line in text.split("\n") for part in broken(line))
        if new == text:
            break
        with open(path, "w", encoding="utf-8") as file:
            file.write(new)
        done = subprocess.run([RATTLE, "fmt", "--write", path], stdout=subprocess.DEVNULL)
        if done.returncode or tokens(read(path)) != tokens(before) or heads(read(path)) != heads(before):
            return leave(path, before, "not the same when it is broken")
    lines = len(read(path).splitlines())
    if path.endswith("Answers.antt") and lines > max(FILE_LINES, len(before.splitlines())):
        leave(path, before, "%d lines when it is broken" % lines)


def main():
    for crate in sys.argv[1:]:
        were = left = 0
        for path in sorted(glob.glob(os.path.join(ROOT, "crates", crate, "proofs/**/*.antt"), recursive=True)):
            count = long_lines(path)
            if count:
                wrap(path)
                were, left = were + count, left + long_lines(path)
        print("%s: %d long lines, %d are left" % (crate, were, left))


if __name__ == "__main__":
    main()
