#!/usr/bin/env python3
"""Breaks lines of specs, contracts, imports and comments that are longer than a bound.

usage: bench/wrap.py COLUMNS FILE..     then `rt fmt` in the crates, whose proofs see no difference

A line is broken where the fewest brackets are open, and in no text: before an arrow or a sign between parts, else
behind `=`, else before a bracket or a word. Where nothing is left to break it stays, as does a row of a table in a
comment. Proofs by hand may need their layout, and the rest of a comment's paragraph isn't filled anew: look at both. A
text that goes over several lines isn't known as one: leave out files with such texts.
"""
import re
import sys
import textwrap

SIGNS = ("\u2192 ", "\u00d7 ", "\u228e ")
DECLARES = r"(pub )?(record|data|abbrev|unfoldable)"


def comment(line, columns, indent, mark):
    before = " " * indent + mark
    text = line.strip()[len(mark):]
    if text.startswith("|"):
        return [line]
    return textwrap.wrap(text, columns, initial_indent=before, subsequent_indent=before, break_on_hyphens=False,
                         break_long_words=False)


def imports(indent, path, names, end, columns):
    """The same names in as many `use` lines as they need."""
    lines, taken = [], []

    def spelled(some):
        return " " * indent + path + ".{" + ", ".join(some) + "}" + end

    for name in (it.strip() for it in names.split(",")):
        if taken and len(spelled(taken + [name])) > columns:
            lines.append(spelled(taken))
            taken = []
        taken.append(name)
    return lines + [spelled(taken)]


def rank(line, at, depth):
    """How good a place this space is, the least first: at a sign, behind `=`, at a bracket, at a word. None: never."""
    behind = line[at + 1:]
    if behind[:2] in SIGNS or behind.startswith(": Type 0") and re.match(DECLARES, line.strip()):
        return 0
    if line[max(0, at - 2):at] == " =" and depth == 0:
        return 1
    if behind[:1] == "(" and line[at - 1] != "=":
        return 2
    return None if behind.startswith(("where", "0 where")) or line[at - 1] in "=\u03bb" else 3


def places(line, columns, indent):
    depth = 0
    is_clause = line.strip().startswith(("ensures ", "requires "))
    is_text = False
    for at, sign in enumerate(line[:columns + 1]):
        is_text ^= sign == '"'
        if is_text:
            continue
        depth += (sign in "([{") - (sign in ")]}")
        # a clause's bracket stays beside its name, as `rt fmt` puts it
        if sign == " " and at > indent + 12 and (depth or not is_clause):
            how = rank(line, at, depth)
            if how is not None:
                yield depth, how, -at


def wrap(line, columns):
    if len(line) <= columns:
        return [line]
    text = line.strip()
    indent = len(line) - len(line.lstrip())
    if mark := re.match(r"(--|///|//!|//) ", text):
        return comment(line, columns, indent, mark.group(0))
    if use := re.match(r"((?:ghost )?use [\w.]+)\.\{(.*)\}(;?)$", text):
        return imports(indent, *use.groups(), columns)
    best = min(places(line, columns, indent), default=None)
    if best is None:
        return [line]
    at = -best[2]
    deeper = " " * (indent if text[0] in "\u2192\u00d7\u228e:" else indent + 4)
    return [line[:at]] + wrap(deeper + line[at + 1:], columns)


def main():
    columns = int(sys.argv[1])
    for path in sys.argv[2:]:
        with open(path, encoding="utf-8") as file:
            lines = file.read().split("\n")
        with open(path, "w", encoding="utf-8") as file:
            file.write("\n".join(new for line in lines for new in wrap(line, columns)))


if __name__ == "__main__":
    main()
