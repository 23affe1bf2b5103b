#!/usr/bin/env python3
"""Draws docs/images/formats.svg: a folder's files, a segment's pages, a page, a leaf and a commit, as docs/FORMATS.md
tells them.

usage: bench/format_picture.py          writes the picture
       bench/format_picture.py --check  fails where the picture is not of this script
"""
import html
import pathlib
import sys

PICTURE = pathlib.Path(__file__).resolve().parent.parent / "docs/images/formats.svg"
WIDTH, MARGIN, NAME, BOX, GAP = 1180, 20, 150, 46, 30
COLOURS = {"head": "#cfe3f7", "index": "#d9f0d3", "leaf": "#fdeec4", "digest": "#f6d5d5", "plain": "#eeeeee"}

# A row: what it is, and its boxes: a title, what stands below it, how wide it is beside the others, and its colour
ROWS = (
    ("a folder", (("commit.bkd", "the list", 2, "head"), ("seg-ID.bkd", "points, never changed", 4, "leaf"),
                  ("live-ID-GENERATION.bkd", "which of them are live", 3, "index"),
                  ("seg-ID.bkd", "…", 4, "leaf"), ("live-ID-GENERATION.bkd", "…", 3, "index"))),
    ("a segment's file", (("page 0", "head", 2, "head"), ("pages 1 ..", "index body: the tree", 4, "index"),
                          ("leaf pages", "leaves, one behind another", 9, "leaf"))),
    ("a page", (("payload", "4,064 bytes, zeros behind what is said", 12, "plain"),
                ("SHA-256", "32 bytes: kind, file, page, payload", 4, "digest"))),
    ("a head", (("BKDPSEG2", "8", 3, "head"), ("dims", "1", 1, "plain"), ("form", "1", 1, "plain"),
                ("leaf size", "2", 2, "plain"), ("entries", "4", 2, "plain"), ("leaves", "4", 2, "plain"),
                ("index length", "4", 2, "plain"), ("leaf pages", "4", 2, "plain"))),
    ("an index body", (("root cell", "8 D bytes", 3, "index"), ("code", "5 d + p", 2, "plain"),
                       ("split value", "its last 4 − p bytes", 3, "plain"),
                       ("right child's place", "page, offset", 3, "plain"), ("left length", "vint", 2, "plain"),
                       ("left child", "…", 3, "index"), ("right child", "…", 3, "index"))),
    ("a leaf", (("count", "2", 1, "plain"), ("numbers", "form, least, differences", 4, "leaf"),
                ("prefixes", "lengths, shared bytes", 3, "plain"), ("sorted", "dimension, run form", 3, "plain"),
                ("sorted bytes", "plain or in runs", 3, "leaf"), ("rests", "what is left of each key", 4, "leaf"))),
    ("live bits", (("BKDPLIV1", "8", 3, "head"), ("segment", "8", 2, "plain"), ("generation", "8", 2, "plain"),
                   ("base", "4", 1, "plain"), ("span", "4", 1, "plain"), ("live", "4", 1, "plain"),
                   ("bits", "one a number from base on", 5, "index"))),
    ("a commit", (("BKDPCOM2", "8", 3, "head"), ("dims", "1", 1, "plain"), ("leaf size", "2", 2, "plain"),
                  ("next number", "4", 2, "plain"), ("points given", "4", 2, "plain"),
                  ("next segment", "8", 2, "plain"),
                  ("count", "2", 1, "plain"), ("id, generation, entries, live", "24 each segment", 5, "leaf"))),
)


def text(x, y, size, words, anchor="middle", weight="normal"):
    """Returns a line of text."""
    return (f'<text x="{x:.0f}" y="{y:.0f}" font-size="{size}" text-anchor="{anchor}" font-weight="{weight}">'
            f"{html.escape(words)}</text>")


def row(y, name, boxes):
    """Returns a row of boxes, as wide as their shares."""
    parts = [text(MARGIN, y + BOX / 2 + 5, 15, name, "start", "bold")]
    share = (WIDTH - 2 * MARGIN - NAME) / sum(width for _, _, width, _ in boxes)
    x = MARGIN + NAME
    for title, below, width, colour in boxes:
        wide = width * share
        parts.append(f'<rect x="{x:.1f}" y="{y}" width="{wide:.1f}" height="{BOX}" fill="{COLOURS[colour]}" '
                     'stroke="#555555"/>')
        parts.append(text(x + wide / 2, y + 20, 12, title, weight="bold"))
        parts.append(text(x + wide / 2, y + 37, 11, below))
        x += wide
    return parts


def picture():
    """Returns the picture."""
    height = 2 * MARGIN + len(ROWS) * (BOX + GAP) - GAP
    parts = [f'<svg xmlns="http://www.w3.org/2000/svg" viewBox="0 0 {WIDTH} {height}" width="{WIDTH}" '
             f'height="{height}" font-family="sans-serif" fill="#222222">',
             f'<rect width="{WIDTH}" height="{height}" fill="#ffffff"/>']
    for at, (name, boxes) in enumerate(ROWS):
        parts += row(MARGIN + at * (BOX + GAP), name, boxes)
    return "\n".join([*parts, "</svg>", ""])


def main():
    if sys.argv[1:] == ["--check"]:
        sys.exit(0 if PICTURE.read_text(encoding="utf-8") == picture() else "docs/images/formats.svg is stale")
    PICTURE.write_text(picture(), encoding="utf-8")


if __name__ == "__main__":
    main()
