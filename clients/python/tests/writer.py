"""Writes an index's files by docs/FORMATS.md, in every form that is read, also those that the program no longer writes.

It is apart from `bkd.formats`, shares nothing with it, and is no quicker than it must be.
"""
from __future__ import annotations

import hashlib
import os

PAYLOAD = 4064


def key(c):
    return (c + (1 << 31)).to_bytes(4, "big")


def vint(n):
    out = b""
    while n >= 128:
        out += bytes([128 | n & 127])
        n >>= 7
    return out + bytes([n])


def spread(entries, d, length):
    return len({key(p[d])[length] for _, p in entries})


def spelled_leaf(entries):
    """The leaf of these entries (number, point), in whatever order they come."""
    dims = len(entries[0][1])
    keys = [[key(p[d]) for _, p in entries] for d in range(dims)]
    lengths = [len(os.path.commonprefix(column)) for column in keys]
    open_dims = [d for d in range(dims) if lengths[d] < 4]
    s = min(open_dims, key=lambda d: (spread(entries, d, lengths[d]), d), default=None)
    entries = sorted(entries, key=lambda e: (e[1][s or 0], e[0], e[1]))
    out = len(entries).to_bytes(2, "big") + spelled_numbers([n for n, _ in entries])
    out += bytes(lengths) + b"".join(column[0][:length] for column, length in zip(keys, lengths))
    if s is not None:
        column = bytes(key(p[s])[lengths[s]] for _, p in entries)
        pieces = []
        for byte in column:
            if pieces and pieces[-1][0] == byte and pieces[-1][1] < 255:
                pieces[-1][1] += 1
            else:
                pieces.append([byte, 0])
        runs = 2 * len(pieces) < len(entries)
        out += bytes([s, runs]) + (bytes([len(pieces)]) + b"".join(map(bytes, pieces)) if runs else column)
    return out + b"".join(key(p[d])[lengths[d] + (d == s):] for _, p in entries for d in range(dims))


def spelled_numbers(numbers):
    if numbers == list(range(numbers[0], numbers[0] + len(numbers))):
        return b"\0" + vint(numbers[0])
    least, greatest = min(numbers), max(numbers)
    width = next(w for w in (1, 2, 3) if greatest - least < 1 << 8 * w)
    return bytes([width]) + vint(least) + b"".join((n - least).to_bytes(width, "big") for n in numbers)


def cell_of(entries):
    return [min(c) for c in zip(*(p for _, p in entries))], [max(c) for c in zip(*(p for _, p in entries))]


def tree_of(entries, leaf):
    """A leaf's entries, or (dimension, value, left, right)."""
    n = -(-len(entries) // leaf)
    if n == 1:
        return entries
    low, high = cell_of(entries)
    extents = [b - a for a, b in zip(low, high)]
    d = extents.index(max(extents))
    entries = sorted(entries, key=lambda e: (e[1][d], e[0], e[1]))
    cut = -(-n // 2) * leaf
    return d, entries[cut][1][d], tree_of(entries[:cut], leaf), tree_of(entries[cut:], leaf)


def leaves_of(tree):
    return [tree] if isinstance(tree, list) else leaves_of(tree[2]) + leaves_of(tree[3])


def placed(lengths):
    places, page, offset = [], 0, 0
    for length in lengths:
        if offset + length > PAYLOAD:
            page, offset = page + 1, 0
        places.append((page, offset, length))
        offset += length
    return places


def spelled_tree(tree, form, places, first, references):
    """The node whose first leaf is `first`, in a packed form."""
    if isinstance(tree, list):
        low, high = cell_of(tree)
        return vint(places[first][2]) + (b"".join(map(key, low + high)) if form == 3 else b"")
    d, value, left, right = tree
    shared = len(os.path.commonprefix([key(value), references[d]]))
    inner = [*references[:d], key(value), *references[d + 1:]]
    middle = first + len(leaves_of(left))
    spelled_left = spelled_tree(left, form, places, first, inner)
    front = (bytes([5 * d + shared]) + key(value)[shared:]
             + vint(places[middle][0] - places[first][0]) + vint(places[middle][1]))
    return front + vint(len(spelled_left)) + spelled_left + spelled_tree(right, form, places, middle, inner)


def nodes_of(tree):
    return b"" if isinstance(tree, list) else bytes([tree[0]]) + key(tree[1]) + nodes_of(tree[2]) + nodes_of(tree[3])


def segment_payloads(entries, leaf, form):
    """The payloads of a segment's pages."""
    dims = len(entries[0][1])
    tree = tree_of(entries, leaf)
    leaves = [spelled_leaf(one) for one in leaves_of(tree)]
    places = placed(map(len, leaves))
    low, high = cell_of(entries)
    body = b"".join(map(key, low + high))
    if form == 1:
        body += nodes_of(tree)
        body += b"".join(p.to_bytes(4, "big") + o.to_bytes(2, "big") + n.to_bytes(2, "big") for p, o, n in places)
    else:
        body += spelled_tree(tree, form, places, 0, [key(c) for c in low])
    pages = [b""] * (places[-1][0] + 1)
    for (page, _, _), spelled in zip(places, leaves):
        pages[page] += spelled
    head = (b"BKDPSEG2" if form == 3 else b"BKDPSEG1") + bytes([dims, form]) + leaf.to_bytes(2, "big")
    head += b"".join(n.to_bytes(4, "big") for n in (len(entries), len(leaves), len(body), len(pages)))
    return [head, *(body[i:i + PAYLOAD] for i in range(0, len(body), PAYLOAD)), *pages]


def live_body(segment, generation, numbers, live):
    base, span = min(numbers), max(numbers) - min(numbers) + 1
    bits = bytearray((span + 7) // 8)
    for n in live:
        bits[(n - base) // 8] |= 1 << (n - base) % 8
    front = b"BKDPLIV1" + segment.to_bytes(8, "big") + generation.to_bytes(8, "big")
    return front + b"".join(n.to_bytes(4, "big") for n in (base, span, len(live))) + bytes(bits)


def commit_body(dims, leaf, following, given, next_segment, listed, layout=2):
    out = b"BKDPCOM%d" % layout + bytes([dims]) + leaf.to_bytes(2, "big") + following.to_bytes(4, "big")
    out += given.to_bytes(4, "big") if layout == 2 else b""
    out += next_segment.to_bytes(8, "big") + len(listed).to_bytes(2, "big")
    return out + b"".join(s.to_bytes(8, "big") + g.to_bytes(8, "big") + e.to_bytes(4, "big") + n.to_bytes(4, "big")
                          for s, g, e, n in listed)


def sealed(kind, number, page, payload):
    payload = payload.ljust(PAYLOAD, b"\0")
    return payload + hashlib.sha256(bytes([kind]) + number.to_bytes(8, "big") + page.to_bytes(4, "big")
                                    + payload).digest()


def write_file(folder, name, kind, number, payloads):
    """Written aside and renamed, so that a kill leaves the one or the other."""
    aside = os.path.join(folder, name + ".aside")
    with open(aside, "wb") as file:
        file.write(b"".join(sealed(kind, number, page, payload) for page, payload in enumerate(payloads)))
    os.rename(aside, os.path.join(folder, name))


def in_pages(body):
    return [body[i:i + PAYLOAD] for i in range(0, len(body), PAYLOAD)]


def write_index(folder, dims, leaf, segments, following, given, layout=2):
    """Writes an index. Each segment is (id, generation, form, documents as {number: points}, the live numbers)."""
    listed = []
    for segment, generation, form, documents, live in segments:
        entries = [(n, p) for n, points in documents.items() for p in points]
        write_file(folder, f"seg-{segment:016x}.bkd", 1, segment, segment_payloads(entries, leaf, form))
        body = live_body(segment, generation, list(documents), live)
        write_file(folder, f"live-{segment:016x}-{generation:016x}.bkd", 2, segment, in_pages(body))
        listed.append((segment, generation, len(entries), len(live)))
    next_segment = max((one[0] for one in listed), default=-1) + 1
    write_file(folder, "commit.bkd", 3, 0,
               in_pages(commit_body(dims, leaf, following, given, next_segment, listed, layout)))
