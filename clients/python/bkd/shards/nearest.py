"""The nearest documents of a folder by their keys."""
from __future__ import annotations

import heapq
from collections.abc import Callable, Sequence
from typing import Any

from .. import requests
from ..formats import open_stored
from ..requests import Request
from .documents import Array, Query

_MOST = 10_000
Near = list[tuple[int, int]]


def nearest_keys(query: Query, near: Any, keys: Array, is_ordered: bool, ask: Callable[[Sequence[Request]], list[Any]],
                 folder: str) -> Near:
    """The `k` least by (distance, key), of what the program told of them by number.

    Of equally far ones the program tells those of the least numbers, so more are asked for where keys don't ascend.
    """
    asked = query.k
    while not is_ordered and len(near) == asked and near[-1][1] == near[query.k - 1][1]:
        if asked == _MOST:
            return _of_all(query, keys, folder)
        asked = min(2 * asked, _MOST)
        near = ask([requests.nearest(asked, query.at)])[0]
    return sorted((distance, int(keys[number])) for number, distance in near)[:query.k]


def _of_all(query: Query, keys: Array, folder: str) -> Near:
    """The same by a look at all entries, where more are equally far than a query tells."""
    least: dict[int, int] = {}
    for _, leaf, places in open_stored(folder).entries():
        for i in places:
            distance = sum((column[i] - c) ** 2 for column, c in zip(leaf.columns, query.at))
            number = leaf.numbers[i]
            least[number] = min(distance, least.get(number, distance))
    return heapq.nsmallest(query.k, ((distance, int(keys[number])) for number, distance in least.items()))
