"""An index over many folders and machines, by Dask distributed.

    from bkd import shards
    shards.create("points.json", ["/shared/a", "/shared/b"], dims=2)
    with shards.open("points.json", "tcp://scheduler:8786") as index:
        index.add_many(points, keys)
        index.box((0, 0), (9, 9))
        index.nearest(10, (3, 4))

A document is told by the caller's own key, a whole number of 64 bits signed. Each shard is an index of its own, with a
journal of what was stored in it beside it; what each call changes is committed there when the call is done. It answers
as one index would, or raises why it can't. See `Shards`.
"""
from .documents import Query
from .errors import BadLayout, Changed, Unfinished, WorkerLost
from .layout import Layout, create
from .queries import Moment, box, nearest, polygon
from .shards import Shards, open

__all__ = ["BadLayout", "Changed", "Layout", "Moment", "Query", "Shards", "Unfinished", "WorkerLost", "box", "create",
           "nearest", "open", "polygon"]
