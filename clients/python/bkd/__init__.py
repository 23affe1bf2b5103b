"""A client of the program `bkd`, an index of documents that have points of 1 to 8 whole numbers of 32 bits.

    import bkd
    with bkd.open("places", create=True, decimals=6) as index:
        berlin = index.add((13.404954, 52.520008))
        index.box((0, 45), (15, 55))
        index.nearest(1, (12, 42))

The client talks with the program over its streams; nothing of it is proved, and it is tested against the program.
`bkd.geo` scales decimal degrees, `bkd.export` and `bkd.clean` read the index's files, `bkd.frames` has an index beside
a data frame, `bkd.shards` spreads an index over folders, `bkd.plot` draws, `python -m bkd.view FOLDER` shows an index
in a page, and `bkd shell FOLDER` is a terminal to work in.
"""
from . import geo, ranges, requests
from .answers import Explained
from .cleaning import clean
from .commands import Checked, Info, batch, check, explain, generate, info, load
from .damage import Damage
from .errors import (BadAnswer, Closed, Damaged, Died, Error, Fault, FolderFault, Hung, Locked, NoIndex, NotFound,
                     OtherKind, OutOfMemory, ReadOnly, Reentered, Refused, SinkFault, SourceFault, TooLarge,
                     Uncommitted, Unsupported, WorkerLost)
from .exporting import export, export_csv, to_arrays
from .index import Index
from .opening import open
from .program import Program, find
from .queries import Snapshot
from .ranges import Ranges, open_ranges
from .scale import Scale
from .version import __version__

__all__ = [
    "BadAnswer", "Checked", "Closed", "Damage", "Damaged", "Died", "Error", "Explained", "Fault", "FolderFault", "Hung",
    "Index", "Info", "Locked", "NoIndex", "NotFound", "OtherKind", "OutOfMemory", "Program", "Ranges", "ReadOnly",
    "Reentered", "Refused", "Scale", "SinkFault", "Snapshot", "SourceFault", "TooLarge", "Uncommitted", "Unsupported",
    "WorkerLost", "__version__", "batch", "check", "clean", "explain", "export", "export_csv", "find", "generate",
    "geo", "info", "load", "open", "open_ranges", "ranges", "requests", "to_arrays",
]
