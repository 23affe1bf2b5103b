"""A second reader of the index's files, by docs/FORMATS.md alone.

It accepts just the bytes that the formats allow, and tells a damage as the program does, by `bkd.Damaged`. Files are
read as they are: nothing here locks the folder, and nothing is written.
"""
from .commit import Commit, Listed, read_commit
from .segment import Segment, open_segment
from .stored import Stored, open_stored

__all__ = ["Commit", "Listed", "Segment", "Stored", "open_segment", "open_stored", "read_commit"]
