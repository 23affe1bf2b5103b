"""`bkd`, and `python -m bkd`: the program, and what the client adds to it: `bkd shell FOLDER`, `bkd view FOLDER`."""
from __future__ import annotations

import os
import sys

from .errors import Error
from .program import find
from .version import __version__

_USAGE = """usage: bkd FOLDER COMMAND [options] < INPUT    the program
       bkd shell FOLDER [--create D]          a terminal to work in
       bkd view FOLDER                        a page that shows an index
       bkd --version
"""


def main(words: list[str] | None = None) -> int:
    """Does what the words say; where they are the program's it takes the place of this process."""
    said = sys.argv[1:] if words is None else words
    # (a folder may have one of these names)
    is_folder = len(said) > 1 and os.path.isdir(said[0]) and not os.path.isdir(said[1])
    if said[:1] == ["shell"] and not is_folder:
        from . import shell
        return shell.main(said[1:])
    if said[:1] == ["view"] and not is_folder:
        from .view import __main__ as view
        sys.argv[1:] = said[1:]
        return view.main()
    if said in (["--help"], ["-h"], ["help"]):
        print(_USAGE, end="")
        return 0
    try:
        program = find()
        if said == ["--version"]:
            print(f"bkd {__version__}, with the program {' '.join(program.words)}")
            return 0
        os.execv(program.words[0], [*program.words, *said])
    except (Error, OSError) as error:
        print(f"bkd: {error}", file=sys.stderr)
        return 1


if __name__ == "__main__":
    sys.exit(main())
