"""python -m bkd.view FOLDER [--port N] [--program PATH] [--degrees]: shows the index of a folder in a page on
the loopback address."""
from __future__ import annotations

import argparse
import sys

from ..errors import Error
from .server import serve


def main() -> int:
    words = argparse.ArgumentParser(prog="python -m bkd.view", description="Shows the index of a folder in a page.")
    words.add_argument("folder")
    words.add_argument("--port", type=int, default=8765, help="the port on 127.0.0.1; 0 takes a free one (8765)")
    words.add_argument("--program", help="the program bkd, where it is not that of BKD or of the checkout")
    words.add_argument("--degrees", action=argparse.BooleanOptionalAction,
                       help="coordinates are degrees at 10^-7, or are not; left out, the page guesses")
    asked = words.parse_args()
    try:
        with serve(asked.folder, asked.port, program=asked.program, degrees=asked.degrees) as server:
            print(server.url, flush=True)
            server.serve_forever()
    except KeyboardInterrupt:
        return 0
    except (Error, OSError, OverflowError) as error:
        print(f"bkd.view: {error}", file=sys.stderr)
        return 1
    return 0


if __name__ == "__main__":
    sys.exit(main())
