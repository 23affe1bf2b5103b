"""What the program is given to change a folder, whose lock the caller has.

It reads from a file: where this process dies meanwhile, all of it is done or nothing is.
"""
from __future__ import annotations

from collections.abc import Iterable
from typing import IO, Any

from .. import spelling
from ..errors import Error, Fault, Refused
from ..lock import Held
from ..program import Program, scratch
from ..talk import refusal_of
from . import spelled
from .documents import Documents

# seconds that the program may take for one change
TIMEOUT = 1800.0
Pieces = Iterable[bytes]


def add(program: Program, folder: str, documents: Documents, dims: int, held: Held) -> None:
    """Adds documents, in one commit: by a table, which is much quicker, where each has one point."""
    if documents.counts is not None or "load" not in program.commands or not len(documents):
        run(program, folder, spelled.script(documents), held)
        return
    with scratch() as table:
        table.writelines(spelled.table(documents))
        table.seek(0)
        words = ["load", "--columns", spelled.columns(dims)]
        status, answer = program.output(folder, words, table, TIMEOUT, held)
        if status == 2:
            raise Refused("load", answer.decode().strip(), 1)


def deleted(numbers: Any) -> Pieces:
    """The lines that delete documents of these numbers."""
    return (piece for piece, _ in spelling.deleted(numbers))


def run(program: Program, folder: str, pieces: Pieces, held: Held) -> None:
    """Does a whole script. Raises the first refusal, or the error of the program's status."""
    with scratch() as script:
        script.writelines(pieces)
        script.seek(0)
        status, answers = program.output(folder, ["run"], script, TIMEOUT, held)
        if status == 2:
            raise _refusal(answers, script)


def _refusal(answers: bytes, script: IO[bytes]) -> Error:
    """The first refusal in the answers to a script of lines that are answered by one line each."""
    script.seek(0)
    for number, (line, answer) in enumerate(zip(script, answers.splitlines()), 1):
        if refused := refusal_of(answer, " ".join(line.decode().split()), number):
            return refused
    return Fault("the program refused a line and doesn't say which")
