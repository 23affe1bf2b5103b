#!/usr/bin/env python3
"""Times `session` over two pipes, a line at a time, beside `run` on the same lines.

usage: bench/session.py [LINES]

Each line is sent only when the whole answer to the one before it has come. The other side of the pipes is bench/talk.c,
so that no interpreter is timed. Beside both stands a program in C that answers each line with `ok` and does no more:
what the pipes and the change from one process to the other cost. They take turns, and the least times are told. Status
1 where a session's answers are others than those of the run, or where by the clock it takes more than 1.5 times as
long as the run and 5 microseconds a line. BKD names the program where it is not crates/bkd/out/bkd.
"""
import os
import subprocess
import sys
import tempfile

HERE = os.path.dirname(os.path.abspath(__file__))
PROGRAM = os.path.abspath(os.environ.get("BKD", os.path.join(HERE, "..", "crates", "bkd", "out", "bkd")))
TURNS = 5


def lines_of(count):
    """So many lines, of which each has an answer of one line."""
    yield "create 2\n"
    for i in range(count - 1):
        if i % 10 == 9:
            yield f"delete {i // 2}\n"
        else:
            yield f"add {i * 7919 % 1000003 - 500000} {i * 104729 % 1000003 - 500000}\n"


class Talk:
    """The program in C that talks, and the files that it reads and writes."""

    def __init__(self, room, count):
        self.room = room
        self.program = os.path.join(room, "talk")
        subprocess.run(["cc", "-O2", "-o", self.program, os.path.join(HERE, "talk.c")], check=True)
        self.input = os.path.join(room, "lines")
        with open(self.input, "w") as file:
            file.writelines(lines_of(count))

    def time(self, how, words):
        """Wall time, and the processor times of the program and of who talks with it."""
        answers = os.path.join(self.room, "answers")
        talking = [self.program, how, self.input, answers, *words]
        *times, status = subprocess.run(talking, stdout=subprocess.PIPE, check=True).stdout.split()
        if status != b"0":
            sys.exit(f"{' '.join(words)}: status {status.decode()}")
        with open(answers, "rb") as file:
            return tuple(map(float, times)), file.read()

    def over(self, how, command):
        """The same over an empty folder."""
        with tempfile.TemporaryDirectory(dir=self.room) as folder:
            return self.time(how, [PROGRAM, folder, command])


def told(name, times, count):
    """A row: the least of each time."""
    wall, processor, talking = (min(column) for column in zip(*times))
    each = " ".join(f"{seconds * 1e6 / count:9.2f}" for seconds in (wall, processor, talking))
    print(f"  {name:22} {wall:7.3f} s; a line, in µs: wall, processor, its talker's: {each}")
    return wall


def main():
    count = int(sys.argv[1]) if len(sys.argv) > 1 else 100_000
    whole, by_line, echoed = [], [], []
    with tempfile.TemporaryDirectory(prefix="bkd-session-") as room:
        talk = Talk(room, count)
        for _ in range(TURNS):
            times, wanted = talk.over("whole", "run")
            whole.append(times)
            times, answers = talk.over("lines", "session")
            by_line.append(times)
            if answers != wanted:
                sys.exit("the answers differ")
            echoed.append(talk.time("lines", [talk.program, "echo"])[0])
    print(f"{count} lines, the least of {TURNS} turns")
    run = told("run", whole, count)
    session = told("session, line by line", by_line, count)
    told("a program that says ok", echoed, count)
    most = 1.5 * run + 5e-6 * count
    print(f"  the session takes {session:.3f} s, 1.5 times the run and 5 µs a line are {most:.3f} s")
    return int(session > most)


if __name__ == "__main__":
    sys.exit(main())
