#!/usr/bin/env python3
"""Draws docs/images/shell.png: what a terminal shows of `bkd shell`. It is typed into xterm, and taken from its screen.

usage: bench/shell_picture.py [FILE]

It wants Debian's packages xvfb, xterm, xdotool, imagemagick and fonts-dejavu-core, and a program: the environment's
BKD, else release/bkd.
"""
import os
import pathlib
import shutil
import subprocess
import sys
import time

TOP = pathlib.Path(__file__).resolve().parent.parent
FILE = pathlib.Path(sys.argv[1] if len(sys.argv) > 1 else TOP / "docs/images/shell.png").resolve()
PROGRAM = os.environ.get("BKD", str(TOP / "release/bkd"))
TABLE = "name,lon,lat\nBerlin,13404954,52520008\nParis,2352222,48856613\nRome,12496366,41902782\n"
DISPLAY = ":97"
ROOM = pathlib.Path("/tmp/bkd")
# None is Ctrl-D
TYPED = ("bkd shell places", "help nearest", "nearest 1 12000000 42000000", "add 9993682 53551086",
         "box 0 45000000 15000000 55000000", "add 9.99 53.55", "snapshot monday", "delete 3",
         "box @monday 0 45000000 15000000 55000000", None)


def typed(environment, line):
    """Types a line, and waits until its answer has come."""
    words = ["key", "ctrl+d"] if line is None else ["type", "--delay", "15", line + "\n"]
    subprocess.run(["xdotool", *words], env=environment, check=True)
    time.sleep(2)


def prepare(room):
    """Makes the folder of README's first use and a command `bkd`; answers the environment of a shell."""
    (room / "bin").mkdir()
    (room / "places").mkdir()
    command = room / "bin" / "bkd"
    command.write_text(f'#!/bin/sh\nPYTHONPATH="{TOP}/clients/python" BKD="{PROGRAM}" exec python3 -m bkd "$@"\n')
    command.chmod(0o755)
    subprocess.run([PROGRAM, room / "places", "load", "--columns", "lon,lat"], input=TABLE.encode(), check=True,
                   stdout=subprocess.DEVNULL)
    return os.environ | {"DISPLAY": DISPLAY, "PATH": f"{room}/bin:{os.environ['PATH']}", "PS1": "$ ", "HOME": str(room),
                         "LC_ALL": "C.UTF-8", "PYTHONDONTWRITEBYTECODE": "1"}


def draw(room):
    """Types the lines into a terminal, and takes its picture."""
    environment = prepare(room)
    screen = subprocess.Popen(["Xvfb", DISPLAY, "-screen", "0", "940x680x24"], stderr=subprocess.DEVNULL)
    time.sleep(2)
    look = ["-fa", "DejaVu Sans Mono", "-fs", "12", "-geometry", "84x30+0+0", "-bg", "#fbfbf8", "-fg", "#222222"]
    terminal = subprocess.Popen(["xterm", *look, "-b", "10", "-e", "bash", "--norc", "--noprofile"], env=environment,
                                cwd=room)
    try:
        time.sleep(2)
        for line in TYPED:
            typed(environment, line)
        subprocess.run(["import", "-window", "root", room / "screen.png"], env=environment, check=True)
        frame = ["-trim", "-bordercolor", "#fbfbf8", "-border", "12", "-colors", "64", "-strip"]
        subprocess.run(["/usr/bin/convert", f"{room}/screen.png[0]", *frame, str(FILE)], check=True)
    finally:
        terminal.terminate()
        terminal.wait()
        screen.terminate()
        screen.wait()


def main():
    # (the path is shown)
    ROOM.mkdir()
    try:
        draw(ROOM)
    finally:
        shutil.rmtree(ROOM)


if __name__ == "__main__":
    main()
