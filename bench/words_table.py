"""Reads docs/commands.txt, for bench/words.py."""
import os

TOP = os.path.join(os.path.dirname(os.path.abspath(__file__)), "..")


def at(name):
    return os.path.join(TOP, name)


class Table:
    """The commands, each with its form, its input, what it does and an example; the options, each with its value, what
    it is and its range; the lines, each with its commands and its form."""

    def __init__(self):
        self.commands, self.options, self.lines = {}, {}, []
        self.examples, self.ranges = {}, {}
        about = name = None
        for line in open(at("docs/commands.txt")):
            word, _, rest = line.strip().partition(" ")
            if line.startswith("    "):
                self.lines.append((name, line.strip())) if about is None else about.append(line.strip())
            elif word == "command":
                form, _, given = rest.partition(" < ")
                name, about = rest.split()[0], []
                self.commands[name] = form, given, about
            elif word == "option":
                name, _, value = rest.partition(" ")
                about = []
                self.options[name] = value, "", about
            elif word == "example":
                self.examples[name] = rest
            elif word == "range":
                self.ranges[name] = rest.split()
            elif word == "lines":
                name, about = rest, None


def read_table():
    """The table, with what is said of each command and option as one text."""
    table = Table()
    for of in (table.commands, table.options):
        for name, (first, second, about) in of.items():
            of[name] = first, second, " ".join(about)
    return table
