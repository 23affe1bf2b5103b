#!/usr/bin/env python3
"""Moves sections of a file of lemmas into a file of their own beside it, and lays both out.

usage: bench/split_proofs.py FILE NEW FROM TO COMMENT [LOCAL..]     at the top of the checkout

FILE is crates/CRATE/proofs/OLD.antt, and NEW names the new module. What is moved goes from the section (`-- ---- ..`)
whose title begins with FROM up to the one that begins with TO: `^` is the first declaration, `$` the end, a number a
line. COMMENT is the new file's first line. Both files keep the imports that they use, and one imports of the other;
what is imported becomes `pub`. Imports of moved names in all crates are changed, and Lib.antt gets the module. Names
are found by their spelling: LOCAL are names that FILE declares and that elsewhere in it are variables. Where each part
needs the other nothing is changed. What a proof opens (`unfolding`) has to stand in its own module or be unfoldable,
and is told.
"""
import glob
import os
import re
import subprocess
import sys

sys.dont_write_bytecode = True

from wrap_proofs import RATTLE, wrap

NAME = r'[^\s(){}.;,@"«»]+'
MARKS = r"(?:pattern |unfoldable |abbrev |pub |axiom )*"
USE = re.compile(r"(\s*(?:pub |ghost )?use )([\w.]+)\.\{(.*)\}(;?)$")
ALIAS = re.compile(r"((?:pub )?use )([\w.]+)(?: as (\w+))?$")


def read(path):
    with open(path, encoding="utf-8") as file:
        return file.read()


def write(path, lines):
    with open(path, "w", encoding="utf-8") as file:
        file.write("\n".join(lines))


def trimmed(lines):
    filled = [i for i, line in enumerate(lines) if line.strip()]
    return lines[filled[0]:filled[-1] + 1] if filled else []


def words_of(lines):
    """The words of lines but for comments and names of fields."""
    text = "\n".join(re.sub(r"(^|\s)-- .*$", "", line) for line in lines)
    return set(re.findall(NAME, re.sub(r"(?<=[^\s.])\.%s" % NAME, "", text)))


def is_said(name, words):
    """Whether one of the words is the name, or the signs of an operator are among them."""
    return name in words or "◌" in name and all(part in words for part in name.split("◌") if part)


def declared(lines):
    """The names that are declared at the left or in sections of a module, each with its line."""
    found, sections = {}, [0]
    for at, line in enumerate(lines):
        indent = len(line) - len(line.lstrip())
        if line.strip() and line.strip()[0] not in ")]}-":
            sections = [it for it in sections if it <= indent]
        if indent != sections[-1]:
            continue
        if line.strip().startswith("module _"):
            sections.append(indent + 2)
            continue
        begun = re.match(r"\s*" + MARKS + "(record |data )?(%s)" % NAME, line)
        if not begun or begun[2] in ("module", "use", "unfolding", "where", "--"):
            continue
        if begun[1] or re.match(r"(?: \{[^}]*\})? :", line[begun.end():]):
            found[begun[2]] = at
    return found


def publish(lines, names):
    """Makes these declarations `pub`, and the fields of a record."""
    places = declared(lines)
    for name in names:
        at = places[name]
        line = lines[at]
        if re.match(r"\s*" + MARKS, line).group(0).find("pub ") >= 0:
            continue
        lines[at] = re.sub(r"^(\s*)((?:pattern |unfoldable |abbrev )*)", r"\1\2pub ", line)
        if not lines[at].strip().startswith("pub record"):
            continue
        for field in range(at + 1, len(lines)):
            if not lines[field].startswith("  "):
                break
            lines[field] = re.sub(r"^  (?=%s :)" % NAME, "  pub ", lines[field])


def kept(uses, words):
    """What of the imports these words need, one line a module."""
    names, lines = {}, []
    for line in uses:
        if use := USE.match(line):
            key = use[1] + use[2]
            said = [n for n in use[3].split(", ") if is_said(n.split(" as ")[-1], words)]
            if said and key not in names:
                lines.append(key)
            names.setdefault(key, []).extend(said)
        elif (alias := ALIAS.match(line)) and (alias[3] or alias[2].split(".")[-1]) in words:
            lines.append(line)
    return ["%s.{%s}" % (line, ", ".join(names[line])) if line in names else line for line in lines]


class File:
    def __init__(self, path, first, last):
        self.lines = read(path).rstrip("\n").split("\n")
        at = next(i for i, line in enumerate(self.lines) if not line.startswith("--"))
        self.top, self.uses = self.lines[:at], []
        while not self.lines[at].strip() or USE.match(self.lines[at]) or ALIAS.match(self.lines[at]):
            self.uses += [self.lines[at]] if self.lines[at].strip() else []
            at += 1
        first = at if first == "^" else self.section(first)
        last = len(self.lines) if last == "$" else self.section(last)
        self.moved, self.before, self.behind = self.lines[first:last], self.lines[at:first], self.lines[last:]

    def section(self, title):
        if title.isdigit():
            return int(title) - 1
        found = [i for i, line in enumerate(self.lines) if line.startswith("-- ---- " + title)]
        if len(found) != 1:
            sys.exit("%d sections begin with %s" % (len(found), title))
        return found[0]


def needs(names, lines, local):
    words = words_of(lines)
    return [name for name in names if is_said(name, words) and name not in local]


def tell_unfolded(lines, names):
    for line in lines:
        if opened := re.match(r"\s*unfolding (.*)", line):
            for name in opened[1].split():
                if name in names:
                    print("%s is opened where it isn't declared: it has to be unfoldable" % name)


def repointed(path, old, new, names):
    """Changes a file's imports of these names, of the module `old`, to `new`; whether there were any."""
    fresh = re.sub(r"(?<!^)([A-Z])", r"_\1", new.split(".")[-1]).lower()
    text, lines, was = read(path), [], False
    for line in text.split("\n"):
        use, alias = USE.match(line), ALIAS.match(line)
        if use and use[2] == old:
            listed = use[3].split(", ")
            for module, some in ((old, [n for n in listed if n.split(" as ")[0] not in names]),
                                 (new, [n for n in listed if n.split(" as ")[0] in names])):
                lines += ["%s%s.{%s}%s" % (use[1], module, ", ".join(some), use[4])] if some else []
                was |= bool(some) and module == new
        elif alias and alias[2] == old:
            said = set(re.findall(r"\b%s\.(%s)" % (alias[3], NAME), text))
            lines += [line] if said - names else []
            lines += ["use %s as %s" % (new, fresh)] if said & names else []
            was |= bool(said & names)
            for name in said & names:
                renamed = r"\b%s\.%s(?!%s)" % (alias[3], re.escape(name), NAME[:-1])
                text = re.sub(renamed, "%s.%s" % (fresh, name), text)
        else:
            lines.append(line)
    if was:
        body = text.split("\n")
        head = max(i for i, line in enumerate(body) if USE.match(line) or ALIAS.match(line)) + 1
        tail = len(body) - head
        write(path, lines[:len(lines) - tail] + body[head:])
    return was


def users(old, new, names, but):
    found = []
    for kind in ("specs/**/*.antt", "proofs/**/*.antt", "src/**/*.rt"):
        for path in sorted(glob.glob("crates/*/" + kind, recursive=True)):
            if path not in but and old in read(path) and repointed(path, old, new, names):
                found.append(path)
    return found


def main():
    path, name, first, last, comment, *local = sys.argv[1:]
    crate, old_name = re.match(r"crates/(\w+)/proofs/(\w+)\.antt$", path).groups()
    old, new = ("Rattle.%s.proofs.%s" % (crate, it) for it in (old_name, name))
    new_path, library = os.path.join(os.path.dirname(path), name + ".antt"), "crates/%s/proofs/Lib.antt" % crate
    file = File(path, first, last)
    stays = trimmed(trimmed(file.before) + [""] + trimmed(file.behind))
    mine, others = declared(file.moved), declared(stays)
    wanted, taken = needs(others, file.moved, local), needs(mine, stays, local)
    print("of the old file: %s; of the new one: %s" % (" ".join(wanted) or "-", " ".join(taken) or "-"))
    if wanted and taken or os.path.exists(new_path):
        sys.exit("each needs the other, or the file is there")
    tell_unfolded(file.moved, others)
    tell_unfolded(stays, mine)
    publish(file.moved, taken)
    publish(stays, wanted)
    of_old = ["use %s.{%s}" % (old, ", ".join(wanted))] if wanted else []
    of_new = ["use %s.{%s}" % (new, ", ".join(taken))] if taken else []
    changed = users(old, new, set(mine), (path,))
    write(new_path, ["-- " + comment, *kept(file.uses, words_of(file.moved)), *of_old, "", *trimmed(file.moved), ""])
    write(path, [*file.top, *kept(file.uses, words_of(stays)), *of_new, "", *stays, ""])
    listed = re.sub(r"(?m)^((?:pub )?mod )%s$" % old_name, r"\g<0>\n\g<1>" + name, read(library))
    write(library, listed.split("\n"))
    for it in [path, new_path] + [it for it in changed if it.endswith(".antt")]:
        wrap(it)
    subprocess.run([RATTLE, "fmt", "--write", path, new_path, *changed], check=True)
    lengths = tuple(len(read(it).splitlines()) for it in (path, new_path))
    print("%d and %d lines; changed besides: %s" % (*lengths, " ".join(changed) or "-"))


if __name__ == "__main__":
    main()
