"""The calls on files that strace tells of a program, for bench/durable.py."""
import os
import re

TRACED = ("open,openat,creat,close,write,writev,pwrite64,fsync,fdatasync,ftruncate,"
          "rename,renameat,renameat2,unlink,unlinkat,link,symlink")


class Call:
    """A call that was traced: what it does, the names, the file (a number), and where which bytes go."""

    def __init__(self, kind, names=(), file=None, at=0, data=b""):
        self.kind, self.names, self.file, self.at, self.data = kind, names, file, at, data

    def __str__(self):
        return " ".join([self.kind, *self.names,
                         *(["%d bytes at %d" % (len(self.data), self.at)] if self.kind == "write" else [])])


def unquoted(text):
    """The bytes of a string that strace wrote in hexadecimal digits."""
    return bytes.fromhex(text.replace("\\x", ""))


class Trace:
    """The calls of a program on the files of one folder, and on its output."""

    def __init__(self, folder):
        self.folder, self.calls, self.open = folder, [], {}
        self.names, self.sizes, self.known = {}, {}, {}

    def name(self, path):
        by_descriptor = re.match(r"/proc/self/fd/(\d+)/(.*)", path)
        if by_descriptor and self.open.get(int(by_descriptor.group(1)), [None])[0] == ".":
            return by_descriptor.group(2) or "."
        path = os.path.abspath(path)
        return "." if path == self.folder else os.path.basename(path) if os.path.dirname(path) == self.folder else None

    def opened(self, path, flags, descriptor):
        name = self.name(path)
        if name is None:
            return
        if name == ".":
            self.open[descriptor] = [".", None, 0]
            return
        if name not in self.names:
            self.names[name] = len(self.sizes)
            self.sizes[self.names[name]] = 0
            self.calls.append(Call("create", [name], self.names[name]))
        file = self.names[name]
        if "O_TRUNC" in flags and self.sizes[file]:
            self.sizes[file] = 0
            self.calls.append(Call("truncate", [name], file))
        self.open[descriptor] = [name, file, self.sizes[file] if "O_APPEND" in flags else 0]

    def wrote(self, descriptor, data):
        if descriptor == 1:
            self.calls.append(Call("answer", data=data))
        elif descriptor in self.open:
            opened = self.open[descriptor]
            self.calls.append(Call("write", [opened[0]], opened[1], opened[2], data))
            opened[2] += len(data)
            self.sizes[opened[1]] = max(self.sizes[opened[1]], opened[2])

    def line(self, text):
        """Takes a line of strace. A call that isn't known here must not be on a file of the folder."""
        found = re.match(r"(?:\d+ +)?(\w+)\((.*)\) += (-?\d+)", text)
        if not found or int(found.group(3)) < 0:
            return
        call, words, result = found.group(1), found.group(2), int(found.group(3))
        strings = [unquoted(s) for s in re.findall(r'"((?:\\x[0-9a-f]{2})*)"', words)]
        first = int(re.match(r"\d+", words).group()) if re.match(r"\d", words) else None
        if call in ("open", "openat"):
            self.opened(os.fsdecode(strings[0]), words, result)
        elif call == "close":
            self.open.pop(first, None)
        elif call == "write":
            self.wrote(first, strings[0][:result])
        elif call in ("fsync", "fdatasync"):
            if first in self.open:
                self.calls.append(Call("sync", [self.open[first][0]], self.open[first][1]))
        elif call == "rename":
            old, new = (self.name(os.fsdecode(s)) for s in strings)
            self.names[new] = self.names.pop(old)
            self.calls.append(Call("rename", [old, new], self.names[new]))
        elif call in ("unlink", "unlinkat"):
            name = self.name(os.fsdecode(strings[0]))
            self.calls.append(Call("remove", [name], self.names.pop(name)))
        elif first in self.open or any(self.name(os.fsdecode(s)) for s in strings):
            raise SystemExit("a call that isn't known here: " + text)
