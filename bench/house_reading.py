"""What must be read to believe a clause: the definitions that its words unfold to, file by file."""
import os
import re

WORD = re.compile(r"[A-Za-z_][A-Za-z0-9_']*(?:\.[A-Za-z_][A-Za-z0-9_']*)*")
HEAD = re.compile(r"^(?:(?:abbrev|unfoldable) )?(?:pub )?(?:(?:record|data|abbrev) )?([A-Za-z_][A-Za-z0-9_']*)\b")
USE = re.compile(r"^use Rattle\.([a-z_0-9]+)\.specs\.([A-Za-z0-9_.]+?)(?:\.\{(.*)\}| as ([a-z_0-9]+))?;?$")


class SpecFile:
    """The definitions of a file of specs/, each with its lines, and what each of its words means."""

    def __init__(self, root, crate, name):
        self.key = (crate, name)
        self.path = "crates/%s/specs/%s.antt" % (crate, name.replace(".", "/"))
        self.spans, self.parts, self.words, self.aliases = {}, {}, {}, {}
        with open(os.path.join(root, self.path), encoding="utf-8") as text:
            self.lines = text.read().splitlines()
        self._read()

    def _read(self):
        head, begun = None, 0
        for i, line in enumerate(self.lines):
            if line.startswith("use "):
                self._use(line)
                head = None
            elif line.startswith("--") or not line.strip():
                head = None
            elif not line.startswith(" "):
                name = HEAD.match(line)
                if name and name.group(1) != head:
                    head, begun = name.group(1), i
                    self.spans.setdefault(head, []).append([begun, i + 1])
            if head:
                self.spans[head][-1][1] = i + 1
                part = re.match(r"^  ([A-Z][A-Za-z0-9_']*) :", line)
                if part:
                    self.parts[part.group(1)] = head

    def _use(self, line):
        found = USE.match(line.strip())
        if not found:
            return
        crate, module, names, alias = found.groups()
        if alias:
            self.aliases[alias] = (crate, module)
        for name in (names or "").split(","):
            old, _, new = name.strip().partition(" as ")
            self.words[new or old] = (crate, module, old)

    def text_of(self, name):
        lines = []
        for begin, end in self.spans.get(name, []):
            lines += self.lines[begin:end]
        return "\n".join(line.split(" -- ")[0] for line in lines if not line.strip().startswith("--"))

    def chosen(self, names):
        """The lines of these definitions, with the comment above each."""
        chosen = set()
        for name in names:
            for begin, end in self.spans.get(name, []):
                while begin > 0 and self.lines[begin - 1].startswith("--"):
                    begin -= 1
                chosen.update(range(begin, end))
        return [self.lines[i] for i in sorted(chosen) if self.lines[i].strip()]

    def foreign(self, names, own):
        """The words of the toolchain and the kit's crates that these definitions say."""
        text = "\n".join(self.text_of(name) for name in names)
        said, found = set(WORD.findall(text)), set()
        for word, (crate, module, old) in self.words.items():
            sign = "◌" in word and all(part in text for part in word.split("◌") if part)
            if crate not in own and (sign or word in said):
                found.add((crate, module, old))
        return found


class Specs:
    """All files of specs/ of a repository, read as they are asked for."""

    def __init__(self, root):
        self.root, self.files = root, {}

    def file(self, crate, name):
        key = (crate, name)
        if key not in self.files:
            path = os.path.join(self.root, "crates", crate, "specs", name.replace(".", "/") + ".antt")
            self.files[key] = SpecFile(self.root, crate, name) if os.path.exists(path) else None
        return self.files[key]

    def meaning(self, file, word):
        """The definition that a word of a file names: crate, module and name; None where it is none of specs/."""
        first, _, rest = word.partition(".")
        if rest and first in file.aliases:
            return file.aliases[first] + (rest.split(".")[0],)
        if first in file.spans or first in file.parts:
            return file.key + (first,)
        return file.words.get(first)

    def unfold(self, start):
        """All definitions that these unfold to, in the order of first use."""
        found, waiting = {}, list(start)
        while waiting:
            crate, module, name = waiting.pop(0)
            file = self.file(crate, module)
            if file is None:
                continue
            name = file.parts.get(name, name)
            key = (crate, module, name)
            if key in found or name not in file.spans:
                continue
            found[key] = True
            for word in WORD.findall(file.text_of(name)):
                meaning = self.meaning(file, word)
                if meaning:
                    waiting.append(meaning)
        return list(found)

    def by_file(self, definitions):
        """The files of these definitions with the lines of each, in the order of first use."""
        names = {}
        for crate, module, name in definitions:
            names.setdefault((crate, module), []).append(name)
        return [(self.file(*key), self.file(*key).chosen(found), found) for key, found in names.items()]

    def foreign(self, files):
        """What of others these files of definitions say: words of std, and words of the kit's crates."""
        own = os.listdir(os.path.join(self.root, "crates"))
        words = set().union(*(file.foreign(found, own) for file, _, found in files))
        return [sorted({word[2] for word in words if (word[0] == "std") == is_std}) for is_std in (True, False)]


# ---- the chapters of docs/READING.md

# what a chapter opens; of these crates alone, or of all but these
CHAPTER = re.compile(r"^<!-- opens: (.*?)(?:; (of|but): (.*?))? -->$")
ROW = re.compile(r"^\| `([^`]+)` \| *\d+ \|(.*)$")
SUM = re.compile(r"\*\*\d+ files, \d+ lines(, \d+ words)?\*\*")
ALL = re.compile(r"\*\*\d+ definitions in \d+ files, \d+ lines\*\*")
OTHERS = re.compile(r"\*\*\d+ words of std and \d+ of the kit's crates\*\*")
TOP = ("crates/bkd_top/src/program.rt", "run")


def words_of_call(root, path, call):
    """The definitions that the clauses of a call name, by the file's own imports."""
    with open(os.path.join(root, path), encoding="utf-8") as text:
        lines = text.read().splitlines()
    names, clauses, inside = {}, [], False
    for line in lines:
        found = USE.match(line.strip().replace("ghost use ", "use "))
        if found and not line.startswith(" "):
            for name in (found.group(3) or "").split(","):
                old, _, new = name.strip().partition(" as ")
                names[new or old] = (found.group(1), found.group(2), old)
        inside = line != "{" and (inside or re.match(r"pub fn %s\b" % call, line) is not None)
        if inside:
            clauses.append(line)
    return [names[word] for word in WORD.findall("\n".join(clauses)) if word in names]


def start_of(text):
    """The definitions that `crate/File.name,name` and the like name."""
    places = [re.match(r"(\w+)/([\w.]+)\.([\w,]+)$", word).groups() for word in text.split()]
    return [(crate, module, name) for crate, module, names in places for name in names.split(",")]


def chapter_rows(rows, files):
    """The rows of a chapter in their order, with the counts that are true; files that are missing come last."""
    said = {}
    for row in rows:
        found = ROW.match(row)
        if found:
            said[found.group(1)] = found.group(2)
    counts = {file.path: len(lines) for file, lines, _ in files}
    order = [path for path in said if path in counts] + [path for path in counts if path not in said]
    return ["| `%s` | %d |%s" % (path[len("crates/"):], counts[path], said.get(path, " |")) for path in order]


def chapters_of(root, text):
    """The chapters of READING.md in their order, each with the line that opens it and its files of definitions."""
    specs, known = Specs(root), set()
    for opens in re.findall(r"<!-- opens: .*? -->", text, re.S):
        asked, kind, named = CHAPTER.match(" ".join(opens.split())).groups()
        start = words_of_call(root, *TOP) if asked == "the top call" else start_of(asked)
        found = [d for d in specs.unfold(start) if d not in known]
        if kind:
            found = [d for d in found if (d[0] in named.split()) == (kind == "of")]
        known.update(found)
        yield opens, specs.by_file(found)


def printed(root, text, number):
    """A chapter of READING.md as it is read: its definitions, file by file, and the words of others that they say."""
    _, files = list(chapters_of(root, text))[number - 1]
    if number == 1:
        yield "==== the clause headline of %s, %s\n%s\n" % (*TOP, headline(root))
    for file, lines, _ in files:
        yield "\n".join(["==== " + file.path, *lines, ""])
    for title, words in zip(("std", "the kit's crates"), Specs(root).foreign(files)):
        yield "==== words of %s that this says: %s" % (title, ", ".join(words) or "none")


def headline(root):
    """The clause `headline` of the top call, as it stands there."""
    with open(os.path.join(root, TOP[0]), encoding="utf-8") as text:
        return re.search(r"(?m)^ *ensures headline \{[\s\S]*? \}$", text.read()).group(0)


def sums_of(root, files):
    """The two counts that a chapter may say: of its files, lines and words, and of the words of others."""
    lines = [line for _, part, _ in files for line in part]
    words = sum(len(line.split()) for line in lines)
    std, kit = Specs(root).foreign(files)
    return ((len(files), len(lines), words), "**%d words of std and %d of the kit's crates**" % (len(std), len(kit)))


def fresh_chapter(root, piece, files):
    """The piece of READING.md behind the line that opens a chapter, with true counts."""
    (count, lines, words), others = sums_of(root, files)
    sums = "**%d files, %d lines" % (count, lines)
    piece = SUM.sub(lambda found: sums + (", %d words**" % words if found.group(1) else "**"), piece)
    piece, out, rows = OTHERS.sub(others, piece), [], []
    for line in [*piece.split("\n"), None]:
        if line is not None and ROW.match(line):
            rows.append(line.replace("| `", "| `crates/", 1))
            continue
        out += (chapter_rows(rows, files) if rows else []) + ([] if line is None else [line])
        rows = []
    return "\n".join(out)


def fresh_reading(root, text):
    """READING.md with true counts, and how many definitions, files and lines stand behind the top call."""
    specs = Specs(root)
    everything = specs.by_file(specs.unfold(words_of_call(root, *TOP)))
    total = (sum(len(f[2]) for f in everything), len(everything), sum(len(f[1]) for f in everything))
    front, out = text, ""
    for opens, files in chapters_of(root, text):
        before, _, rest = front.partition(opens)
        cut = re.search(r"\n#+ |$(?![\s\S])", rest).start()
        piece, front = rest[:cut], rest[cut:]
        out += before + opens + fresh_chapter(root, piece, files)
    return ALL.sub("**%d definitions in %d files, %d lines**" % total, out + front), total
