"""What nothing uses: words that a file of contracts or proofs brings in and never says, and lemmas and definitions that
no file cites."""
import os
import re

NAME = r"[A-Za-z_][A-Za-z0-9_'\-]*"
PART = r"[A-Za-z0-9_'\-]"
KINDS = "pub|abbrev|unfoldable|opaque|record|data"
USE = re.compile(r"^ *(pub )?(?:ghost )?use (Rattle\.[A-Za-z0-9_.]+?)(?:\.\{([^}]*)\})?(?: as (\w+))?;?$")
HEAD = re.compile(r"^(?:(?:%s) )*(%s)(?=\s*([:({])|%s| |$)" % (KINDS, NAME, PART))
NO_NAMES = ("module", "ruleset", "unfolding", "use")
# what the kit looks up by its own name
ANSWERS = ("Answers.antt", "Invariants.antt", "Lib.antt")


class Text:
    """A file: the words of each of its parts at the margin, its comments left out, and what it brings in."""

    def __init__(self, root, path):
        self.path, self.blocks, self.words, self.wholes = path, [("", [])], [], []
        with open(os.path.join(root, path), encoding="utf-8") as text:
            for line in text.read().split("\n"):
                line = re.sub(r"--.*" if path.endswith(".antt") else r"//.*", "", line)
                if not self._imports(line):
                    self._read(line)
        self.text = "\n".join("\n".join(lines) for _, lines in self.blocks)
        self.said = set(re.findall(NAME, self.text))

    def _imports(self, line):
        found = USE.match(line)
        if not found:
            return False
        is_handed_on, module, names, alias = found.groups()
        for name in filter(None, (it.strip() for it in (names or "").split(","))):
            old, _, new = name.partition(" as ")
            self.words.append((module, old, new or old, bool(is_handed_on)))
        if not names:
            self.wholes.append((module, alias or module))
        return True

    def _read(self, line):
        head = HEAD.match(line)
        name = "" if head and head.group(1) in NO_NAMES else head and head.group(1)
        if head and self.blocks[-1][0] != name:
            self.blocks.append((name, []))
        self.blocks[-1][1].append(line)

    def module(self):
        return "Rattle." + self.path[len("crates/"):-len(".antt")].replace("/", ".")

    def says(self, word):
        """Whether the file has the word, or each part of an operator."""
        if re.fullmatch(NAME, word):
            return word in self.said
        return all(it in self.text for it in word.split("◌") if it)

    def unsaid(self):
        """The definitions that the others of the file don't say."""
        said = [(own, set(re.findall(NAME, "\n".join(lines)))) for own, lines in self.blocks]
        for name in sorted({own for own, _ in said if own}):
            if not any(name in words for own, words in said if own != name):
                yield name


def texts_of(root):
    for folder, below, names in os.walk(os.path.join(root, "crates")):
        below[:] = sorted(b for b in below if b != "out")
        for name in sorted(names):
            if name.endswith((".rt", ".antt")):
                yield Text(root, os.path.relpath(os.path.join(folder, name), root))


def cited_names(files):
    """By module the names that other files say of it, or hand on."""
    cited = {}
    for file in files:
        for module, old, new, is_handed_on in file.words:
            if is_handed_on or file.says(new):
                cited.setdefault(module, set()).add(old)
        for module, alias in file.wholes:
            names = re.findall(r"(?<!%s)%s\.(%s)" % (PART, re.escape(alias), NAME), file.text)
            cited.setdefault(module, set()).update(names)
        for crate, path, name in re.findall(r"(\w+)::proofs::([\w:]+)::(\w+)", file.text):
            crate = file.path.split("/")[1] if crate == "crate" else crate
            cited.setdefault("Rattle.%s.proofs.%s" % (crate, path.replace("::", ".")), set()).add(name)
    return cited


def unused(root):
    """Says each word and definition that nothing uses."""
    files = list(texts_of(root))
    cited = cited_names(files)
    for file in files:
        for _, old, new, is_handed_on in file.words:
            if not is_handed_on and not file.says(new):
                yield "%s brings in %s and doesn't say it" % (file.path, old)
        for module, alias in file.wholes:
            if alias != module and alias + "." not in file.text:
                yield "%s brings in %s and doesn't say it" % (file.path, alias)
        if file.path.endswith(".antt") and not file.path.endswith(ANSWERS):
            of_others = cited.get(file.module(), set())
            for name in file.unsaid():
                if name not in of_others:
                    yield "%s defines %s, which nothing uses" % (file.path, name)
