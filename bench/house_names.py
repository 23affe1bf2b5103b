"""The names that the pages for people say: files that have to be there, words of the code that some file has to say,
and what README.md has as another file has it: the forms of the commands, the statuses, the kit."""
import glob
import os
import re

QUOTED = re.compile(r"`([^`\n]+)`")
PATH = re.compile(r"[\w.-]+(?:/[\w.*-]+)*/[\w.*-]+\.(?:rt|antt|py|rs|md|txt|tsv|sh|edit|bkd)")
NAME = re.compile(r"[A-Za-z_]\w*")
SOURCES = ("crates/**/*.rt", "crates/**/*.antt", "bench/*", "clients/python/**/*.py", "tests/*", "release/*",
           "Makefile", ".ci/run", "crates.txt", "docs/commands.txt")
# words of the system, the kit, and other programs
OTHERS = {"AnswersOffered", "geo_point"}
# pages that tell of what was, or of what is to come
LEFT = ("CHANGELOG.md", "docs/next/README.md")


def pages(root):
    names = ["README.md", "CONTRIBUTING.md", "clients/python/README.md"]
    names += sorted(glob.glob("docs/*.md", root_dir=root))
    return [name for name in names if name not in LEFT]


def words_of(root):
    """All words of the code, its comments and its scripts."""
    said = set()
    for pattern in SOURCES:
        for path in glob.glob(os.path.join(root, pattern), recursive=True):
            if os.path.isfile(path) and "/out/" not in path:
                with open(path, encoding="utf-8", errors="ignore") as text:
                    said.update(NAME.findall(text.read()))
    return said


def is_there(root, path):
    """Whether a page's path names a file: from the top, below crates/, or below a folder that is named elsewhere."""
    tried = [path, "crates/" + path, "docs/" + path, "clients/python/" + path, "crates/*/" + path]
    return any(glob.glob(os.path.join(root, one)) for one in tried)


def is_of_code(word):
    """Whether a quoted word is a name of the code, and no word of a script or a plain one."""
    return NAME.fullmatch(word) is not None and ("_" in word.strip("_") or re.search(r"[a-z][A-Z]", word) is not None)


def faults_of_forms(root):
    with open(os.path.join(root, "docs/commands.txt"), encoding="utf-8") as text:
        forms = [line[len("command "):].partition("<")[0].strip() for line in text if line.startswith("command ")]
    with open(os.path.join(root, "README.md"), encoding="utf-8") as text:
        rows = re.findall(r"(?m)^\| `([^`]+)` \|", text.read())
    told = [row for row in rows if row.split()[0] in {form.split()[0] for form in forms}]
    for form in forms:
        if form not in told:
            yield "README.md has no row of `%s`, as docs/commands.txt has" % form
    for form in told:
        if form not in forms:
            yield "README.md has a row of `%s`, which docs/commands.txt hasn't" % form


def faults_of_statuses(root):
    """README.md has a row for each status that the program ends with, by its number and the word it says."""
    with open(os.path.join(root, "crates/run_status/src/status.rt"), encoding="utf-8") as text:
        source = text.read()
    with open(os.path.join(root, "README.md"), encoding="utf-8") as text:
        rows = dict(re.findall(r"(?m)^\| (\d)( [a-z ]+)? \|", text.read()))
    for number in sorted(set(re.findall(r"=> (\d),", source)) ^ set(rows)):
        yield "README.md and the program don't have the same statuses: %s" % number
    for number, word in rows.items():
        if 'b"%s' % word.strip() not in source:
            yield "README.md calls status %s%s, and the program doesn't" % (number, word)


def faults_of_kit(root):
    """The pages that say with which kit all is proved say that of the released program."""
    with open(os.path.join(root, "release/kit"), encoding="utf-8") as text:
        kit = text.read().strip()
    for page in ("README.md", "docs/PROVED.md"):
        with open(os.path.join(root, page), encoding="utf-8") as text:
            if kit not in text.read():
                yield "%s doesn't say that it is proved with %s" % (page, kit)


def faults_of_trust(root):
    """The crates of the kit that crates.txt lists are named in READING.md, whose contracts are taken on trust."""
    with open(os.path.join(root, "crates.txt"), encoding="utf-8") as text:
        lines = [line.split(":") for line in text if ":" in line and not line.startswith("#")]
    own = {line[0].split()[0] for line in lines}
    with open(os.path.join(root, "docs/READING.md"), encoding="utf-8") as text:
        trusted = QUOTED.findall(text.read())
    for crate in sorted({crate for line in lines for crate in line[1].split()} - own - set(trusted)):
        yield "docs/READING.md doesn't name %s, whose contracts are trusted" % crate


def faults_of_names(root):
    said, counted = words_of(root), 0
    for page in pages(root):
        with open(os.path.join(root, page), encoding="utf-8") as text:
            quoted = QUOTED.findall(text.read())
        for quote in dict.fromkeys(quoted):
            for path in PATH.findall(quote):
                counted += 1
                if not is_there(root, path):
                    yield "%s names %s, which isn't there" % (page, path)
            name = quote.split("::")[-1].split(".")[0]
            if is_of_code(name):
                counted += 1
                if name not in said | OTHERS:
                    yield "%s names `%s`, which nothing is called" % (page, quote)
    print("%-24s %4d names in pages are there" % ("docs", counted))
    yield from faults_of_forms(root)
    yield from faults_of_kit(root)
    yield from faults_of_trust(root)
    yield from faults_of_statuses(root)
