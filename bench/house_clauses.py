"""The places of promises that README.md and docs/PROVED.md name: each file, call and clause has to be there, and each
wrong body or test that is named. A clause that is a record is followed by a dot and the field that says the promise,
which has to stand in some crate's specs."""
import glob
import os
import re

QUOTED = re.compile(r"`([^`]+)`")


def contracts_of(root, path):
    """The calls of a file, each with the names of its clauses; a clause without a name is called `ensures`."""
    calls, name = {}, None
    with open(os.path.join(root, path), encoding="utf-8") as text:
        for line in text.read().splitlines():
            found = re.match(r"( *)(?:pub(?:\([a-z]+\))? )?(?:const )?fn (\w+)", line)
            if found:
                indent, name = found.groups()
                calls.setdefault(name, set())
            elif name and line in (indent + "{", indent + "{}"):
                name = None
            if name:
                calls[name].update(re.findall(r"\bensures (\w+) \{", line))
                calls[name].update(re.findall(r"\b(ensures) \{", line))
    return calls


def fields_of(root):
    """The fields of all records in specs."""
    fields = set()
    for specs in glob.glob(os.path.join(root, "crates/*/specs/**/*.antt"), recursive=True):
        with open(specs, encoding="utf-8") as text:
            fields.update(re.findall(r"(?m)^ +pub (\w+) :", text.read()))
    return fields


def files_with(root, crate, calls, clauses):
    """The files of a crate in which these calls have all these clauses, the fields of records left out."""
    names = {clause.split(".")[0] for clause in clauses}
    for path in sorted(glob.glob(os.path.join(root, "crates", crate, "src/**/*.rt"), recursive=True)):
        file = os.path.relpath(path, os.path.join(root, "crates"))
        known = contracts_of(root, "crates/" + file)
        if all(call in known for call in calls) and names <= set().union(*(known[call] for call in calls)):
            yield file


def places_of(root, text):
    """The places that a page names: of each row the crate, files, calls, clauses, and what catches a body that breaks
    it. PROVED.md names the crate in a row above, and the file only where more than one has such a call. An empty call
    is the one of the row above, an empty clause is `ensures`."""
    crate, place = None, None
    for line in text.splitlines():
        heading = re.match(r"\| \*\*`(\w+)`\*\*", line)
        if heading:
            crate = heading.group(1)
        texts = [cell.strip() for cell in line.strip("|").split("|")]
        cells = [QUOTED.findall(cell) for cell in texts]
        of_crate = crate and len(cells) == 4 and texts[3] not in ("", "Caught by", "---")
        if not line.startswith("|") or not (of_crate or len(cells) > 2 and cells[1] and cells[1][0].endswith(".rt")):
            continue
        clauses = cells[2] or ["ensures"]
        if cells[1]:
            files = [word for word in cells[1] if word.endswith(".rt")]
            calls = [word for word in cells[1] if not word.endswith(".rt")]
            if not files:
                files = list(files_with(root, crate, calls, clauses))
            place = [file if "/src/" in file else "%s/src/%s" % (crate, file) for file in files], calls
        bodies = texts[3].split(", ") if of_crate and texts[3] != "-" else []
        yield crate, place[0], place[1], clauses, bodies


def is_caught(root, crate, name):
    """Whether a wrong body or a test has this name: an edit, a function of a row of bench/bugs.tsv, a module of tests,
    or the examples of tests/cases."""
    other, _, name = name.rpartition("/")
    other = other or crate
    if name.endswith("()"):
        with open(os.path.join(root, "bench/bugs.tsv"), encoding="utf-8") as text:
            rows = [line.split("\t") for line in text]
        return any(row[:2] == [other, name[:-2]] and row[3] == "refused" for row in rows)
    there = ["crates/%s/must-fail/%s.edit" % (other, name)]
    if other.endswith("_tests"):
        there.append("crates/%s/src/%s.rt" % (other, name))
    if other == "cases":
        there.append("tests/cases/%s.txt" % name)
    return any(os.path.exists(os.path.join(root, path)) for path in there)


def faults_of_row(root, files, calls, clauses, there_are):
    """What a row names that isn't there."""
    if len(files) != 1 or not os.path.exists(os.path.join(root, "crates", files[0])):
        yield "`%s` of %s, and it is not one file that has such a call" % (calls[0], ", ".join(files) or "no file")
        return
    known = contracts_of(root, "crates/" + files[0])
    there = [known.get(call) for call in calls]
    if not calls or None in there:
        yield "%s of %s, and no such call is there" % (", ".join(calls), files[0])
        return
    for clause in clauses:
        clause, *fields = clause.split(".")
        if not any(clause in names for names in there):
            yield "`%s` of `%s`, and no such clause is there" % (clause, calls[0])
        for field in set(fields) - there_are:
            yield "`%s` of `%s`, and no such field is there" % (field, calls[0])


def faults_of_places(root):
    counted, caught, there_are = 0, 0, fields_of(root)
    for page in ("README.md", "docs/PROVED.md"):
        with open(os.path.join(root, page), encoding="utf-8") as text:
            places = list(places_of(root, text.read()))
        for crate, files, calls, clauses, bodies in places:
            for fault in faults_of_row(root, files, calls, clauses, there_are):
                yield "%s names %s" % (page, fault)
            for body in bodies:
                if not is_caught(root, crate, body):
                    yield "%s names `%s` for `%s`, and no such edit, row or test is there" % (page, body, calls[0])
            counted, caught = counted + len(clauses), caught + bool(bodies)
    print("%-24s %4d clauses that pages name are there, and for %d promises a body that breaks them" % (
        "crates", counted, caught))
