#!/usr/bin/env python3
"""Checks single functions of a crate while the crates below aren't proved yet.

usage: bench/only.py NAME --only FUNCTION.. [--libs FOLDER] [--stub CRATE/FILE.rt:FUNCTION=BODY].. [--edit FILE]..
       bench/only.py NAME --start FUNCTION --allow-holes --generated FOLDER

FUNCTION is the end of a path, as a check prints it after `fn`; all flags but these two are those of `rattle check`.
Of the crates below those are taken as libraries that FOLDER has as NAME.rlib (a gate run's copy of the repository has
them as crates/NAME/out/rlib/NAME.rlib), the others as sources. Of sources a check also proves each function that
FUNCTION calls, however far below. So calls get stubs: in a copy the body of FUNCTION in crates/CRATE/src/FILE.rt is
BODY, as Err(PageFault::Memory), and its proof a hole; then `depends on a hole in ..` of stubs alone is as good as
proved. With --edit the copy has a mistake planted, by a file of the form of must-fail/*.edit: then the check is to
refuse it. It gives no verdict: `rt check` and the gate do. It asks the kit's own rtlib.py for the words of a check.
"""
import glob
import importlib.machinery
import importlib.util
import os
import re
import shutil
import subprocess
import sys
import tempfile

ROOT = os.path.realpath(os.path.join(os.path.dirname(os.path.abspath(__file__)), ".."))


def kit():
    """Returns the library that `rt` of this machine works by."""
    sys.dont_write_bytecode = True
    path = os.path.join(os.path.dirname(os.path.realpath(shutil.which("rt"))), "rtlib.py")
    loader = importlib.machinery.SourceFileLoader("rtlib", path)
    module = importlib.util.module_from_spec(importlib.util.spec_from_loader("rtlib", loader))
    sys.modules["rtlib"] = module
    loader.exec_module(module)
    return module


def words_of(rt, crate, libs, flags):
    """Returns the words of a check over libraries where they are there, else sources."""
    def is_built(it):
        return libs is not None and os.path.isdir(f"{libs}/{it.name}.rlib")

    below, sources = crate.below(), [it for it in crate.below() if not is_built(it)]
    named = {it.name for one in [crate, *sources] for it in one.deps}
    of_kit = {*crate.of_kit, *["core"][:len(sources)], *[name for it in sources for name in it.of_kit]}
    words = ["--crate-name", crate.name, "src/main.rt" if crate.is_program else "src/lib.rt"]
    for name in sorted(of_kit):
        words += ["--extern", f"{name}={rt.KIT}/rlibs/{name}.rlib"]
    words += ["-L", f"dependency={rt.KIT}/rlibs"] + (["-L", f"dependency={libs}"] if libs else [])
    for it in below:
        if it in sources:
            uses = ",".join(dict.fromkeys(["core", *it.of_kit, *[dep.name for dep in it.deps]]))
            words += ["--lib", f"{it.name}:{uses}={it.folder}/src/lib.rt"]
        elif it.name in named:
            words += ["--extern", f"{it.name}={libs}/{it.name}.rlib"]
    words += ["--antt-project", f"{rt.KIT}/rattle/logic/antt-project.json", "--logic-built", f"{rt.KIT}/logic_built"]
    # beside --generated an older kit refuses the number of jobs
    return words + ([] if "--generated" in flags else ["--jobs", "1"]) + flags


def stub(root, place, body):
    """Gives the function this body, and a hole for a proof."""
    crate, file, function = re.fullmatch(r"(\w+)/(\S+\.rt):(\w+)", place).groups()
    path = f"{root}/crates/{crate}/src/{file}"
    with open(path, encoding="utf-8") as text:
        source = text.read()
    begin = re.search(rf"\bfn {function}\b.*?\n( *){{\n", source, re.S)
    indent = begin.group(1)
    end = source.index(f"\n{indent}}}\n", begin.end() - 1)
    with open(path, "w", encoding="utf-8") as text:
        text.write(f"{source[:begin.end()]}{indent}    {body}{source[end:]}")
    # its proof stands below the type's module, which need not be that of the file
    proofs = f"{root}/crates/{crate}/proofs"
    places = [at for at, _, _ in os.walk(proofs) if is_of(f"{at}/{function}", source)]
    [folder] = ([f"{at}/{function}" for at in places if glob.glob(f"{at}/{function}/*.antt")]
                # one that search proves has no folder: beside another one of its type, or of its file
                or [f"{at}/{function}" for at in places if os.path.basename(at)[:1].isupper()]
                or [f"{proofs}/{file.removesuffix('.rt')}/{function}"])
    shutil.rmtree(folder, ignore_errors=True)
    os.makedirs(folder)
    module = ".".join(["Rattle", crate, "proofs", *os.path.relpath(folder, proofs).split("/"), "Statement"])
    with open(f"{folder}/Proof.antt", "w", encoding="utf-8") as text:
        text.write(f"use {module}.{{statement}}\n\npub {function}_spec : {{M : Type 1}} → statement M\n"
                   f"{function}_spec 𝓤 𝓛 𝓜 𝓡 w = ?\n")


def is_of(folder, source):
    """Whether a folder of proofs is that of a function of this source: of a type that it has an impl of, or of none."""
    owner = os.path.basename(os.path.dirname(folder))
    return not owner[:1].isupper() or re.search(rf"\bimpl\b[^{{\n]*\b{owner}\b", source) is not None


def plant(folder, path):
    """Plants the mistake that an edit writes into the crate in this folder."""
    file = old = None
    with open(path, encoding="utf-8") as text:
        lines = [line.rstrip("\n").split(": ", 1) for line in text if line.strip()]
    for key, value in lines:
        if key == "file":
            file = os.path.join(folder, value)
        elif key == "old":
            old = value
        else:
            with open(file, encoding="utf-8") as text:
                source = text.read()
            if source.count(old) != 1:
                sys.exit(f"only.py: {path}: this doesn't stand once in the file: {old}")
            with open(file, "w", encoding="utf-8") as text:
                text.write(source.replace(old, value))


def main():
    words = sys.argv[1:]
    if len(words) < 3 or not shutil.which("rt"):
        sys.exit(__doc__.strip())
    name, libs, stubs, edits, flags = words[0], None, [], [], []
    words = iter(words[1:])
    for word in words:
        if word == "--libs":
            libs = os.path.realpath(next(words))
        elif word == "--stub":
            stubs.append(next(words).split("=", 1))
        elif word == "--edit":
            edits.append(os.path.realpath(next(words)))
        else:
            flags.append(word)
    if not os.path.isdir(os.path.join(ROOT, "crates", name)):
        sys.exit(f"only.py: there is no crate {name}")
    with tempfile.TemporaryDirectory(prefix="only-") as copy:
        root = ROOT
        if stubs or edits:
            root, flags = os.path.realpath(copy), flags + ["--allow-holes"][:len(stubs)]
            shutil.copytree(f"{ROOT}/crates", f"{root}/crates", ignore=shutil.ignore_patterns("out"))
            shutil.copy(f"{ROOT}/crates.txt", root)
            shutil.copy(f"{ROOT}/HANDLES", root)
            subprocess.run(["git", "init", "-q", root], check=True)
            for place, body in stubs:
                stub(root, place, body)
            for path in edits:
                plant(os.path.join(root, "crates", name), path)
        folder = os.path.join(root, "crates", name)
        os.chdir(folder)
        rt = kit()
        status = subprocess.call([rt.RATTLE, "check", *words_of(rt, rt.Crate(folder, root, {}, ()), libs, flags)])
        os.chdir(ROOT)
    sys.exit(status)


if __name__ == "__main__":
    main()
