#!/usr/bin/env python3
"""Prints in which functions and lemmas of a crate a check spends its time, the dearest first.

usage: rm -r crates/NAME/out/incremental && (cd crates/NAME && rt check --jobs 1) && bench/proof_times.py NAME [COUNT]

A check keeps each part of a function in a file of its own as soon as it is done, and with one job one after the other:
the time between two such files is that of the later one. `proof` is what search has found and what puts the answers
together, `answers` are those of the crate, `made` is what the compiler states of the function.
"""
import os
import sys
from collections import defaultdict

ROOT = os.path.join(os.path.dirname(os.path.abspath(__file__)), "..")
KINDS = {"Proof": "proof", "Answers": "answers", "Invariants": "answers"}
ENDING, PARTS = ".oantt", ("decls",)
MOST_SECONDS = 180  # a longer gap lies between two runs


def kept_files(crate):
    """Returns when each kept part was done, and its name, in the order of time."""
    folder = os.path.join(ROOT, "crates", crate, "out", "incremental")
    return sorted((os.stat(os.path.join(at, name)).st_mtime, name)
                  for at, _, names in os.walk(folder) for name in names if name.endswith(ENDING))


def place_of(name, crate):
    """Returns the function or lemma file that the kept part is of, and its kind."""
    words = [it for it in name[:-len(ENDING)].split(".") if it not in PARTS]
    if len(words) < 2:
        return crate, "made"
    if words[-1] in KINDS:
        return ".".join(words[1:-1]), KINDS[words[-1]]
    is_part = words[-1][:1].isupper() and len(words) > 2
    return ".".join(words[1:-1] if is_part else words[1:]), "made"


def main():
    if len(sys.argv) not in (2, 3):
        sys.exit(__doc__.strip())
    crate, count = sys.argv[1], int(sys.argv[2]) if len(sys.argv) == 3 else 30
    files = kept_files(crate)
    if not files:
        sys.exit(f"proof_times.py: crates/{crate}/out/incremental keeps nothing")
    spent = defaultdict(lambda: defaultdict(float))
    for (before, _), (done, name) in zip(files, files[1:]):
        if done - before < MOST_SECONDS:
            place, kind = place_of(name, crate)
            spent[place][kind] += done - before
    sums = {place: sum(kinds.values()) for place, kinds in spent.items()}
    print(f"{'seconds':>9} {'proof':>7} {'answers':>8} {'made':>7}  where")
    for place in sorted(sums, key=sums.get, reverse=True)[:count]:
        kinds = spent[place]
        print(f"{sums[place]:9.1f} {kinds['proof']:7.1f} {kinds['answers']:8.1f} {kinds['made']:7.1f}  {place}")
    whole = [sum(kinds[it] for kinds in spent.values()) for it in ("proof", "answers", "made")]
    print(f"{sum(whole):9.1f} {whole[0]:7.1f} {whole[1]:8.1f} {whole[2]:7.1f}  all of {crate}")


if __name__ == "__main__":
    main()
