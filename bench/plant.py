#!/usr/bin/env python3
"""Runs rt plant over libraries that a gate run has built, so that nothing is proved again.

usage: bench/plant.py NAME LIBS LOG [flags of rt plant]

LIBS is a folder with NAME.rlib of each crate below (those of a gate run lie in its copy of the repository, as
crates/NAME/out/rlib/NAME.rlib), and LOG what the gate, or a check of the crate, printed: which functions are proved.
What rt plant prints is told by `rt plant --help`.
"""
import importlib.machinery
import os
import re
import shutil
import sys
import types

from only import ROOT

# the checkout stays as it is
sys.dont_write_bytecode = True


def planter():
    """Returns the kit's own rt plant."""
    path = os.path.join(os.path.dirname(os.path.realpath(shutil.which("rt"))), "rt-plant")
    module = types.ModuleType("rt_plant")
    module.__file__ = path
    importlib.machinery.SourceFileLoader("rt_plant", path).exec_module(module)
    return module


def main():
    if len(sys.argv) < 4 or not shutil.which("rt"):
        sys.exit(__doc__.strip())
    name, libs, log, flags = sys.argv[1], os.path.realpath(sys.argv[2]), sys.argv[3], sys.argv[4:]
    with open(log, encoding="utf-8", errors="replace") as text:
        proved = sorted(set(re.findall(rf"(?m)^fn {name}::\S+: proved.*", text.read())))
    if not proved:
        sys.exit(f"plant.py: {log} says of no function of {name} that it is proved")
    plant = planter()
    made = plant.rt.Crate.__init__

    def over_libraries(crate, *arguments, **named):
        made(crate, *arguments, **named)
        crate.rlib = f"{libs}/{crate.name}.rlib"

    def check(*words):
        print("\n".join(proved), f"crate {name}: as the log says", sep="\n")
        return 0

    plant.rt.Crate.__init__, plant.rt.main = over_libraries, check
    os.chdir(os.path.join(ROOT, "crates", name))
    sys.exit(plant.main(*flags))


if __name__ == "__main__":
    main()
