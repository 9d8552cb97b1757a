#!/usr/bin/env python3
"""Checks functions of a crate over the crates below it as they stand, proved or not.

    tools/over_sources.py CRATE FUNCTION ..     as irc_daemons laws::daemons_are_one_room

It is for a change of low text: what it breaks in a crate far above shows in minutes, before the
crates between are proved. A crate below that is proved in this checkout is taken as it is
(`tools/kept.py` gives those of a gate), any other is read as source, and nothing of it is proved.
So this is no verdict: `holes=0` with no line that has the word `error` says that the functions
named, and the lemmas that they cite, fit the text below. A contract that names a definition of such
a crate may be told of as `contract-cites-code`. What was looked at is kept in `inc` of the top
folder. Status 0: no error; 1: an error, or a hole.
"""
import importlib.machinery
import importlib.util
import io
import os
import re
import shutil
import subprocess
import sys

TOP = os.path.dirname(os.path.dirname(os.path.realpath(__file__)))
USAGE = "usage: tools/over_sources.py CRATE FUNCTION .."


def rtlib_of_kit():
    """The kit's own module of crates."""
    found = shutil.which("rt")
    if not found:
        sys.exit("over_sources: no command rt: the folder of the Rattle kit has to be on PATH")
    path = f"{os.path.dirname(os.path.realpath(found))}/rtlib.py"
    loader = importlib.machinery.SourceFileLoader("rtlib", path)
    module = importlib.util.module_from_spec(importlib.util.spec_from_loader(loader.name, loader))
    sys.modules[loader.name] = module
    sys.dont_write_bytecode = True
    loader.exec_module(module)
    return module


def with_proved(words, built):
    """The words of a check, in which each library that is proved stands for its source."""
    given = []
    rest = iter(words)
    for word in rest:
        if word != "--lib":
            given.append(word)
            continue
        library = next(rest)
        name = library.split(":")[0]
        given += ["--extern", f"{name}={built[name]}"] if name in built else [word, library]
    return given


def main():
    name, functions = (sys.argv[1], sys.argv[2:]) if sys.argv[2:] else sys.exit(USAGE)
    rtlib = rtlib_of_kit()
    os.chdir(f"{TOP}/crates/{name}")
    crate = rtlib.Crate(os.getcwd(), TOP, {}, name=None)
    crate.out = io.StringIO()
    built = {it.name: it.rlib for it in crate.below() if os.path.isdir(it.rlib)}
    words = with_proved(crate.words(["--jobs", "1"], as_source=True), built)
    for function in functions:
        words += ["--only", function]
    words += ["--allow-holes", "--incremental", f"{TOP}/inc"]
    os.makedirs(f"{TOP}/inc", exist_ok=True)
    ran = subprocess.run([rtlib.RATTLE, "check", *words], stdout=subprocess.PIPE, text=True)
    print(ran.stdout, end="")
    errors = [it for it in ran.stdout.splitlines() if re.search(r"\berror\b", it)]
    sys.exit(1 if errors or "holes=0" not in ran.stdout else 0)


if __name__ == "__main__":
    main()
