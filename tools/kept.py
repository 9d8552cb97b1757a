#!/usr/bin/env python3
"""kept.py [CHECKOUT]: gives a checkout the libraries that a gate on this machine has proved.

`./rt-once ci` keeps what it proved, by the sums of all that it read. `rt check` does not look
there: in a new checkout it begins with the lowest library. This puts into crates/NAME/out what
was kept of the same text, lowest crate first, so that a check of any crate above begins at once,
reads its libraries as they were proved, and is whole. It tells which crates are still missing; no
verdict rests on it. Run it again while a gate goes on.
"""
import importlib.machinery
import importlib.util
import os
import shutil
import sys


def loaded(name, path):
    loader = importlib.machinery.SourceFileLoader(name, path)
    module = importlib.util.module_from_spec(importlib.util.spec_from_loader(name, loader))
    sys.modules[name] = module
    loader.exec_module(module)
    return module


def crates_of(top):
    """rt-once, the kit's `rt`, and the crates of crates.txt, each after those that it stands on."""
    sys.dont_write_bytecode = True
    once = loaded("rt_once", f"{top}/rt-once")
    rt = once.kit()
    os.chdir(top)
    rt.Crate.allowed = rt.handles_of(top)
    rt.Crate.cuts_libraries = True
    known = {}
    with open("crates.txt", encoding="utf-8") as it:
        names = [line.split(":")[0] for line in it if ":" in line and not line.startswith("#")]
    for folder in [f"{top}/crates/{name}" for name in names]:
        if folder not in known:
            known[folder] = rt.Crate(folder, top, known)
    return once, rt, list(known.values())


def given_by_kit(kept, crate):
    """Has a kit that keeps what it proves put a library into its crate's `out`, if it has it."""
    key = kept.key(crate)
    if os.path.isdir(kept.place(crate, False, key)):
        # (beside files of another build `rt` would take what it kept for damaged, and drop it)
        shutil.rmtree(f"{crate.folder}/out/rlib", ignore_errors=True)
    return kept.give(crate, False, key)


def main():
    once, rt, crates = crates_of(os.path.realpath(sys.argv[1] if len(sys.argv) > 1 else "."))
    kept = rt.Kept(crates) if hasattr(rt, "Kept") else None
    store, given, missing = once.Store(), [], []
    for crate in [it for it in crates if it.makes_rlib()]:
        if any(it.name in missing for it in crate.below()):
            missing.append(crate.name)
            continue
        if given_by_kit(kept, crate) if kept else store.give(crate, False):
            with open(f"{crate.folder}/out/rlib/stamp", "w", encoding="utf-8") as it:
                it.write(crate.stamp())
            if kept:
                kept.is_built(crate)
            given.append(crate.name)
        else:
            missing.append(crate.name)
    print(f"{len(given)} libraries are there; not proved here yet: {' '.join(missing) or 'none'}")


if __name__ == "__main__":
    main()
