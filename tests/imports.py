#!/usr/bin/env python3
"""Whether a crate names another's proofs, or something that is not there: its status is 1 where one
does, and it prints each line.

What others stand on is a crate's `src/` and `specs/`: definitions, laws, and lemmas of
`specs/Lemmas`. Its `proofs/` may change with its code, and nobody else is broken by it. A crate's
`specs/` name no proofs either, its own included: who reads them reads nothing else.

A name that is imported from a file of this repository has to stand in that file, or in one that it
passes on: so a lemma that has moved is missed in a second, and not by the check of each crate above.
What the kit writes (`declared`, `Goals`, `Given`) is not looked at.
"""
import functools
import pathlib
import re
import sys

CRATES = pathlib.Path(__file__).resolve().parent.parent / "crates"
NAMED = re.compile(r"\bRattle\.((?:irc|tests)_\w+|ircd)\.proofs\b[.\w]*")
IMPORT = re.compile(r"use Rattle\.((?:irc|tests)_\w+|ircd)\.((?:specs|proofs)(?:\.[\w-]+)*)\.\{([^}]*)\}")
PASSED = re.compile(r"^pub use Rattle\.((?:irc|tests)_\w+|ircd)\.((?:specs|proofs)(?:\.\w+)*)(?: as (\w+))?$", re.M)
ITEMS_PASSED = re.compile(r"^\s*pub use [\w.]+\.\{([^}]*)\}", re.M)
WRITTEN = {"declared", "Goals", "Given"}
# what begins an item: a definition, a lemma, a constructor or a field
ITEM = re.compile(r"^\s*(?:(?:abbrev|unfoldable|pub|data|record|module|ruleset) )*([^\s(){}\[\],;]+)(?= )", re.M)


def private_names(crate, part):
    """Each line of this part of the crate that names proofs which it may not."""
    files = [*(crate / part).rglob("*.antt"), *(crate / part).rglob("*.rt")]
    for file in sorted(files):
        name = str(file.relative_to(CRATES))
        for number, line in enumerate(file.read_text(encoding="utf-8").splitlines(), 1):
            for found in NAMED.finditer(line):
                is_own = part == "proofs" and found[1] == crate.name
                if not is_own:
                    yield f"{name}:{number}: {line.strip()}"


@functools.cache
def text_of(file):
    return file.read_text(encoding="utf-8") if file.exists() else None


@functools.cache
def items_of(file):
    """What a file defines, the constructors and fields in it, and what it passes on by name."""
    passed = [name.split(" as ")[-1].strip() for names in ITEMS_PASSED.findall(text_of(file)) for name in names.split(",")]
    return frozenset([*ITEM.findall(text_of(file)), *passed])


@functools.cache
def module(crate, path):
    """The file of a module, also of one that another crate has and this one passes on; none, where there is none."""
    own = CRATES / crate / ("/".join(path) + ".antt")
    if text_of(own) is not None:
        return own
    for length in range(len(path) - 1, 0, -1):
        folder = "/".join(path[:length])
        for place in (f"{folder}.antt", f"{folder}/Lib.antt"):
            for found in PASSED.finditer(text_of(CRATES / crate / place) or ""):
                parts = tuple(found[2].split("."))
                if (found[3] or parts[-1]) == path[length]:
                    return module(found[1], parts + path[length + 1:])
    return None


def missing_names(crate, part):
    """Each name that this part of the crate imports and that is not there."""
    for file in sorted([*(crate / part).rglob("*.antt"), *(crate / part).rglob("*.rt")]):
        for found in IMPORT.finditer(file.read_text(encoding="utf-8")):
            path = tuple(found[2].split("."))
            if WRITTEN & set(path):
                continue
            # constructors are named behind their type, by a path that is no file
            there = module(found[1], path) or module(found[1], path[:-1])
            for name in [it.split(" as ")[0].strip() for it in found[3].split(",")]:
                if there and name and name not in items_of(there):
                    yield f"{file.relative_to(CRATES)}: {'.'.join((found[1], *path))} has no {name}"


def main():
    crates = sorted(it for it in CRATES.iterdir() if it.is_dir())
    parts = [(crate, part) for crate in crates for part in ("src", "specs", "proofs")]
    named = [it for crate, part in parts for it in private_names(crate, part)]
    missed = [it for crate, part in parts for it in missing_names(crate, part)]
    told = f"{len(named)} names of what is private, {len(missed)} of what is not there, in {len(crates)} crates"
    print("\n".join([*named, *missed, told]))
    return 1 if named or missed else 0


if __name__ == "__main__":
    sys.exit(main())
