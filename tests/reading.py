#!/usr/bin/env python3
"""Lists what a reader of the headline reads: the files of definitions to which the law `every_network_is_one_room` and the contracts of `Net::received`,
`Net::item` and `Net::deliver_bytes` lead.

It follows the words of these contracts through the `ghost use` and `use` lines, definition by definition, down to the last one of this repository. A word of the
kit (`Rattle.std` and the like) is followed no further, nor is the type of a field; of a type of the code it reads the declaration, and what it is in a clause.
A variable that is named like a word in scope counts as that word, so there may be a word too many. Not part of the gate.

    python3 tests/reading.py [--words] [--check] [FUNCTION..]

It prints crate by crate, from the network down to bytes, each file, its number of lines, and how many words of it are read; with --words which ones. What one
server does, to which the word `node_asked` leads, comes apart, behind all others. Other functions of `Net`, or laws, may be named. With --check it prints what
docs/THEOREM.md has wrong of the list, and then its status is 1: another number of files or lines.
"""

import argparse
import functools
import pathlib
import re
import sys

REPOSITORY = pathlib.Path(__file__).resolve().parent.parent
CRATES = REPOSITORY / "crates"
NET = CRATES / "irc_net/src/net.rt"
LAWS = CRATES / "irc_net/src/laws.rt"
USE = re.compile(r"^ *(?:ghost |pub )?use Rattle\.(?P<crate>\w+)\.specs\.(?P<module>\w+(?:\.\w+)*)"
                 r"(?:\.\{(?P<words>[^}]*)\}|(?: as (?P<alias>\w+))?);?$", re.MULTILINE)
HEAD = re.compile(r"(?:(?:abbrev|unfoldable|pub|record|data) )*([A-Za-z_][\w-]*)(?=[ :])")
WORD = re.compile(r"(?<![\w.])[A-Za-z_][\w-]*(?:\.[A-Za-z_]\w*)?")
# what one server does, and what it has
SERVER = ("node_asked", "IsOneRoomNet")
# a crate that the document lists, and a folder of it, so many files of so many lines
LISTED = re.compile(r"^ {4}(irc_\w+) +(.*)$", re.MULTILINE)
FOLDER = re.compile(r"\b(specs|src) (\d+) of (\d+)")


class File:
    """A file: what its `use` lines bring, and its own definitions, each the text of all lines that make it."""

    def __init__(self, path):
        text = path.read_text(encoding="utf-8")
        self.path, self.lines = path, text.count("\n")
        self.text = re.sub(r"--.*|//.*", "", text)
        self.modules, self.brought = {}, {}
        for use in USE.finditer(self.text):
            self.take(use)
        self.definitions = types_of(self.text) if path.suffix == ".rt" else definitions_of(USE.sub("", self.text))

    def take(self, use):
        module = use["crate"], use["module"].split(".")
        if use["words"] is None:
            self.modules[use["alias"] or module[1][-1]] = module
        for entry in (use["words"] or "").split(","):
            word, _, other = entry.strip().partition(" as ")
            if word:
                self.brought[other or word] = module, word


def definitions_of(text):
    """Each word that is defined with its definition's text; a constructor with that of its type."""
    found, name = {}, None
    for line in text.split("\n"):
        name = head[1] if (head := HEAD.match(line)) else name
        if name:
            found[name] = found.get(name, "") + line + "\n"
    for name, body in list(found.items()):
        if re.match(r"pub data ", body):
            found.update((word, f"{name}\n") for word in re.findall(r"^  (\w+) :", body, re.MULTILINE))
    return found


def types_of(text):
    """Each type of the code with its declaration and what it is in a clause."""
    found = {}
    for declared in re.finditer(r"^(?:pub )?(?:struct|enum) (\w+).*?(?:^\}|;|\{\})$", text, re.MULTILINE | re.DOTALL):
        model = re.search(rf"^impl(?:<.*>)? Model for {declared[1]}\b.*?^\}}$", text, re.MULTILINE | re.DOTALL)
        found[declared[1]] = "\n".join(re.findall(r"ghost (?:Value|view) = \{(.*?)\};", model[0], re.DOTALL)) if model else ""
    return found


@functools.cache
def file_at(path):
    return File(path)


def module_at(crate, parts):
    """The file of a module, and the type of the code that it stands for, if it does; none where it is of the kit."""
    top = CRATES / crate
    spec = top / "specs" / ("/".join(parts) + ".antt")
    if not top.is_dir() or parts[0] == "contracts":
        return None, None
    if spec.is_file():
        return spec, None
    if parts[0] == "declared":
        last = -2 if parts[-1] == "TheVariants" else -1
        return top / "src" / ("/".join(parts[1:last]) + ".rt"), parts[last]
    for other in file_at(top / "specs/Lib.antt").modules.items():
        if other[0] == parts[0]:
            return module_at(other[1][0], other[1][1] + parts[1:])
    sys.exit(f"{crate}.specs.{'.'.join(parts)}: no such module")


def defined_in(module, word):
    """Where a word that a module offers is defined: the file, and the word there; none where it is of the kit."""
    path, of_code = module_at(*module)
    if path is None or of_code:
        return path and (path, of_code)
    return (path, word) if word in file_at(path).definitions else looked_up(file_at(path), word)


def looked_up(file, word):
    """Where a word that stands in a file is defined, if it is a word of this repository."""
    first, _, second = word.partition(".")
    if first in file.definitions:
        return file.path, first
    if first in file.brought:
        return defined_in(*file.brought[first])
    return defined_in(file.modules[first], second) if second and first in file.modules else None


def words_of(file, text):
    return [place for place in (looked_up(file, word) for word in WORD.findall(text)) if place]


def contract(name):
    """What a function of `Net`, or a law, asks for and promises: the words of that."""
    for file in (file_at(NET), file_at(LAWS)):
        if text := re.search(rf"^ *pub fn {name}\(.*?^ *\{{$", file.text, re.MULTILINE | re.DOTALL):
            return words_of(file, "\n".join(re.findall(r"^ +(?:requires|ensures) .*", text[0], re.MULTILINE)))
    sys.exit(f"{NET}, {LAWS}: no function {name}")


def read_from(places, leave=()):
    """The words that are read, by their files: these and all to which they lead, but not what leads on from words that are left."""
    waiting, seen = list(places), {}
    while waiting:
        path, word = waiting.pop(0)
        if word not in seen.setdefault(path, []):
            seen[path].append(word)
            waiting += words_of(file_at(path), file_at(path).definitions[word]) if word not in leave else []
    return seen


def both_parts(functions):
    """What is read of all but the servers, and the files that are read of those alone."""
    places = [(NET, "Net")] + [place for name in functions for place in contract(name)]
    first, all_of_it = read_from(places, SERVER), read_from(places)
    return first, {path: words for path, words in all_of_it.items() if path not in first}


def in_order(seen):
    """The files crate by crate, those crates first that stand on others, and within one as they are come by."""
    crates = re.findall(r"^(\w+):", (REPOSITORY / "crates.txt").read_text(), re.MULTILINE)
    return sorted(seen, key=lambda path: -crates.index(path.relative_to(CRATES).parts[0]))


def counted(seen):
    """How many files of each folder are read, and how many lines these have."""
    found = {}
    for path in seen:
        folder = path.relative_to(CRATES).parts[:2]
        files, lines = found.get(folder, (0, 0))
        found[folder] = files + 1, lines + file_at(path).lines
    return found


def listed(text):
    """The folders that the document lists, each with its numbers of files and lines there."""
    return {(crate, folder): (int(files), int(lines)) for crate, folders in LISTED.findall(text)
            for folder, files, lines in FOLDER.findall(folders)}


def faults(first, servers):
    """What the document has wrong of the files that are read."""
    text = (REPOSITORY / "docs/THEOREM.md").read_text(encoding="utf-8")
    told, read = listed(text), counted(first)
    for folder in sorted({*told, *read}):
        if told.get(folder) != read.get(folder):
            files, lines = read.get(folder, (0, 0))
            yield f"{'/'.join(folder)}: {files} of {lines}"
    for part in (first, servers):
        whole = f"{len(part)} files of {sum(file_at(path).lines for path in part):,} lines"
        if whole not in re.sub(r"\s+", " ", text):
            yield f"{whole}, of all"


def show(title, seen, with_words):
    print(f"{title}: {len(seen)} files, {sum(file_at(path).lines for path in seen)} lines; words: {sum(map(len, seen.values()))}")
    for path in in_order(seen):
        words = ", ".join(seen[path]) if with_words else len(seen[path])
        print(f"  {path.relative_to(CRATES)} {file_at(path).lines} lines; words: {words}")


def main():
    options = argparse.ArgumentParser(description="Lists what a reader of the headline reads.")
    options.add_argument("--words", action="store_true")
    options.add_argument("--check", action="store_true")
    options.add_argument("functions", nargs="*", default=["every_network_is_one_room", "received", "item", "deliver_bytes"])
    given = options.parse_args()
    first, servers = both_parts(given.functions)
    if given.check:
        wrong = list(faults(first, servers))
        print("\n".join(wrong) or "docs/THEOREM.md has their numbers")
        sys.exit(1 if wrong else 0)
    show("What clients are owed", first, given.words)
    show("What one server does", servers, given.words)


if __name__ == "__main__":
    main()
