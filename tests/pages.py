#!/usr/bin/env python3
"""What the documents name that is not there, and how long each is.

    python3 tests/pages.py

Of README.md, docs, pending and the pages of the crates it prints, a line each:

- a path (in backticks, in a link, or a bare `docs/NAME.md`) that nothing in the repository has.
  It may leave out folders: `irc_line/framing.rt`, or `framing.rt` alone, is any file that ends so.
  What begins with `specs/` and the like, on a page of a crate that names no other crate on the
  same line or the one before, has to be of that crate. `*`, `..` and words of capitals such as
  NAME stand for anything. Passed over are blocks of code, what a build makes, what lies outside,
  and the few of `ELSEWHERE`.
- a wrong body in the column `Refused` of a crate's table of promises, with no file of `wrong`,
  `wrong/more` or `must-fail` of that crate whose name ends so
- a document of docs whose first paragraph names no reader, as far as words tell
- the words of each document, and of all

Its status is 1 where a path or a wrong body is not there, else 0.
"""
import fnmatch
import os
import pathlib
import re
import sys

ROOT = pathlib.Path(__file__).resolve().parent.parent
READ = ("README.md", "docs/*.md", "docs/ircd.8", "pending/*.md",
        "crates/*/README.md", "crates/*/DEFINITIONS.md")
NOT_LOOKED_INTO = {".git", "out", "target", "__pycache__"}
ENDINGS = (".rt", ".antt", ".py", ".md", ".sh", ".txt", ".edit")
PARTS = ("src/", "specs/", "proofs/", "wrong/", "must-fail/")
TOPS = ("crates/", "docs/", "tests/", "tools/", "pending/", "bench/", "examples/", ".ci/", *PARTS)
SPAN = re.compile(r"`([^`]+)`")
LINK = re.compile(r"\]\(([^)\s]+)\)")
BARE = re.compile(r"(?<![\w/`.])((?:docs|pending|examples)/\w+\.md)")
CRATE = re.compile(r"\b(?:irc|tests)_\w+|\bircd\b")
PLACEHOLDER = re.compile(r"^[A-Z_]+(?=\.(?!md)|$)|^NAME(?=\.)|\.\.")
ELSEWHERE = {
    # guides of the kit
    "SHORTER_PROOFS.md", "NOT_COVERED.md", "ANTT.md", "CONTRACTS.md", "FIRST_PROOFS.md",
    "MODELS.md", "ERROR_HANDLING.md", "TERMS.md",
    # of the crate that a reader of docs/READING.md makes to try things
    "specs/Echo.antt", "proofs/spaces/Invariants.antt",
}
READER = re.compile(r"\bFor |\b[Ww]ho ")


# The repository

def files_and_folders(root):
    """Each file and folder, as the list of its parts."""
    for folder, folders, files in os.walk(root):
        folders[:] = [it for it in folders if it not in NOT_LOOKED_INTO]
        for name in (*files, *folders):
            yield pathlib.Path(folder, name).relative_to(root).parts


def by_last_part(root):
    """The same, under the last part of each."""
    found = {}
    for parts in files_and_folders(root):
        found.setdefault(parts[-1], []).append(parts)
    return found


def pattern_of(part):
    """A part of a path as it is to be matched: a placeholder stands for anything."""
    return PLACEHOLDER.sub("*", part)


def is_in_order(patterns, parts):
    """Whether parts that match these follow one another there, perhaps with others between."""
    rest = iter(parts)
    return all(any(fnmatch.fnmatchcase(it, pattern) for it in rest) for pattern in patterns)


def ends_so(patterns, there):
    """The paths whose last part matches the last of these, and the others in order before it."""
    *before, last = patterns
    names = fnmatch.filter(there, last) if "*" in last else [last]
    for name in names:
        for parts in there.get(name, []):
            if is_in_order(before, parts[:-1]):
                yield parts


def is_there(path, crate, there):
    """Whether the repository has the path; where a crate is given, whether that crate does."""
    exact = [it for it in path.split("/") if it]
    ways = [exact, [pattern_of(it) for it in exact]]
    found = (parts for patterns in ways for parts in ends_so(patterns, there))
    return any(crate is None or parts[:2] == ("crates", crate) for parts in found)


# The paths of a document

def is_path(word):
    """Whether a word looks like a path of the repository."""
    if word.startswith(("/", "~", "http", "-", "$")) or "out/" in word or not word.isprintable():
        return False
    if not re.fullmatch(r"[\w.*/-]+", word) or word.strip("./*-") == "" or word in ELSEWHERE:
        return False
    is_below = word.startswith(TOPS) or re.match(r"(?:irc|tests)_\w+/.", word) is not None
    return is_below or (word.endswith(ENDINGS) and word not in ENDINGS)


def words_of(line):
    """What a line has in backticks and in links, word by word, and bare names of pages; once."""
    spans = [it.strip("(),;:'\"") for span in SPAN.findall(line) for it in span.split()]
    links = [it.split("#")[0] for it in LINK.findall(line)]
    return dict.fromkeys([*spans, *links, *BARE.findall(line)])


def own_crate(document):
    """The crate whose page this is, or None."""
    parts = document.relative_to(ROOT).parts
    return parts[1] if parts[0] == "crates" else None


def crate_meant(word, crate, lines):
    """The crate that has to have the path: the page's, where these lines name no other."""
    if crate is None or not word.startswith(PARTS):
        return None
    others = {it for line in lines for it in CRATE.findall(line)} - {crate}
    return None if others else crate


def lines_outside_blocks(text):
    """Each line with its number, without the blocks of code."""
    inside = False
    for number, line in enumerate(text.splitlines(), 1):
        if line.startswith("```"):
            inside = not inside
        elif not inside:
            yield number, line


def missing_paths(document, text, there):
    """Each path of the document that is not there."""
    crate = own_crate(document)
    before = ""
    for number, line in lines_outside_blocks(text):
        for word in filter(is_path, words_of(line)):
            if not is_there(word, crate_meant(word, crate, (before, line)), there):
                yield f"{document.relative_to(ROOT)}:{number}: no {word}"
        before = line


# The wrong bodies of a page

def cells_of(line):
    """The cells of a row of a table, none where it is no row."""
    return [it.strip() for it in line.strip().strip("|").split("|")] if line.startswith("|") else []


def refused_cells(text):
    """Each cell of the column `Refused`, with the number of its line."""
    column = None
    for number, line in enumerate(text.splitlines(), 1):
        cells = cells_of(line)
        if not cells:
            column = None
        elif "Refused" in cells:
            column = cells.index("Refused")
        elif column is not None and column < len(cells):
            yield number, cells[column]


def wrong_bodies(crate):
    """The names of the wrong bodies of a crate."""
    folders = [ROOT / "crates" / crate / it for it in ("wrong", "wrong/more", "must-fail")]
    return [file.name.split(".")[0] for folder in folders for file in folder.glob("*.*")]


def missing_wrong_bodies(document, text):
    """Each wrong body that the page names and that is not there."""
    crate = own_crate(document)
    if crate is None:
        return
    there = wrong_bodies(crate)
    for number, cell in refused_cells(text):
        for name in SPAN.findall(cell):
            if not any(it.endswith(name) for it in there):
                yield f"{document.relative_to(ROOT)}:{number}: no wrong body {name}"


# All of it

def names_no_reader(document, text):
    """Whether a document of docs begins with a paragraph that names no reader."""
    if document.parent != ROOT / "docs" or document.suffix != ".md":
        return False
    paragraphs = [it for it in text.split("\n\n") if it.strip() and not it.startswith("#")]
    return not (paragraphs and READER.search(paragraphs[0].replace("\n", " ")))


def main():
    documents = [file for pattern in READ for file in sorted(ROOT.glob(pattern))]
    texts = {file: file.read_text(encoding="utf-8") for file in documents}
    there = by_last_part(ROOT)
    missing = []
    for file, text in texts.items():
        missing += [*missing_paths(file, text, there), *missing_wrong_bodies(file, text)]
    unread = [file for file, text in texts.items() if names_no_reader(file, text)]
    counts = {file.relative_to(ROOT): len(text.split()) for file, text in texts.items()}
    print(*missing, sep="\n", end="\n" if missing else "")
    for file in unread:
        print(f"{file.relative_to(ROOT)}: its first paragraph names no reader")
    for name, count in counts.items():
        print(f"{count:7,} {name}")
    print(f"{sum(counts.values()):7,} words in {len(counts)} documents, {len(missing)} missing")
    return 1 if missing else 0


if __name__ == "__main__":
    sys.exit(main())
