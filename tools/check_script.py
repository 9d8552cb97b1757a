#!/usr/bin/env python3
"""Says which line of a script is bad, and what is wanted there: the first that `ircd sim` names.

    ./ircd check-script FILE ..

examples/SCRIPTS.md has the commands, docs/ircd.8 the rules of their words. Statuses: 0 all are
good; 2 wrong words; 3 a script is bad, or cannot be read, and standard error says why.
"""
import re
import sys

SERVERS = 256
LARGEST = 18446744073709551615

# A word of a command: what may stand there, and what is wanted in words.
WORDS = {
    "NAME": (rb"(?=[^.]*\.)[a-z0-9.-]{1,63}", "1 to 63 of a to z, 0 to 9, - and ., at least one ."),
    "HOST": (rb"[A-Za-z0-9.-][A-Za-z0-9.:-]{0,62}", "1 to 63 letters, digits, ., - and :, the "
             "first no :"),
    "N": (rb"0|[1-9][0-9]*", f"a number up to {LARGEST} without zeros in front"),
}
# The words behind each command. A TEXT is the rest of the line, and may be empty.
COMMANDS = {
    "server": ("NAME",), "connect": ("NAME", "HOST"), "say": ("N", "TEXT"), "gone": ("N",),
    "link": ("NAME", "NAME"), "cut": ("NAME", "NAME"), "deliver": ("NAME", "NAME"),
    "bytes": ("NAME", "NAME", "N"), "settle": (),
}


def shown(text):
    """Bytes as a person can read them."""
    return text.decode("ascii", "backslashreplace").replace("\r", "\\r").replace("\t", "\\t")


def is_word(kind, word):
    """Whether these bytes may stand where a word of this kind is wanted."""
    if kind == "TEXT":
        return True
    is_right = re.fullmatch(WORDS[kind][0], word) is not None
    return is_right and (kind != "N" or len(word) <= 20 and int(word) <= LARGEST)


def words_of(row, kinds):
    """The words of a line behind its command; fewer where a space is wanting."""
    return row.split(b" ", len(kinds))[1:]


def fault_of_words(command, words):
    """What is wrong with the words behind a command, if anything is."""
    kinds = COMMANDS[command]
    form = " ".join((command, *kinds))
    if len(words) < len(kinds):
        return f"wanted: {form}; a space stands in front of each word"
    for kind, word in zip(kinds, words):
        if not is_word(kind, word):
            return f"`{shown(word)}`: wanted: {form}, where {kind} is {WORDS[kind][1]}"
    return None


def fault_of_form(row):
    """What is wrong with a line before its words are looked at, if anything is."""
    command, gap, _ = row.partition(b" ")
    if not row:
        return "it is empty; each line has one command"
    if row.startswith(b"#"):
        return "it is a comment; scripts have none"
    if row.startswith((b" ", b"\t")):
        return "it begins with a space; the command comes first"
    if command.decode("latin-1") not in COMMANDS:
        return f"`{shown(command)}` is no command; there are {', '.join(COMMANDS)}"
    if gap and not COMMANDS[command.decode()]:
        return f"wanted: {command.decode()}, with nothing behind it"
    return None


def fault_of_line(row):
    """What is wrong with a line by itself, if anything is."""
    fault = fault_of_form(row)
    if fault is None:
        command = row.partition(b" ")[0].decode()
        fault = fault_of_words(command, words_of(row, COMMANDS[command]))
    if fault and row.endswith(b"\r") and len(row) > 1 and fault_of_line(row[:-1]) is None:
        return "it ends with a CR, which belongs to the line; LF alone ends one"
    return fault


def fault_of_server(row, names, are_first):
    """What is wrong with a good line `server` behind these servers, if anything is."""
    if not are_first:
        return "the lines server come first, before all other commands"
    if row in names:
        return f"a server of this name is in line {names.index(row) + 1}"
    if len(names) == SERVERS:
        return f"there are {SERVERS} servers already, and no more can be"
    return None


def fault_of(script):
    """The first bad line of a script, by its number, and why it is bad; None where all are good."""
    rows = script.split(b"\n")
    if not rows[-1]:
        rows.pop()
    names, are_first = [], True
    for number, row in enumerate(rows, 1):
        fault = fault_of_line(row)
        is_server = row.startswith(b"server ")
        if fault is None and is_server:
            fault = fault_of_server(row, names, are_first)
            names.append(row)
        if fault:
            return number, fault
        are_first = is_server
    return None


def is_bad(path):
    """Whether a script is bad. What is found is printed."""
    try:
        with open(path, "rb") as file:
            fault = fault_of(file.read())
    except OSError as error:
        print(f"{path}: it cannot be read: {error.strerror}", file=sys.stderr)
        return True
    if fault:
        print(f"{path}: line {fault[0]}: {fault[1]}", file=sys.stderr)
    else:
        print(f"{path}: good")
    return fault is not None


def main():
    paths = sys.argv[1:]
    if paths in (["--help"], ["-h"]):
        print(__doc__.strip())
        return 0
    if not paths:
        print("ircd: usage: ./ircd check-script FILE ..", file=sys.stderr)
        return 2
    return 3 if any([is_bad(path) for path in paths]) else 0


if __name__ == "__main__":
    sys.exit(main())
