#!/usr/bin/env python3
"""Which rules no script of the gate notices: the model is turned at one place at a time, and each
turned model runs the scripts.

    python3 tests/turned.py [WORD ..]

Not part of the gate, and of no program. Code and definitions can be wrong alike, and are proved
then all the same; what holds both to docs/PROFILE.md are tests, examples and laws. tests/turns.txt
has turns of tests/model.py, each a name, which says what is so by then, a text that stands in the
model once, and what stands in its place. crates/tests_scripts has the scripts, with what they
print. A turn by which the model prints all of that is noticed by no script, and is printed, unless
tests/turns.txt names the law, example or test that refuses it.

To these come a turn of the words of each reply, and one by which each command is none.

With words only turns that have one of them in their names are tried. The last line is `N turns, M
noticed by no script, K of these without a reason`. The status is 1 where K is not 0, and where
something is out of date: the model does not print a script, or does not run as it is turned; the
text of a turn is not there, a reason's name is not, or its turn is noticed after all.
"""

import pathlib
import re
import sys
import time
import types
from typing import NamedTuple

REPOSITORY = pathlib.Path(__file__).resolve().parent.parent
MODEL = REPOSITORY / "tests/model.py"
TURNS = REPOSITORY / "tests/turns.txt"
SCRIPTS = REPOSITORY / "crates/tests_scripts/src"
CLIENTS = ["AL", "BO", "CY"]        # of running.rt, in front of a text
LINKS = ["> link a.net b.net\n", "> link b.net a.net\n"]

TEXT = re.compile(r'const (\w+): &str =\s*"((?:[^"\\]|\\.)*)";', re.DOTALL)
ESCAPE = re.compile(r"\\\n\s*|\\x[0-9a-f]{2}|\\.")
ESCAPED = {"\\\\": "\\", "\\n": "\n", "\\r": "\r", "\\0": "\0", '\\"': '"'}
PRINTS = re.compile(r"\bprints\(rt\.alloc\(\), (\d), (\w+)\)")
PRINTS_NETWORK = re.compile(r"\bprints_network\(rt\.alloc\(\), (\w+)\)")
PRINTS_PARTS = re.compile(r"\bprints_parts\(rt\.alloc\(\), &\[([\w, ]+)\]\)")
EITHER_WAY = re.compile(r"\bprints_either_way\(rt\.alloc\(\), &\[([\w, ]+)\], &\[([\w, ]+)\]\)")
REASON = re.compile(r"(\S+) (\w+): .+")
# who refuses a turn of what programs expect: no script has a server with it
AWAY = "crates/tests_links/src/away.rt"
EXPECTED = {
    "301": "who_asks_or_writes_is_told", "302": "a_userhost_and_a_whowas_are_answered",
    "305": "a_user_says_that_it_is_away", "306": "a_user_says_that_it_is_away",
    "369": "a_userhost_and_a_whowas_are_answered", "406": "a_userhost_and_a_whowas_are_answered",
    "AWAY": "a_user_says_that_it_is_away", "USERHOST": "a_userhost_and_a_whowas_are_answered",
    "WHOWAS": "a_userhost_and_a_whowas_are_answered"}


class Turn(NamedTuple):
    """What is so, the text of the model, what stands in its place, and who refuses it, or None."""

    name: str
    old: str
    new: str
    reason: str | None


class Script(NamedTuple):
    """Lines of a script, and what they print: all of it, or its front and its end."""

    name: str
    lines: bytes
    front: bytes
    end: bytes | None

    def is_printed(self, answer):
        status, output, _ = answer
        if status != 0 or self.end is None:
            return (status, output) == (0, self.front)
        return output.startswith(self.front) and output.endswith(self.end)


def turn(block):
    """A turn as tests/turns.txt writes it."""
    name, *rows = block.split("\n")
    old, new, reasons = (
        [row[2:] for row in rows if row.startswith(sign)] for sign in ("-", "+", "="))
    if not old or not new or len(reasons) > 1 or len(old) + len(new) + len(reasons) != len(rows):
        sys.exit(f"{TURNS}: no turn: {name}")
    return Turn(name, "\n".join(old), "\n".join(new), reasons[0] if reasons else None)


def refused(word):
    """Who refuses a turn of a reply or a command that no script has, if it is one."""
    return f"{AWAY} {EXPECTED[word]}: programs expect it" if word in EXPECTED else None


def made(source):
    """Turns of the words of replies and of the table of commands."""
    for number in sorted(set(re.findall(r'b"(\d{3})": b"', source))):
        yield Turn(f"{number} has other words", f'b"{number}": b"', f'b"{number}": b"x', refused(number))
    for command in re.findall(r'^    b"([A-Z]+)": \(', source, re.M):
        yield Turn(f"{command} is no command", f'b"{command}": (', f'b"{command}x": (', refused(command))


def spelled_out(text):
    """A text of Rust."""

    def bytes_of(found):
        escape = found.group()
        if escape.startswith("\\x"):
            return chr(int(escape[2:], 16))
        return "" if escape.startswith("\\\n") else ESCAPED[escape]

    return ESCAPE.sub(bytes_of, text)


def parted(text):
    """The lines of a script, and what they print, of a text that has both."""
    rows = [row.replace("%", "x" * 160) for row in text.split("\n") if row]
    lines = [row[2:] for row in rows if row.startswith("> ")]
    printed = [row for row in rows if not row.startswith("> ")]
    return ["".join(f"{row}\n" for row in part).encode("latin-1") for part in (lines, printed)]


class Gate:
    """The texts of the crate of scripts, by file and name, and its scripts."""

    def __init__(self):
        files = {path.stem: path.read_text() for path in sorted(SCRIPTS.glob("*.rt"))}
        self.texts = {
            (stem, name): spelled_out(text)
            for stem, source in files.items() for name, text in TEXT.findall(source)}
        self.scripts = []
        for stem, source in files.items():
            self.add_found(stem, source)
        self.add_split()
        self.add_forty_bans()
        self.add_three_sides()
        for order in ("aaabbb", "bbbaaa", "ababab"):
            self.add_crossing(order)
        for members, name in ((30, "THIRTY"), (31, "THIRTY_ONE")):
            self.add_crowd(members, name)

    def text(self, stem, name):
        """A text of a file, or of the one that it is imported from."""
        if (stem, name) in self.texts:
            return self.texts[stem, name]
        return next(text for (_, other), text in self.texts.items() if other == name)

    def add(self, stem, names, front="", link=None):
        """A script of texts of a file, with a link in place of None."""
        texts = [link if name is None else self.text(stem, name) for name in names]
        title = " ".join(name for name in names if name)
        self.scripts.append(Script(f"{stem} {title}", *parted(front + "".join(texts)), None))

    def add_found(self, stem, source):
        """Those of a file that one call of running.rt or of joined_tests.rt runs."""
        for count, name in PRINTS.findall(source):
            clients = [self.text("running", client) for client in CLIENTS[:int(count)]]
            self.add(stem, [name], "".join(clients))
        for names in PRINTS_NETWORK.findall(source) + PRINTS_PARTS.findall(source):
            self.add(stem, names.split(", "))
        for front, behind in EITHER_WAY.findall(source):
            for link in LINKS:
                self.add(stem, [*front.split(", "), None, *behind.split(", ")], link=link)

    # Those that functions of the tests put together.

    def add_split(self):
        for link in LINKS:
            names = ["SIDES", "MET", "CUT", "APART", None, "REJOINED", "CUT", None, "NOTHING_NEW"]
            self.add("joined_tests", names, link=link)

    def add_forty_bans(self):
        names = ["SIDES", "TWENTY_BANS", "TWENTY_OTHERS", None]
        names += ["FORTY_BANS", "FORTY_AT_A", "FORTY_AT_B", "FULL"]
        self.add("joined_tests", names, link=LINKS[0])

    def add_three_sides(self):
        """What is shown as they are linked is not looked at."""
        sides, room = (
            parted("".join(self.text("joined_tests", name) for name in names))
            for names in (("SIDES", "THREE_CHANNELS"), ("ONE_ROOM",)))
        for links in (("a.net b.net", "b.net c.net"), ("c.net b.net", "a.net c.net")):
            middle = "".join(f"link {ends}\nsettle\n" for ends in links).encode()
            lines = sides[0] + middle + room[0]
            self.scripts.append(Script("joined_tests ONE_ROOM", lines, sides[1], room[1]))

    def add_crossing(self, order):
        """Two bursts that cross, in an order of the servers that take their lines."""
        rest = {
            end.lower(): iter([f"USER_TO_{end}", f"USER_TO_{end}", f"CHANNEL_TO_{end}"])
            for end in "AB"}
        names = ["LINKED", "NAMED", *(next(rest[end]) for end in order), "ARRIVED"]
        self.add("network_tests", names)

    def add_crowd(self, members, name):
        """So many clients in one channel, of which only the end is looked at."""
        rows = ["server a.net"]
        nicks = self.text("channel_tests", "CROWD").split(" ")[:members]
        for client, nick in enumerate(nicks, 1):
            says = [f"NICK {nick}", "USER u 0 * :x", "JOIN #c"]
            rows += ["connect a.net h"] + [f"say {client} {said}" for said in says]
        lines, printed = parted(self.text("channel_tests", name))
        front = "".join(f"{row}\n" for row in rows).encode()
        self.scripts.append(Script(f"channel_tests {name}", front + lines, b"", printed))


def noticed_by(source, scripts):
    """The first script that a model does not print, or None."""
    model = types.ModuleType("model")
    exec(compile(source, "model", "exec"), model.__dict__)
    for script in scripts:
        try:
            answer = model.answer(script.lines)
        except AssertionError:          # more lines are taken than may be
            return script
        if not script.is_printed(answer):
            return script
    return None


def names_nothing(reason):
    """Whether a reason has no file and name, or that file not this name."""
    found = REASON.fullmatch(reason)
    file = REPOSITORY / found[1] if found else None
    return file is None or not file.is_file() or not re.search(rf"\b{found[2]}\b", file.read_text())


def fault(turned, source, by_script):
    """What is out of date in a turn, or None."""
    if source.count(turned.old) != 1:
        return f"its text is there {source.count(turned.old)} times"
    if turned.reason and names_nothing(turned.reason):
        return f"no such reason: {turned.reason}"
    if turned.reason and by_script:
        return f"has a reason, and is noticed by {by_script.name}"
    return None


def tried(turned, source, scripts):
    """Who notices a turn, and what is out of date in it."""
    by_script = None
    try:
        if source.count(turned.old) == 1:
            by_script = noticed_by(source.replace(turned.old, turned.new), scripts)
    except Exception as problem:        # whatever a text that is no good raises
        return None, f"does not run: {problem!r}"
    return by_script, fault(turned, source, by_script)


def turns_of(source, words):
    """The turns that are asked for."""
    blocks = TURNS.read_text().strip("\n").split("\n\n")
    turns = [turn(block) for block in blocks if not block.startswith("# ")] + list(made(source))
    names = [each.name for each in turns]
    if len(names) != len(set(names)):
        sys.exit(f"{TURNS}: a name is there twice")
    return [each for each in turns if not words or any(word in each.name for word in words)]


def main(words):
    source = MODEL.read_text()
    scripts = [each for each in Gate().scripts if not re.search(rb"^bytes ", each.lines, re.M)]
    differs = noticed_by(source, scripts)
    if differs:
        sys.exit(f"the model as it is does not print {differs.name}")
    turns = turns_of(source, words)
    faults = unnoticed = without = 0
    for turned in turns:
        by_script, problem = tried(turned, source, scripts)
        faults += problem is not None
        unnoticed += by_script is None
        if by_script is None and not turned.reason:
            without += 1
            problem = problem or "noticed by no script"
        if problem:
            print(f"{turned.name}: {problem}", flush=True)
    print(f"{len(scripts)} scripts, {time.process_time():.0f} s of a processor")
    print(f"{len(turns)} turns, {unnoticed} noticed by no script, "
          f"{without} of these without a reason")
    return 1 if without or faults else 0


if __name__ == "__main__":
    sys.exit(main(sys.argv[1:]))
