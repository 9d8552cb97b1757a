#!/usr/bin/env python3
"""Each allocation of `ircd sim` refused in turn, while it runs a script of a network: a JOIN that crosses a link, a split and its rejoin, a nickname on both
sides of a new link, two bursts that cross, and all of that in pieces of bytes.

What is printed is what the first so many lines of the script print with ample memory, and nothing of the line that failed, and the program says that it failed
and ends with that status; or it did without, and prints all. The numbers go on until a run meets no refusal.

tests/refused_scripts.py [PROGRAM]. The program is crates/ircd/out/ircd (`./ircd build` makes it) where none is named.
Exit status: 0 where all of this held each time, 1 where it did not.
"""
import os
import subprocess
import sys
import tempfile

HERE = os.path.dirname(os.path.abspath(__file__))
IRCD = os.path.join(os.path.dirname(HERE), "crates/ircd/out/ircd")
FAILED = 4
SECONDS = 60


def user(number, nick, server):
    return f"connect {server} h\nsay {number} NICK {nick}\nsay {number} USER u 0 * :{nick}\nsettle\n"


PAIR = "server a.net\nserver b.net\n"
LINKED = PAIR + "link a.net b.net\nsettle\n" + user(1, "al", "a.net") + user(2, "bo", "b.net")
JOIN = LINKED + "say 1 JOIN #c\nsettle\nsay 2 JOIN #c\nsettle\nsay 2 PRIVMSG #c :hi\nsettle\nsay 1 MODE #c +b x!*@*\nsettle\n"
APART = PAIR + user(1, "al", "a.net") + user(2, "bo", "b.net") + "say 1 JOIN #c\nsay 2 JOIN #c\n"
CLASH = PAIR + user(1, "al", "a.net") + user(2, "al", "b.net") + "say 1 JOIN #c\nsay 2 JOIN #d\nlink a.net b.net\nsettle\n"


def pieces(size, count):
    return f"bytes a.net b.net {size}\nbytes b.net a.net {size}\n" * count + "settle\n"


SCRIPTS = {
    "a JOIN across a link": JOIN,
    "a split and its rejoin": JOIN + "cut a.net b.net\nsettle\nlink a.net b.net\nsettle\n",
    "a nickname on both sides": CLASH,
    "bursts that cross": APART + "link a.net b.net\n" + "deliver a.net b.net\ndeliver b.net a.net\n" * 8 + "settle\n",
    "bursts in pieces of 1 byte": APART + "link a.net b.net\n" + pieces(1, 160),
    "bursts in pieces of 509 bytes": APART + "link a.net b.net\n" + pieces(509, 4),
}


def build(folder):
    library = os.path.join(folder, "refused_memory.so")
    subprocess.run(["cc", "-O2", "-shared", "-fPIC", "-fno-builtin", "-o", library, os.path.join(HERE, "refused_memory.c")], check=True)
    return library


def run(program, library, number, script):
    """Whether an allocation of this number was refused, what was printed, what was said besides, and the status."""
    environment = dict(os.environ, LD_PRELOAD=library, REFUSED=str(number))
    done = subprocess.run([program, "sim"], input=script.encode(), capture_output=True, env=environment, timeout=SECONDS, check=False)
    is_refused = b"refused\n" in done.stderr
    return is_refused, done.stdout, done.stderr.replace(b"refused\n", b""), done.returncode


def fronts(program, library, script):
    """What is printed by the first so many lines of a script, for each number of lines; none where something else than that came."""
    printed = [b""]
    lines = script.splitlines(keepends=True)
    for count in range(1, len(lines) + 1):
        is_refused, text, said, status = run(program, library, 0, "".join(lines[:count]))
        if is_refused or said or status:
            return None
        printed.append(text)
    return printed


def is_right(by_lines, printed, said, status):
    """Whether what came of a refusal is what some first lines of the script print, and the failure is told; or all of it."""
    has_failed = printed in by_lines and status == FAILED and said == b"ircd: failed\n"
    return has_failed or (printed == by_lines[-1] and status == 0 and not said)


def tried(program, library, script):
    """How many allocations were refused in turn, or the first of which something else came."""
    by_lines = fronts(program, library, script)
    if by_lines is None:
        return None, 0
    whole = by_lines[-1]
    number = 1
    while True:
        is_refused, printed, said, status = run(program, library, number, script)
        if not is_refused:
            return number - 1, None if printed == whole else number
        if not is_right(by_lines, printed, said, status):
            print(f"  {printed[-200:]!r}\n  {said!r}, status {status}")
            return number, number
        number += 1


def main():
    program = sys.argv[1] if len(sys.argv) > 1 else IRCD
    wrong = False
    with tempfile.TemporaryDirectory() as folder:
        library = build(folder)
        for name, script in SCRIPTS.items():
            count, bad = tried(program, library, script)
            print(f"{name}: {count} allocations refused in turn" if bad is None else f"{name}: allocation {bad} is not as it should be", flush=True)
            wrong = wrong or bad is not None
    return 1 if wrong else 0


if __name__ == "__main__":
    sys.exit(main())
