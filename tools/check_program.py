#!/usr/bin/env python3
"""Runs the examples of the pages and a conversation on a socket: what the program prints stands
beside what the pages say.

    ./ircd check-program

What is wanted is read from the pages themselves, README.md, examples/ and docs/, and from the
script and its output beside `crates/ircd`; of whole scripts from the model of tests/model.py, which
has none of the program's code. Status 0: all were right; 1: one was not, and is printed.
"""
import glob
import os
import re
import shlex
import socket
import subprocess
import sys
import tempfile
import time

TOP = os.path.dirname(os.path.dirname(os.path.abspath(__file__)))
sys.path[:0] = [f"{TOP}/tests"]
sys.dont_write_bytecode = True
import compare_sim  # noqa: E402
import model  # noqa: E402

# for so many seconds a server may be silent
SILENCE = 10
# The text that names the script of the block behind it, and the block, which stands four spaces in.
EXCERPT = re.compile(r"Of `(?:examples/)?([a-z]+\.script)`(?:.|\n(?!\n))*\n\n((?:    .*\n)+)")
# `printf` of a script, and what comes of it: in the manual page, and in a page behind its text.
MANUAL = re.compile(r"^\$ (printf .*) \| ircd sim\n((?:\d .*\n)+)", re.MULTILINE)
PRINTED = re.compile(
    r"that prints ((?:`[^`]+`(?: and )?)+):\n\n    (printf .*?) \| \./ircd sim", re.DOTALL)


def text_of(path):
    with open(f"{TOP}/{path}", encoding="utf-8") as file:
        return file.read()


def told(program, script):
    """Status, output and errors of the program on a script."""
    return compare_sim.ran([program, "sim"], script)


def said_by(program, rows):
    """The lines that the program prints for these lines of a script."""
    return told(program, "".join(f"{row}\n" for row in rows).encode())[1].decode().splitlines()


class Tried:
    """How many examples were tried, and how many were right."""

    def __init__(self):
        self.count = self.right = 0

    def take(self, what, wanted, found):
        self.count += 1
        if wanted == found:
            self.right += 1
        else:
            print(f"{what}:\n  wanted {wanted}\n  found  {found}")


def steps_of(block):
    """The commands of a block with what comes of them: lists of both, and None for `..`."""
    steps = []
    for line in filter(None, block.split("\n")):
        body = line[4:]
        command, _, output = ("", "", body) if body.startswith("  ") else body.partition("  ")
        if body == "..":
            steps.append(None)
        elif command and (not steps or steps[-1] is None or steps[-1][1]):
            steps.append(([command], []))
        elif command:
            steps[-1][0].append(command)
        if output and steps:
            steps[-1][1].append(output.strip())
    return steps


def place_of(commands, rows, start):
    """Where these lines stand in a script, from a line on; None where they do not."""
    places = range(start, len(rows) - len(commands) + 1)
    return next((it for it in places if rows[it:it + len(commands)] == commands), None)


def try_excerpt(tried, program, page, name, block):
    """Looks at an excerpt of a script: each of its steps prints what stands beside it."""
    rows, place = text_of(f"examples/{name}").splitlines(), 0
    for commands, wanted in filter(None, steps_of(block)):
        place = place_of(commands, rows, place)
        if place is None:
            tried.take(f"{page}: {name}", commands, "no such lines behind those above")
            return
        behind = place + len(commands)
        found = said_by(program, rows[:behind])[len(said_by(program, rows[:place])):]
        tried.take(f"{page}: {name}, line {behind}", wanted, found)
        place = behind


def printed_by(words):
    """What `printf` makes of these words."""
    form, *texts = [word.replace("\\n", "\n") for word in words]
    return "".join(form.replace("%s", text) for text in texts) if texts else form


def one_liners():
    """Scripts that pages give in one line, and the lines that they say come of them."""
    for line, output in MANUAL.findall(text_of("docs/ircd.8").replace("\\e", "\\")):
        yield "docs/ircd.8", shlex.split(line)[1:], output.splitlines()
    for page in sorted(glob.glob("docs/*.md", root_dir=TOP)):
        for output, line in PRINTED.findall(text_of(page)):
            yield page, shlex.split(line.replace("\\\n", " "))[1:], re.findall("`([^`]+)`", output)


def try_pages(tried, program):
    """Looks at what the pages say of scripts."""
    for page in ["README.md", *sorted(glob.glob("examples/*.md", root_dir=TOP)),
                 *sorted(glob.glob("docs/*.md", root_dir=TOP))]:
        for name, block in EXCERPT.findall(text_of(page)):
            try_excerpt(tried, program, page, name, block)
    for page, words, wanted in one_liners():
        rows = printed_by(words).splitlines()
        tried.take(f"{page}: {' '.join(words)}", wanted, said_by(program, rows))


def try_scripts(tried, program):
    """Looks at each script of examples/ as a whole, client by client, and at that of the gate."""
    for path in sorted(glob.glob(f"{TOP}/examples/*.script")):
        with open(path, "rb") as file:
            script = file.read()
        both = model.answer(script), told(program, script)
        wanted, found = [(status, compare_sim.by_client(output), errors)
                         for status, output, errors in both]
        tried.take(os.path.relpath(path, TOP), wanted, found)
    script, wanted = [text_of(f"crates/ircd/{name}").encode() for name in ("stdin", "stdout")]
    tried.take("crates/ircd/stdin", (0, wanted, b""), told(program, script))


def free_port():
    with socket.socket() as listener:
        listener.bind(("127.0.0.1", 0))
        return listener.getsockname()[1]


def own_addresses(configuration):
    """A configuration that listens at a port that the system chooses, and calls nobody."""
    configuration = re.sub(r"(?m)^(listen\w* *=).*", r'\1 "127.0.0.1:0"', configuration)
    return re.sub(r"(?m)^(connect|retry|plain) *=.*\n", "", configuration)


def try_configurations(tried, program):
    """Looks at each configuration of examples/: the checker and the program take it."""
    for path in sorted(glob.glob(f"{TOP}/examples/**/*.toml", recursive=True)):
        page = os.path.relpath(path, TOP)
        checked = compare_sim.ran([f"{TOP}/ircd-check", path], b"")
        tried.take(f"ircd-check {page}", (0, f"{path}: good\n".encode(), b""), checked)
        configuration = own_addresses(text_of(page)).encode()
        served = compare_sim.ran([program, "serve", "/dev/stdin", "0"], configuration)
        tried.take(f"serve {page} 0", (0, b"ready\n", b""), served)


def answers(port, said, count):
    """What a server says to one who connects and says this, until so many lines have come, or it
    is silent."""
    heard = b""
    try:
        with socket.create_connection(("127.0.0.1", port), SILENCE) as client:
            client.sendall(said)
            while heard.count(b"\r\n") < count and (more := client.recv(65536)):
                heard += more
    except OSError as error:
        heard += str(error).encode()
    return heard


def try_socket(tried, program):
    """Looks at a conversation on a socket: that of the script beside `crates/ircd`, whose client
    comes from 127.0.0.1 here."""
    rows = text_of("crates/ircd/stdin").splitlines()
    said = "".join(row.removeprefix("say 1 ") + "\r\n" for row in rows if row.startswith("say 1 "))
    wanted = re.sub(r"(?m)^1 ", "", text_of("crates/ircd/stdout")).replace("!u@h", "!u@127.0.0.1")
    wanted = wanted.replace("\n", "\r\n").encode()
    port = free_port()
    keys = {"name": '"a.net"', "info": '"Test server"', "created": '"2024-01-01"',
            "listen": f'"127.0.0.1:{port}"', "client_room": 65536, "link_room": 65536}
    with tempfile.NamedTemporaryFile("w", suffix=".toml") as file:
        file.writelines(f"{key} = {value}\n" for key, value in keys.items())
        file.flush()
        with subprocess.Popen([program, "serve", file.name], stdout=subprocess.PIPE) as server:
            try:
                first = server.stdout.readline()
                found = answers(port, said.encode(), wanted.count(b"\r\n"))
            finally:
                server.terminate()
    tried.take(f"a conversation on port {port}", (b"ready\n", wanted), (first, found))


def main():
    program = os.path.abspath(sys.argv[1])
    tried, start = Tried(), time.monotonic()
    for look in (try_pages, try_scripts, try_configurations, try_socket):
        look(tried, program)
    is_right = 0 < tried.count == tried.right
    print(f"{tried.right} of {tried.count} were right, by {os.path.relpath(program, TOP)},"
          f" in {time.monotonic() - start:.1f} s")
    return 0 if is_right else 1


if __name__ == "__main__":
    sys.exit(main())
