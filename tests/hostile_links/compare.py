#!/usr/bin/env python3
"""Compares what a server does upon lines of hostile or broken peers with what a model says.

    python3 tests/hostile_links/compare.py --program PATH [--lines N] [--seed S] [--only closes|links|all] [--shorten]

Not part of the gate. The program at PATH is peer.rattle, built; without one, the file `run` here compares fewer lines. A server a.net has three
links, 7, 8 and 9, by which its peers come, and clients of its own. Lines are drawn by chance (generate.py), and come by the three in turn: half are
right for the state that the model knows, but with one thing turned (a word dropped, doubled or replaced, another prefix, number or name, a byte
changed); a quarter are right; a quarter are wild. A link that is closed comes up anew, most often with its handshake and some right lines, which
are no drawn ones.

model.py says what is put out for each: whether the link is closed and for which reason, what links are told, and what clients are shown. What
goes to one link or client is compared in order. `--only closes` compares just which links are closed and why, `--only links` also what is
told on links. It prints how many lines of each kind were taken, or closed their link for which reason, and the first difference with the lines before
it; `--shorten` looks for a short script that still differs. The status is 1 where something differs.

A script has a line for each event: `up N`, where the link N is opened by a peer; `call N NAME`, where it calls one; `down N`, where it is lost; `hear
N HEX`, bytes and LF that come by it; and of clients `connect N`, `say N HEX` and `gone N`. Behind what is put out for each the program prints `.`.
"""

import argparse
import collections
import re
import subprocess
import sys

from generate import Generator
from model import Server

BEFORE = 12             # lines that are printed before a difference
CLIENTS = ("client", "end")
CLOSES = ("close", "refused")
COMPARED = {"closes": CLOSES, "links": (*CLOSES, "link"), "all": (*CLOSES, "link", *CLIENTS)}
REPLY = re.compile(rb":a\.net (?:[0-9]{3}|PONG) ")


def is_reply(entry):
    """Whether something is an answer to what a client asked: these the model leaves out."""
    word, *rest = entry.split(" ")
    return word == "client" and REPLY.match(bytes.fromhex(rest[1])) is not None


def seen(put, only):
    """Of what is put out what is compared: what goes to each link and client, in order."""
    streams = collections.defaultdict(list)
    for entry in put:
        word, _, rest = entry.partition(" ")
        if word in COMPARED[only] and not is_reply(entry):
            streams[word in CLIENTS, rest.partition(" ")[0]].append(entry)
    return dict(streams)


def printed(program, script):
    """What the program prints for each event."""
    ran = subprocess.run([program], input="".join(line + "\n" for line in script).encode(), stdout=subprocess.PIPE, check=False)
    blocks, block = [], []
    for line in ran.stdout.decode().splitlines():
        if line == ".":
            blocks.append(block)
            block = []
        else:
            block.append(line)
    return blocks


def wanted_of(script):
    """What the model says of each event."""
    server = Server()
    return [server.perform(line) for line in script]


def first_difference(got, wanted, only):
    """The place of the first event of which something else is put out, or None."""
    for place, said in enumerate(wanted):
        if place >= len(got) or seen(got[place], only) != seen(said, only):
            return place
    return None


def shortened(program, script, only):
    """A shorter script that still differs at its end."""
    size = len(script) // 2
    while size:
        start = 0
        while start < len(script):
            tried = script[:start] + script[start + size:]
            place = first_difference(printed(program, tried), wanted_of(tried), only) if tried else None
            if place is None:
                start += size
            else:
                script = tried[:place + 1]
        size = size // 2
    return script


def readable(text):
    """A line of a script or of what is put out, with its bytes."""
    word, *rest = text.split(" ")
    if word in ("hear", "say", "link", "client") and len(rest) > 1:
        rest[1] = repr(bytes.fromhex(rest[1]))[1:]
    return " ".join([word, *rest])


def outcome(put):
    """What came of a line: taken, or the reason for which its link was closed."""
    return next((entry.split(" ")[2] for entry in put if entry.startswith("close ")), "taken")


def print_counts(made):
    heard = [(kind, put) for line, kind, put in zip(made.script, made.kinds, made.wanted) if line.startswith("hear")]
    counts = collections.Counter((kind, outcome(put)) for kind, put in heard)
    kinds = ("greeting", "fill", "right", "turned", "wild")
    print(f"{'':16}" + "".join(f"{kind:>10}" for kind in kinds))
    for reason in sorted({reason for _, reason in counts}):
        print(f"{reason:16}" + "".join(f"{counts[kind, reason]:10}" for kind in kinds))


def print_difference(script, got, only):
    """The last event of a script, of which something else is put out, with those before it."""
    for line in script[-BEFORE - 1:]:
        print("   ", readable(line))
    print_put("the model", wanted_of(script)[-1], only)
    print_put("the program", got[len(script) - 1] if len(got) >= len(script) else None, only)


def print_put(name, put, only):
    """What one of the two puts out, or that it ended."""
    print(f"{name}:" if put is not None else f"{name} ended")
    for entries in seen(put or [], only).values():
        print("".join(f"    {readable(entry)}\n" for entry in entries), end="")


def main():
    parser = argparse.ArgumentParser(description="Lines of hostile peers, against a model.")
    parser.add_argument("--program", required=True)
    parser.add_argument("--lines", type=int, default=100000)
    parser.add_argument("--seed", type=int, default=1)
    parser.add_argument("--only", choices=tuple(COMPARED), default="all")
    parser.add_argument("--shorten", action="store_true")
    options = parser.parse_args()
    made = Generator(options.seed).make(options.lines)
    got = printed(options.program, made.script)
    place = first_difference(got, made.wanted, options.only)
    print(f"seed {options.seed}: {made.heard} lines by links, {len(made.script)} events")
    print_counts(made)
    if place is None:
        print("no difference")
        return 0
    print(f"event {place + 1} differs:")
    script = made.script[:place + 1]
    if options.shorten:
        script = shortened(options.program, script, options.only)
        got = printed(options.program, script)
    print_difference(script, got, options.only)
    return 1


if __name__ == "__main__":
    sys.exit(main())
