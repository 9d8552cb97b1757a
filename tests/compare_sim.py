#!/usr/bin/env python3
"""Compares what `ircd sim` prints with what a model prints, on generated scripts.

    python3 tests/compare_sim.py [--servers K] [--pieces] [--scripts N] [--seed S] [--program PATH]

Not part of the gate. The scripts are those of generate.py, in turn plain, wild (more lines that are not well formed), plain, and
damaged (one byte changed or a line put in, which often makes a bad script). model.py says what has to be printed, with which
status, and with what on standard error. Another generator and another model can stand in their place: a folder with a `gen.py`
and an `oracle.py`, named by the environment variable ORACLE. Then `gen.py SEED --servers 1 --no-settle` makes the scripts, in turn
plain, with `--wild`, with `--clean` (no CR inside a line) and damaged, and `oracle.py --sim --upto=..` the answers; each WORD is given to all three of its programs.

    ORACLE=/path/to/oracle python3 tests/compare_sim.py [--upto=channels] [--give=WORD] ..

With K servers, more than one, a script is compared client by client: between each two answers to what is asked of the network (a refusal, or
how many lines were taken) each client receives the same lines in the same order; these answers are the same; and the model sees to it
that no item takes more lines than it may. In which order lines of two clients stand is compared with --order alone. The other
generator is then called as `gen.py SEED --servers K`, in turn plain, with `--wild`, with `--deliver` and with both, and what is printed
is given to `compare.py SCRIPT OUTPUT`, whose status is 0 where all is well. With --pieces each of its deliveries is bytes instead, so many by chance
that they end anywhere, in that direction and others.

It prints how many scripts were compared, and the first that differs; the status is 1 where one differs.
"""

import argparse
import multiprocessing
import os
import pathlib
import random
import subprocess
import sys
import tempfile
import time
from typing import NamedTuple

import generate
import model

REPOSITORY = pathlib.Path(__file__).resolve().parent.parent
PROCESSES = 4
SECONDS = 60
KINDS = [[], ["--wild"], ["--clean"], []]
KINDS_OF_NETWORKS = [[], ["--wild"], ["--deliver"], ["--deliver", "--wild"]]
KINDS_OF_PIECES = [["--deliver"], ["--deliver", "--wild"]]
SIZES = [0, 1, 1, 2, 3, 7, 24, 25, 26, 40, 80, 509, 1000]
WILD = 1
DAMAGED = 3


def ran(command, script):
    """Status, output and errors of a program that is given a script."""
    done = subprocess.run(command, input=script, capture_output=True, timeout=SECONDS, check=False)
    return done.returncode, done.stdout, done.stderr


class Task(NamedTuple):
    """What is to be compared: the script of a seed, with so many servers."""

    program: str
    oracle: str | None
    upto: str
    given: tuple
    servers: int
    in_order: bool
    pieces: bool
    programs: bool
    seed: int


def in_pieces(script, seed):
    """A script whose deliveries are pieces, each followed by others in the same direction and back."""
    chance = random.Random(seed)
    rows = []
    for row in script.splitlines(keepends=True):
        words = row.split()
        if len(words) != 3 or not row.startswith(b"deliver "):
            rows.append(row)
            continue
        for _ in range(chance.randint(1, 4)):
            pair = words[1:] if chance.random() < 0.7 else words[:0:-1]
            rows.append(b"bytes %b %b %d\n" % (*pair, chance.choice(SIZES)))
    return b"".join(rows)


def made(task):
    """The script of a seed."""
    kind = task.seed % len(KINDS)
    if task.oracle:
        options = KINDS[kind] + ["--no-settle"] if task.servers == 1 else KINDS_OF_NETWORKS[kind]
        options = KINDS_OF_PIECES[task.seed % len(KINDS_OF_PIECES)] if task.pieces else options
        command = [sys.executable, f"{task.oracle}/gen.py", str(task.seed), "--servers", str(task.servers), *options, *task.given]
        script = subprocess.run(command, capture_output=True, timeout=SECONDS, check=True).stdout
        script = in_pieces(script, task.seed) if task.pieces else script
    else:
        script = generate.script(task.seed, kind == WILD, task.servers, task.programs)
    is_damaged = kind == DAMAGED and not (task.oracle and task.servers > 1)
    return generate.damaged(script, task.seed) if is_damaged else script


def answered(task, script):
    """What `ircd sim` has to answer to a script."""
    if not task.oracle:
        return model.answer(script, task.programs)
    return ran([sys.executable, f"{task.oracle}/oracle.py", "--sim"] + ([f"--upto={task.upto}"] if task.upto else []) + list(task.given), script)


def by_client(output):
    """What is printed, but for the order of lines of two clients: between each two answers of the network the lines of each client."""
    stretches, lines = [], {}
    for row in output.splitlines(keepends=True):
        client, _, line = row.partition(b" ")
        if client in (b"!", b"="):
            stretches += [lines, row]
            lines = {}
        else:
            lines.setdefault(client, []).append(line)
    return stretches + [lines]


def is_same(task, expected, found):
    if task.servers == 1 or task.in_order:
        return expected == found
    return expected[::2] == found[::2] and by_client(expected[1]) == by_client(found[1])


def is_passed(task, script, found):
    """Whether the other model's own comparison finds nothing wrong with what a network printed."""
    with tempfile.TemporaryDirectory() as folder:
        names = [pathlib.Path(folder, name) for name in ("script", "output")]
        for name, text in zip(names, (script, found[1])):
            name.write_bytes(text)
        done = ran([sys.executable, f"{task.oracle}/compare.py", *task.given, *map(str, names)], b"")
    return done[0] == 0, done


def compared(task):
    """The seed, how many lines were printed, and what differs: None, or the script and both answers."""
    script = made(task)
    found = ran([task.program, "sim"], script)
    lines = found[1].count(b"\n")
    if task.oracle and task.servers > 1:
        passed, said = is_passed(task, script, found)
        return task.seed, lines, None if passed else (script, said, found)
    expected = answered(task, script)
    return task.seed, lines, None if is_same(task, expected, found) else (script, expected, found)


def show(script, expected, found):
    """The script, and the first line in which the answers differ."""
    print("script:")
    print(script.decode("latin-1"), end="")
    for name, wanted, got in zip(("status", "output", "errors"), expected, found):
        if wanted == got:
            continue
        if name == "status":
            print(f"status {got}, the model's {wanted}")
            continue
        wanted, got = wanted.split(b"\n"), got.split(b"\n")
        place = next((i for i, pair in enumerate(zip(wanted, got)) if pair[0] != pair[1]), min(len(wanted), len(got)))
        print(f"{name}, line {place + 1}:")
        print("  ircd ", got[place] if place < len(got) else "nothing")
        print("  model", wanted[place] if place < len(wanted) else "nothing")


def main():
    parser = argparse.ArgumentParser(description="Compares `ircd sim` with a model on generated scripts.")
    parser.add_argument("--scripts", type=int, default=2000)
    parser.add_argument("--seed", type=int, default=1)
    parser.add_argument("--servers", type=int, default=1, choices=range(1, len(generate.SERVERS) + 1), metavar="K")
    parser.add_argument("--pieces", action="store_true", help="with ORACLE and several servers, deliver bytes by chance")
    parser.add_argument("--order", action="store_true", help="with several servers, compare the order of all lines")
    parser.add_argument("--upto", default="channels", help="with ORACLE, how far the program is built; empty: whole")
    parser.add_argument("--give", action="append", default=[], metavar="WORD", help="with ORACLE, a word for each of its programs, as --give=--long-nicks")
    parser.add_argument("--programs", action="store_true", help="of a program whose scripts have servers with what programs expect")
    parser.add_argument("--program", default=str(REPOSITORY / "crates/ircd/out/ircd"))
    options = parser.parse_args()
    oracle = os.environ.get("ORACLE")
    if oracle and not pathlib.Path(oracle, "oracle.py").is_file():
        sys.exit(f"no oracle.py in {oracle}, which ORACLE names")
    if options.pieces and not (oracle and options.servers > 1):
        sys.exit("--pieces wants ORACLE and several servers")
    if not pathlib.Path(options.program).is_file():
        sys.exit(f"no program {options.program}: ./ircd build makes it")
    start = time.monotonic()
    seeds = range(options.seed, options.seed + options.scripts)
    tasks = [Task(options.program, oracle, options.upto, tuple(options.give), options.servers, options.order, options.pieces, options.programs, seed) for seed in seeds]
    lines = differences = 0
    with multiprocessing.Pool(PROCESSES) as pool:
        for seed, count, difference in pool.imap(compared, tasks, chunksize=8):
            lines += count
            if difference is None:
                continue
            if not differences:
                print(f"seed {seed} differs")
                show(*difference)
            differences += 1
    print(f"{options.scripts} scripts, {lines} lines printed, {differences} differences, {time.monotonic() - start:.0f} s")
    return 1 if differences else 0


if __name__ == "__main__":
    sys.exit(main())
