#!/usr/bin/env python3
"""Compares `irc_names::mask_matches` with a model's `matches` on generated pairs of a mask and a text.

Not part of the gate. It builds a small program over a copy of the crate in a temporary folder outside the repository, feeds it
the pairs, and compares each answer with the model's, which is model.py beside this file, or that of a folder named as an argument
or by the environment variable ORACLE.

    python3 tests/compare_masks.py [--pairs N] [--seed S] [ORACLE]

It prints how many pairs were compared and how many of them match; the status is 1 where an answer differs.
"""

import argparse
import os
import pathlib
import random
import shutil
import subprocess
import sys
import tempfile

REPOSITORY = pathlib.Path(__file__).resolve().parent.parent
TAB, NEWLINE = 9, 10

PROGRAM = """\
// Reads lines of a mask, a tab and a text, and writes for each whether the mask matches the text.
#![tactic(auto)]

use irc_names::mask_matches;
use std::io::{self, BufRead, BufReader, BufWriter, Write};

fn is_match(line: &[u8]) -> bool {
    let mut parts = line.splitn(2, |byte| *byte == b'\\t');
    match (parts.next(), parts.next()) {
        (Some(mask), Some(text)) => mask_matches(mask, text),
        _ => false,
    }
}

fn main(rt: HostRuntime) -> io::Result<()> {
    let mut reader = BufReader::new(rt.alloc(), rt.reader())?;
    let mut writer = BufWriter::new(rt.alloc(), io::writer(&rt))?;
    let mut line = Vec::new(rt.alloc());
    for _ in 0..u64::MAX {
        line.clear();
        if reader.read_until(b'\\n', &mut line)? == 0 {
            break;
        }
        let bytes = line.as_slice();
        let answer = if is_match(bytes.strip_suffix(b"\\n").unwrap_or(bytes)) { b"1\\n" } else { b"0\\n" };
        writer.write_all(answer)?;
    }
    writer.flush()
}
"""

# Few different bytes, so that masks and texts often meet: wild ones, backslashes, and bytes whose folds are equal.
ALPHABETS = [b"ab*?\\", b"aA[{*?\\", b"\\|*?", b"ab*", bytes(b for b in range(256) if b not in (TAB, NEWLINE))]


def some_bytes(source, alphabet, longest):
    return bytes(source.choice(alphabet) for _ in range(source.randint(0, longest)))


def spelled_otherwise(source, model, byte):
    """Another byte with the same fold, sometimes."""
    alike = [b for b in range(256) if b not in (TAB, NEWLINE) and model.fold(bytes([b])) == model.fold(bytes([byte]))]
    return source.choice(alike)


def text_for(source, model, mask, alphabet):
    """A text that a mask was likely to be written for, at times spoiled at one byte."""
    text = bytearray()
    place = 0
    while place < len(mask):
        byte = mask[place]
        if byte == ord("\\") and mask[place + 1:place + 2] in (b"*", b"?"):
            text.append(mask[place + 1])
            place += 1
        elif byte == ord("*"):
            text += some_bytes(source, alphabet, 4)
        elif byte == ord("?"):
            text.append(source.choice(alphabet))
        else:
            text.append(spelled_otherwise(source, model, byte))
        place += 1
    if text and source.random() < 0.4:
        text[source.randrange(len(text))] = source.choice(alphabet)
    if source.random() < 0.1:
        text += some_bytes(source, alphabet, 2)
    return bytes(text)


def generate(source, model, count):
    pairs = []
    for _ in range(count):
        alphabet = source.choice(ALPHABETS)
        mask = some_bytes(source, alphabet, source.choice([4, 8, 16]))
        if source.random() < 0.3:
            text = some_bytes(source, alphabet, 12)
        else:
            text = text_for(source, model, mask, alphabet)
        pairs.append((mask, text))
    return pairs


def answers(pairs):
    """What the crate's code answers, by a program in a temporary folder."""
    with tempfile.TemporaryDirectory() as folder:
        top = pathlib.Path(folder)
        shutil.copytree(REPOSITORY / "crates" / "irc_names", top / "crates" / "irc_names",
                        ignore=shutil.ignore_patterns("out", "wrong"))
        (top / "crates.txt").write_text("irc_names: arrayvec\ncompare_masks: irc_names\n")
        crate = top / "crates" / "compare_masks"
        (crate / "src").mkdir(parents=True)
        (crate / "src" / "main.rt").write_text(PROGRAM)
        lines = b"".join(mask + b"\t" + text + b"\n" for mask, text in pairs)
        run = subprocess.run(["rt", "try"], cwd=crate, input=lines, capture_output=True)
        given = [line for line in run.stdout.split(b"\n") if line in (b"0", b"1")]
        if len(given) != len(pairs):
            sys.exit(f"{len(given)} answers for {len(pairs)} pairs:\n{(run.stdout[-2000:] + run.stderr[-2000:]).decode(errors='replace')}")
        return [line == b"1" for line in given]


def main():
    options = argparse.ArgumentParser(description="Compares mask_matches with a model's matches.")
    options.add_argument("oracle", nargs="?", default=os.environ.get("ORACLE", REPOSITORY / "tests"))
    options.add_argument("--pairs", type=int, default=20000)
    options.add_argument("--seed", type=int, default=1)
    given = options.parse_args()
    sys.path.insert(0, str(given.oracle))
    import model

    pairs = generate(random.Random(given.seed), model, given.pairs)
    wanted = [model.matches(mask, text) for mask, text in pairs]
    differing = [(pair, want) for pair, want, answer in zip(pairs, wanted, answers(pairs)) if want != answer]
    for (mask, text), want in differing[:10]:
        print(f"mask {mask!r} text {text!r}: the model says {want}")
    print(f"pairs={len(pairs)} matching={sum(wanted)} differing={len(differing)}")
    sys.exit(1 if differing else 0)


if __name__ == "__main__":
    main()
