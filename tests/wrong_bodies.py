#!/usr/bin/env python3
"""Tries tools/wrong_bodies on a small repository: of seven changes it has to say which two are
refused by the crate's contracts and lemmas. It proves one crate, and takes half a minute."""
import os
import shutil
import subprocess
import sys
import tempfile

TOP = os.path.dirname(os.path.dirname(os.path.realpath(__file__)))
CODE = """//! Numbers that are raised, and functions that call one another.
#![tactic(auto)]

ghost use Rattle.std.specs.Prelude.{◌≡◌, ◌+◌, ◌<◌};
ghost use Rattle.numbers.specs.Doubled.{TwoIsDoubled};

/// The next number.
pub fn next(number: u64) -> u64
    requires { number < 1000 }
    ensures { result ≡ number + 1 }
{
    1 + number
}

/// The number behind the next one.
pub fn behind_next(number: u64) -> u64
    requires { number < 900 }
    ensures { result ≡ number + 2 }
{
    let raised = next(number);
    next(raised)
}

/// A number and ten.
pub fn ten_more(number: u64) -> u64
    requires { number < 800 }
    ensures { result ≡ number + 10 }
{
    number + 10
}

/// A number and twenty.
pub fn twenty_more(number: u64) -> u64
    requires { number < 700 }
    ensures { result ≡ number + 20 }
{
    ten_more(ten_more(number))
}

/// No number.
pub fn zero() -> u64
    ensures { result ≡ 0 }
{
    0 // nothing
}

/// What a definition is of one number.
pub fn two_is_doubled()
    ensures { TwoIsDoubled }
{}
"""
# a definition, and a lemma of it on which another one rests
SPECS = {
    "Lib": "pub mod Doubled\npub mod Lemmas\n",
    "Doubled": """-- Numbers that are doubled.
use Rattle.std.specs.Prelude.{◌≡◌, ℕ, ◌+◌}

abbrev pub doubled : ℕ → ℕ
doubled n = n + n

pub record TwoIsDoubled : Type 0 where
  pub as_four : doubled 2 ≡ 4
""",
    "Lemmas": "pub mod OfTwo\n",
    "Lemmas/OfTwo": """-- Two, doubled.
use Rattle.std.proofs.Common.{◌≡◌, refl}
use Rattle.numbers.specs.Doubled.{doubled, TwoIsDoubled}

of_two : doubled 2 ≡ 4
of_two = refl

pub two_is_doubled : TwoIsDoubled
two_is_doubled = record { as_four = of_two }
""",
}
ANSWERS = """use Rattle.numbers.specs.Lemmas.OfTwo.{two_is_doubled}
use Rattle.numbers.proofs.two_is_doubled.Goals as goal

pub returns : goal.returns
returns c = two_is_doubled
"""
DOUBLED = "specs/Doubled.antt"
BODIES = {
    # its own goal fails, and so nothing is known of who calls it
    "next_by_two": [("1 + number", "2 + number")],
    # harmless, though it calls what is not proved beside it
    "behind_next_renamed": [("let raised = next(number)", "let other = next(number)")]
    + [("next(raised)", "next(other)")],
    # it is proved, and only who calls it is not
    "ten_more_or_less": [("result ≡ number + 10", "number < result")],
    "zero_does_not_compile": [("0 // nothing", "no_number")],
    "zero_of_no_line": [("1 // one", "2")],
    # a lemma fails, and the one that rests on it
    "lib_two_is_doubled_by_three": [("doubled n = n + n", "doubled n = n + 3")],
    # both fail, too, and it is no definition
    "lib_two_is_doubled_by_itself": [("doubled n = n + n", "doubled n = doubled")],
}
WANTED = {
    "behind_next_renamed": "NOT REFUSED",
    "ten_more_or_less": "NOT REFUSED",
    "zero_does_not_compile": "CANNOT BE APPLIED",
    "zero_of_no_line": "CANNOT BE APPLIED",
    "lib_two_is_doubled_by_itself": "CANNOT BE APPLIED",
}


def write(path, text):
    os.makedirs(os.path.dirname(path), exist_ok=True)
    with open(path, "w", encoding="utf-8") as it:
        it.write(text)


def made(top):
    """A repository of one crate, with the tool in it."""
    write(f"{top}/crates.txt", "numbers:\n")
    write(f"{top}/crates/numbers/src/lib.rt", CODE)
    write(f"{top}/crates/numbers/proofs/Lib.antt", "")
    write(f"{top}/crates/numbers/proofs/two_is_doubled/Answers.antt", ANSWERS)
    for name, text in SPECS.items():
        write(f"{top}/crates/numbers/specs/{name}.antt", text)
    for name, pairs in BODIES.items():
        lines = [f"file: {DOUBLED if name.startswith('lib_') else 'src/lib.rt'}"]
        for old, new in pairs:
            lines += [f"old: {old}", f"new: {new}"]
        write(f"{top}/crates/numbers/wrong/{name}.edit", "\n".join(lines) + "\n")
    os.mkdir(f"{top}/tools")
    shutil.copy(f"{TOP}/rt-once", f"{top}/rt-once")
    shutil.copy(f"{TOP}/tools/wrong_bodies", f"{top}/tools/wrong_bodies")
    subprocess.run(["git", "init", "-q", top], check=True)


def ran(top, *words):
    it = subprocess.run(words, cwd=top, capture_output=True, text=True, check=False)
    return it.returncode, it.stdout.rstrip("\n").split("\n")


def faults(top):
    """What the tool says otherwise than it should."""
    status, lines = ran(top, "./rt-once", "ci")
    if status or lines[-1] != "1 passed, 0 failed":
        return [f"the crate is not proved: {lines[-1]}"]
    found = []
    status, lines = ran(top, "tools/wrong_bodies")
    if (status, lines[-1]) != (1, "2 refused, 2 not refused, 3 cannot be applied"):
        found.append(f"status {status}, and at the end: {lines[-1]}")
    for name, came in WANTED.items():
        if not any(it.startswith(f"wrong_bodies: numbers/{name}: {came}") for it in lines):
            found.append(f"{name} is not told as {came}: {lines}")
        os.remove(f"{top}/crates/numbers/wrong/{name}.edit")
    status, lines = ran(top, "tools/wrong_bodies")
    if status or "(2 before)" not in lines[0]:
        found.append(f"what was refused is not kept: status {status}, {lines}")
    return found


def main():
    with tempfile.TemporaryDirectory(prefix="wrong-bodies-test-") as top:
        os.environ["RT_KEPT"] = f"{top}/kept"
        made(top)
        found = faults(top)
    for it in found:
        print(f"tests/wrong_bodies.py: {it}")
    print(f"{int(not found)} passed, {int(bool(found))} failed")
    return 1 if found else 0


if __name__ == "__main__":
    sys.exit(main())
