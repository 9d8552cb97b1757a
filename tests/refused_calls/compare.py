#!/usr/bin/env python3
"""Compares what a call answers where memory is refused, at each of its requests in turn, with what it answers with ample memory.

    python3 tests/refused_calls/compare.py --built FOLDER [--only GROUP]

Not part of the gate. FOLDER is what build.py has filled; `run` here does both. rows.py has the calls. Each is made in a process of its own, and in it the
request of number 1, 2 and so on is refused, until a call meets no refusal: that one request alone, and, in a second round, that and each behind it. What is
done before the call, and once it has answered, is never refused. Then the call is made once more, with ample memory, but for `stage`.

What holds of a refused call, by its kind:
  same      the value is as it was before, and once more the call does what it does with ample memory
  closes    likewise, for a line that closes its link
  grew      likewise, but that a batch may have more behind what it had, of what it has with ample memory
  open      want of memory is told
  stage     want of memory is told, the server is gone, and a batch is as it was
  room      want of memory is told once, and that the room has failed from then on; nobody is shown anything
  server    likewise, nothing is put out, and the server tells neither its room nor its servers; `server all`: but what the events before put out stands
  net       likewise, and what each client has received is a front; `net new` is `same`; `net play`: or only the answers were refused, and the net goes on
  engine    want of memory is told once, that the engine has failed in each turn then, and what was written to each connection is a front
  making    want of memory is told
  none      no memory is asked for
A call that can do without what it is refused does all that it does with ample memory.

The exit status is 0 where all of this held each time.
"""
import argparse
import os
import re
import subprocess
import sys

from rows import GROUPS, WRITTEN

SECONDS = 60
# what no call answers that has ample memory
NOT_OK = ("memory", "failed", "unknown", "refused", "nobody", "no effect", "not free", "not made", "bad name", "known", "full", "taken", "no such",
          "not member", "no line", "NotAtRest", "NoSuch", "NotLinked", "LinkRefused", "UnknownCommand", "Parameters", "BadToken",
          "WrongDirection", "BadName", "Order")


def run(built, script, number, onward):
    """Whether a request of this number was refused, and what was printed, as pairs of a word and a text; nothing, where the program failed."""
    environment = {"LD_PRELOAD": os.path.join(built, "refused_call.so"), "REFUSED": str(number)}
    if onward:
        environment["ONWARD"] = "1"
    ran = subprocess.run([os.path.join(built, "program")], input=script, capture_output=True, env=environment, timeout=SECONDS, check=False)
    lines = [line.partition(" ")[::2] for line in ran.stdout.decode("latin-1").splitlines()]
    printed = [line for line in lines if line[0] not in ("begin", "end")]
    return b"refused\n" in ran.stderr, None if ran.returncode else printed


def texts(printed, head):
    return [text for word, text in printed if word == head]


def part(text, word):
    """What stands before a word, and from it on."""
    before, found, behind = f" {text} ".partition(f" {word} ")
    return before, found + behind


def is_same(ample, got):
    """The value is as it was, and the second call does what the first does with ample memory."""
    before, = texts(got, "before")
    after, again = texts(got, "after")
    first, second = texts(got, "answer")
    return first == "memory" and after == before and second == texts(ample, "answer")[0] and again == texts(ample, "after")[0]


def has_grown(before, after, most):
    """Whether more is put out, of what is put out with ample memory."""
    outs = [part(part(text, "batch")[1], "steps")[0].rstrip() for text in (before, after, most)]
    others = [(part(text, "batch")[0], part(text, "steps")[1]) for text in (before, after)]
    return others[0] == others[1] and outs[1].startswith(outs[0]) and outs[2].startswith(outs[1])


def is_grown(ample, got):
    before, = texts(got, "before")
    after, _ = texts(got, "after")
    first, second = texts(got, "answer")
    return first == "memory" and has_grown(before, after, texts(ample, "after")[0]) and second == texts(ample, "answer")[0]


def is_batch_grown(ample, got):
    """As above, for the scene of tables, where rows tell of a batch alone."""
    before, = texts(got, "before")
    after, _ = texts(got, "after")
    kept = before.partition(" a.net ")
    return texts(got, "answer") == ["memory", "ok"] and after.startswith(kept[0]) and after.endswith(kept[2])


def has_failed(got):
    return texts(got, "answer") == ["memory", "failed"]


def is_own_text(text):
    """Whether a server tells of its room first."""
    return re.match(r"a\.net [0-9]+ [0-9]+ ", text) is not None


def put_out(told):
    """What a failed server has put out; nothing, where it tells of itself."""
    outs, closed, rest = told.partition("no room no routes no client 1 no password")
    return outs if closed and not rest else None


def is_closed(_, got):
    """A server's batch is as it was, and it tells nothing of itself, however often it is asked."""
    before, = texts(got, "before")
    after, again = texts(got, "after")
    outs = put_out(after)
    return has_failed(got) and outs is not None and before.startswith(outs) and is_own_text(before[len(outs):]) and again == after


def is_closed_in_part(ample, got):
    """Of several events those before are handled: what they put out stands."""
    after, again = texts(got, "after")
    outs = put_out(after)
    return has_failed(got) and outs is not None and texts(ample, "after")[0].startswith(outs) and again == after


def received(text):
    """What each client has received."""
    return text.split("client ")[1:]


def is_front(ample, got):
    """What each client of a network has received is a front, and the failed network stays as it is."""
    after = texts(got, "after")
    pairs = zip(received(after[0]), received(texts(ample, "after")[0]))
    return has_failed(got) and all(whole.startswith(some.rstrip()) for some, whole in pairs) and after[1] == after[0]


def is_played(ample, got):
    """A play ends for want of memory: then the network has failed; or memory was refused to the answers alone, and the network goes on."""
    first, second = texts(got, "answer")
    pairs = zip(received(texts(got, "after")[0]), received(texts(ample, "after")[0]))
    return first == "memory" and second in ("failed", *texts(ample, "answer")) and all(whole.startswith(some.rstrip()) for some, whole in pairs)


def is_kept_out(_, got):
    """Of a stage: it is gone, and a batch is as it was."""
    before, = texts(got, "before")
    kept = before.partition("room a.net")[0]
    return texts(got, "answer") == ["memory"] and texts(got, "after") == [f"{kept}gone"]


def is_told(_, got):
    return texts(got, "answer")[0].split(" ")[0] == "memory"


def is_stopped(ample, got):
    """An engine is not made, or tells the want of memory once, and then that it has failed; what is written to each connection is a front."""
    answers, = texts(got, "answer")
    words = answers.split(" ")
    if answers == "not made":
        return not any(connections(texts(got, "written")[0]))
    if "memory" not in words:
        return False
    place = words.index("memory")
    is_once = words[:place] == ["ok"] * place and all(word == "failed" for word in words[place + 1:])
    return is_once and is_front_written(got, ample)


def connections(text):
    """What is written to each connection."""
    return [written.rstrip() for written in re.split(r" ?(?:open|closed) ", f"{text} ")[1:]]


def is_front_written(got, ample):
    some, whole = (connections(texts(each, "written")[0]) for each in (got, ample))
    return len(some) == len(whole) and all(all_of.startswith(front) for front, all_of in zip(some, whole))


def is_not_made(_, got):
    return texts(got, "answer") == ["memory"]


KINDS = {
    "same": is_same, "grew": is_grown, "room": lambda _, got: has_failed(got), "server": is_closed, "server all": is_closed_in_part, "net": is_front,
    "net new": is_same, "net play": is_played, "stage": is_kept_out, "open": is_told, "engine": is_stopped, "making": is_not_made,
    "none": is_told, "closes": is_same,
}


def is_ok(answer):
    return not any(f" {answer} ".startswith(f" {word}") for word in NOT_OK)


def is_ample(row, ample):
    """Whether all was done with ample memory: what is there before the call, the call, and what an engine writes."""
    kind, _, setup, _ = row
    if ample is None or not all(map(is_ok, texts(ample, "made"))) or is_ok(texts(ample, "answer")[0]) == (kind == "closes"):
        return False
    return kind != "engine" or all(connections(texts(ample, "written")[0]) == written for steps, written in WRITTEN if steps == setup)


def shown(printed):
    """What is printed, but for what was made before."""
    return printed and [line for line in printed if line[0] != "made" or not is_ok(line[1])]


def tried(built, row):
    """How many requests were refused in turn, and what was wrong."""
    kind, scene, setup, call = row
    script = "".join(f"{line}\n" for line in [scene, *setup, call]).encode("latin-1")
    holds = is_batch_grown if (kind, scene) == ("grew", "tables") else KINDS[kind]
    _, ample = run(built, script, 0, False)
    if not is_ample(row, ample):
        return 0, [f"with ample memory: {shown(ample)}"]
    wrong, most = [], 0
    for onward in (False, True):
        number = 1
        while True:
            is_refused, got = run(built, script, number, onward)
            if not is_refused:
                break
            if got is None or (got != ample and not holds(ample, got)):
                wrong.append(f"request {number}{' and each behind it' if onward else ''}: {shown(got)}\n    ample: {shown(ample)}")
            number += 1
        if got != ample:
            wrong.append(f"nothing is refused, and yet {got}")
        most = max(most, number - 1)
    return most, wrong


def compare(built, group):
    """Whether a row of a group is wrong. Rows of one call are told together."""
    counts, is_wrong = {}, False
    for row in GROUPS[group]():
        count, wrong = tried(built, row)
        counts.setdefault((row[0], row[1], row[3]), []).append(count)
        for each in wrong:
            is_wrong = True
            print(f"WRONG {row[0]}: {row[1]}: {row[3]} behind {row[2]}: {each}")
    for (kind, scene, call), numbers in counts.items():
        rows = f", in {len(numbers)} rows" if len(numbers) > 1 else ""
        print(f"{scene}: {call.translate({7: '^G'})}: {kind}: {sum(numbers)} requests refused{rows}", flush=True)
        if (kind == "none") != (sum(numbers) == 0):
            is_wrong = True
            print(f"WRONG {kind}: {scene}: {call}: {sum(numbers)} requests")
    return is_wrong


def main():
    parser = argparse.ArgumentParser()
    parser.add_argument("--built", required=True)
    parser.add_argument("--only", choices=GROUPS)
    words = parser.parse_args()
    wrong = [compare(words.built, group) for group in ([words.only] if words.only else GROUPS)]
    return 1 if any(wrong) else 0


if __name__ == "__main__":
    sys.exit(main())
