#!/usr/bin/env python3
"""What the daemon's layer makes of a change that crossed others, beside what becomes of the edit that
it stands for: an executable comparison of two definitions, for who proves that they are one, or
changes either.

    python3 tests/crossing_edits.py [--tries N] [--seed S] [--seconds T] [--without RULE|each]

Not part of the gate, and of no program. The rules of crates/irc_crossing (crossing_edits/rules.py)
read no document; an edit of crates/irc_edited_rooms (edits_model/edits.py) becomes what it does by
the document in which both were made. crossing_edits/standing.py says for which edit a change stands,
and relation.py when that holds behind each step. Tried by chance, in sound documents:

    pairs       a change of each end, which does something where it is made;
    lists       up to six of each, through the grid of both: at each step what has become of an
                entry does, where it stands by then, what has become of its edit does there, and
                stands for that edit by the relation;
    steps       one step of the grid from anything that the relation allows, to what it allows.

Both ends have users of their own, whom they alone rename, join to channels, or lose with a server.
Left out is where a channel is left without a member, of which a layer asks the other end. Where both
begin a channel, and one of the two who did is gone at the other end, that end asks too: until it is
told, the channel may be spelled otherwise there. Such entries are counted as told.

It tells what was tried, and the smallest difference. `--without RULE` takes a rule out, and `--without
each` each in turn. The status is 1 where something differs; with `--without each`, where some rule is
not missed.
"""
import argparse
import pathlib
import random
import sys
import time
from collections import Counter, namedtuple
from itertools import count, product

for folder in ("edits_model", "crossing_edits"):
    sys.path.insert(0, str(pathlib.Path(__file__).parent / folder))

import edits as model  # noqa: E402
import rules  # noqa: E402
import standing  # noqa: E402
from chance import any_case, any_step  # noqa: E402
from edits import done, may, sound  # noqa: E402
from relation import Step, can_be, may_cross, stands_for  # noqa: E402
from rules import Join  # noqa: E402
from standing import NAMES, Entry, all_do_something, crossed_entry, edit_of, has_ended  # noqa: E402
from without import RULES  # noqa: E402

# what has become of an entry and of its edit, where it stands
Cell = namedtuple("Cell", "side S entry edit")


# ---- the grid


def row_of(S, entries):
    """Documents, and the edits between them."""
    documents, edits = [S], []
    for entry in entries:
        edits.append(edit_of(documents[-1], entry))
        documents.append(done(documents[-1], edits[-1]))
    return documents, edits


def grid(case):
    """All that becomes of the entries of both, and whether a channel is left without a member."""
    documents, edits = row_of(case.S, case.ours)
    log, cells, steps = [*case.ours], [], [*zip(documents, documents[1:])]
    for it in case.theirs:
        edit, below, changes = edit_of(documents[0], it), [], [entry.change for entry in log]
        wanted = rules.through(it.change, changes), rules.log_behind(it.change, changes)
        after = [done(documents[0], edit)]
        for at, (entry, log_edit) in enumerate(zip(log, edits)):
            below.append(model.crossed(documents[at], log_edit, edit))
            edit = model.crossed(documents[at], edit, log_edit)
            log[at], it = crossed_entry(entry, it), crossed_entry(it, entry)
            cells.append(Cell("theirs", documents[at + 1], it, edit))
            cells.append(Cell("ours", after[at], log[at], below[at]))
            after.append(done(after[at], below[at]))
        assert wanted == (it.change, [entry.change for entry in log])
        steps += [*zip(documents, after), *zip(after, after[1:])]
        documents, edits = after, below
    return cells, any(has_ended(*step) for step in steps)


def is_told(cell):
    """Whether who came has begun the channel, as the other end did, and is gone there."""
    return isinstance(cell.entry.change, Join) and cell.entry.begun and cell.entry.who is None


def but_spelled(S):
    return S.user, S.member, {c: row[1:] for c, row in S.channel.items()}


def cell_fault(cell):
    wanted, became = done(cell.S, cell.edit), done(cell.S, edit_of(cell.S, cell.entry))
    if is_told(cell):
        return "more than a spelling" * (but_spelled(wanted) != but_spelled(became))
    if wanted != became:
        return "another document"
    return "" if stands_for(cell.S, cell.entry, cell.edit) else "not what it stands for"


def fault_of(cells):
    found = ((cell_fault(cell), cell) for cell in cells)
    return next((f"{fault}: {cell.side} became {shown(cell.entry)}" for fault, cell in found if fault), "")


def case_fault(case):
    """What differs where no channel is left without a member, if each end may do what it does."""
    others = {k for k in NAMES if case.S.user[k]} - case.own
    sides = (case.own, case.ours), (others, case.theirs)
    if not sound(case.S) or not all(all_do_something(case.S, own, entries) for own, entries in sides):
        return ""
    cells, is_ended = grid(case)
    return "" if is_ended else fault_of(cells)


# ---- one step


def step_cells(step):
    """What becomes of two entries and their edits behind each other, if they may cross."""
    S, ours, theirs, our_edit, their_edit = step
    edits = our_edit, their_edit
    if not all(may(S, edit) for edit in edits) or not (can_be(S, ours) and can_be(S, theirs)):
        return []
    after, beside = (done(S, edit) for edit in edits)
    left = [Cell("theirs", after, crossed_entry(theirs, ours), model.crossed(S, their_edit, our_edit))]
    left += [Cell("ours", beside, crossed_entry(ours, theirs), model.crossed(S, our_edit, their_edit))]
    both = done(after, left[0].edit)
    is_ended = any(has_ended(*it) for it in ((S, after), (S, beside), (after, both), (beside, both)))
    return left if not is_ended and may_cross(S, ours, theirs) else []


# ---- what is told


def shown(it):
    if isinstance(it, Entry):
        beside = f" of {it.who}" * bool(it.who) + f" lost {sorted(it.lost)}" * bool(it.lost)
        return f"{it.change}{beside}{' begun' * it.begun}"
    rows = {"".join(at): row for part in it.S for at, row in part.items() if row and any(row)}
    rows = [f"{at}: { {at: x for at, x in enumerate(row) if x} }" for at, row in rows.items()]
    if isinstance(it, Step):
        lists = [f"ours: {shown(it.ours)}", f"theirs: {shown(it.theirs)}"]
    else:
        lists = [f"{side}: {shown(x)}" for side in ("ours", "theirs") for x in getattr(it, side)]
        lists.insert(0, f"own: {''.join(sorted(it.own))}")
    return "\n        ".join([*rows, *lists])


def simpler(case):
    for side in ("ours", "theirs"):
        entries = getattr(case, side)
        yield from (case._replace(**{side: entries[:at] + entries[at + 1 :]}) for at in range(len(entries)))
    for part, rows in case.S._asdict().items():
        for at, row in rows.items():
            if row and part != "channel":
                yield case._replace(S=case.S._replace(**{part: rows | {at: None}}))
            for place in standing.PLACES if row else ():
                if row[place]:
                    less = rows | {at: tuple("" if x == place else v for x, v in enumerate(row))}
                    yield case._replace(S=case.S._replace(**{part: less}))


def smallest(case, seconds):
    began, smaller = time.time(), case
    while smaller and time.time() - began < seconds:
        case, smaller = smaller, next(filter(case_fault, simpler(smaller)), None)
    return case


def kind_of(entry):
    return type(getattr(entry.change, "setting", entry.change)).__name__


def case_tried(chance, most, found):
    case = any_case(chance, most)
    cells, is_ended = grid(case)
    fault = fault_of(cells)
    found["entries"] += len(case.ours) + len(case.theirs)
    found["left out"] += is_ended
    found["of these would differ"] += is_ended and bool(fault)
    if not is_ended:
        found["cells"] += len(cells)
        found["told"] += sum(map(is_told, cells))
        found.update(product(map(kind_of, case.ours), map(kind_of, case.theirs)))
    return case, "" if is_ended else fault


def step_tried(chance, most, found):
    step = any_step(chance)
    cells = step_cells(step)
    found["left out"] += not cells
    found.update([(kind_of(step.ours), kind_of(step.theirs))] * bool(cells))
    found["told"] += sum(map(is_told, cells))
    return step, fault_of(cells)


PARTS = {"pairs": (case_tried, 1), "lists": (case_tried, 6), "steps": (step_tried, 1)}


def tried(name, options, most):
    """How many, what of, and which differ, at most so many."""
    began, found, wrong, (of, length) = time.time(), Counter(), [], PARTS[name]
    for at in count():
        if at == options.tries or time.time() - began > options.seconds or len(wrong) == most:
            return at, found, wrong
        it, fault = of(random.Random(f"{name} {options.seed} {at}"), length, found)
        wrong += [(it, fault)] if fault else []


def told(name, options, most=100):
    at, found, wrong = tried(name, options, most)
    kinds = [found.pop(key) for key in [*found] if isinstance(key, tuple)]
    parts = [f"{number:,} {what}" for what, number in found.items()]
    parts += [f"{len(kinds)} pairs of kinds, each {min(kinds, default=0):,} times or more"]
    print(f"{name}: {at:,} ({', '.join(parts)}), {len(wrong)} differ", flush=True)
    if wrong:
        it, fault = min(wrong, key=lambda each: len(shown(each[0])))
        if not isinstance(it, Step):
            it = smallest(it, options.seconds)
            fault = case_fault(it)
        print(f"    {fault}", shown(it), sep="\n        ", flush=True)
    return len(wrong)


def without(rule, options):
    of, wrong = RULES[rule]
    right = getattr(rules, of)
    setattr(rules, of, lambda *words: wrong(right, *words))
    print(f"without: {rule}", flush=True)
    found = [told(name, options, 1) for name in PARTS]
    setattr(rules, of, right)
    return sum(found)


def main():
    parser = argparse.ArgumentParser(usage=__doc__)
    parser.add_argument("--tries", type=int, default=3000)
    parser.add_argument("--seed", type=int, default=0)
    parser.add_argument("--seconds", type=float, default=60)
    parser.add_argument("--without", choices=["each", *RULES])
    options = parser.parse_args()
    if options.without == "each":
        kept = [rule for rule in RULES if not without(rule, options)]
        print(f"{len(RULES)} rules, not missed: {', '.join(kept) or 'none'}")
        return 1 if kept else 0
    if options.without:
        return 1 if without(options.without, options) else 0
    return 1 if sum([told(name, options) for name in PARTS]) else 0


if __name__ == "__main__":
    sys.exit(main())
