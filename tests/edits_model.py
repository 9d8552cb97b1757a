#!/usr/bin/env python3
"""Rooms that two ends edit: an executable model of edits and of what becomes of those that cross,
for who proves that they have the diamond, or changes the definitions.

    python3 tests/edits_model.py [--tries N] [--seed S] [--seconds T] [--without RULE|each]

Not part of the gate, and of no program. A document is users, members of channels and the channels'
rows; an edit is an update, of any of that at once, or a rename. Tried by chance, in sound documents:

    pairs       edits of each two kinds: both ways around lead to one document, and what became of
                an edit may be made where it is done; and two updates make the document anew;
    lists       the same through the grid of crates/irc_documents/specs/Lists.antt, which turns;
    networks    2 to 5 servers in a tree, as in Ends.antt and Networks.antt there: after each step
                ends are alike where no edit is on its way, and each end's log leads to its server's
                document; and what a server is asked for may be made there.

Each is tried N times, at most T seconds, and the smallest failure that was found is told.
`--without RULE` takes a rule out, and `--without each` each in turn, up to its first failure.
The status is 1 where something goes wrong; with `--without each`, where some rule is not missed.
"""
import argparse
import pathlib
import random
import sys
import time
from collections import namedtuple
from itertools import count, islice, product

sys.path.insert(0, str(pathlib.Path(__file__).parent / "edits_model"))

import edits as model  # noqa: E402
from edits import BLANK, CHANNELS, EMPTY, GOES, LEFT, MEMBERS, NAMES, NICKS, NONE  # noqa: E402
from edits import PLACES, VALUES, Document, Fate, Rename, Update, all_done, all_may  # noqa: E402
from edits import done, going, may, sound, through  # noqa: E402
from wrong import RULES  # noqa: E402

End = namedtuple("End", "base log counted read")
Net = namedtuple("Net", "doc end queue")  # a link has an end and a queue each way
KINDS = "any", "rename", "user comes", "user goes", "user stays", "member comes", "member goes"
KINDS += "member stays", "set writes"


def lists_fault(S, ours, theirs):
    """What is wrong with edits that cross, which may be made."""
    if not (all_may(S, ours) and all_may(S, theirs)):
        return ""
    left, right = model.all_through(S, theirs, ours), model.behind_all(S, ours, theirs)
    after, beside = all_done(S, ours), all_done(S, theirs)
    if not all_may(after, left) or not all_may(beside, right):
        return "what became of an edit may not be made"
    if all_done(after, left) != all_done(beside, right):
        return "two documents"
    if not all_may(EMPTY, model.makes(S)) or all_done(EMPTY, model.makes(S)) != S:
        return "a document is not made anew"
    return "" if right == model.all_through(S, ours, theirs) else "the grid does not turn"


# ---- documents and edits by chance


def each_place(chance, *values):
    return tuple(chance.choice(values) for _ in PLACES)


def any_document(chance):
    dense, row = chance.choice((0.3, 0.6, 0.9)), lambda: each_place(chance, *VALUES)
    user = {k: row() if k in NAMES and chance.random() < dense else None for k in NICKS}
    member = {(c, k): row() if user[k] and chance.random() < 0.5 else None for c, k in MEMBERS}
    begun = {c for c, k in MEMBERS if member[c, k]}
    return Document(user, member, {c: row() if c in begun else BLANK for c in CHANNELS})


def any_update(chance, S):
    """What may not be made is mended."""
    busy, writes = chance.choice((0.15, 0.5, 0.9)), lambda: each_place(chance, None, *VALUES)
    fates = dict.fromkeys([*NICKS, *MEMBERS], LEFT)
    for at in [at for at in fates if chance.random() < busy]:
        fates[at] = chance.choice((GOES, Fate("stays", writes()), Fate("comes", writes())))
    is_free = {k: S.user[k] is None and k in NAMES for k in NICKS}
    for at in [k for k in NICKS if not is_free[k]] + [at for at in MEMBERS if S.user[at[1]] is None]:
        fates[at] = Fate("stays", fates[at].writes) if fates[at].kind == "comes" else fates[at]
    member = {at: GOES if fates[at[1]] == GOES else fates[at] for at in MEMBERS}
    rows = {c: writes() if chance.random() < busy else NONE for c in CHANNELS}
    return Update({k: fates[k] for k in NICKS}, member, rows)


def any_edit(chance, S, kind):
    """An edit of this kind, of which it is not said that it may be made."""
    edit, nothing = any_update(chance, S), going()
    if kind == "rename":
        writes = each_place(chance, None, *VALUES)
        return Rename(*chance.choices(NAMES, k=2), chance.choice((NONE, writes)))
    if kind == "any":
        return edit
    of, what = kind.split()
    fates = [(at, it) for at, it in getattr(edit, of).items() if what in ("writes", it[0])]
    at, fate = chance.choice(fates or [(NAMES[0], LEFT)])
    if kind == "user goes":
        return going(at) if fates else nothing
    return nothing._replace(**{of: getattr(nothing, of) | {at: fate}}) if fates else nothing


def given(chance, S, kind):
    """An edit that may be made and is not nothing, in a list, if one was found."""
    edits = (any_edit(chance, S, kind or chance.choice(KINDS)) for _ in range(20))
    return [*islice((edit for edit in edits if edit != going() and may(S, edit)), 1)]


def pair_by_chance(chance, at):
    case = EMPTY, [], []
    while not (case[1] and case[2]):
        S = any_document(chance)
        kinds = KINDS[at % len(KINDS)], KINDS[at // len(KINDS) % len(KINDS)]
        case = S, *(given(chance, S, kind) for kind in kinds)
    return case, lists_fault(*case)


def lists_by_chance(chance, at):
    case = any_document(chance), [], []
    for edits in case[1:]:
        for _ in range(chance.randrange(1, 5)):
            edits += given(chance, all_done(case[0], edits), "")
    return case, lists_fault(*case)


# ---- networks


def after_message(end, counted, edit):
    """The end once it has read a message, and what became of the edit."""
    fewer = counted - end.counted
    base, log = all_done(end.base, end.log[:fewer]), end.log[fewer:]
    if edit is None:
        return End(base, log, counted, end.read), None
    after = End(done(base, edit), model.behind(base, log, edit), counted, end.read + 1)
    return after, through(base, edit, log)


def done_at(net, s, edit, but=None):
    """A server does an edit, and gives it to its neighbours but one. Nothing is not told."""
    net.doc[s] = done(net.doc[s], edit)
    for link in [] if edit == going() else [it for it in net.end if it[0] == s and it[1] != but]:
        net.queue[link].append((net.end[link].read, edit))
        net.end[link] = net.end[link]._replace(log=[*net.end[link].log, edit])


def joined(net, s):
    part = [s]
    for x in part:
        part += [y for z, y in net.end if z == x and y not in part]
    return part


def step_fault(net, kind, s, it):
    """Takes a step, where it may be, and says what is wrong then."""
    if kind == "given" and may(net.doc[s], it):
        done_at(net, s, it)
    elif kind == "made" and it not in joined(net, s):
        for x, y in ((s, it), (it, s)):
            net.end[x, y] = End(EMPTY, model.makes(net.doc[x]), 0, 0)
            net.queue[x, y] = [(0, edit) for edit in model.makes(net.doc[x])]
    elif kind == "lost" and (s, it) in net.end:
        for link in ((s, it), (it, s)):
            del net.end[link], net.queue[link]
    elif kind == "counts" and (s, it) in net.end:
        net.queue[s, it].append((net.end[s, it].read, None))
    elif kind == "reads" and net.queue.get((it, s)):
        net.end[s, it], edit = after_message(net.end[s, it], *net.queue[it, s].pop(0))
        if edit and not may(net.doc[s], edit):
            return "what a server is asked for may not be made there"
        if edit:
            done_at(net, s, edit, it)
    at_rest = [(x, y) for x, y in net.end if not any(edit for _, edit in net.queue[x, y] + net.queue[y, x])]
    if any(net.doc[x] != net.doc[y] for x, y in at_rest):
        return "two ends differ at rest"
    is_led = all(all_done(end.base, end.log) == net.doc[x] for (x, _), end in net.end.items())
    return "" if is_led else "a log does not lead to its server's document"


def any_step(chance, net):
    kind = chance.choice(("given", "given", "reads", "reads", "reads", "counts", "made", "lost"))
    s, t = chance.sample(range(len(net.doc)), 2)
    if kind == "given":
        of = chance.choice(("", "", "", "rename", "any"))
        return kind, s, *(given(chance, net.doc[s], of) or [going()])
    if t not in joined(net, s) and (kind == "made" or not net.end):
        return "made", s, t
    waiting = [(y, x) for (x, y), queue in net.queue.items() if queue]
    if kind == "lost" and chance.random() < 0.2:
        return "lost", *chance.choice([*net.end])
    if kind == "counts" or not waiting:
        return "counts", *chance.choice([*net.end])
    return "reads", *chance.choice(waiting)


def steps_fault(docs, steps):
    """What goes wrong in these steps, if the documents are sound."""
    net = Net([*docs], {}, {})
    faults = (step_fault(net, *step) for step in steps if all(map(sound, docs)))
    return next(filter(None, faults), "")


def run_by_chance(chance, at):
    """Documents, and steps until all is read."""
    docs = tuple(any_document(chance) for _ in range(chance.randrange(2, 6)))
    net, steps, fault, left = Net([*docs], {}, {}), [], "", chance.choice((15, 40, 80))
    while not fault and (left > 0 or any(net.queue.values())):
        waiting = [("reads", t, s) for (s, t), queue in net.queue.items() if queue]
        steps.append(any_step(chance, net) if left > 0 else chance.choice(waiting))
        fault, left = step_fault(net, *steps[-1]), left - 1
    return (docs, steps), fault


# ---- what is told

PARTS = {
    "pairs": (pair_by_chance, lists_fault, "edits"),
    "lists": (lists_by_chance, lists_fault, "edits"),
    "networks": (run_by_chance, steps_fault, "steps"),
}


def shown(it):
    if isinstance(it, Document):
        rows = {"".join(at): row for at, row in [*it.user.items(), *it.member.items()] if row}
        return f"document {rows | {c: row for c, row in it.channel.items() if row != BLANK}}"
    if isinstance(it, Update):
        fates = [("".join(at), fate) for part in it for at, fate in part.items()]
        return f"update { {at: (*fate,) for at, fate in fates if fate not in (LEFT, NONE)} }"
    if isinstance(it, Rename):
        return f"rename {it.old} {it.new} {it.writes}"
    between = "\n        " if isinstance(it, list) else " "
    return between.join(map(shown, it)) if isinstance(it, (list, tuple)) else str(it)


def simpler(it):
    """Cases of which a bit is left out, sound or not."""
    instead = {Document: [(None, BLANK)] * 2 + [(BLANK,)], Update: [(LEFT,), (LEFT,), (NONE,)]}
    for field, values in zip(getattr(it, "_fields", ()), instead.get(type(it), ())):
        part = getattr(it, field)
        for at, value in product(part, values):
            if part[at] not in (None, value):
                yield it._replace(**{field: part | {at: value}})
    if type(it) in (list, tuple):
        yield from (it[:at] + it[at + 1 :] for at in range(len(it)) if isinstance(it, list))
        for at, one in enumerate(it):
            yield from (type(it)((*it[:at], other, *it[at + 1 :])) for other in simpler(one))


def smallest(fault_of, case, seconds):
    began, smaller = time.time(), case
    while smaller and time.time() - began < seconds:
        case, smaller = smaller, next((it for it in simpler(smaller) if fault_of(*it)), None)
    return case


def tried(name, options, most):
    """How many tries and edits or steps, and what goes wrong, at most so much."""
    began, steps, wrong = time.time(), 0, []
    for at in count():
        if at == options.tries or time.time() - began > options.seconds or len(wrong) == most:
            return at, steps, wrong
        case, fault = PARTS[name][0](random.Random(f"{options.seed} {at}"), at)
        steps += sum(len(edits) for edits in case if isinstance(edits, list))
        wrong += [case] if fault else []


def told(name, options, most):
    at, steps, wrong = tried(name, options, most)
    print(f"{name}: {at:,} ({steps:,} {PARTS[name][2]}), {len(wrong)} wrong", flush=True)
    if wrong:
        fault_of = PARTS[name][1]
        case = smallest(fault_of, min(wrong, key=lambda it: len(shown(it))), options.seconds)
        print(f"    {fault_of(*case)}:", shown([*case]), sep="\n        ", flush=True)
    return len(wrong)


def without(rule, options, most):
    """How often it goes wrong without a rule."""
    of, wrong = RULES[rule]
    right = getattr(model, of)
    setattr(model, of, lambda *words: wrong(right, *words))
    print(f"without: {rule}", flush=True)
    found = [told(name, options, most) for name in PARTS]
    setattr(model, of, right)
    return sum(found)


def main():
    parser = argparse.ArgumentParser(usage=__doc__)
    parser.add_argument("--tries", type=int, default=3000)
    parser.add_argument("--seed", type=int, default=0)
    parser.add_argument("--seconds", type=float, default=60)
    parser.add_argument("--without", choices=["each", *RULES])
    options = parser.parse_args()
    if options.without == "each":
        kept = [rule for rule in RULES if not without(rule, options, 1)]
        print(f"{len(RULES)} rules, not missed: {', '.join(kept) or 'none'}")
        return 1 if kept else 0
    if options.without:
        return 1 if without(options.without, options, 100) else 0
    return 1 if sum([told(name, options, 100) for name in PARTS]) else 0


if __name__ == "__main__":
    sys.exit(main())
