#!/usr/bin/env python3
"""A link is a document that two ends edit: a model of the layer that makes the two agree, tried in every order and by chance.

    python3 tests/link_model.py [--what all|seldom|diamond|orders|lives|scripts|seen|rest|unchanged] [--servers N] [--things N] [--tries N]
                                [--seed S] [--calm] [--cuts] [--piece N] [--count-within N] [--plain] [--bound N] [--without RULE] [--show N]

Not part of the gate, and of no program: a model, from which the definitions are taken. Servers are those of hostile_links/model.py, which
know nothing of it. At each end of a link stands a layer: it keeps a log of what its server put out there and the other end has not counted as
read, takes each line that comes as the effects that it tells, and gives the server what has become of them behind that log.
    link_model/effects.py       what a line tells, and what that does to a room
    link_model/crossing.py      the rules: what becomes of an effect that crossed others
    link_model/lines.py         lines as effects, and effects as what the server is asked for
    link_model/ends.py          one end of a link: its log, pieces and counts, and the channels of which it asks the other end
    link_model/layer.py         the ends of all links of a server, around it

A channel that ended at one end, while somebody came to it at the other, is made anew at the first without what was set. That end asks the other
one to tell it, by a line TELL, and is told it as a burst does. So each end has its server's room at any time, and the base behind what is due
is that room at rest, which is looked at there.

    seldom      scripts by hand, each of what a rule is for: at rest as random scripts;
    diamond     two ends do something each in one room, one effect or a list: behind what both did they have one room again, once the
                channels are told of which one asks the other;
    orders      each of five people, of whom two come, does things in turn at two or three servers in a line, or while two servers are linked,
                and pieces are delivered one at a time: *every* order of both is walked, up to a bound of states;
    lives       short random scripts of one channel that ends and begins all the time: at rest as of any scripts;
    scripts     random scripts on two to five servers in a tree, where people act on each other, pieces are delivered, and links cut and made at any
                time: at rest the servers of a part have one room, and no link was closed but for a loop;
    seen        scripts, whose clients look at what they are shown: at rest what they know from that is what their server has, and nobody is shown
                what is out of place;
    rest        scripts with everything delivered in between: what a server without the layer is given, and does something by, is byte for byte
                what one with it is given, and people see the same. A link that is made can end that: where somebody is killed as the bursts
                cross, what is set in a channel of that one is kept by servers with a layer;
    unchanged   any line that comes where the log is empty is given as it came, but for an NJOIN by which nobody comes and the spelling is
                greater: a channel is told.

Of scripts and orders it says what was tried and what went wrong: servers that differ at rest, a link that is closed, an end that has
another room than its server, at rest a base that is not that room behind what is due. `--piece` is how many lines a piece has at most,
`--count-within` how many pieces are read before a count goes out alone; `--plain` is servers without the layer. `--without RULE` takes a
rule out, and `--without each` each in turn. The status is 1 where something went wrong; with `--without each`, where some rule is not
missed.
"""

import argparse
import collections
import pathlib
import random
import sys
import time

sys.path.insert(0, str(pathlib.Path(__file__).parent / "link_model"))

import at_rest  # noqa: E402
import diamond  # noqa: E402
import orders   # noqa: E402
import scripts  # noqa: E402
import seldom   # noqa: E402
import wrong    # noqa: E402
from ends import MOST   # noqa: E402
from layer import Bare, Layer   # noqa: E402
from net import COUNT_WITHIN, Net       # noqa: E402
from seen import Watched        # noqa: E402
from servers import NAMES       # noqa: E402

# what a run with no words tries: servers, how long, how many, people, links cut
SCRIPTS = [(2, 80, 250, False, 0.0, 16), (2, 80, 100, True, 0.0, 1), (3, 80, 250, False, 0.06, 1), (3, 80, 60, True, 0.06, 2),
           (4, 80, 40, True, 0.06, 16), (5, 80, 150, False, 0.06, 1)]
ORDERS = [(2, 4, 25, 800), (3, 3, 12, 400)]
LIVES = [(2, 20, 1000, False, 0.0, 1), (3, 24, 400, False, 0.06, 1), (2, 20, 200, False, 0.0, 16)]
SEEN = [(3, 80, 100, False, 0.06, 1), (2, 80, 60, True, 0.0, 16)]
REST = [(3, 60, 80, False), (4, 60, 20, True)]


def settings(given, most):
    return {"kind": Net, "make": Bare if given.plain else Layer, "most": given.piece or most, "count_within": given.count_within}


def told(title, faults, given, began):
    print(f"{title}: {len(faults)} wrong, {time.time() - began:.0f} s")
    for fault in faults[:given.show]:
        print("   ", *fault, sep="\n        ")
    return len(faults)


def try_diamond(given):
    began = time.time()
    pairs, lists, faults = diamond.tried(random.Random(given.seed), given.tries or 5, 60)
    return told(f"diamond: {pairs} pairs of effects, {lists} of lists", faults, given, began)


def try_orders(given):
    chosen = [(given.servers, given.things or 4, given.tries or 40, given.bound)] if given.servers else ORDERS
    met = sum(meetings_tried(given, most, 300) for most in ([given.piece] if given.piece else [1, MOST])) if given.servers in (0, 2) else 0
    return met + sum(orders_tried(given, *each) for each in chosen)


def meetings_tried(given, most, bound):
    """Every order of what people do and of two bursts that cross."""
    began, states, found, faults = time.time(), 0, collections.Counter(), []
    start, conns = orders.meeting(settings(given, most))
    for title, turns in orders.MEETINGS.items():
        more, ends = orders.ends(start, conns, 2, {**dict.fromkeys(range(5), ()), **turns}, given.bound or bound)
        states += more
        found.update(list(ends))
        faults += [(title, turns, end, *path) for end, path in ends.items() if end not in ("alike", "too many")][:1]
    title = f"orders of bursts, pieces of {most}: {len(orders.MEETINGS)} sets, {states} states, {found['too many']} cut short"
    return told(title, faults, given, began)


def orders_tried(given, count, things, tries, bound):
    began, states, found, faults = time.time(), 0, collections.Counter(), []
    start, conns = orders.begun(count, settings(given, MOST))
    sets = [(str(seed), orders.by_chance(random.Random(seed), count, things)) for seed in range(given.seed, given.seed + tries)]
    for title, turns in [*orders.RACES.items(), *sets]:
        more, ends = orders.ends(start, conns, count, {**dict.fromkeys(range(5), ()), **turns}, bound or 100_000)
        states += more
        found.update(list(ends))
        faults += [(title, turns, end, *path) for end, path in ends.items() if end not in ("alike", "too many")][:1]
    title = f"orders of {things} things on {count} servers: {len(sets)} sets and {len(orders.RACES)} races, {states} states"
    title += f", {found['too many']} cut short"
    return told(title, faults, given, began)


def try_seldom(given):
    began, faults = time.time(), seldom.tried(lambda most: settings(given, most))
    return told(f"scripts that are seldom: {len(seldom.SELDOM)}", faults, given, began)


def try_scripts(given):
    return sum(scripts_tried(given, "scripts", scripts.script, *each) for each in chosen_scripts(given, SCRIPTS))


def try_lives(given):
    return sum(scripts_tried(given, "lives", scripts.lives, *each) for each in chosen_scripts(given, LIVES))


def try_seen(given):
    return sum(scripts_tried(given, "seen", scripts.script, *each, Watched) for each in chosen_scripts(given, SEEN))


def chosen_scripts(given, usual):
    if not given.servers:
        return usual
    return [(given.servers, given.things or 80, given.tries or 300, given.calm, 0.06 if given.cuts else 0.0, MOST)]


def scripts_tried(given, title, script, count, length, tries, calm, cuts, most, kind=Net):
    began, how = time.time(), settings(given, most) | {"kind": kind}
    made = {number: script(random.Random(number), count, length, cuts, calm) for number in range(given.seed, given.seed + tries)}
    steps, loops, found = scripts.tried(NAMES[:count], made, how)
    faults = [(number, reason) for number, reason in sorted(found.items())]
    faults = [(*fault, *scripts.shortened(NAMES[:count], made[fault[0]], how)) for fault in faults[:given.show]] + faults[given.show:]
    title += f" on {count} servers, {'calm' if calm else 'harsh'}{', links cut' if cuts else ''}"
    title += f", pieces of {how['most']}: {tries} scripts, {steps} steps, {loops} loops"
    return told(title, faults, given, began)


def try_rest(given):
    chosen = [(given.servers, given.things or 60, given.tries or 60, given.calm)] if given.servers else REST
    return sum(rest_tried(given, *each) for each in chosen)


def try_unchanged(given):
    began, lines, faults = time.time(), 0, []
    for number in range(given.seed, given.seed + (given.tries or 20)):
        more, found = at_rest.unchanged(number, given.servers or 3, given.things or 60, 100)
        lines, faults = lines + more, faults + found
    return told(f"any line behind an empty log: {lines} lines", faults, given, began)


def rest_tried(given, count, length, tries, calm):
    began, lines, short, faults = time.time(), 0, 0, []
    for number in range(given.seed, given.seed + tries):
        more, is_short, fault = at_rest.same(number, count, length, calm)
        lines, short = lines + more, short + is_short
        faults += [fault] if fault else []
    return told(f"at rest on {count} servers: {tries} scripts, {lines} lines, {short} cut short", faults, given, began)


TRIES = {"seldom": try_seldom, "diamond": try_diamond, "orders": try_orders, "lives": try_lives, "scripts": try_scripts, "seen": try_seen,
         "rest": try_rest, "unchanged": try_unchanged}


def tried(given):
    return sum(one_tried(given, what) for what in chosen(given))


def chosen(given):
    return TRIES if given.what == "all" else [given.what]


def one_tried(given, what):
    """How often something went wrong; where it does before anything is tried, that is once."""
    began = time.time()
    try:
        return TRIES[what](given)
    except scripts.FAULTS as fault:
        return told(what, [(repr(fault),)], given, began)


def each_without(given):
    """Each rule is taken out in turn, until something goes wrong; answers how many rules are not missed."""
    missed = 0
    for rule in wrong.WRONG:
        print(f"\nwithout {rule}")
        with wrong.without(rule):
            missed += any(one_tried(given, what) > 0 for what in chosen(given))
    return len(wrong.WRONG) - missed


def main():
    ask = argparse.ArgumentParser()
    ask.add_argument("--what", default="all", choices=["all", *TRIES])
    for word in ("servers", "things", "tries", "piece", "bound", "show"):
        ask.add_argument("--" + word, type=int, default=0)
    ask.add_argument("--seed", type=int, default=1)
    ask.add_argument("--count-within", type=int, default=COUNT_WITHIN)
    for word in ("calm", "cuts", "plain"):
        ask.add_argument("--" + word, action="store_true")
    ask.add_argument("--without", choices=["each", *wrong.WRONG])
    given = ask.parse_args()
    if given.without == "each":
        sys.exit(each_without(given) > 0)
    if given.without:
        with wrong.without(given.without):
            sys.exit(tried(given) > 0)
    sys.exit(tried(given) > 0)


if __name__ == "__main__":
    main()
