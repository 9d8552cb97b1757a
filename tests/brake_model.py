#!/usr/bin/env python3
"""brake_model.py [--long]: servers in a tree that read nothing where too much waits for a link.

A model, of no program: every order of what small trees can do, and orders by chance of larger ones,
by lines in place of bytes. A server passes each line that it reads from a link, or that one of its
own people says, on to all its other links. What waits for a link is in its outbox, which has room
for so many lines, and between two servers so many more are on their way. The brake:

- where more than HARD lines wait for a link, nothing is read but that link itself;
- whoever is read as a link grows beyond SOFT, and is not that link itself, is not read until no
  more than SOFT wait for it;
- what a server answers upon a line of a link (at most BACK lines in all) goes to that link without
  regard to either.

It looks for a link that is lost since its outbox is full, and for a state in which something waits,
nobody says more, and nothing can move. Both have to come to nothing. That this finds something is
shown by brakes that are wrong: the link itself is not read while it is full; none is held at all.
"""
import random
import sys

HARD, SOFT, ROOM, WAY = 2, 1, 6, 1
PAIR = ((0, 1),)
# of which every order is tried, with how many lines are said by each of the people of each server
SMALL = {
    "two": (PAIR, ((3, 2), (3, 2))),
    "a line of three": (((0, 1), (1, 2)), ((2, 2), (), (2, 1))),
    "a line of three, the middle too": (((0, 1), (1, 2)), ((2,), (2, 1), (1,))),
    "a star of four": (((0, 1), (0, 2), (0, 3)), ((2,), (1, 1), (1,), ())),
}
LARGE = {
    "a line of five": ((0, 1), (1, 2), (2, 3), (3, 4)),
    "a star of five": ((0, 1), (0, 2), (0, 3), (0, 4)),
    "a tree of seven": ((0, 1), (1, 2), (1, 3), (3, 4), (3, 5), (5, 6)),
}


class Brake:
    """Which rules are kept."""

    def __init__(self, name, reads_itself=True, brakes=True):
        self.name, self.reads_itself, self.brakes = name, reads_itself, brakes


class Tree:
    def __init__(self, edges, brake):
        self.brake = brake
        self.links = tuple(sorted([*edges, *[(t, s) for s, t in edges]]))
        self.place = {link: at for at, link in enumerate(self.links)}
        self.ends = {s for s, _ in self.links}
        self.behind = {s: tuple(t for u, t in self.links if u == s) for s in self.ends}

    def first(self, says, back):
        """Nothing waits; so many lines are to be said by each of the people of each server, who
        are told by numbers below 0."""
        none = (0,) * len(self.links)
        people = {(s, -1 - at): says[s][at] for s in self.ends for at in range(len(says[s]))}
        return none, none, tuple(sorted(people.items())), back, frozenset()

    def is_read(self, waits, held, server, reader):
        """Whether a server reads somebody, who is a neighbour or one of its own people."""
        if not self.brake.brakes:
            return True
        full = [t for t in self.behind[server] if waits[self.place[server, t]] > HARD]
        beside = [t for t in full if t != reader or not self.brake.reads_itself]
        return not beside and not any(s == server and r == reader for s, r, _ in held)

    def passed(self, waits, held, server, reader, back):
        """What waits, and who is held, once a line was read. None where a link is lost."""
        waits, grown = list(waits), []
        for other in self.behind[server]:
            if other != reader or back:
                waits[self.place[server, other]] += 1
                grown += [other] if other != reader else []
        if max(waits) > ROOM:
            return None
        over = [t for t in grown if waits[self.place[server, t]] > SOFT]
        more = {(server, reader, t) for t in over[-1:]}
        return tuple(waits), self.eased(waits, held | more)

    def eased(self, waits, held):
        return frozenset(it for it in held if waits[self.place[it[0], it[2]]] > SOFT)

    def steps(self, state):
        """What may come next, each with whether somebody says something."""
        waits, way, left, back, held = state
        for at, (server, other) in enumerate(self.links):
            # a line goes on its way
            if waits[at] and way[at] < WAY:
                less = (*waits[:at], waits[at] - 1, *waits[at + 1 :])
                more = (*way[:at], way[at] + 1, *way[at + 1 :])
                yield (less, more, left, back, self.eased(less, held)), False
            # it is read at the other end, and may be answered
            if way[at] and self.is_read(waits, held, other, server):
                gone = (*way[:at], way[at] - 1, *way[at + 1 :])
                for answers in range(min(back, 1) + 1):
                    after = self.passed(waits, held, other, server, answers)
                    yield after and (after[0], gone, left, back - answers, after[1]), False
        for at, ((server, one), count) in enumerate(left):
            if count and self.is_read(waits, held, server, one):
                after = self.passed(waits, held, server, one, 0)
                fewer = (*left[:at], ((server, one), count - 1), *left[at + 1 :])
                yield after and (after[0], way, fewer, back, after[1]), True

    def moves(self, state):
        """What may come next, or what is wrong here."""
        steps = [*self.steps(state)]
        if any(after is None for after, _ in steps):
            return [], "a link is lost"
        is_still = all(is_said for _, is_said in steps)
        return [after for after, _ in steps], "nothing moves" * (
            is_still and any(state[0] + state[1])
        )

    def every_order(self, says, back):
        """The first fault of every order, if there is one, and how many states there are."""
        first = self.first(says, back)
        seen, left = {first}, [first]
        while left:
            moves, fault = self.moves(left.pop())
            if fault:
                return fault, len(seen)
            left += [it for it in dict.fromkeys(moves) if it not in seen]
            seen.update(moves)
        return "", len(seen)

    def by_chance(self, says, back, times):
        """The first fault of so many orders by chance, if there is one, and how many steps."""
        count = 0
        for seed in range(times):
            chance, state = random.Random(seed), self.first(says, back)
            moves, fault = self.moves(state)
            while moves and not fault:
                state, count = chance.choice(moves), count + 1
                moves, fault = self.moves(state)
            if fault:
                return fault, count
        return "", count


def told(name, back, fault, count, of):
    print(f"{name}, {back} answers: {fault or 'ok'} ({count:,} {of})", flush=True)
    return bool(fault)


def main(words):
    times, failed, brake = 2000 if "--long" in words else 100, 0, Brake("as it is")
    for name, (edges, says) in SMALL.items():
        for back in (0, 2):
            failed += told(name, back, *Tree(edges, brake).every_order(says, back), "states")
    for name, edges in LARGE.items():
        for back in (0, 4):
            tree = Tree(edges, brake)
            failed += told(name, back, *tree.by_chance([(4, 4, 4)] * 7, back, times), "steps")
    for wrong in (Brake("not read itself", reads_itself=False), Brake("none", brakes=False)):
        found = Tree(PAIR, wrong).every_order(((4, 4, 4), (4, 4, 4)), 0)[0]
        print(f"with a wrong brake ({wrong.name}): {found or 'NOT FOUND'}")
        failed += not found
    return 1 if failed else 0


if __name__ == "__main__":
    sys.exit(main(sys.argv[1:]))
