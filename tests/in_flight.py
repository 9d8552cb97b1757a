#!/usr/bin/env python3
"""What lines that cross leave behind, on loopback: daemons behind lines that hold what is sent, or bring it later. After rest a false peer
links to each daemon in turn and reads all that it tells, so daemons that differ are found.

  matrix     50 operations of people, each two of them (1,275 pairs) at once at both ends of a link that is held: which end differently
  random     three in a line, 12 clients that do anything by chance with few names: phases that end differently
  race_a     two take one nickname at once, a third takes it behind them, and the first goes on talking
  race_b     the same, and the first has gone on to another nickname, which the third takes
  race_c     two come under one nickname at once, one of them takes another and leaves; a third takes that one and goes on talking, a fourth takes
             it behind them
  rejoin     a new link with twenty nicknames on both sides, each of which comes back at once under its name when it is killed
  bots       two clients with one nickname, which come back at once, and the server between them away and back
  dup        two connections that take one nickname, join and talk, again and again
  half_gone  one takes a nickname and goes on to another, as somebody at the other end takes the first
  chase      an operator kicks, or takes operator from, somebody who takes another nickname every 20 ms

tests/in_flight.py PROGRAM [PART ..] [--phases N] [--seed S] [--show]. PROGRAM is crates/ircd/out/ircd, which `./ircd build` makes; where IRCD
names it, all words are parts. --phases is of `random` (300; 6,000 is the full number); --show prints each pair and phase that ends differently.
A link is lost where the line between two daemons sees its connection end. Each part wants that none is; the matrix also that no pair ends
differently, half_gone that nobody is on one side alone, and chase that what the operator did holds on both sides.
Exit status: 0 where every part held, 1 where one did not.
"""
import argparse
import collections
import glob
import os
import random
import re
import select
import socket
import sys
import threading
import time

from linked_daemons import SECONDS, Line, Network, Stream, told

NAMES = ["a.net", "b.net", "c.net"]
# who looks is in this channel, which is the last one of each burst
LAST = "#\xff"
# how often a word goes there and back until all that was said, and what it has caused, has come
ROUNDS = 4
DELAYS = [0.005, 0.02, 0.05]
TRIES = 10


class Held:
    """Pieces that nobody gets while they are held."""

    def __init__(self, pieces, flow):
        self.pieces = pieces
        self.flow = flow

    def get(self):
        piece = self.pieces.get()
        self.flow.wait()
        return piece


class Way(Line):
    """A line between two servers that holds what is sent either way until it is let go, and knows how often a connection has ended."""

    def __init__(self, network, target, delay, flows):
        self.flows = [threading.Event(), threading.Event()]
        self.ended, self.open = [], []
        if flows:
            self.lets_go()
        super().__init__(network, target, delay)

    def holds(self):
        for flow in self.flows:
            flow.clear()

    def lets_go(self):
        for flow in self.flows:
            flow.set()

    def cuts(self):
        for stream in list(self.open):
            try:
                stream.shutdown(socket.SHUT_RDWR)
            except OSError:
                pass

    def lost(self):
        """How many connections have ended: each has two directions."""
        return (len(self.ended) + 1) // 2

    def reads(self, source, pieces):
        self.open.append(source)
        super().reads(source, pieces)
        self.open.remove(source)
        self.ended.append(source)

    def writes(self, sink, pieces):
        super().writes(sink, Held(pieces, self.flows[sink.getsockname()[1] == self.port]))


class Field(Network):
    """Daemons in a line with a way between each two, of which the second calls the first, and somebody on each who looks."""

    def __init__(self, program, count, delay=0.0, flows=True):
        super().__init__(program, NAMES[:count], [])
        self.ways = []
        for called, caller in zip(NAMES, NAMES[1:count]):
            way = Way(self, self[called].links, delay, flows)
            self[caller].knows(called, way.port, retry=1)
            self[called].knows(caller)
            self.ways.append(way)
        self.words = 0
        self.watchers = []
        for name in self.daemons:
            self[name].knows("z" + name)
            self[name].start()
            self.watchers.append(self.person(name, "watch" + name[0]).joins(LAST))
        if flows:
            self.is_whole()

    def keep(self, stream):
        # nothing that is said waits for more
        stream.setsockopt(socket.IPPROTO_TCP, socket.TCP_NODELAY, 1)
        return super().keep(stream)

    def lost(self):
        return sum(way.lost() for way in self.ways)

    def counts_lost(self):
        """How many links were lost since this was asked last, once all are there again."""
        lost = self.lost()
        self.is_whole()
        for way in self.ways:
            way.ended.clear()
        return lost

    def is_whole(self):
        """Waits until each counts all servers, and no more, and knows who looks at the others."""
        everybody = " ".join(watcher.nick for watcher in self.watchers)
        self.waits(self.watchers, "LUSERS", f" 251 .* {len(self.daemons)} servers")
        self.waits(self.watchers, f"ISON {everybody}", f" 303 .*:{everybody}")

    def waits(self, watchers, question, wanted):
        """Waits until the servers of these watchers answer like this."""
        end = time.monotonic() + 2 * SECONDS
        for watcher in watchers:
            watcher.says(question)
            while not re.search(wanted, watcher.sees(" (251|303) ")):
                if time.monotonic() > end:
                    raise OSError(f"{watcher.server} never answers {wanted!r} to {question}")
                time.sleep(0.005)
                watcher.says(question)

    def rests(self, rounds=ROUNDS):
        """Waits until what was said has come, and what it has caused; whether no link is lost by then."""
        first, last = self.watchers[0], self.watchers[-1]
        for speaker, hearer in [(first, last), (last, first)] * rounds:
            self.words += 1
            hearer.is_open()
            hearer.seen.clear()
            hearer.unseen = 0
            speaker.says(f"PRIVMSG {hearer.nick} :{self.words}")
            end = time.monotonic() + SECONDS
            while not any(line.endswith(f" PRIVMSG {hearer.nick} :{self.words}") for line in hearer.seen):
                hearer.pump(0.02)
                if self.lost():
                    return False
                if time.monotonic() > end:
                    raise OSError(f"nothing comes from {speaker} to {hearer}, and no link is lost")
        return True

    def told_by(self, watcher):
        """All that a server tells to a neighbour, who goes again."""
        peer = self.peer(watcher.server, "z" + watcher.server)
        peer.sees(f" NJOIN {LAST} :")
        peer.socket.close()
        self.waits([watcher], "LUSERS", f" 251 .* {len(self.daemons)} servers")
        return State(peer.seen)

    def states(self):
        states = [self.told_by(watcher) for watcher in self.watchers]
        # until the others have read that the peers are gone
        self.rests(1)
        return states

    def reasons(self):
        """Why links were closed, as the daemons say."""
        reasons = collections.Counter()
        for path in glob.glob(os.path.join(self.folder.name, "*.said")):
            with open(path, encoding="ascii") as file:
                reasons.update(line.strip().split(": closed: ")[1] for line in file if ": closed: " in line)
        return reasons


def why(reasons):
    return "".join(f"; {count} closed for {reason}" for reason, count in sorted(reasons.items()))


def fold(name):
    return name.lower().translate(str.maketrans("[]\\~", "{}|^"))


Room = collections.namedtuple("Room", "name members modes bans topic")


class State:
    """What a server knows, read from the lines that it tells: of users where they are, and channels. Numbers of servers are resolved."""

    def __init__(self, lines):
        self.users, self.rooms, homes = {}, {}, {}
        for line in lines:
            words = line.split(" ")
            if words[0] == "SERVER":
                homes["1"] = words[1]
            elif words[1] == "SERVER":
                homes[words[4]] = words[2]
            elif words[0] == "NICK":
                self.users[fold(words[1])] = (words[1], (homes[words[5]], *words[3:5], words[6]))
            elif words[1] in ("NJOIN", "MODE", "TOPIC"):
                self.reads(words[1], self.rooms.setdefault(fold(words[2]), Room(words[2], {}, [], [], [])), words[3:])

    def reads(self, command, room, words):
        if command == "NJOIN":
            for member in words[0][1:].split(","):
                nick = member.lstrip("@+")
                room.members[fold(nick)] = member[:len(member) - len(nick)]
        elif command == "TOPIC":
            room.topic.append(" ".join(words))
        elif words[0].startswith("+b"):
            room.bans.extend(words[1:])
        else:
            room.modes.extend(words)


def differences(one, other, belongs=lambda name: True):
    """In what two servers differ, of names that belong to it: for each kind the names."""
    found = collections.defaultdict(set)
    for nick in filter(belongs, one.users.keys() | other.users.keys()):
        mine, yours = one.users.get(nick), other.users.get(nick)
        if mine is None or yours is None or mine[1] != yours[1]:
            found["alone"].add(nick)
        elif mine[0] != yours[0]:
            found["spelling"].add(nick)
    for name in filter(belongs, one.rooms.keys() | other.rooms.keys()):
        mine, yours = one.rooms.get(name), other.rooms.get(name)
        here, there = mine.members if mine else {}, yours.members if yours else {}
        if here.keys() != there.keys():
            found["member"].add(name)
        if any(here[nick] != there[nick] for nick in here.keys() & there.keys()):
            found["flag"].add(name)
        if mine and yours:
            for kind, differ in (("spelling", mine.name != yours.name), ("modes", mine.modes != yours.modes),
                                 ("ban", mine.bans != yours.bans), ("topic", mine.topic != yours.topic)):
                if differ:
                    found[kind].add(name)
    return found


# a pair or a phase is counted by the first of these in which servers differ
KINDS = {"alone": "somebody on one side alone", "member": "member", "flag": "operator or voice", "ban": "ban", "modes": "modes", "topic": "topic",
         "spelling": "spelling"}


def kind_of(found):
    return next((kind for kind in KINDS if kind in found), None)


def by_kind(counts):
    return ", ".join(f"{KINDS[kind]} {counts[kind]}" for kind in KINDS if counts[kind]) or "none"


# Of each side there are x and w, operators of #any.c, y, who is none, and f, who is in #any.g alone. `own.y` is this side's y, `their.y` the
# other's; `any.z` is one name for both, `spelt.d` one that each side writes in other letters, `count.l` a number of its own, and `new any.z`
# somebody who comes. The channel #any.c has +n, a topic and a ban.
OPERATIONS = [
    # nicknames
    "f NICK any.z", "new any.z", "f NICK any.z | f NICK own.z", "new any.z | new NICK own.z", "f NICK any.z | f QUIT",
    "f NICK any.z | f NICK own.f", "f QUIT | new own.f | new JOIN #any.g", "y NICK own.v", "w NICK own.v", "y NICK own.u | y NICK own.v",
    "w NICK own.u | w NICK own.v", "f NICK SPELT.f", "y NICK SPELT.y", "f NICK their.f", "new own.n", "f QUIT :bye", "y QUIT",
    "f NICK any.z | f NICK own.z | new any.z", "f NICK any.z | new own.f",
    # channels
    "f JOIN #spelt.d", "f JOIN #spelt.e,#spelt.h | f PART #spelt.h", "f JOIN #any.k | f MODE #any.k +k own.k", "f JOIN #any.c", "y PART #any.c",
    "y PART #any.c | y JOIN #any.c", "w PART #any.c | w JOIN #any.c", "y JOIN 0", "f PART #any.g :bye", "x KICK #any.c their.y",
    "x KICK #any.c their.w", "x KICK #any.c own.y", "x INVITE their.f #any.c", "x INVITE own.f #any.i", "x TOPIC #any.c :own.t", "x TOPIC #any.c :",
    # modes
    "x MODE #any.c +o their.y", "x MODE #any.c +v their.y", "x MODE #any.c -o their.w", "x MODE #any.c -o own.w", "x MODE #any.c +k own.k",
    "x MODE #any.c +k own.k | x MODE #any.c -k own.k", "x MODE #any.c +l count.l", "x MODE #any.c -n", "x MODE #any.c -n | x MODE #any.c +n",
    "x MODE #any.c +ims", "x MODE #any.c +b spelt.b!*@*", "x MODE #any.c -b old!*@*",
    "x MODE #any.c -b old!*@* | x MODE #any.c +b old!*@*", "y MODE own.y +i",
    # texts
    "y PRIVMSG #any.c,their.x :hello",
]


class Side:
    """The people of one server in one pair of operations."""

    def __init__(self, field, server, number):
        self.field = field
        self.server = server
        self.number = number
        self.people = {}
        for role in "xywf":
            self.people[role] = field.person(server, self.names(f"own.{role}"))

    def names(self, text):
        """A text with the names of this side and this pair."""
        here, there = ("a", "b") if self.server == "a.net" else ("b", "a")

        def name(match):
            kind, rest = match.groups()
            if kind == "count":
                return "10" if here == "a" else "20"
            front = {"own": here, "their": there, "any": "", "spelt": "s", "SPELT": here}[kind]
            word = f"{front}{rest}{self.number}"
            return word.upper() if kind == "SPELT" or kind == "spelt" and here == "b" else word
        return re.sub(r"\b(own|their|any|spelt|SPELT|count)\.([a-z]+)", name, text)

    def does(self, operation):
        """Each step is done when this returns, and nothing else of the other side is known here where the link is held."""
        for step in operation.split(" | "):
            who, line = self.names(step).split(" ", 1)
            if who == "new" and " " not in line:
                self.people["new"] = self.field.person(self.server, line)
            elif line.startswith("QUIT"):
                self.people[who].leaves()
            else:
                self.people[who].says(line)
                self.people[who].answers()


def are_given(field, number, first, second):
    """Gives two operations at both ends at once: None where a link is lost, else in what the ends differ then."""
    sides = [Side(field, server, number) for server in field.daemons]
    near, far = (side.people for side in sides)
    channel, bystand = sides[0].names("#any.c"), sides[0].names("#any.g")
    for side in sides:
        for role in "xywf":
            side.people[role].joins(bystand if role == "f" else channel)
        if side is sides[0]:
            near["x"].says(f"MODE {channel} +nb old!*@*", f"TOPIC {channel} :before", f"MODE {channel} +o {near['w'].nick}")
            near["x"].answers()
        field.rests(1)
    near["x"].says(f"MODE {channel} +oo {far['x'].nick} {far['w'].nick}")
    near["x"].answers()
    field.rests(1)
    for way in field.ways:
        way.holds()
    for side, operation in zip(sides, (first, second)):
        side.does(operation)
    for way in field.ways:
        way.lets_go()
    found = differences(*field.states(), lambda name: re.sub("[^0-9]", "", name) == str(number)) if field.rests() else None
    field.counts_lost()
    for person in [*near.values(), *far.values()]:
        person.socket.close()
    return found


def matrix(program, given):
    unlike, pairs = collections.Counter(), 0
    with Field(program, 2) as field:
        for place, first in enumerate(OPERATIONS):
            for second in OPERATIONS[place:]:
                pairs += 1
                found = are_given(field, pairs, first, second)
                kind = "lost" if found is None else kind_of(found)
                unlike[kind] += kind is not None
                if given.show and kind is not None:
                    print(f"     {KINDS.get(kind, 'link lost')}: {first} / {second}", flush=True)
        count = sum(unlike[kind] for kind in KINDS)
        return told("matrix", unlike["lost"] == 0 and count == 0 and field.all_run(),
                    f"of {pairs} pairs {unlike['lost']} lose a link, and {count} end differently: {by_kind(unlike)}{why(field.reasons())}")


class Anybody(Stream):
    """A client that may be registered or not, or killed at any time."""

    def __init__(self, network, server, nick=None):
        super().__init__(network, network[server].port)
        self.server = server
        if nick is not None:
            self.comes(nick)

    def comes(self, nick, *lines):
        """Registers, and says more at once."""
        self.tries(f"NICK {nick}", f"USER {nick} 0 * :x", *lines)

    def tries(self, *lines):
        """Says what it may be too late to say."""
        try:
            self.says(*lines)
        except ConnectionError:
            self.is_over = True

    def syncs(self):
        """Waits until all that it said is done, or it is closed."""
        self.tries("PING still")
        end = time.monotonic() + SECONDS
        while not self.is_over and not any(line.endswith(" :still") for line in self.seen) and time.monotonic() < end:
            self.pump(0.1)
        self.seen.clear()
        self.unseen = 0


POOL = ["ann", "ben", "cid", "dot", "eve", "fay", "gus", "hal", "ida", "joe", "kim", "lee", "mia", "ned", "oda", "pia"]
# a phase has so many turns, with up to so many seconds between, which is also the delay of each link
TURNS = 4
PAUSE = 0.01
ROOMS = ["#r", "#R", "#s", "#t", "#u"]


def by_chance(chance):
    """A line of anybody, perhaps with something turned."""
    nick, room, sign = chance.choice(POOL), chance.choice(ROOMS), chance.choice("+-")
    line = chance.choice([f"NICK {nick}"] * 8 + [f"JOIN {room}"] * 4 + [
        f"TOPIC {room} :{chance.randrange(100)}", f"TOPIC {room} :tea", f"MODE {room} {sign}o {nick}", f"MODE {room} {sign}o {nick}", "JOIN 0",
        f"PART {room} :off", f"KICK {room} {nick} :out", f"MODE {room} {sign}v {nick}", f"MODE {room} {sign}{chance.choice('nimpst')}",
        f"MODE {room} {sign}k key", f"MODE {room} {sign}l {chance.randrange(5, 20)}", f"MODE {room} {sign}b {nick}!*@*", f"MODE {nick} {sign}i",
        f"PRIVMSG {room} :hello", f"PRIVMSG {room} :hello", f"NOTICE {nick},{room} :hello", f"INVITE {nick} {room}", "QUIT :bye"])
    if chance.random() < 0.1:
        words = line.split(" ")
        place = chance.randrange(len(words))
        words[place:place + 1] = chance.choice([[], [words[place]] * 2, [words[place].swapcase()], [words[place] + "x"]])
        line = " ".join(words)
    return line


def are_busy(clients, field, chance):
    """One phase: each client does something, or comes back, some times over, and what they say crosses. Whether no link is lost."""
    for _ in range(TURNS):
        for place in chance.sample(range(len(clients)), len(clients)):
            client = clients[place]
            if client.is_open():
                client.tries(by_chance(chance))
            else:
                client.socket.close()
                clients[place] = Anybody(field, client.server, chance.choice(POOL))
        time.sleep(chance.random() * PAUSE)
    for client in clients:
        client.syncs()
    return field.rests()


def all_unlike(field):
    states = field.states()
    return [found for state in states[1:] if (found := differences(states[0], state))]


def random_use(program, given):
    chance = random.Random(given.seed)
    lost, unlike, still, start = 0, collections.Counter(), 0, time.monotonic()
    with Field(program, 3, PAUSE) as field:
        clients = [Anybody(field, server, nick) for nick, server in zip(POOL, NAMES * 4)]
        for phase in range(given.phases):
            if not are_busy(clients, field, chance):
                lost += field.counts_lost()
                field.rests()
            elif found := all_unlike(field):
                unlike[kind_of(found[0])] += 1
                if given.show:
                    print(f"     phase {phase}: {[dict(each) for each in found]}", flush=True)
            else:
                continue
            # links made anew join all sides
            for way in field.ways:
                way.cuts()
            field.waits(field.watchers[:1], "LUSERS", " 251 .* [12] servers")
            field.counts_lost()
            field.rests()
            still += bool(all_unlike(field))
        return told("random", lost == 0 and still == 0 and field.all_run(),
                    f"in {given.phases} phases of three servers and {len(clients)} clients {lost} links are lost, and {sum(unlike.values())} phases "
                    f"end differently ({by_kind(unlike)}), {still} of them still when links were made anew; {time.monotonic() - start:.0f} s"
                    + why(field.reasons()))


def race(program, part, delays, begins, taken, is_time=lambda r: True):
    """p@a takes a name as others do something, r@b this one behind them, from some time on, and p talks meanwhile."""
    results, held, reasons = [], True, collections.Counter()
    for delay in delays:
        lost = 0
        with Field(program, 2, delay) as field:
            for number in range(TRIES):
                p, q, r = (Anybody(field, server, nick + str(number)) for nick, server in (("p", "a.net"), ("q", "b.net"), ("r", "b.net")))
                for one in (p, q, r):
                    one.syncs()
                field.rests(1)
                others = begins(field, number, p, q, r)
                end = time.monotonic() + 4 * delay + 0.05
                while time.monotonic() < end and not field.lost():
                    p.tries("PRIVMSG watchb :a word")
                    if is_time(r):
                        r.tries(f"NICK {taken}{number}")
                    time.sleep(0.001)
                for one in (p, q, r):
                    one.syncs()
                field.rests()
                lost += field.counts_lost() > 0
                for one in (p, q, r, *others):
                    one.socket.close()
            held = held and lost == 0 and field.all_run()
            results.append(f"{lost} of {TRIES} behind {delay * 1000:.0f} ms")
            reasons += field.reasons()
    return told(part, held, f"links are lost in {', '.join(results)}{why(reasons)}")


def race_a(program, _):
    def begins(_, number, p, q, r):
        p.tries(f"NICK z{number}")
        q.tries(f"NICK z{number}")
        return []
    return race(program, "race_a", DELAYS, begins, "z")


def race_b(program, _):
    def begins(_, number, p, q, r):
        p.tries(f"NICK z{number}", f"NICK y{number}")
        q.tries(f"NICK z{number}")
        return []
    return race(program, "race_b", DELAYS, begins, "y")


def race_c(program, _):
    """Two come as z at once, and the one on b.net goes on to y, and leaves; so p@a takes y."""
    def begins(field, number, p, _, r):
        here, there = Anybody(field, "a.net"), Anybody(field, "b.net")
        for one in (p, r):
            one.tries(f"JOIN #den{number}")
            one.syncs()
        field.rests(1)
        there.comes(f"z{number}", f"NICK y{number}", "QUIT :bye")
        here.comes(f"z{number}")
        p.tries(f"NICK y{number}")
        return [here, there]

    def sees_it(r):
        while r.pump(0):
            pass
        return any(" NICK " in line for line in r.seen)
    return race(program, "race_c", [0.05, 0.02, 0.005, 0.0], begins, "y", sees_it)


class Returning(Anybody):
    """A client that comes back at once under its name when it is closed, and does the same again. Where somebody has the name, it asks
    again a little later. Who is eager says its lines all the time."""

    def __init__(self, network, server, nick, lines, eager=False):
        self.network, self.nick, self.lines, self.eager = network, nick, lines, eager
        self.kills, self.last_kill, self.again = 0, time.monotonic(), None
        super().__init__(network, server, nick)

    def turn(self):
        while self.pump(0):
            pass
        for line in self.seen:
            if line.startswith("ERROR ") and "Killed" in line:
                self.kills, self.last_kill = self.kills + 1, time.monotonic()
            elif " 001 " in line:
                self.tries(*self.lines)
            elif " 433 " in line:
                self.again = time.monotonic() + 0.05
        self.seen.clear()
        if self.is_over:
            self.socket.close()
            super().__init__(self.network, self.server, self.nick)
        elif self.eager:
            self.tries(f"NICK {self.nick}", *self.lines)
        elif self.again is not None and self.again < time.monotonic():
            self.again = None
            self.tries(f"NICK {self.nick}")


class Crowd(threading.Thread):
    """Clients that come back at once, until they are stopped."""

    def __init__(self, clients):
        super().__init__(daemon=True)
        self.clients = clients
        self.is_stopped = False
        self.start()

    def run(self):
        while not self.is_stopped:
            if not any(client.eager for client in self.clients):
                select.select([client.socket for client in self.clients], [], [], 0.005)
            else:
                time.sleep(0.002)
            for client in self.clients:
                client.turn()

    def kills(self):
        return sum(client.kills for client in self.clients)

    def fights(self, quiet, most):
        """Waits until nobody was killed for so many seconds, but not longer than the most."""
        end = time.monotonic() + most
        while time.monotonic() < min(end, max(client.last_kill for client in self.clients) + quiet):
            time.sleep(0.01)

    def stops(self):
        """Nobody does anything from here on."""
        self.is_stopped = True
        self.join()

    def ends(self):
        self.stops()
        for client in self.clients:
            client.socket.close()


def rejoin(program, _):
    results, held, reasons = [], True, collections.Counter()
    for delay in (0.0, 0.02, 0.1):
        lost = unlike = kills = 0
        for _ in range(8):
            with Field(program, 2, delay, flows=False) as field:
                crowd = Crowd([Returning(field, server, f"n{number}", ["JOIN #den", "PRIVMSG #den :back"])
                               for number in range(20) for server in field.daemons])
                time.sleep(0.2)
                field.ways[0].lets_go()
                field.is_whole()
                crowd.fights(4 * delay + 0.5, 5)
                is_lost = field.counts_lost() > 0
                lost += is_lost
                kills += crowd.kills()
                crowd.stops()
                unlike += not is_lost and field.rests() and bool(all_unlike(field))
                crowd.ends()
                held = held and field.all_run()
                reasons += field.reasons()
        held = held and lost == 0
        results.append(f"{lost} of 8 behind {delay * 1000:.0f} ms ({kills} kills; {unlike} end differently)")
    return told("rejoin", held, f"twenty nicknames on both sides, each back at once: links are lost in {', '.join(results)}{why(reasons)}")


def bots(program, _):
    lost, kills = 0, []
    with Field(program, 3, 0.2) as field:
        for _ in range(5):
            field["b.net"].kill()
            field.waits([field.watchers[0], field.watchers[2]], "LUSERS", " 251 .* 1 servers")
            crowd = Crowd([Returning(field, server, "same", ["JOIN #net", "PRIVMSG #net :back"]) for server in ("a.net", "c.net")])
            time.sleep(0.5)
            for way in field.ways:
                way.ended.clear()
            field["b.net"].start()
            field.watchers[1] = field.person("b.net", "watchb").joins(LAST)
            crowd.fights(2, 10)
            lost += field.counts_lost() > 0
            kills.append(crowd.kills())
            crowd.ends()
        return told("bots", lost == 0 and field.all_run(),
                    f"two with one nickname behind 200 ms a way are killed {kills} times in five goes; links are lost in {lost}{why(field.reasons())}")


def dup(program, _):
    lost = kills = 0
    with Field(program, 3, 0.02) as field:
        for _ in range(5):
            crowd = Crowd([Returning(field, server, "dup", ["JOIN #den", "PRIVMSG #den :word"], eager=True) for server in ("a.net", "c.net")])
            time.sleep(5)
            crowd.ends()
            field.rests()
            lost += field.counts_lost() > 0
            kills += crowd.kills()
        return told("dup", lost == 0 and field.all_run(),
                    f"two that take one nickname again and again for 5 s: links are lost in {lost} of 5 goes ({kills} kills){why(field.reasons())}")


def half_gone(program, _):
    with Field(program, 2) as field:
        ends = [are_given(field, number, OPERATIONS[2], OPERATIONS[0]) for number in range(TRIES)]
        lost, alone = ends.count(None), sum(1 for found in ends if found and "alone" in found)
        return told("half_gone", alone == 0 and lost == 0 and field.all_run(),
                    f"in {alone} of {TRIES} goes somebody is on one side alone; links are lost in {lost}{why(field.reasons())}")


def is_chased(field, number, command):
    """An operator on a.net does something to one on b.net who takes another nickname every 20 ms. Whether it holds on both sides then."""
    room = f"#den{number}"
    chief, dodger = field.person("a.net", f"chief{number}").joins(room), field.person("b.net", f"d{number}x0")
    field.rests(1)
    dodger.joins(room)
    field.rests(1)
    chief.says(f"MODE {room} +o {dodger.nick}")
    chief.answers()
    dodger.sees(r" MODE .* \+o ")
    name, done, end = dodger.nick, False, time.monotonic() + SECONDS
    for turn in range(1, 1000):
        dodger.says(f"NICK d{number}x{turn}")
        time.sleep(0.02)
        chief.is_open()
        for line in chief.seen[chief.unseen:]:
            if found := re.match(rf":d{number}x\d+![^ ]+ NICK :?(\S+)", line):
                name = found[1]
            done = done or re.match(rf":{chief.nick}![^ ]+ {command.split(' ')[0]} ", line) is not None
        chief.unseen = len(chief.seen)
        # it goes on for some time behind that
        if done and turn > 20 or time.monotonic() > end:
            break
        if not done:
            chief.says(command.format(room=room, name=name))
    dodger.answers()
    if not field.rests():
        return False
    flags = [state.rooms[room].members.get(fold(f"d{number}x{turn}")) for state in field.states()]
    for person in (chief, dodger):
        person.leaves()
    return done and flags == ([None, None] if command.startswith("KICK") else ["", ""])


def chase(program, _):
    results, held = [], True
    with Field(program, 2, 0.02) as field:
        for number, (what, command) in enumerate([("kicked", "KICK {room} {name} :out"), ("deopped", "MODE {room} -o {name}")]):
            good = sum(is_chased(field, 10 * number + go, command) for go in range(4))
            held = held and good == 4
            results.append(f"{good} of 4 are {what} on both sides")
        lost = field.counts_lost()
        return told("chase", held and lost == 0 and field.all_run(),
                    f"of those who take another nickname every 20 ms {' and '.join(results)}; links lost: {lost}{why(field.reasons())}")


PARTS = {"matrix": matrix, "random": random_use, "race_a": race_a, "race_b": race_b, "race_c": race_c, "rejoin": rejoin, "bots": bots, "dup": dup,
         "half_gone": half_gone, "chase": chase}


def holds(name, program, given):
    try:
        return PARTS[name](program, given)
    except OSError as error:
        return told(name, False, f"{type(error).__name__}: {error}")


def main():
    ask = argparse.ArgumentParser(usage="tests/in_flight.py PROGRAM [PART ..] [--phases N] [--seed S] [--show]")
    ask.add_argument("words", nargs="*")
    ask.add_argument("--phases", type=int, default=300)
    ask.add_argument("--seed", type=int, default=1)
    ask.add_argument("--show", action="store_true")
    given = ask.parse_args()
    words = ([os.environ["IRCD"]] if "IRCD" in os.environ else []) + given.words
    if not words or not os.access(words[0], os.X_OK):
        ask.error("no PROGRAM that can be run")
    if unknown := [name for name in words[1:] if name not in PARTS]:
        ask.error(f"no part {unknown[0]}; there are {', '.join(PARTS)}")
    return 0 if all([holds(name, os.path.abspath(words[0]), given) for name in words[1:] or PARTS]) else 1


if __name__ == "__main__":
    sys.exit(main())
