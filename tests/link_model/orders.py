"""Every order: of what people do, and of what is delivered. Five people, of whom two come, at two or three servers in a line."""

from net import Fault, Net
from scripts import FAULTS
from servers import NAMES

# at which server, and the nickname of who is there; the others come
PEOPLE = {2: [(0, b"p"), (1, b"q"), (1, b"r"), (1, None), (0, None)],
          3: [(0, b"p"), (2, b"q"), (1, b"r"), (2, None), (0, None)]}
COMERS = [b"COME z", b"COME z", b"COME y"]
NICKS = [b"p", b"q", b"r", b"z", b"y"]
NAMES_TAKEN = [b"NICK z", b"NICK z", b"NICK y", b"NICK y", b"NICK p", b"QUIT :gone"]
IN_AND_OUT = [b"JOIN #r", b"JOIN #r", b"JOIN #R", b"JOIN #s", b"JOIN #S", b"PART #r", b"PART #r", b"JOIN 0"]
SET = [b"TOPIC #r :one", b"TOPIC #r :two", b"TOPIC #r :", b"MODE #r +k x", b"MODE #r +k y", b"MODE #r -k q", b"MODE #r +l 5", b"MODE #r -l",
       b"MODE #r +s", b"MODE #r +p-n", b"MODE #r -s", b"MODE #r +n", b"MODE #r +b bad!*@*", b"MODE #r +b BAD!*@*", b"MODE #r -b bad!*@*",
       b"MODE #s +kn x"]


def begun(count, settings):
    """A network at rest: who is there is in one channel, all operators, and things are set."""
    net = Net(NAMES[:count], settings["make"], settings["most"], settings["count_within"])
    for place in range(count - 1):
        net.link(NAMES[place], NAMES[place + 1])
        net.settle()
    conns = []
    for server, nick in PEOPLE[count]:
        conns.append(net.come(NAMES[server], nick or b"nobody"))
        if nick is None:
            net.say(conns[-1], b"QUIT :not yet")
        net.settle()
    there = [conn for conn, (_, nick) in zip(conns, PEOPLE[count], strict=True) if nick]
    for conn, line in [(conn, b"JOIN #r") for conn in there] + [(there[0], b"MODE #r +oo q r"), (there[0], b"TOPIC #r :before")]:
        net.say(conn, line)
        net.settle()
    return net, conns


# by place of who does it: two at a.net, of whom the second comes, and three at b.net, or at b.net and c.net, of whom the last comes
RACES = {
    "a name given up is taken": {3: [b"COME z", b"NICK y", b"QUIT :gone"], 4: [b"COME z"], 0: [b"NICK y", b"PRIVMSG r :hello"], 2: [b"NICK y"]},
    "two swap names, and one is kicked": {0: [b"KICK #r q", b"MODE #r -o r"], 1: [b"NICK x", b"NICK r"], 2: [b"NICK w", b"NICK q"]},
    "kicked, and back": {0: [b"KICK #r q", b"MODE #r +v q"], 1: [b"PART #r", b"JOIN #r"], 2: [b"MODE #r +v q"]},
    "two to one name, who do things": {0: [b"NICK z", b"TOPIC #r :two", b"KICK #r r"], 1: [b"NICK z", b"TOPIC #r :one", b"MODE #r +l 5"]},
    "both come under one name, and make a channel": {3: [b"COME z", b"JOIN #s", b"MODE #s +k x"], 4: [b"COME z", b"JOIN #S"]},
    "one thing is set twice": {0: [b"TOPIC #r :one", b"MODE #r +k x", b"MODE #r -k x"], 1: [b"TOPIC #r :two", b"MODE #r +ks y"],
                               2: [b"MODE #r +p"]},
    "a channel ends, and somebody comes": {0: [b"KICK #r q", b"KICK #r r", b"PART #r"], 4: [b"COME y"], 3: [b"COME z", b"JOIN #r"]},
    "a channel ends, and is made on both sides": {0: [b"MODE #r +k x", b"KICK #r q,r", b"PART #r", b"JOIN #R"], 2: [b"TOPIC #r :one", b"JOIN #r"]},
}


# what people do while a link is made, and the bursts of both sides cross
MEETINGS = {
    "things are set": {0: [b"MODE #r -k x", b"TOPIC #r :three"], 1: [b"MODE #r +b bad!*@*"]},
    "people take names of the other side": {0: [b"NICK r"], 2: [b"NICK p", b"NICK w"]},
    "who have one name do things": {3: [b"MODE #s +l 5", b"PART #r"], 4: [b"KICK #r p", b"NICK w"]},
    "channels end and begin": {0: [b"PART #r"], 4: [b"PART #r", b"JOIN #r"], 1: [b"JOIN #t"]},
}


def meeting(settings):
    """Two servers whose link has just come up. Both have a channel with things set, and somebody of one name, who has made another one."""
    net = Net(NAMES[:2], settings["make"], settings["most"], settings["count_within"])
    conns = [net.come(NAMES[server], nick) for server, nick in [(0, b"p"), (1, b"q"), (1, b"r"), (1, b"z"), (0, b"z")]]
    for place, line in [(0, b"JOIN #r"), (4, b"JOIN #r"), (0, b"MODE #r +ok z x"), (0, b"TOPIC #r :one"), (1, b"JOIN #R"), (2, b"JOIN #r"),
                        (3, b"JOIN #r"), (1, b"MODE #r +ki y"), (1, b"TOPIC #r :two"), (3, b"JOIN #s"), (4, b"JOIN #S")]:
        net.say(conns[place], line)
    net.link(NAMES[0], NAMES[1])
    return net, conns


def thing(chance, themes):
    """What somebody may do."""
    nick = chance.choice(NICKS)
    own = [b"KICK #r " + nick, b"KICK #r " + nick, b"MODE #r -o " + nick, b"MODE #r +v " + nick, b"MODE #r +o " + nick,
           b"PRIVMSG " + nick + b" :hello", b"PRIVMSG #r :hello"]
    return chance.choice([NAMES_TAKEN, IN_AND_OUT, SET, own][chance.choice(themes)])


def by_chance(chance, count, things):
    """So many things, in turn for each person; who comes does so first. They are of two kinds mostly, so that much collides."""
    turns = {place: [] for place in range(len(PEOPLE[count]))}
    themes = [chance.randrange(4), chance.randrange(4)]
    for place, (_, nick) in enumerate(PEOPLE[count]):
        if nick is None and chance.random() < 0.6:
            turns[place].append(chance.choice(COMERS))
    while sum(map(len, turns.values())) < things:
        place = chance.randrange(len(turns))
        if PEOPLE[count][place][1] is not None or turns[place]:
            turns[place].append(thing(chance, themes))
    return turns


def does(net, conns, place, count, line):
    """Somebody does the next thing. Who comes has a new connection."""
    if line.startswith(b"COME "):
        return (*conns[:place], net.come(NAMES[PEOPLE[count][place][0]], line[5:]), *conns[place + 1:])
    net.say(conns[place], line)
    return conns


def ends(start, conns, count, turns, bound):
    """How a set of things ends, over all orders: the states, and each end with the order that leads to it first."""
    found, seen = {}, set()
    work = [(start, tuple(conns), tuple(tuple(turns[place]) for place in sorted(turns)), ())]
    while work:
        net, conns, left, path = work.pop()
        moves = [("does", place) for place, lines in enumerate(left) if lines] + [("reads", way) for way in net.moving()]
        if not moves:
            found.setdefault(net.differs() or "alike", path)
        for kind, what in moves:
            then, after, own = net.copied(), left, conns
            step = (kind, what, left[what][0]) if kind == "does" else (kind, what, net.ways[what][0])
            try:
                if kind == "does":
                    after = left[:what] + (left[what][1:],) + left[what + 1:]
                    own = does(then, conns, what, count, left[what][0])
                else:
                    then.deliver(what)
            except FAULTS as fault:
                found.setdefault("closed" if isinstance(fault, Fault) else "broken", (*path, step, repr(fault)))
                continue
            key = (then.key(), after)
            if hash(key) not in seen:
                seen.add(hash(key))
                work.append((then, own, after, (*path, step)))
        if len(seen) > bound:
            found.setdefault("too many", ())
            break
    return len(seen), found
