"""Where nothing overlaps: servers with a layer are given the lines that servers without one are given, byte for byte, and people see the same;
and where a log is empty, any line is given as it came, be it one that no server writes, but for an NJOIN that tells a greater spelling alone.

Of a link that is made the bursts cross. Where somebody is killed by that, in whose channel are others at the other end, a server with a layer sets
there what is set in it, by a deed, and one without does not. From then on the two may differ, and a script ends with that.

    a.net writes    NICK al 1 u h 1 + :Al, :a.net NJOIN #c :@al, :a.net MODE #c +m
    b.net writes    NICK al 1 u h 1 + :Al, :b.net NJOIN #c :bo
"""

import random

from ends import meant
from layer import Bare, Layer
from lines import Line, Spelling
from net import Net
from scripts import CHANNELS, FAULTS, MANY, MODES, may_link, played, script
from servers import NAMES


def settled(net, from_last):
    while net.moving():
        net.deliver(net.moving()[-1 if from_last else 0])


def done_by(net, act, conns, place):
    """One act of a script. Connections have the same numbers in all networks."""
    what, *how = act
    if what == "link" and may_link(net, *how):
        net.link(*how)
    elif what == "come":
        conns[place] = net.come(*how)
    elif what in ("say", "gone") and conns:
        conn = conns[sorted(conns)[how[0] % len(conns)]]
        net.say(conn, how[1]) if what == "say" else net.gone(conn)
    elif what == "cut" and net.ends_of:
        net.cut(sorted(net.ends_of)[how[0] % len(net.ends_of)], (0, 0))


def same(number, count, length, calm):
    """A script with everything at rest in between: how many lines were given, whether it ended with a deed, and the first difference or fault."""
    try:
        return compared(number, count, length, calm)
    except FAULTS as fault:
        return 0, False, (number, repr(fault))


def compared(number, count, length, calm):
    nets = [Net(NAMES[:count], Bare, 1), Net(NAMES[:count], Layer, 1)]
    conns, lines = [{}, {}], 0
    for net in nets:
        for layer in net.layers.values():
            layer.noted = []
    for place, act in enumerate(script(random.Random(number), count, length, 0.08, calm)):
        for net, own in zip(nets, conns, strict=True):
            done_by(net, act, own, place)
            settled(net, place % 2)
        if any(does and not isinstance(item, Line) for layer in nets[1].layers.values() for does, _, item in layer.noted):
            return lines, True, None
        for name in NAMES[:count]:
            noted = [net.layers[name].noted for net in nets]
            lines += len(noted[1])
            if doing(noted[0]) != doing(noted[1]):
                return lines, False, (number, act, name, noted)
            for net in nets:
                net.layers[name].noted = []
        if nets[0].shown != nets[1].shown:
            return lines, False, (number, act, nets[0].shown[-3:], nets[1].shown[-3:])
    return lines, False, None


def doing(noted):
    return [(link, item) for does, link, item in noted if does]


def any_line(chance):
    """A line of a right form, whoever is in front of it."""
    nick, channel, server = chance.choice([*MANY, b"N1", b"nobody"]), chance.choice([*CHANNELS, b"#q"]), chance.choice(NAMES)
    member = b",".join(chance.choice([b"", b"@", b"@+"]) + each for each in chance.sample(MANY, 2))
    front = chance.choice([*MANY, server])
    return b":" + front + b" " + chance.choice([
        b"NICK " + nick, b"QUIT :x", b"JOIN " + channel, b"JOIN " + channel + b"\x07o", b"PART " + channel + b" :x",
        b"KICK " + channel + b" " + nick + b" :x", b"MODE " + channel + b" " + chance.choice([*MODES, b"+o " + nick, b"-v " + nick]),
        b"TOPIC " + channel + b" :" + chance.choice([b"", b"t1"]), b"PRIVMSG " + chance.choice([nick, channel]) + b" :x",
        b"INVITE " + nick + b" " + channel, b"KILL " + nick + b" :Nick collision", b"NJOIN " + channel + b" :" + member,
        b"MODE " + front + b" +i", b"SQUIT " + server + b" :x"])


def spells(end, side, line):
    return any(isinstance(item, Spelling) for item in meant(end, side, line, False)[0])


def unchanged(number, count, length, lines):
    """So many lines at each end with an empty log, at the end of a script: how many there were, and those that are not given as they came."""
    chance, faults, tries = random.Random(number), [], 0
    net = played(NAMES[:count], script(chance, count, length, 0.03, True), {"kind": Net, "make": Layer, "most": 16, "count_within": 1})
    for layer in net.layers.values():
        for link, end in sorted(layer.ends.items()):
            for line in [any_line(chance) for _ in range(lines if end.greeted else 0)]:
                tries += 1
                if meant(end, layer.side(link), line, False)[0] != [Line(line)] and not spells(end, layer.side(link), line):
                    faults.append((number, line))
    return tries, faults
