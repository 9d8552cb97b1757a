"""Scripts that chance finds seldom, each of what a rule is for: how many servers, how many lines a piece has at most, and what happens. Of some
it is said what a channel has at rest, where servers would not differ without the rule."""

from effects import KEY, value_at
from ends import MOST
from net import Fault
from scripts import FAULTS, played
from servers import NAMES, room_of


def act(told):
    """An act as it is told here: `b.net n2` comes, `1 JOIN #c` is said by who came second, and others by their names."""
    first, _, rest = told.partition(" ")
    if first.isdigit():
        return "say", int(first), rest.encode()
    if first == "cut":
        return "cut", int(rest), (0, 0)
    if first == "deliver":
        return "deliver", int(rest)
    if first == "link":
        return "link", *rest.encode().split(b" ")
    return ("settle",) if first == "settle" else ("come", first.encode(), rest.encode())


PAIR = ["link a.net b.net", "settle"]
TWO = [*PAIR, "a.net n1", "b.net n2", "settle"]
TOPIC = ["0 JOIN #c", "0 TOPIC #c :t1", "settle"]

SELDOM = {
    # c.net was lost to a.net, and what was behind it not yet, as c.net calls a.net
    "servers that are lost together": (4, 1, [
        "link a.net b.net", "link b.net c.net", "link c.net d.net", "settle", "cut 1", "deliver 1", "deliver 0", "deliver 1",
        "link c.net a.net", "deliver -1", "deliver -1"]),
    "who is alone leaves as somebody comes": (2, 1, [*TWO, *TOPIC, "1 JOIN #c", "0 PART #c"]),
    "who is alone is gone as somebody comes": (2, 1, [*TWO, *TOPIC, "1 JOIN #c", "0 QUIT :bye"]),
    "two make a channel, and one leaves": (2, 1, [*TWO, "0 JOIN #c", "0 TOPIC #c :t1", "1 JOIN #c", "0 PART #c"]),
    "the greater spelling goes with who leaves": (2, 1, [*TWO, "0 JOIN #C", "1 JOIN #c", "1 PART #c"]),
    # both take one name at once, which takes n1 out at a.net, and no line says so
    "who is alone goes by a collision": (2, 1, [*TWO, "b.net n3", "settle", *TOPIC, "0 NICK n4", "1 NICK n4", "2 JOIN #c"]),
    # a.net kills n1 of b.net, who has made a channel meanwhile, where somebody is
    "who made a channel is killed": (3, 1, [
        "link a.net b.net", "link a.net c.net", "settle", "b.net n2", "settle", "b.net n1", "deliver 0", "c.net n1", "deliver 1",
        "1 JOIN #c", "1 TOPIC #c :t1", "0 JOIN #c", "1 PART #c"]),
    # b.net gives on by NJOIN that n1 has made a channel, which is there
    "who comes by NJOIN": (3, 1, [
        "link a.net b.net", "link b.net c.net", "settle", "a.net n1", "c.net n2", "settle", "1 JOIN #c", "1 TOPIC #c :t1", "deliver 0",
        "deliver -1", "0 JOIN #c", "deliver 0", "1 PART #c"]),
    # b.net has put out its burst, and a.net has not
    "who comes by a burst": (2, 1, [
        "a.net n1", "b.net n2", "0 JOIN #c", "0 TOPIC #c :t1", "1 JOIN #c", "1 TOPIC #c :t2", "link a.net b.net", "deliver 0",
        "deliver 0", "1 PART #c"]),
    # b.net has told the channel again, and a.net has not read that as somebody comes again and sets the key
    "things are set behind what was told": (2, 1, [
        *TWO, "a.net n3", "settle", *TOPIC, "1 JOIN #c", "0 PART #c", "2 JOIN #c", "2 MODE #c +k x", "2 PART #c"]),
    # n1 has left and come back as b.net reads that n2 has come and left
    "who is alone has come back": (2, 1, [
        "link a.net b.net", "settle", "b.net n1", "a.net n2", "settle", "0 JOIN #c", "settle", "0 PART #c", "0 JOIN #C", "1 JOIN #c",
        "1 PART #c"]),
    # a.net asks, and b.net is asked when n2 has left: in #c is n3 alone, who has come at a.net
    "who came has left as the channel is told": (2, 1, [
        *TWO, "a.net n3", "settle", *TOPIC, "1 JOIN #c", "0 PART #c", "2 JOIN #c", "deliver 1", "deliver 0", "deliver 0", "1 PART #c"]),
    # what n2 does in #c is for the second of the two that n1 has made
    "a channel is made twice": (2, 1, [*TWO, "0 JOIN #c", "0 PART #c", "0 JOIN #c", "1 JOIN #c", "1 MODE #c -o n2"]),
    # a.net reads who is in #c at b.net, kicks that one, and reads what is set in #c
    "who is alone is kicked as a burst comes": (2, 1, [
        "a.net n1", "b.net n2", "0 JOIN #c", "1 JOIN #c", "1 MODE #c +k x", "link a.net b.net", "deliver -1", "deliver -1", "deliver 0",
        "deliver 0", "deliver -1", "deliver -1", "0 KICK #c n2"]),
    # b.net reads of a topic where #c is not there. It begins by n3, who comes from c.net, and then n4 comes from a.net
    "a channel begins by who is passed on": (3, 1, [
        "link a.net b.net", "link b.net c.net", "settle", "a.net n1", "b.net n2", "c.net n3", "a.net n4", "settle", "0 JOIN #c", "settle",
        "1 JOIN #c", "settle", "0 MODE #c +o n2", "settle", "1 KICK #c n1", "1 PART #c", "2 JOIN #c", "0 TOPIC #c :t1", "3 JOIN #c",
        "deliver 0", "deliver -1", "deliver 0"]),
    # the topic is nothing at b.net, which a.net sees by its base alone
    "what is set before who is passed on": (3, 1, [
        "link a.net b.net", "link b.net c.net", "settle", "a.net n1", "b.net n2", "c.net n3", "settle", "0 JOIN #c", "settle", "1 JOIN #c", "settle",
        "0 MODE #c +o n2", "settle", "1 KICK #c n1", "1 PART #c", "2 JOIN #c", "0 TOPIC #c :t1", "deliver -1"]),
    # n2 sets the key of the channel that has ended at a.net, where n3 has made it anew
    "what is set in a channel that has ended": (2, 1, [
        *TWO, "a.net n3", "settle", *TOPIC, "1 JOIN #c", "settle", "0 MODE #c +o n2", "settle", "0 KICK #c n2", "0 PART #c", "2 JOIN #c",
        "1 MODE #c +k x"]),
    # one piece takes n2 out of both
    "two channels are left at once": (2, MOST, [*TWO, "1 JOIN #C", "1 JOIN #d", "1 MODE #c +k y", "0 JOIN #c", "1 JOIN 0"]),
    # b.net reads that n2 is kicked and then n3, and may take it after the first that the channel has ended; told then, n3 would come back
    "two are kicked at once": (2, MOST, [
        *PAIR, "a.net n1", "a.net n2", "b.net n3", "b.net n4", "b.net n5", "settle", "0 JOIN #c", "settle", "1 JOIN #c", "2 JOIN #c",
        "settle", "3 JOIN #c", "3 QUIT :bye", "4 JOIN #c", "4 QUIT :bye", "0 KICK #c n2,n3"]),
}


# by title: the value of a place of a channel at rest
LEFT = {"what is set in a channel that has ended": (b"#c", KEY, None)}


def tried(settings):
    """The scripts that go wrong, by title. `settings` gives those of a network with so many lines in a piece."""
    faults = [(title, fault_of(title, count, told, settings(most))) for title, (count, most, told) in SELDOM.items()]
    return [fault for fault in faults if fault[1]]


def fault_of(title, count, told, settings):
    try:
        net = played(NAMES[:count], [act(each) for each in told], settings)
        if title in LEFT and any(value_at(room_of(layer.server), *LEFT[title][:2]) != LEFT[title][2] for layer in net.layers.values()):
            raise Fault(f"at rest is not {LEFT[title]}")
    except FAULTS as fault:
        return f"{type(fault).__name__}: {fault}"
    return None
