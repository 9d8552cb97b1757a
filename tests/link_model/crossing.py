"""What an effect becomes that crossed others: the rules by which two ends of a link agree.

Two ends have the same room; each does something, and then reads what the other did. `crossed(theirs, ours)` is what becomes of their effect
behind ours, so that both rooms are the same again: behind ours and what becomes of theirs, and behind theirs and what becomes of ours. Both
were made in the same room, and what is a user's own to do comes from one side: no two NICK of one user cross, and no two JOIN of one user to
one channel. Of one effect one is left, or nothing. Nothing is read of the room.

One thing the rules leave different, the row of a channel that ends at one end and not at the other. At the first, who comes makes it anew,
without what was set; at the second it is as it was, and the first asks for that (ends.py). What the second set in the old life of the channel
is nothing in the new one: by the Made that stands between the two it is known of which life something is.

The examples are of the end a.net, whose people are al and ann; bo and bea are at b.net.
"""

from dataclasses import replace

from effects import (NOTHING, SPELLING, Come, Go, Join, Joined, Made, Named, Out, Own, Rename, Set, Spoken, channel_of, is_flag, rank,
                     taken_by, with_names)


def crossed(theirs, ours):
    """What becomes of an effect of the other end behind one of ours."""
    if two_to_one_name(theirs, ours):
        return both_go(theirs)
    if isinstance(ours, Rename):
        return name_followed(theirs, ours)
    if isinstance(ours, (Go, Out)):
        return gone_dropped(theirs, ours)
    if channel_of(ours) is None or channel_of(ours) != channel_of(theirs):
        return theirs
    if is_of_old_life(theirs, ours):
        return NOTHING
    if is_one_life(theirs, ours):
        return one_life(theirs)
    if isinstance(ours, (Join, Set)) and isinstance(theirs, (Join, Set)):
        return replace(theirs, values=tuple((place, value) for place, value in theirs.values if stays(theirs, ours, place)))
    return theirs


def two_to_one_name(theirs, ours):
    """Two people take one nickname, and neither end knew of the other: both go.

        a.net writes    :al NICK zed            b.net writes    :bo NICK zed
        a.net is given  :bo NICK zed            b.net is given  :al NICK zed        both servers kill both
    """
    return taken_by(theirs) is not None and taken_by(theirs) == taken_by(ours)


def both_go(theirs):
    """Who has the name here by now, and who was to take it."""
    return Go(frozenset({taken_by(theirs)} | ({theirs.nick} if isinstance(theirs, Rename) else set())))


def name_followed(theirs, ours):
    """A nickname means who had it where the line was written.

        a.net writes    :al NICK ally           b.net writes    :bo KICK #c al :out
        a.net is given  :bo KICK #c ally :out
    """
    return with_names(theirs, lambda nick: ours.new if nick == ours.nick else nick)


def gone_dropped(theirs, ours):
    """Nothing is done to who is gone, nor by it to itself. Who was taken out of a channel is taken out once, and given no flag there: who comes
    back meanwhile is a new member.

        a.net writes    :a.net KILL bo          b.net writes    :bo JOIN #c
        a.net is given  nothing

        a.net writes    :al PART #c :bye, :al JOIN #c       b.net writes    :bo KICK #c al :out
        a.net is given  nothing
    """
    match theirs:
        case Rename(nick, _, _) | Own(nick, _) | Named(nick):
            return NOTHING if is_out(ours, nick, None) else theirs
        case Out(nick, channel):
            return NOTHING if is_out(ours, nick, channel) else theirs
        case Go(nicks):
            return Go(frozenset(nick for nick in nicks if not is_out(ours, nick, None)))
        case Join(channel, members, _):
            return replace(theirs, members=tuple((nick, flags) for nick, flags in members if not is_out(ours, nick, channel)))
        case Set(channel, values):
            return Set(channel, tuple((place, value) for place, value in values if not (is_flag(place) and is_out(ours, place[1], channel))))
        case _:
            return theirs


def is_out(ours, nick, channel):
    """Whether ours takes somebody out of a channel, or out of all."""
    return nick in ours.nicks if isinstance(ours, Go) else (nick, channel) == (ours.nick, ours.channel)


def is_of_old_life(theirs, ours):
    """Whether ours makes the channel anew in which theirs was set, or for which it is. Who comes to it is in the new one.

        a.net writes    :al PART #c :bye, :ann JOIN #c\\7o        b.net writes    :bo MODE #c +k x, :bo PRIVMSG #c :hello
        a.net is given  nothing
    """
    return isinstance(ours, Made) and (isinstance(theirs, (Set, Spoken)) or isinstance(theirs, Join) and not theirs.members)


def is_one_life(theirs, ours):
    """Whether theirs makes a channel that ours makes too, or to which somebody comes by ours. It is one from then on, as often as it began here
    meanwhile: what is set in it behind that is given.

        a.net writes    :al JOIN #c\\7o, :al PART #c :bye, :al JOIN #c\\7o       b.net writes    :bo JOIN #c\\7o, :bo MODE #c -o bo
        a.net is given  :b.net NJOIN #c :@bo, :bo MODE #c -o bo
    """
    return isinstance(theirs, Made) and isinstance(ours, (Made, Joined))


def one_life(theirs):
    """Somebody comes to a channel that is there."""
    return Joined(theirs.channel)


def stays(theirs, ours, place):
    """Of two values for one place the greater stays, and one that was set on both sides is set once. A spelling that comes with somebody stays:
    the greater is taken.

        a.net writes    :al TOPIC #c :one       b.net writes    :bo TOPIC #c :two
        a.net is given  :bo TOPIC #c :two       b.net is given  nothing
    """
    value, other = dict(theirs.values)[place], dict(ours.values).get(place, NOTHING)
    return other is NOTHING or is_greater(value, other) or isinstance(theirs, Join) and place == SPELLING


def is_greater(value, other):
    return rank(value) > rank(other)


def through(theirs, log):
    """What an effect of the other end is here behind a log of ours, and the log behind it. The log has what we did since, each with the number of
    its piece."""
    behind = []
    for number, ours in log:
        behind.append((number, crossed(ours, theirs)))
        theirs = crossed(theirs, ours)
    return theirs, tuple((number, ours) for number, ours in behind if does_something(ours))


def all_through(effects, log):
    """The same of effects in turn."""
    became = []
    for theirs in effects:
        left, log = through(theirs, log)
        became.append(left)
    return became, log


def related(theirs, log):
    """The part of a log that matters to an effect: who has which nickname, and what is of its channel. Behind the rest of it the same becomes
    of it, so that a line need not be taken past all that is on its way."""
    return tuple((number, ours) for number, ours in log
                 if isinstance(ours, (Come, Rename, Go)) or channel_of(theirs) is not None and channel_of(ours) == channel_of(theirs))


def does_something(effect):
    """Whether anything is left of an effect."""
    match effect:
        case Go(nicks):
            return bool(nicks)
        case Join(_, members, values):
            return bool(members or values)
        case Set(_, values):
            return bool(values)
        case _:
            return effect != NOTHING and not isinstance(effect, (Named, Spoken))
