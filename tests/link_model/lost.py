"""What an effect takes away, so that a room can be had back from the one behind it.

What a log has to hold of each effect: with it the room that the other end had can be told from the server's own, and is kept nowhere.
"""

from typing import NamedTuple

from effects import (Channel, Come, Go, Join, Out, Own, Rename, Set, left, put, renamed, value_at, with_channel,
                     with_person)


class Lost(NamedTuple):
    """Who is gone or has changed; the flags of who left a channel; rows of channels that ended; values of places that were set."""

    people: tuple
    flags: tuple            # nickname, channel, flags
    rows: tuple             # channel, row
    values: tuple


def lost(room, effect):
    """What this effect takes away."""
    match effect:
        case Go(nicks):
            return lost_with(room, sorted(nicks), sorted(room.channels))
        case Out(nick, channel):
            return lost_with(room, [nick], [channel])._replace(people=())
        case Rename(nick, _, _) | Own(nick, _):
            return Lost(((nick, room.people[nick]),), (), (), ())
        case Join(channel, _, values) | Set(channel, values):
            return Lost((), (), (), tuple((place, value_at(room, channel, place)) for place, _ in values))
        case _:
            return Lost((), (), (), ())


def lost_with(room, nicks, names):
    """What goes with some people, in some channels."""
    people = tuple((nick, room.people[nick]) for nick in nicks)
    flags = tuple((nick, name, room.channels[name].members[nick]) for name in names for nick in nicks if nick in room.channels[name].members)
    rows = tuple((name, room.channels[name].row) for name in names if set(room.channels[name].members) <= set(nicks))
    return Lost(people, flags, rows, ())


def taken_back(room, effect, kept):
    """The room before an effect, from the one behind it and what it took away."""
    match effect:
        case Come(nick, _):
            return with_person(room, nick, None)
        case Rename(nick, new, _):
            return renamed(room, new, nick, kept.people[0][1].spelled)
        case Go(_) | Out(_, _) | Own(_, _):
            return put_back(room, kept)
        case Join(channel, members, _):
            for nick, _ in members:
                room = left(room, nick, channel)
            return put(room, channel, kept.values)
        case Set(channel, _):
            return put(room, channel, kept.values)
        case _:
            return room


def put_back(room, kept):
    rows = dict(kept.rows)
    for nick, person in kept.people:
        room = with_person(room, nick, person)
    for nick, name, flags in kept.flags:
        row, members = room.channels.get(name, Channel(rows.get(name, {}), {}))
        room = with_channel(room, name, Channel(row, {**members, nick: flags}))
    return room
