"""What a line of a link tells, as an effect, and what each does to a room.

A room is a value: nothing here changes one, and a new one shares what stays. People and channels are named by the folds of their names. What can
be set of a channel stands in places: the spelling of its name, the flags i m n t, what is hidden (p or s), the key, the limit, each ban by
its fold, the topic; and o and v of a member. A place of the row that is not there is not set, and that is less than any value.
"""

from dataclasses import dataclass, replace
from typing import NamedTuple

SPELLING, HIDDEN, KEY, LIMIT, TOPIC = ("spelling",), ("hidden",), ("key",), ("limit",), ("topic",)
OPERATOR, VOICE = "o", "v"


def ban(folded):
    """The place of a ban."""
    return "ban", folded


def flag(letter, nick):
    """The place of a member's flag."""
    return letter, nick


def is_flag(place):
    return place[0] in (OPERATOR, VOICE)


class Person(NamedTuple):
    spelled: bytes
    home: bytes             # the server that it is connected to
    invisible: bool


class Channel(NamedTuple):
    row: dict               # a place: its value
    members: dict           # a nickname: the flags o and v that the member has


NO_CHANNEL = Channel({}, {})


class Room:
    """People by nickname, and channels by name."""

    __slots__ = ("people", "channels", "_key")

    def __init__(self, people, channels):
        self.people, self.channels, self._key = people, channels, None

    def key(self):
        """The room as something that can be compared and kept in a set."""
        if self._key is None:
            channels = tuple(sorted((name, tuple(sorted(channel.row.items())), tuple(sorted((nick, "".join(sorted(flags)))
                             for nick, flags in channel.members.items()))) for name, channel in self.channels.items()))
            self._key = tuple(sorted(self.people.items())), channels
        return self._key

    def __eq__(self, other):
        return self.key() == other.key()

    def __hash__(self):
        return hash(self.key())


EMPTY = Room({}, {})


@dataclass(frozen=True, slots=True)
class Come:
    """A user comes: NICK al 1 u h 1 + :Al"""

    nick: bytes
    person: Person


@dataclass(frozen=True, slots=True)
class Rename:
    """A user takes another nickname, or another spelling: :al NICK ally"""

    nick: bytes
    new: bytes
    spelled: bytes


@dataclass(frozen=True, slots=True)
class Go:
    """Users are gone: :al QUIT :bye, :b.net KILL al :Nick collision, and :b.net SQUIT c.net :lost"""

    nicks: frozenset


@dataclass(frozen=True, slots=True)
class Join:
    """Members are joined to a channel, and values to its places: each has the greater of its value and this one. Where the channel is not there,
    members make it. :al JOIN #c, :a.net NJOIN #c :@al, :a.net MODE #c +k x, :a.net TOPIC #c :x"""

    channel: bytes
    members: tuple          # nicknames with their flags, in order
    values: tuple           # places with values, in order


@dataclass(frozen=True, slots=True)
class Out:
    """A member is none any more; with the last one the channel ends: :al PART #c :bye, and :bo KICK #c al :out"""

    nick: bytes
    channel: bytes


@dataclass(frozen=True, slots=True)
class Set:
    """Places have these values, whatever they had: :al MODE #c +ko x bo, and :al TOPIC #c :x"""

    channel: bytes
    values: tuple           # places with values, in order


@dataclass(frozen=True, slots=True)
class Own:
    """A user sets or clears its own mode i: :al MODE al +i"""

    nick: bytes
    invisible: bool


@dataclass(frozen=True, slots=True)
class Named:
    """A line names somebody, and does nothing to it: who is in front of a KICK, or whom a text is for."""

    nick: bytes


@dataclass(frozen=True, slots=True)
class Spoken:
    """A text is for a channel: :al PRIVMSG #c :hello"""

    channel: bytes


@dataclass(frozen=True, slots=True)
class Made:
    """A channel begins by who comes to it: in a log, behind the Join. It does nothing. :al JOIN #c\\7o"""

    channel: bytes


@dataclass(frozen=True, slots=True)
class Joined:
    """Somebody comes to a channel that is there: likewise. :al JOIN #c, :a.net NJOIN #c :@al"""

    channel: bytes


@dataclass(frozen=True, slots=True)
class Nothing:
    """Nothing is left of an effect."""


NOTHING = Nothing()


def in_order(values):
    """A dictionary as it stands in an effect."""
    return tuple(sorted(values.items(), key=lambda each: each[0]))


def rank(value):
    """Values of a place in order, least first."""
    return (0,) if value is None else (1, value)


def value_at(room, channel, place):
    """What a place has; None where it is not set, or the channel not there."""
    there = room.channels.get(channel, NO_CHANNEL)
    if is_flag(place):
        return place[0] in there.members.get(place[1], ())
    return there.row.get(place)


def with_channel(room, name, channel):
    """A channel as it is now; without members it is not there."""
    channels = dict(room.channels)
    channels.pop(name, None)
    if channel.members:
        channels[name] = channel
    return Room(room.people, channels)


def with_person(room, nick, person):
    """A user as it is now, or gone."""
    people = dict(room.people)
    people.pop(nick, None)
    if person is not None:
        people[nick] = person
    return Room(people, room.channels)


def came(room, nick, person):
    return room if nick in room.people else with_person(room, nick, person)


def renamed(room, nick, new, spelled):
    if nick not in room.people or new != nick and new in room.people:
        return room
    channels = {}
    for name, channel in room.channels.items():
        members = {new if member == nick else member: flags for member, flags in channel.members.items()}
        channels[name] = Channel(channel.row, members) if nick in channel.members else channel
    people = {each: person for each, person in room.people.items() if each != nick}
    people[new] = room.people[nick]._replace(spelled=spelled)
    return Room(people, channels)


def gone(room, nicks):
    for nick in nicks:
        for name, channel in room.channels.items():
            if nick in channel.members:
                room = left(room, nick, name)
        room = with_person(room, nick, None)
    return room


def joined(room, name, members, values):
    there = room.channels.get(name, NO_CHANNEL)
    comers = {nick: flags for nick, flags in members if nick in room.people and nick not in there.members}
    row = raised(there.row, values)
    return with_channel(room, name, Channel(row, {**there.members, **comers}))


def raised(row, values):
    """A row with each value joined to it."""
    return row | {place: value for place, value in values if rank(value) > rank(row.get(place))}


def left(room, nick, name):
    there = room.channels.get(name, NO_CHANNEL)
    if nick not in there.members:
        return room
    members = {member: flags for member, flags in there.members.items() if member != nick}
    return with_channel(room, name, Channel(there.row, members))


def put(room, name, values):
    for place, value in values:
        if name in room.channels:
            room = with_channel(room, name, with_value(room.channels[name], place, value))
    return room


def with_value(channel, place, value):
    """A channel with a place set; a flag is a member's."""
    if is_flag(place):
        letter, nick = place
        if nick not in channel.members:
            return channel
        flags = channel.members[nick] | {letter} if value else channel.members[nick] - {letter}
        return Channel(channel.row, {**channel.members, nick: flags})
    row = {each: held for each, held in channel.row.items() if each != place}
    return Channel(row if value is None else row | {place: value}, channel.members)


def turned(room, nick, invisible):
    person = room.people.get(nick)
    return room if person is None else with_person(room, nick, person._replace(invisible=invisible))


def done(room, effect):
    """The room behind an effect."""
    match effect:
        case Come(nick, person):
            return came(room, nick, person)
        case Rename(nick, new, spelled):
            return renamed(room, nick, new, spelled)
        case Go(nicks):
            return gone(room, nicks)
        case Join(channel, members, values):
            return joined(room, channel, members, values)
        case Out(nick, channel):
            return left(room, nick, channel)
        case Set(channel, values):
            return put(room, channel, values)
        case Own(nick, invisible):
            return turned(room, nick, invisible)
        case _:
            return room


def all_done(room, effects):
    for effect in effects:
        room = done(room, effect)
    return room


def channel_of(effect):
    """Of which channel an effect is, or None."""
    return effect.channel if isinstance(effect, (Join, Out, Set, Spoken, Made, Joined)) else None


def taken_by(effect):
    """The nickname that somebody has by this effect and had not before, or None."""
    if isinstance(effect, Come):
        return effect.nick
    return effect.new if isinstance(effect, Rename) and effect.new != effect.nick else None


def with_names(effect, name):
    """An effect whose people have other nicknames: `name` says which."""
    match effect:
        case Rename(nick, _, _) | Out(nick, _) | Own(nick, _) | Named(nick):
            return replace(effect, nick=name(nick))
        case Go(nicks):
            return Go(frozenset(map(name, nicks)))
        case Join(_, members, _):
            return replace(effect, members=in_order({name(nick): flags for nick, flags in members}))
        case Set(_, values):
            return replace(effect, values=in_order({flag(place[0], name(place[1])) if is_flag(place) else place: value
                                                    for place, value in values}))
        case _:
            return effect
