"""Lines of a link as effects, and effects as what a server is asked for.

`tale` says what a line tells in the room of its writer. `asked` says what the reader's server is asked for, once it is known what has become
of that: the line as it came wherever nothing has become of it, else the line with names put right and without what is left out, and,
where no line of its form does it, a line or a deed by the server at the other end.
"""

from dataclasses import dataclass
from typing import NamedTuple

from effects import (HIDDEN, KEY, LIMIT, NOTHING, OPERATOR, SPELLING, TOPIC, VOICE, Come, Go, Join, Named, Out, Own, Person,
                     Rename, Room, Set, Spoken, ban, flag, in_order, rank, value_at)
from servers import Change, changes_of, changes_written, fold, is_server, parse, written

MARK = b"\x07o"             # behind the channel in a JOIN that makes an operator
COLLISION = b"Nick collision"
LETTERS = b"imnpstkl"       # of a MODE that tells what is set, in this order
MEMBERS = 10                # of one NJOIN
BANS = 3                    # of one MODE
IS_SET = b"+"               # the value of a flag of a channel that is set


class Tale(NamedTuple):
    """What a line tells: what it does, or to whom a text is, then who is in front, if that is another one, and whom the letters of a MODE name."""

    line: bytes
    prefix: bytes | None
    command: bytes
    words: list
    effects: tuple


@dataclass(frozen=True)
class Line:
    """A line is given to the server."""

    text: bytes


@dataclass(frozen=True)
class Kick:
    """A server kicks: no line says it today."""

    server: bytes
    channel: bytes
    nick: bytes
    text: bytes


@dataclass(frozen=True)
class Modes:
    """A server changes modes as they are written, and whoever is in the channel."""

    server: bytes
    channel: bytes
    changes: tuple


@dataclass(frozen=True)
class Topic:
    """A server sets a topic, be it greater or not, and whoever is in the channel."""

    server: bytes
    channel: bytes
    text: bytes


@dataclass(frozen=True)
class Spelling:
    """A channel takes the greater spelling, though nobody comes to it."""

    server: bytes
    channel: bytes


class Side(NamedTuple):
    """What a server knows of the other end of a link: its name, and the server of each number that it gives."""

    peer: bytes
    homes: dict


class Reader(NamedTuple):
    """Who reads a line, or writes one: a room, and what is behind the link."""

    room: Room
    side: Side

    def is_far(self, nick):
        """Whether somebody behind the link has a nickname."""
        return nick in self.room.people and self.room.people[nick].home in self.side.homes.values()

    def has_far(self, channel):
        """Whether a channel has a member behind the link."""
        there = self.room.channels.get(channel)
        return there is not None and any(map(self.is_far, there.members))

    def word(self, word, nick):
        """A nickname as it came, or as it is spelled here where its user has another one here."""
        return word if fold(word) == nick else self.room.people[nick].spelled

    def raises(self, channel, place, value):
        """Whether a value is more than a place has here."""
        return rank(value) > rank(value_at(self.room, channel, place))


# What a line tells.


def tale(line, writer, is_set):
    """What a line tells in the room of its writer; `is_set` says whether it is one of a server that sets."""
    prefix, command, words = parse(line)
    effects = told(writer, prefix, command, words, is_set) if is_written(prefix, command, words, is_set) else []
    return Tale(line, prefix, command, words, tuple(effects))


def is_written(prefix, command, words, is_set):
    """Whether a server writes such a line: not what users alone do, with a server in front. What none writes is given as it came."""
    if prefix is None or not is_server(prefix) or is_set:
        return True
    if command == b"MODE" and words[0].startswith(b"#"):
        return all(change.sign == b"+" and change.letter not in b"ov" for change in changes_of(words[1:]))
    return command in (b"SERVER", b"SQUIT", b"KILL", b"NJOIN", b"TOPIC")


def told(writer, prefix, command, words, is_set):
    if words and words[0].startswith(b"#"):
        return told_of_channel(writer, prefix, command, words, is_set)
    match command:
        case b"NICK" if prefix is None:
            return [Come(fold(words[0]), Person(words[0], writer.side.homes[int(words[4])], words[5] == b"+i"))]
        case b"NICK":
            return [Rename(fold(prefix), fold(words[0]), words[0])]
        case b"QUIT":
            return [Go(frozenset({fold(prefix)}))]
        case b"KILL":
            return [Go(frozenset({fold(words[0])}))]
        case b"SQUIT":
            return [Go(frozenset(nick for nick, person in writer.room.people.items() if person.home == words[0]))]
        case b"MODE":
            return [Own(fold(prefix), words[1] == b"+i")]
        case b"PRIVMSG" | b"NOTICE" | b"INVITE":
            return [Named(fold(words[0])), *front(prefix)]
        case _:
            return []


def told_of_channel(writer, prefix, command, words, is_set):
    match command:
        case b"JOIN":
            flags = frozenset({OPERATOR} if words[0].endswith(MARK) else ())
            return came_in({fold(prefix): flags}, words[0].removesuffix(MARK))
        case b"NJOIN":
            return came_in(dict(member_of(word) for word in words[1].split(b",") if word), words[0])
        case b"PART":
            return [Out(fold(prefix), fold(words[0]))]
        case b"KICK":
            return [Out(fold(words[1]), fold(words[0])), *front(prefix)]
        case b"MODE":
            return modes_told(writer, prefix, words, is_set)
        case b"TOPIC":
            return channel_told(writer, prefix, fold(words[0]), {TOPIC: words[1] or None}, is_set)
        case b"PRIVMSG" | b"NOTICE":
            return [Spoken(fold(words[0])), *front(prefix)]
        case _:
            return []


def front(prefix):
    """Who is in front, if it is a user."""
    return [] if is_server(prefix) else [Named(fold(prefix))]


def came_in(members, name):
    return [Join(fold(name), in_order(members), ((SPELLING, name),))]


def member_of(word):
    flags = {letter for letter, sign in ((OPERATOR, b"@"), (VOICE, b"+")) if sign in word[:2]}
    return fold(word.lstrip(b"@+")), frozenset(flags)


def modes_told(writer, prefix, words, is_set):
    """MODE of a channel, and behind it whom its letters name."""
    changes, channel = changes_of(words[1:]), fold(words[0])
    values = {}
    for change in changes:
        values |= [change_told(writer.room, channel, values, change)]
    names = [Named(fold(change.word)) for change in changes if change.letter in b"ov"]
    return [*channel_told(writer, prefix, channel, values, is_set), *names]


def channel_told(writer, prefix, channel, values, is_set):
    """A user sets what is in a channel; a server raises it, where the channel has a member behind the link, but for one that sets."""
    if not is_server(prefix) or is_set:
        return [Set(channel, in_order(values)), *front(prefix)]
    return [Join(channel, (), in_order(values))] if writer.has_far(channel) else []


def change_told(room, channel, before, change):
    """The place and the value of a change of modes, behind what was set before it."""
    letter, plus = change.letter.decode(), change.sign == b"+"
    if letter in (OPERATOR, VOICE):
        return flag(letter, fold(change.word)), plus
    if letter in "ps":
        return HIDDEN, hidden(before.get(HIDDEN, value_at(room, channel, HIDDEN)), change.letter, plus)
    if letter == "k":
        return KEY, change.word if plus else None
    if letter == "l":
        return LIMIT, int(change.word) if plus else None
    if letter == "b":
        return ban(fold(change.word)), change.word if plus else None
    return (letter,), IS_SET if plus else None


def hidden(held, letter, plus):
    """What is hidden behind +p, -p, +s or -s."""
    if plus:
        return letter if letter == b"s" or held is None else held
    return None if held == letter else held


# What a server is asked for.


def asked(writer, reader, tale, became):
    """What the server is asked for, where this has become of the effects of a line. The writer has the room in which it was written."""
    if not tale.effects or tale.command == b"SQUIT":
        return [Line(tale.line)]
    return ASKED[type(tale.effects[0])](writer, reader, tale, became)


def put_right(reader, tale, prefix, names):
    """A line with nicknames as they are here: who is in front, if that is a user, and those in its words by place."""
    front = tale.prefix if prefix is None else reader.word(tale.prefix, prefix)
    words = [reader.word(word, names[place]) if place in names else word for place, word in enumerate(tale.words)]
    if [front, *words] == [tale.prefix, *tale.words]:
        return [Line(tale.line)]
    if tale.command in (b"QUIT", b"PART", b"KICK", b"PRIVMSG", b"NOTICE", b"TOPIC", b"KILL"):
        return [Line(written(front, tale.command, words[:-1], words[-1]))]
    return [Line(written(front, tale.command, words))]


def come_asked(writer, reader, tale, became):
    """NICK of who comes. Where two take one name the server kills who has it here, if that is the one that took it; else it is told to."""
    if isinstance(became[0], Come) or became[0] == Go(frozenset({tale.effects[0].nick})):
        return [Line(tale.line)]
    return kills(reader, became[0])


def rename_asked(writer, reader, tale, became):
    """NICK of who is there, likewise."""
    if isinstance(became[0], Rename):
        return put_right(reader, tale, became[0].nick, {})
    far = [nick for nick in gone_by(became[0]) if reader.is_far(nick)]
    if len(far) == 1 and gone_by(became[0]) == {*far, tale.effects[0].new}:
        return put_right(reader, tale, far[0], {})
    return kills(reader, became[0])


def gone_by(effect):
    return effect.nicks if isinstance(effect, Go) else frozenset()


def kills(reader, effect):
    return [Line(written(reader.side.peer, b"KILL", [reader.room.people[nick].spelled], COLLISION)) for nick in sorted(gone_by(effect))]


def go_asked(writer, reader, tale, became):
    """QUIT, and KILL."""
    for nick in gone_by(became[0]):
        return put_right(reader, tale, nick, {}) if tale.command == b"QUIT" else put_right(reader, tale, None, {0: nick})
    return []


def own_asked(writer, reader, tale, became):
    return put_right(reader, tale, became[0].nick, {0: became[0].nick}) if became[0] != NOTHING else []


def out_asked(writer, reader, tale, became):
    """PART, and KICK, whose doer may be gone."""
    out, *by = became
    if out == NOTHING:
        return []
    if tale.command == b"PART":
        return put_right(reader, tale, out.nick, {})
    if by in ([], [NOTHING]):
        return [Kick(doer(reader, tale), out.channel, out.nick, tale.words[2])]
    return put_right(reader, tale, by[0].nick, {1: out.nick})


def doer(reader, tale):
    """The server that does what somebody did who is gone here."""
    return tale.prefix if is_server(tale.prefix) else reader.side.peer


def text_asked(writer, reader, tale, became):
    """Texts and invitations are for who is there; nobody is told where they are lost."""
    to, by = became
    if NOTHING in (to, by):
        return []
    return put_right(reader, tale, by.nick, {0: to.nick} if isinstance(to, Named) else {})


def set_asked(writer, reader, tale, became):
    """MODE and TOPIC that set: of a user who is there as a line, else as a deed, for who is gone has done it before that was known.

        a.net writes    :a.net KILL bo          b.net writes    :bo MODE #c +i-l
        a.net does      what :b.net MODE #c +i-l says, and puts that out on its other links behind COUNT 17 1 set
    """
    values = dict(became[0].values) if became[0] != NOTHING else {}
    if not values:
        return []
    by, names = (None, became[1:]) if is_server(tale.prefix) else (became[1], became[2:])
    if tale.command == b"TOPIC":
        return put_right(reader, tale, by.nick, {}) if by not in (None, NOTHING) else topic_deed(reader, tale)
    changes = changes_left(writer, reader, tale, values, names)
    if by in (None, NOTHING):
        return [Modes(doer(reader, tale), became[0].channel, tuple(changes))]
    return modes_line(tale, reader.word(tale.prefix, by.nick), changes)


def topic_deed(reader, tale):
    return [Topic(doer(reader, tale), fold(tale.words[0]), tale.words[1])]


def modes_line(tale, prefix, changes):
    if (prefix, changes) == (tale.prefix, changes_of(tale.words[1:])):
        return [Line(tale.line)]
    return [Line(written(prefix, b"MODE", [tale.words[0], *changes_written(changes)]))]


def changes_left(writer, reader, tale, values, names):
    """The changes of a MODE whose places are left, with nicknames as they are here."""
    names, kept = list(names), []
    for change in changes_of(tale.words[1:]):
        if change.letter in b"ov":
            named = names.pop(0)
            if named != NOTHING and flag(change.letter.decode(), named.nick) in values:
                kept.append(change._replace(word=reader.word(change.word, named.nick)))
        elif change_told(writer.room, fold(tale.words[0]), {}, change)[0] in values:
            kept.append(change)
    return kept


def join_asked(writer, reader, tale, became):
    """JOIN, NJOIN, and MODE and TOPIC that raise."""
    join = became[0]
    if join == NOTHING or not (join.members or join.values):
        return []
    if tale.command in (b"MODE", b"TOPIC"):
        return raise_asked(writer, reader, tale, join)
    if tale.command == b"JOIN" and joins_plainly(writer, reader, join):
        return put_right(reader, tale, join.members[0][0], {})
    if spells_alone(reader, join):
        return [Spelling(doer(reader, tale), dict(join.values)[SPELLING])]
    if tale.command == b"NJOIN" and join.members and brings_just(reader, tale, join):
        return [Line(tale.line)]
    return members_asked(reader, doer(reader, tale), join)


def raise_asked(writer, reader, tale, join):
    """What a server raises goes as it came, but for what is left out: as a line, if the channel has a member behind the link, without
    which a server takes none; else as a deed, which does just what it raises here."""
    values = dict(join.values)
    if not reader.has_far(join.channel):
        values = {place: value for place, value in values.items() if reader.raises(join.channel, place, value)}
    if not values:
        return []
    if tale.command == b"TOPIC":
        return [Line(tale.line)] if reader.has_far(join.channel) else topic_deed(reader, tale)
    changes = changes_left(writer, reader, tale, values, ())
    if reader.has_far(join.channel):
        return modes_line(tale, tale.prefix, changes)
    return [Modes(tale.prefix, join.channel, tuple(changes))]


def joins_plainly(writer, reader, join):
    """Whether a JOIN does it: the channel is there on both sides or on neither. Else an operator would come without being shown as one, and
    the spelling stay as it is.

        a.net writes    :al JOIN #c\\7o         b.net writes    :bo JOIN #C\\7o
        a.net is given  :b.net NJOIN #C :@bo
    """
    name = dict(join.values)[SPELLING]
    (was_there, did_raise), (is_there, does_raise) = (
        (join.channel in each.room.channels, each.raises(join.channel, SPELLING, name)) for each in (writer, reader))
    return bool(join.members) and (was_there, did_raise) == (is_there, does_raise)


def spells_alone(reader, join):
    """Whether nobody comes by an NJOIN, and its spelling is the greater one: a server takes it with somebody who comes, and so else it is a
    deed. That is where a channel is told.

        b.net has       #C, which bo has made anew with :bo JOIN #C\\7o, and writes TELL #c upon :al JOIN #c
        a.net writes    :a.net NJOIN #c :al, :a.net MODE #c +n
    """
    if join.channel not in reader.room.channels:
        return False
    there = reader.room.channels[join.channel].members
    return reader.raises(join.channel, SPELLING, dict(join.values)[SPELLING]) and all(nick in there for nick, _ in join.members)


def brings_just(reader, tale, join):
    """Whether an NJOIN as it came brings just those who are left: a server leaves out a nickname that nobody behind the link has."""
    left = {nick for nick, _ in join.members}
    return all(nick in left or not reader.is_far(nick) for nick, _ in tale.effects[0].members) and left <= {
        nick for nick, _ in tale.effects[0].members}


def members_asked(reader, server, join):
    """Members come by NJOIN, which takes the greater spelling."""
    if not join.members:
        return []
    return [Line(njoin(reader.room, server, dict(join.values)[SPELLING], join.members))]


def njoin(room, server, name, members):
    return written(server, b"NJOIN", [name], b",".join(marked(flags, room.people[nick].spelled) for nick, flags in members))


def marked(flags, spelled):
    return b"@" * (OPERATOR in flags) + b"+" * (VOICE in flags) + spelled


ASKED = {Come: come_asked, Rename: rename_asked, Go: go_asked, Own: own_asked, Out: out_asked, Named: text_asked, Spoken: text_asked,
         Set: set_asked, Join: join_asked}


# What a server tells of a channel.


def channel_lines(teller, server, channel):
    """A channel as a burst tells it, but for members behind the link. If there are no others, an NJOIN of nobody tells the spelling."""
    if channel not in teller.room.channels:
        return []
    there = teller.room.channels[channel]
    name, near = there.row[SPELLING], [each for each in sorted(there.members.items()) if not teller.is_far(each[0])]
    lines = [njoin(teller.room, server, name, group) for group in groups(near, MEMBERS) or [[]]]
    lines += [written(server, b"MODE", [name, *changes_written(changes)]) for changes in row_changes(there.row)]
    return lines + ([written(server, b"TOPIC", [name], there.row[TOPIC])] if TOPIC in there.row else [])


def row_changes(row):
    """The changes that make a row, by MODE: all letters but for bans, then the bans."""
    changes = [change_of(place, value) for place, value in sorted(row.items()) if place not in (SPELLING, TOPIC)]
    once = sorted((change for change in changes if change.letter != b"b"), key=lambda change: LETTERS.index(change.letter))
    return [once] * bool(once) + groups([change for change in changes if change.letter == b"b"], BANS)


def groups(items, most):
    return [items[first:first + most] for first in range(0, len(items), most)]


def change_of(place, value):
    """The change that sets a place."""
    if place == HIDDEN:
        return Change(b"+", value, None)
    if place == KEY:
        return Change(b"+", b"k", value)
    if place == LIMIT:
        return Change(b"+", b"l", b"%d" % value)
    return Change(b"+", b"b", value) if place[0] == "ban" else Change(b"+", place[0].encode(), None)
