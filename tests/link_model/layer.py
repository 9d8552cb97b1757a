"""The layer: an event machine around a server that does not know of it.

It sees what comes by a link before the server does, and what the server puts out on links behind it. Of the server it reads who the other end of
a link is, and the numbers of servers and the links that they are behind; its room it has from the ends of its links.

Behind a JOIN or NJOIN by which a channel begins anew here, that may be there still at the other end, it asks for that: TELL #c. A TELL that came
is not given to the server. The layer tells of the channel on that link alone, as it is in the server's room, and nothing changes here (ends.py).
Until that is read the end at which the channel has ended has it without what was set, and the base behind its log has it with that; at rest the
two are the same.
"""

from typing import NamedTuple

from effects import all_done
from ends import MOST, NEW, TELL, channel_told, comes_to, counted, entries, flushed, is_echo, meant, piece_read, with_line
from lines import Kick, Line, Modes, Reader, Side, Spelling, Topic, channel_lines, tale
from servers import copied, fold, kicked_by_server, modes_by_server, parse, room_of, spelled_by_server, topic_by_server

DEEDS = {Kick: kicked_by_server, Modes: modes_by_server, Topic: topic_by_server, Spelling: spelled_by_server}


class Cause(NamedTuple):
    """Why a server puts something out."""

    arrival: int | None     # the link by which a line came
    is_set: bool            # it does a deed, which no line says as it is
    begins: bool            # by a line that came a channel begins


ITSELF = Cause(None, False, False)
BY_TELLING = ITSELF._replace(is_set=True)


class Layer:
    """A server with a layer at each of its links. An event gives what is put out, as (kind, link or client, what)."""

    def __init__(self, module, most=MOST):
        self.module, self.server, self.ends, self.most = module, module.Server(), {}, most
        self.noted = None               # where it is a list, what the server was asked for, and whether it did something

    def copied(self):
        other = object.__new__(type(self))
        other.module, other.server, other.ends, other.most = self.module, copied(self.server), dict(self.ends), self.most
        other.noted = None
        return other

    def up(self, link, called=None):
        self.ends[link] = NEW
        self.server.up(link, called)
        return self.event_over()

    def down(self, link):
        del self.ends[link]
        self.server.down(link)
        return self.event_over()

    def does(self, act):
        """What a client does: act is done to the server."""
        act(self.server)
        return self.event_over()

    def hear(self, link, lines):
        """What came by a link: a line of the handshake, or the lines of a piece."""
        end = self.ends[link]
        if not end.greeted:
            return self.greeting(link, lines)
        piece, count = piece_read(lines, end.heard)
        assert end.heard <= count <= end.sent
        self.ends[link] = counted(end, count)
        put = []
        for line in piece.lines:
            if link in self.ends:
                put += self.line(link, line, piece.is_set)
        if link in self.ends and piece.lines:
            self.ends[link] = self.ends[link]._replace(read=self.ends[link].read + 1)
        return put + self.flush()

    def greeting(self, link, lines):
        self.give(link, Line(lines[0]))
        put = self.taken(Cause(link, False, False))
        if link in self.ends and self.server.links[link].name is not None:
            self.ends[link] = self.ends[link]._replace(greeted=True)
        return put + self.flush()

    def line(self, link, line, is_set):
        """The server is asked for what a line means here, and then the other end, if it has to tell of a channel."""
        if channel_told(line) is not None:
            return self.tell(link, channel_told(line))
        items, self.ends[link], name = meant(self.ends[link], self.side(link), line, is_set)
        put = []
        for item in items:
            cause = Cause(link, not isinstance(item, Line), self.begins(link, item))
            self.give(link, item)
            put += self.taken(cause)
        if name is not None and link in self.ends:
            self.ends[link] = with_line(self.ends[link], TELL + b" " + name, [], False, self.most)
        return put

    def begins(self, link, item):
        """Whether a channel begins by what the server is asked for, which has not done it yet."""
        name = comes_to(tale(item.text, self.reader(link), False)) if isinstance(item, Line) else None
        return name is not None and fold(name) not in self.server.channels

    def tell(self, link, name):
        """The other end is told of a channel, as by a server that sets: all members may be behind the link by then, and else nothing is taken
        there. It has asked by a piece of its own, so that this stands behind the piece that is read.

            a.net writes    :ann JOIN #c\\7o, TELL #c       in whose #c no topic is set
            b.net writes    :bo PART #c :bye                and reads the TELL: in #c is ann alone
            b.net writes    COUNT 17 1 set
                            :b.net TOPIC #c :hello
        """
        for line in channel_lines(self.reader(link), self.module.OWN, name):
            self.put_out(link, line, BY_TELLING)
        return []

    def reader(self, link):
        return Reader(self.ends[link].here, self.side(link))

    def side(self, link):
        homes = {row.token: name for name, row in self.server.known.items() if row.link == link}
        return Side(self.server.links[link].name, homes)

    def own(self):
        """What is told on a link is told by this server, with its own numbers of servers."""
        return Side(self.module.OWN, {1: self.module.OWN} | {row.number: name for name, row in self.server.known.items()})

    def give(self, link, item):
        """The server is asked for something."""
        if self.noted is not None:
            self.note(link, item)
        self.give_to(self.server, link, item)

    def give_to(self, server, link, item):
        if isinstance(item, Line):
            server.hear(link, item.text)
        else:
            DEEDS[type(item)](server, link, item)

    def note(self, link, item):
        """Notes what the server is asked for, and whether it does something by it, which is tried on a copy."""
        trial = copied(self.server)
        self.give_to(trial, link, item)
        does = bool(trial.taken()) or room_of(trial) != room_of(self.server)
        self.noted.append((does, link, item))

    def taken(self, cause):
        """What the server has put out: what goes to links is kept for their pieces."""
        put = []
        for entry in self.server.taken():
            word, *rest = entry.split(" ")
            number = int(rest[0])
            if word == "link":
                put += self.put_out(number, bytes.fromhex(rest[1]), cause)
            elif word == "close":
                del self.ends[number]
                put.append((word, number, rest[1]))
            else:
                put.append((word, number, rest[1:]))
        return put

    def put_out(self, link, line, cause):
        """A line goes out on a link."""
        prefix, command, _ = parse(line)
        if command == b"PASS" or command == b"SERVER" and prefix is None:
            return [("link", link, (line,))]
        if not is_echo(link, cause.arrival, command):
            end = self.ends[link]
            told = tale(line, Reader(end.here, self.own()), cause.is_set)
            self.ends[link] = with_line(end, line, [*told.effects, *entries(told, cause.begins)], cause.is_set, self.most)
        return []

    def event_over(self):
        return self.taken(ITSELF) + self.flush()

    def flush(self):
        """What is put out on links in an event, piece by piece."""
        put = []
        for link, end in sorted(self.ends.items()):
            groups, self.ends[link] = flushed(end)
            put += [("link", link, group) for group in groups]
        return put

    def count_told(self, link):
        """A piece without lines, where the count has moved."""
        end = self.ends[link]
        if end.read == end.told:
            return []
        self.ends[link] = end._replace(told=end.read)
        return [("link", link, (b"COUNT %d 0" % end.read,))]

    def faults(self):
        """What is wrong inside: each end is to have the server's room."""
        room = room_of(self.server)
        return [link for link, end in sorted(self.ends.items()) if end.greeted and end.here != room]

    def faults_at_rest(self):
        """What is wrong inside where nothing is on its way: the base behind what is due is to be the server's room. Before that a channel that has
        ended here has what was set in the one, and is not told yet in the other."""
        room = room_of(self.server)
        return [link for link, end in sorted(self.ends.items()) if end.greeted and
                all_done(end.base, [effect for _, effect in end.due]) != room]


class Bare(Layer):
    """A server without a layer: a piece is a line, and is given as it came."""

    def up(self, link, called=None):
        self.ends[link] = None
        self.server.up(link, called)
        return self.event_over()

    def hear(self, link, lines):
        self.give(link, Line(lines[0]))
        return self.event_over()

    def put_out(self, link, line, cause):
        return [("link", link, (line,))]

    def flush(self):
        return []

    def count_told(self, link):
        return []

    def faults(self):
        return []

    def faults_at_rest(self):
        return []
