"""One end of a link: its log, and the pieces that it puts out and reads. All of it are functions of values.

A piece is what a server puts out on one link in one event, at most so many lines; in front of it may stand

    COUNT <read> <lines> [set]

which tells how many pieces of the other end had been read, and how many lines follow. It is left out where the count has not moved and the
piece is one line without a mark. `set` marks a line of a server that is done as it is, where `:a.net MODE` and `:a.net TOPIC` raise without it.
A piece without lines tells the count alone, and is not counted itself.

    b.net writes    COUNT 17 2                  it has read seventeen pieces
                    :bo NICK zed
                    :zed JOIN #c
                    :zed PRIVMSG #c :hello      a piece of its own

A channel may end here while somebody comes to it at the other end. Here who comes makes it anew, without what was set; there it was never
without members. So this end asks, by a line of the layer that is a piece of its own, and the other end tells the channel as a burst does:

    a.net writes    :al PART #c :bye            by which #c ends
    b.net writes    :bo JOIN #c                 and reads the PART: #c is there, with a key
    a.net writes    TELL #c                     behind the JOIN, by which it has #c without the key
    b.net writes    COUNT 17 2 set
                    :b.net NJOIN #c :bo
                    :b.net MODE #c +nk x

What is told is set, as it is when the TELL is read. It is not raised: by then it may be that all members at the other end are behind the link,
and where no member is behind a link nothing is raised.

    b.net writes    :bo PART #c :bye, and reads :ann JOIN #c, TELL #c
    b.net writes    COUNT 17 1 set
                    :b.net MODE #c +nk x

- Whether this end asks is known as a JOIN or NJOIN comes, by its log and its room; it asks behind what its server puts out upon the line. Where
  the channel is here, and was not made here behind what the other end had read, both have one life of it. Else it may have ended here, if the
  log tells of it; or if somebody is gone in the log, for what channels those were in it does not tell.

    a.net writes    :a.net KILL al, and reads :bo JOIN #c       al may have been in #c
    a.net writes    :al PART #c :bye, :ann JOIN #c\\7o          and reads :bo JOIN #c: here #c is without the key too

- A server brings members itself only as the link begins, when it has read nothing yet, or as it tells what was asked. What is set in a channel
  that both had is then told by both, so that of somebody who is gone none is asked.

    a.net writes    :a.net NJOIN #c :al, :a.net MODE #c +k x, :al QUIT :bye
    b.net writes    :b.net NJOIN #c :bo                         and reads of the key

- In the log beside each JOIN or NJOIN that is put out stands whether the channel begins by it, Made, or was there, Joined. It begins by a JOIN
  that makes an operator, and by any that is passed on from another link if it was not there before.

    b.net writes    :b.net NJOIN #c :bo         which came as :bo JOIN #c from c.net, where #c is, and by which it begins at b.net
"""

from typing import NamedTuple

from crossing import all_through, does_something
from effects import EMPTY, Go, Join, Joined, Made, Out, Room, Set, all_done
from lines import MARK, Reader, asked, tale
from servers import fold, parse

MOST = 16                   # lines of a piece
SET = b"set"
TELL = b"TELL"


class Piece(NamedTuple):
    """Lines that are read in one go, and whether they are of a server that sets."""

    lines: tuple
    is_set: bool


class End(NamedTuple):
    """What one end of a link keeps of it."""

    base: Room              # the room that the other end had when it wrote what came last
    log: tuple              # what was put out and not counted as read: numbers of pieces, and effects; by it is judged what comes
    due: tuple              # the same, as the other end will have it done; from it the base is made
    here: Room              # the server's own room: at rest the base behind what is due
    out: tuple              # pieces of this event
    sent: int               # pieces put out
    told: int               # the count that was put out last
    read: int               # pieces of the other end that were read
    heard: int              # the count that came last
    greeted: bool           # the other end has named itself: from here on there are pieces


NEW = End(EMPTY, (), (), EMPTY, (), 0, 0, 0, 0, False)


def with_line(end, line, effects, is_set, most):
    """An end that puts out one line more, as part of the last piece or of a new one."""
    if end.out and goes_with(end.out[-1], line, is_set, most):
        out = (*end.out[:-1], Piece((*end.out[-1].lines, line), False))
    else:
        out = (*end.out, Piece((line,), is_set))
    kept = [effect for effect in effects if does_something(effect)]
    more = tuple((end.sent + len(out), effect) for effect in kept)
    return end._replace(out=out, log=end.log + more, due=end.due + more, here=all_done(end.here, kept))


def goes_with(last, line, is_set, most):
    """Whether a line is part of the piece before it. A TELL is a piece of its own, so that it is read behind all of what its end had done."""
    if is_set or last.is_set or is_alone(line) or is_alone(last.lines[-1]):
        return False
    return len(last.lines) < most or goes_on(last.lines[-1], line)


def is_alone(line):
    return channel_told(line) is not None


def goes_on(before, line):
    """Whether a line is never cut from the one before it: servers are lost together, for none may seem to be linked to one that is lost.

        b.net writes    COUNT 17 2
                        :b.net SQUIT c.net :b.net c.net
                        :b.net SQUIT d.net :b.net c.net         which was behind c.net
    """
    return parse(before)[1] == parse(line)[1] == b"SQUIT"


def counted(end, count):
    """An end whose other end has read so many pieces: what they did it has done."""
    base = all_done(end.base, [effect for number, effect in end.due if number <= count])
    log, due = (tuple(entry for entry in entries if entry[0] > count) for entries in (end.log, end.due))
    return end._replace(base=base, log=log, due=due, heard=count)


def flushed(end):
    """The pieces of an event as lines, and the end behind them."""
    told, groups = end.told, []
    for piece in end.out:
        groups.append(piece_lines(piece, end.read, told))
        told = end.read if len(groups[-1]) > len(piece.lines) else told
    return groups, end._replace(out=(), sent=end.sent + len(end.out), told=told)


def piece_lines(piece, read, told):
    if read == told and len(piece.lines) == 1 and not piece.is_set:
        return piece.lines
    words = [b"COUNT", b"%d" % read, b"%d" % len(piece.lines)] + ([SET] if piece.is_set else [])
    return (b" ".join(words), *piece.lines)


def piece_read(lines, heard):
    """A piece and its count, out of its lines."""
    words = lines[0].split(b" ")
    if words[0] != b"COUNT":
        return Piece(lines, False), heard
    assert int(words[2]) == len(lines) - 1
    return Piece(lines[1:], words[3:] == [SET]), int(words[1])


def meant(end, side, line, is_set):
    """What the server is asked for upon a line that came, the end behind it, and the channel that the other end is asked to tell, or None.
    `side` is what the server knows of the link."""
    writer, reader = Reader(end.base, side), Reader(end.here, side)
    told = tale(line, writer, is_set)
    became, log = all_through([*told.effects, *entries(told, False)], end.log)
    _, due = all_through([*told.effects, *entries(told, is_new(end.base, told))], end.due)
    became = became[:len(told.effects)]
    behind = end._replace(base=all_done(end.base, told.effects), log=log, due=due, here=all_done(end.here, became))
    return asked(writer, reader, told, became), behind, channel_asked(end, side, told)


def is_echo(link, arrival, command):
    """Whether a line answers a collision on the link by which it came: the other end kills them too, as it reads our NICK.

        a.net writes    :al NICK zed            b.net writes    :bo NICK zed
        a.net's server  :a.net KILL bo, :a.net KILL zed     on all links; to b.net they are not put out
    """
    return link == arrival and command == b"KILL"


# Channels of which the other end is asked.


def comes_to(told):
    """The name of the channel to which somebody comes by a JOIN or NJOIN, or None."""
    comes = told.command in (b"JOIN", b"NJOIN") and any(isinstance(effect, Join) and effect.members for effect in told.effects)
    return told.words[0].removesuffix(MARK) if comes else None


def is_new(room, told):
    """Whether somebody comes by a line to a channel that is not there."""
    return comes_to(told) is not None and fold(comes_to(told)) not in room.channels


def entries(told, begins):
    """What stands in a log beside who comes by a line. `begins` is whether the channel was not there before. Of a line that comes that is not
    told, and no program has a base to see it by: it is judged by its mark.

        a.net writes    :al MODE #c +k x
        b.net writes    :bea KICK #c al :out, :bea PART #c :bye, and :cy JOIN #c, which came from c.net, and by which #c begins
        b.net does      nothing upon the MODE, and a.net has it in its log still
    """
    name = comes_to(told)
    if name is None:
        return []
    return [Made(fold(name)) if begins or is_marked(told) else Joined(fold(name))]


def is_marked(told):
    return told.command == b"JOIN" and told.words[0].endswith(MARK)


def channel_asked(end, side, told):
    """The channel of which the other end is asked upon a line, before that is given, or None."""
    name = comes_to(told)
    return name if name is not None and may_lack(end.here, end.log, fold(name), told.prefix == side.peer) else None


def may_lack(room, log, name, is_own):
    """Whether what is set in a channel at the other end may not be set here, as somebody comes to it. `is_own` is whether the server there tells
    so of itself."""
    if name in room.channels and not was_made(log, name):
        return False
    return is_told_of(log, name) or not is_own and is_somebody_gone(log)


def was_made(log, name):
    """Whether a channel was made here, and the other end had not read that.

        a.net writes    :al PART #c :bye, :ann JOIN #c\\7o       b.net writes    :bo JOIN #c
    """
    return any(entry == Made(name) for _, entry in log)


def is_told_of(log, name):
    """Whether a log tells of a channel.

        a.net writes    :al PART #c :bye                        b.net writes    :bo JOIN #c
    """
    return any(isinstance(entry, (Made, Joined, Join, Out, Set)) and entry.channel == name for _, entry in log)


def is_somebody_gone(log):
    """Whether somebody is gone in a log, be it from that channel or not.

        a.net writes    :al QUIT :bye                           b.net writes    :bo JOIN #c
    """
    return any(isinstance(entry, Go) for _, entry in log)


def channel_told(line):
    """The channel that the other end is to tell of by a line, or None.

        a.net writes    TELL #c         b.net writes    :b.net NJOIN #c :bo, :b.net TOPIC #c :hello
    """
    _, command, words = parse(line)
    return fold(words[0]) if command == TELL else None
