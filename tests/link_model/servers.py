"""Servers without a layer, as tests/hostile_links/model.py has them, and the deeds of a server that no line says today. On a channel that is not
there a deed does nothing."""

import copy
import importlib.util
import pathlib

from effects import HIDDEN, KEY, LIMIT, SPELLING, TOPIC, Channel, Person, Room, ban

HERE = pathlib.Path(__file__).parent.parent / "hostile_links" / "model.py"
NAMES = [b"a.net", b"b.net", b"c.net", b"d.net", b"e.net"]


def server_module(name):
    """A model of the server of this name; its constants are of its own."""
    spec = importlib.util.spec_from_file_location("link_" + name.decode().replace(".", "_"), HERE)
    module = importlib.util.module_from_spec(spec)
    spec.loader.exec_module(module)
    module.OWN, module.INFO = name, name
    module.PEERS = {other: b"pw" for other in NAMES if other != name}
    return module


MODULES = {name: server_module(name) for name in NAMES}
_FIRST = MODULES[NAMES[0]]
Change, changes_of, changes_written = _FIRST.Change, _FIRST.changes_of, _FIRST.changes_written
fold, is_nick, is_server, parse, written = _FIRST.fold, _FIRST.is_nick, _FIRST.is_server, _FIRST.rooms.parse, _FIRST.written


def room_of(server):
    """The room of a server."""
    people = {nick: Person(user.nick, user.home, user.invisible) for nick, user in server.users.items()}
    channels = {name: Channel(row_of(channel), {nick: frozenset(flag.decode() for flag in flags)
                                               for nick, flags in channel.members.items()})
                for name, channel in server.channels.items()}
    return Room(people, channels)


def row_of(channel):
    row = {SPELLING: channel.name, HIDDEN: channel.hidden, KEY: channel.key, LIMIT: channel.limit, TOPIC: channel.topic or None}
    row |= {(letter.decode(),): b"+" for letter in channel.flags}
    row |= {ban(fold(mask)): mask for mask in channel.bans}
    return {place: value for place, value in row.items() if value is not None}


def kicked_by_server(server, link, deed):
    """A server kicks a member; what came by a link does not go back there."""
    if deed.channel not in server.channels:
        return
    channel, user = server.channels[deed.channel], server.users[deed.nick]
    line = written(deed.server, b"KICK", [channel.name, user.nick], deed.text)
    server.show(channel.members, line)
    server.leave(deed.channel, deed.nick)
    server.tell(line, link)


def modes_by_server(server, link, deed):
    """A server changes modes as they are written."""
    if deed.channel not in server.channels:
        return
    channel = server.channels[deed.channel]
    words = server.change(channel, deed.server, list(deed.changes))
    server.tell(written(deed.server, b"MODE", [channel.name, *words]), link)


def topic_by_server(server, link, deed):
    """A server sets a topic, be it greater or not."""
    if deed.channel not in server.channels:
        return
    channel = server.channels[deed.channel]
    line = written(deed.server, b"TOPIC", [channel.name], deed.text)
    server.show(channel.members, line)
    channel.topic = deed.text
    server.tell(line, link)


def spelled_by_server(server, link, deed):
    """A channel takes a greater spelling. Nobody is shown it; to other links it is an NJOIN of nobody."""
    if fold(deed.channel) not in server.channels:
        return
    channel = server.channels[fold(deed.channel)]
    channel.name = max(channel.name, deed.channel)
    server.tell(written(deed.server, b"NJOIN", [channel.name], b""), link)


def copied(server):
    """A server that is in the same state."""
    other = type(server)()
    other.links = {link: copy.copy(end) for link, end in server.links.items()}
    other.known = dict(server.known)
    other.users = {nick: copy.copy(user) for nick, user in server.users.items()}
    other.channels = {}
    for name, channel in server.channels.items():
        fresh = copy.copy(channel)
        fresh.flags, fresh.bans, fresh.invited = set(channel.flags), list(channel.bans), set(channel.invited)
        fresh.members = {nick: set(flags) for nick, flags in channel.members.items()}
        other.channels[name] = fresh
    other.waiting = {conn: dict(given) for conn, given in server.waiting.items()}
    other.conns, other.nicks = dict(server.conns), dict(server.nicks)
    return other
