"""What people know of their channels from the lines that they are shown: at rest it is what their server has, and no line was out of place."""

from effects import EMPTY, NO_CHANNEL, SPELLING, TOPIC, Channel, Out, Set, done, in_order, is_flag, with_channel
from lines import change_told
from net import Net
from servers import changes_of, fold, parse, room_of


class Viewer:
    """A client, and what it knows of the channels that it is in. Of one that it comes to it is told all, as its server has it then."""

    def __init__(self, nick):
        self.nick, self.room, self.odd = nick, EMPTY, []

    def see(self, lines, room):
        """Lines of one event, behind which the server has this room."""
        fresh = set()
        for line in lines:
            prefix, command, words = parse(line)
            nick = fold(prefix.split(b"!")[0]) if prefix else None
            name = fold(words[0]) if words and words[0].startswith(b"#") else None
            if command == b"JOIN" and nick == self.nick:
                fresh.add(name)
            elif name not in fresh and not self.takes(command, nick, name, words):
                self.odd.append(line)
            if command == b"NICK" and nick == self.nick:
                self.nick = fold(words[0])
        for name in fresh & set(room.channels):
            self.room = with_channel(self.room, name, room.channels[name])

    def takes(self, command, nick, name, words):
        """Whether a line is in its place."""
        if command in (b"QUIT", b"NICK"):
            return self.takes_everywhere(command, nick, words)
        if command in (b"PART", b"KICK"):
            return self.takes_out(fold(words[1]) if command == b"KICK" else nick, name)
        if command not in (b"JOIN", b"MODE", b"TOPIC") or name is None:
            return True
        if name not in self.room.channels:
            return False
        there = self.room.channels[name]
        if command == b"JOIN":
            self.room = with_channel(self.room, name, Channel(there.row, {**there.members, nick: frozenset()}))
            return nick not in there.members
        values = {TOPIC: words[1] or None} if command == b"TOPIC" else {}
        for change in changes_of(words[1:]) if command == b"MODE" else []:
            values |= [change_told(self.room, name, values, change)]
        self.room = done(self.room, Set(name, in_order(values)))
        return all(place[1] in there.members for place in values if is_flag(place))

    def takes_everywhere(self, command, nick, words):
        shared = [name for name, channel in self.room.channels.items() if nick in channel.members]
        for name in shared:
            there = self.room.channels[name]
            members = {member: flags for member, flags in there.members.items() if member != nick}
            if command == b"NICK":
                members[fold(words[0])] = there.members[nick]
            self.room = with_channel(self.room, name, Channel(there.row, members))
        return bool(shared) or nick == self.nick

    def takes_out(self, nick, name):
        if name not in self.room.channels or nick not in self.room.channels[name].members:
            return False
        self.room = with_channel(self.room, name, NO_CHANNEL) if nick == self.nick else done(self.room, Out(nick, name))
        return True

    def fault(self, room):
        """What it knows wrongly, or was shown out of place. Nobody is shown that the spelling of a channel has changed."""
        if self.odd:
            return f"{self.nick.decode()} is shown {self.odd[0].decode()}"
        own = {name: plain(channel) for name, channel in room.channels.items() if self.nick in channel.members}
        known = {name: plain(channel) for name, channel in self.room.channels.items()}
        if own != known:
            return f"{self.nick.decode()} knows {known} of {own}"
        return None


def plain(channel):
    return {place: value for place, value in channel.row.items() if place != SPELLING}, channel.members


class Watched(Net):
    """A network whose clients look at what they are shown."""

    def __init__(self, *words, **more):
        super().__init__(*words, **more)
        self.viewers = {}

    def put_out(self, name, put):
        server = self.layers[name].server
        shown = {}
        for kind, number, what in put:
            if kind == "client":
                shown.setdefault(number, []).append(bytes.fromhex(what[0]))
        room = room_of(server)
        for number, lines in shown.items():
            if number in self.viewers:
                self.viewers[number].see(lines, room)
        super().put_out(name, put)
        for number, nick in server.nicks.items():
            self.viewers.setdefault(number, Viewer(nick))

    def differs(self):
        """As of any network, and what clients know wrongly at rest."""
        found = super().differs()
        if found:
            return found
        for layer in self.layers.values():
            room = room_of(layer.server)
            for number in layer.server.nicks:
                if self.viewers[number].fault(room):
                    return self.viewers[number].fault(room)
        return None
