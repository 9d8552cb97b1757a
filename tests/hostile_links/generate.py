"""Scripts of lines that hostile or broken peers send a server, by chance; compare.py says what they are for.

The model goes beside a script, so that it is known what is right at each place of it.
"""

import random

import model
from model import OWN, PEERS, Server, fold, written

LINKS = (7, 8, 9)
DRAWN = ("right", "turned", "wild")     # kinds of lines that are counted; "greeting" and "fill" bring a link or the network there
CROWD = 300             # drawn lines between two times at which a channel gets many members
FILL = 1000             # likewise, at which as many servers are told of as may be known
LONG = b"w" * 470       # a text with which the line that clients see is cut

NICKS = b"bo BO eve Eve cy dd foo[ FOO{ zed al AL ann ax n-1 n`2 a-nickname-of-thirty-bytes-or_".split()
CLIENTS = b"al ann ax bo eve".split()
CHANNELS = b"#c #C #d #x[ #X{ #yy #z #".split()
SERVERS = b"b.net c.net d.net e.net f.net g.net h.x-1 i. .j k.net".split()
USERS = b"u u.s_e-r~ 0123456789".split()
HOSTS = [b"h", b"H.example", b"1:2:3", b"a-b.c", b"h" * 63]
DESCRIPTIONS = [b"", b"x", b"bye bye", b":", b" two  words ", b"+i", b"y" * 50]
TEXTS = [*DESCRIPTIONS, b"x" * 160, b"z" * 63, bytes(range(128, 178))]
MARKS = [b"", b"@", b"+", b"@+"]
LENGTHS = [10, 11, 20, 21, 50, 51, 63, 64, 160, 161]


def each(text):
    """The words of a MODE, parted from the next by a comma."""
    return [words.split() for words in text.split(b",")]


MODES = each(b"+i,+nt,-i+m,+k key,-k key,+l 5,-l,+b *!*@h,-b *!*@H,+p,+s,-p,-s,+bbb a* b? c\\*,+bb-b D[ d{ a*,+b *!u@*,+ob bo e!*@*,"
             b"+ntkl k2 65535,-m+s-p,+l 1")
# what a burst tells of a channel: of some of these the greater stays
TOLD_MODES = each(b"+nt,+im,+p,+s,+ps,+sp,+k key,+k kez,+k KEY,+l 5,+l 9,+l 10,+ntkl kez 10,+bbb A* b? x*,+bbb a* B? y*,+bb a* A*,+bb A* a*,+b *!*@H")
TOLD_TOPICS = [b"", b"a", b"b", b"aa", b"A"]
WRONG_MODES = each(b"+,+bbbb 1 2 3 4,+bbb 1 2,+bbb 1 2 3 4,+ii,+i-i,+n+t,nt,+nt-,-+n,+k,-k,+k :a,+kk a b,+l-l 3,+l 0,+l 05,+l 65536,+l,-l 5,"
                   b"+b,+b :m,+s-s,+q,+i i,+o,+vovo bo bo bo bo,+p-s+p")
WRONG_MODES += [[b""], [b"+k", b"a,b"], [b"+k", b"k" * 24], [b"+b", b"m" * 91], [b"+bb", b"m" * 90, b"m" * 90], [b"+o", b"m" * 90],
                [b"+o", b"m" * 91], [b"+o", b""], [b"+o", b"bo al"], [b"+o", b":bo"]]
WRONG_WORDS = (b"0 01 1 2 3 4294967294 4294967295 4294967296 99999999999 -1 1x 9d no.such.net Cap.net nodot a-nickname-of-31-bytes-or-so_xy zz #none #a,b &c #c: "
               b"#c\x07 #c\x07o #c\x07oo bo!u@h + +i -i +ii i +o ++i +-i +x @+bo +@bo @bo, , +bo,@eve u! :h 0210010001 0210010000 TREE| pw pq pd "
               b"a.net b.net c.net al").split(b" ")
WRONG_WORDS += [b"", b"Nick Collision", b"Nick collision", b"#" + b"c" * 50, b"u" * 11, b"p" * 21, b"r" * 51, b"d" * 64, b"h" * 64, b"t" * 161,
                b"s" * 59 + b".net", b",".join([b"bo"] * 10), b",".join([b"bo"] * 11)]
COMMANDS = (b"PASS SERVER SQUIT NICK QUIT JOIN PART KICK MODE TOPIC PRIVMSG NOTICE INVITE NJOIN KILL PING PONG ERROR USER 001 EOB nick Njoin "
            b"SERVERS PAS").split()


class Words:
    """A line as words: its prefix or None, its command, and its parameters."""

    def __init__(self, prefix, command, *parameters):
        self.prefix, self.command, self.parameters = prefix, command, list(parameters)

    def line(self):
        """The line; its last word stands behind a colon where it has to, or where peers write one."""
        *middle, last = self.parameters or [None]
        colon = last is not None and (last == b"" or last[:1] == b":" or b" " in last or self.command not in (b"JOIN", b"MODE", b"PASS", b"INVITE"))
        if last is None or colon:
            return written(self.prefix, self.command, middle, last)
        return written(self.prefix, self.command, self.parameters)


class Generator:
    """Makes a script by chance, with the model beside it."""

    def __init__(self, seed):
        self.random = random.Random(seed)
        self.server = Server()
        self.script, self.wanted, self.kinds = [], [], []
        self.heard, self.clients, self.peer, self.next_fill, self.next_crowd = 0, 0, {}, FILL, CROWD

    def event(self, text, kind="event"):
        """One more event."""
        self.script.append(text)
        self.kinds.append(kind)
        self.wanted.append(self.server.perform(text))

    def hear(self, link, line, kind):
        """A line comes by a link."""
        self.event(f"hear {link} {line.hex()}", kind)
        self.heard += kind in DRAWN

    def chance(self, part):
        return self.random.random() < part

    def pick(self, things, other=None):
        """One of some things, or another where there is none."""
        things = list(things)
        return self.random.choice(things) if things else other

    # Clients.

    def client(self):
        """Something that happens by a client."""
        nicks = sorted(self.server.conns)
        if len(nicks) < 3:
            self.connect()
            return
        nick = self.pick(nicks)
        conn = self.server.conns[nick]
        if self.chance(0.05):
            self.event(f"gone {conn}")
            return
        choices = [[b"JOIN " + self.a_channel()]] * 4 + [[b"JOIN " + self.a_channel() + b" key"], [b"PART " + self.a_channel()],
                   [b"TOPIC " + self.a_channel() + b" :", self.a_text()], [b"INVITE " + self.a_nick() + b" " + self.a_channel()],
                   [b"PRIVMSG " + self.a_target() + b" :x"], [b"NICK " + self.pick((*NICKS, b"9d"))], [b"JOIN #a:b"], [b"QUIT :", self.a_text()]]
        self.event(f"say {conn} {b''.join(self.pick(choices)).hex()}")

    def connect(self):
        self.clients += 1
        self.event(f"connect {self.clients}")
        free = [nick for nick in CLIENTS if fold(nick) not in self.server.users]
        if free:
            for line in (b"NICK " + self.pick(free), b"USER u 0 * :Al", b"JOIN #c"):
                self.event(f"say {self.clients} {line.hex()}")

    def closed_door(self, link):
        """A client is invited to a channel that is closed, or renamed or kicked meanwhile, and comes in."""
        users, nicks = self.users_behind(link), sorted(self.server.conns)
        if not users or not nicks or not self.server.channels:
            return
        nick, name = self.server.users[self.pick(nicks)].nick, self.a_channel()
        conn = self.server.conns[fold(nick)]
        for command, *words in ((b"MODE", name, b"+i"), (b"KICK", name, nick, b"x"), (b"INVITE", nick, name)):
            if link in self.server.links and self.chance(0.9):
                self.hear(link, Words(self.pick(users), command, *words).line(), "fill")
        for line in self.pick(((), (b"NICK " + self.pick(NICKS),), (b"PART #c",))) + (b"JOIN " + name, b"PART " + name, b"JOIN " + name):
            if conn in self.server.nicks:
                self.event(f"say {conn} {line.hex()}")

    def told(self, link):
        """A channel is told as in a burst: somebody comes, in one spelling or another, then modes and topics, of which some raise nothing."""
        users = self.users_behind(link)
        if not users:
            return
        front, name = self.pick(self.behind(link)), self.a_channel()
        name = self.pick((name, name, name.swapcase()))
        lines = [Words(front, b"NJOIN", name, self.pick(MARKS) + self.pick(users))]
        lines += [Words(front, b"MODE", name, *self.pick(TOLD_MODES)) for _ in range(self.pick((1, 2, 3, 4)))]
        lines += [Words(front, b"TOPIC", name, self.pick(TOLD_TOPICS)) for _ in range(self.pick((0, 1, 2)))]
        for words in lines:
            self.hear(link, words.line(), "fill")

    def many_channels(self):
        """A client joins more channels than it may."""
        conn = self.pick(sorted(self.server.nicks))
        for number in range(12 if conn is not None else 0):
            self.event(f"say {conn} {(b'JOIN #j%d' % number).hex()}")
        for number in range(12 if conn is not None else 0):
            self.event(f"say {conn} {(b'PART #j%d' % number).hex()}")

    # Words that are right.

    def a_channel(self):
        there = [channel.name for channel in self.server.channels.values()]
        return self.pick(there if there and self.chance(0.6) else CHANNELS)

    def a_nick(self):
        there = [user.nick for user in self.server.users.values()]
        return self.pick(there if there and self.chance(0.8) else NICKS)

    def a_target(self):
        return self.a_channel() if self.chance(0.5) else self.a_nick()

    def a_text(self):
        return self.pick(TEXTS)

    def behind(self, link):
        """The servers behind a link, by name."""
        return sorted(name for name, row in self.server.known.items() if row.link == link)

    def users_behind(self, link):
        return sorted(user.nick for user in self.server.users.values() if self.server.is_behind(user.home, link))

    # Lines that are right.

    def right(self, link):
        """A line that is right for the state, as words."""
        if self.server.links[link].name is None:
            return self.greeting(link)
        if not self.behind(link):
            return Words(None, b"PASS", b"pw", *model.VERSION)
        users = self.users_behind(link)
        if not users or self.chance(0.5):
            return self.of_server(link)
        return self.of_user(self.pick(users))

    def greeting(self, link):
        """PASS or SERVER."""
        name = self.peer[link]
        if self.server.links[link].password is None:
            return Words(None, b"PASS", PEERS[name], *model.VERSION)
        return Words(None, b"SERVER", name, b"1", b"1", self.pick(DESCRIPTIONS))

    def of_server(self, link):
        front = self.pick(self.behind(link))
        makes = [self.introduction] * 4 + [self.introduced_server] * 2 + [self.njoin] * 4 + [self.server_mode] * 2
        makes += [self.server_topic, self.squit, self.kill]
        return self.pick(makes)(link, front)

    def introduction(self, link, front):
        row = self.server.known[front]
        free = [nick for nick in NICKS if fold(nick) not in self.server.users]
        nick = self.pick(free if free and self.chance(0.85) else NICKS)
        return Words(None, b"NICK", nick, b"%d" % row.distance, self.pick(USERS), self.pick(HOSTS), b"%d" % row.token,
                     self.pick((b"+", b"+i")), self.pick(DESCRIPTIONS))

    def introduced_server(self, link, front, name=None):
        row, taken = self.server.known[front], {row.token for row in self.server.known.values() if row.link == link}
        unknown = [name for name in SERVERS if name not in self.server.known]
        name = name or self.pick(unknown if unknown and self.chance(0.85) else SERVERS)
        token = self.pick([token for token in (1, 2, 3, 4, 5, 6, 7, 4294967295, *range(8, 300)) if token not in taken][:4])
        return Words(front, b"SERVER", name, b"%d" % (row.distance + 1), b"%d" % token, self.pick(DESCRIPTIONS))

    def njoin(self, link, front):
        known = self.users_behind(link)
        nicks = [self.pick(known if known and self.chance(0.8) else NICKS) for _ in range(self.pick((1, 1, 2, 3, 10)))]
        return Words(front, b"NJOIN", self.a_channel(), b",".join(self.pick(MARKS) + nick for nick in nicks))

    def modes(self):
        if self.chance(0.3):
            return (self.pick((b"+o", b"-o", b"+v", b"-v")), self.a_nick())
        return self.pick(MODES)

    def server_mode(self, link, front):
        return Words(front, b"MODE", self.a_channel(), *self.modes())

    def server_topic(self, link, front):
        return Words(front, b"TOPIC", self.a_channel(), self.a_text())

    def squit(self, link, front):
        return Words(front, b"SQUIT", self.pick(self.behind(link)), self.a_text())

    def kill(self, link, front):
        return Words(front, b"KILL", self.a_nick(), model.COLLISION)

    def of_user(self, nick):
        channel, text = self.a_channel(), self.a_text()
        makes = [(b"NICK", self.pick(NICKS)), (b"QUIT", text), (b"JOIN", channel), (b"JOIN", channel + b"\x07o"), (b"PART", channel, text),
                 (b"KICK", channel, self.a_nick(), text), (b"MODE", channel, *self.modes()), (b"MODE", nick, self.pick([b"+i", b"-i"])),
                 (b"TOPIC", channel, text), (self.pick([b"PRIVMSG", b"NOTICE"]), self.a_target(), self.pick([*TEXTS, LONG])),
                 (b"INVITE", self.a_nick(), channel)]
        return Words(nick, *self.pick(makes))

    # Lines with one thing turned.

    def turned(self, link):
        """A right line with one thing turned."""
        words = self.early() if self.server.links[link].name is None and self.chance(0.4) else self.right(link)
        if words.command == b"MODE" and self.chance(0.3):
            words.parameters[1:] = self.pick(WRONG_MODES)
            return words.line()
        turns = [self.drop, self.double, self.long, self.number, self.command, self.swap, self.one_more]
        turns += [self.replace] * 3 + [self.front] * 2
        if self.chance(0.15):
            return self.changed_byte(words.line())
        if words.command == b"SERVER" and self.chance(0.1):
            words.prefix, words.parameters[1] = b"no.such.net", self.pick((b"7", b"4294967294", b"4294967295", b"4294967296"))
            return words.line()
        self.pick(turns)(words)
        return words.line()

    def early(self):
        """A line that would be right on another link, or elsewhere in a handshake."""
        others = [link for link in LINKS if link in self.server.links and self.behind(link)]
        if others and self.chance(0.5):
            return self.of_server(self.pick(others))
        if self.chance(0.5):
            return Words(None, b"PASS", self.pick(sorted(PEERS.values())), *model.VERSION)
        return Words(None, b"SERVER", self.pick(PEERS), b"1", b"1", b"x")

    def place(self, words):
        return self.random.randrange(len(words.parameters))

    def drop(self, words):
        if words.prefix is not None and self.chance(0.3):
            words.prefix = None
        else:
            del words.parameters[self.place(words)]

    def double(self, words):
        place = self.place(words)
        words.parameters.insert(place, words.parameters[place])

    def replace(self, words):
        words.parameters[self.place(words)] = self.another()

    def another(self):
        """Another word, known or not."""
        number = b"%d" % self.random.randrange(1, 9)
        wrong = [self.pick(WRONG_WORDS), self.pick(WRONG_WORDS)]
        return self.pick([*wrong, self.a_nick(), self.a_channel(), self.pick(SERVERS), number, self.a_text()])

    def long(self, words):
        """A word as long as some words may be, or longer."""
        place = self.pick((self.place(words), -1))
        words.parameters[place] = self.pick((b"x", b"x.")) * self.pick(LENGTHS)
        words.parameters[place] = words.parameters[place][:self.pick(LENGTHS)]

    def front(self, words):
        """Another prefix."""
        known = [self.pick(SERVERS), self.pick(SERVERS), self.a_nick(), self.a_nick()]
        words.prefix = self.pick([*known, OWN, b"zz", b"", b"bo!u@h", b"1x", b"no.such.net", self.pick(WRONG_WORDS).replace(b" ", b"")])

    def command(self, words):
        words.command = self.pick(COMMANDS)

    def number(self, words):
        """Another number of a server, where the line has one."""
        places = {b"NICK": 4, b"SERVER": 2}
        place = places.get(words.command, len(words.parameters))
        if place < len(words.parameters):
            words.parameters[place] = b"%d" % self.random.randrange(1, 9)
        else:
            self.replace(words)

    def swap(self, words):
        one, other = self.place(words), self.place(words)
        words.parameters[one], words.parameters[other] = words.parameters[other], words.parameters[one]

    def one_more(self, words):
        words.parameters.insert(self.random.randrange(len(words.parameters) + 1), self.another())

    def changed_byte(self, line):
        place = self.random.randrange(len(line))
        byte = self.pick((self.random.randrange(256), self.pick(line), *b" :#,@+\x07"))
        return line[:place] + bytes([byte]) + line[place + self.pick((0, 1, 1)):]

    # Wild lines.

    def wild(self, link):
        kind = self.random.randrange(4)
        if kind == 0:
            return self.random.randbytes(self.random.choice((3, 20, 100, 509, 510, 511, 600)))
        if kind == 1:
            return b" ".join(self.some_word() for _ in range(self.random.randrange(9)))
        if kind == 2:
            return self.pick(COMMANDS) + b" " + self.random.randbytes(self.random.randrange(60))
        line = self.right(link).line()
        for _ in range(self.random.randrange(1, 6)):
            line = self.changed_byte(line)
        return line + self.pick((b"", b" ", b"   ", b"x" * 510, b"\r", b"\n" + line, b"\0"))

    def some_word(self):
        front = b":" + self.pick([*SERVERS, *NICKS])
        return self.pick([front, self.pick(COMMANDS), self.pick(COMMANDS), self.another(), self.another(), b"\x07o", b" ", b":"])

    # The whole.

    def open(self, link):
        """A link comes up, most often with its handshake and some right lines."""
        unknown = [name for name in PEERS if name not in self.server.known]
        self.peer[link] = self.pick(unknown or PEERS)
        self.event(f"call {link} {self.pick(PEERS).decode()}" if self.chance(0.3) else f"up {link}")
        for _ in range(self.random.randrange(self.pick((1, 2, 2, 10, 10, 10, 10, 10, 10, 60)))):
            self.right_line(link, "greeting")

    def right_line(self, link, kind):
        if link in self.server.links:
            self.hear(link, self.right(link).line(), kind)

    def fill(self, link):
        """As many servers are told of as may be known, or one less, and perhaps one more; then another link comes up."""
        self.next_fill += FILL
        most = self.pick([254, 255])
        while link in self.server.links and self.behind(link) and len(self.server.known) < most:
            name = b"s%d.net" % len(self.script)
            self.hear(link, self.introduced_server(link, self.pick(self.behind(link)), name).line(), "fill")
        other = self.pick([each for each in LINKS if each != link])
        if self.chance(0.5) and other in self.server.links:
            self.event(f"down {other}")
            self.event(f"up {other}")
            self.peer[other] = self.pick([name for name in PEERS if name not in self.server.known], b"b.net")
            self.right_line(other, "fill")
            self.right_line(other, "fill")
        if self.chance(0.5) and link in self.server.links and self.behind(link):
            self.hear(link, self.introduced_server(link, self.pick(self.behind(link)), b"more.net").line(), "fill")

    def crowd(self, link):
        """More users than one line of members has."""
        self.next_crowd += CROWD
        front = self.pick(self.behind(link))
        for number in range(40):
            if self.server.is_behind(front, link):
                words = self.introduction(link, front)
                words.parameters[0] = b"u%d" % number
                self.hear(link, words.line(), "fill")
                self.hear(link, Words(front, b"NJOIN", b"#c", self.pick(MARKS) + b"u%d" % number).line(), "fill")

    def misuse(self, link):
        """An event of what is there already, or is not there."""
        self.event(self.pick((f"up {link}", f"call {link} b.net", "down 6", "hear 6 50", "connect 1", "gone 0")))

    def step(self, link):
        """One drawn line by a link, and what may happen beside it."""
        if self.chance(0.15):
            self.client()
        if self.chance(0.01) and link in self.server.links:
            self.closed_door(link)
        if self.chance(0.15) and link in self.server.links:
            self.told(link)
        if self.chance(0.001):
            self.many_channels()
        if link not in self.server.links:
            self.open(link)
        if self.heard > self.next_fill and link in self.server.links and self.behind(link):
            self.fill(link)
        if self.heard > self.next_crowd and link in self.server.links and self.behind(link):
            self.crowd(link)
        if link not in self.server.links:
            return
        kind = self.pick(("right", "turned", "turned", "wild"))
        if kind == "right":
            self.right_line(link, kind)
        else:
            self.hear(link, (self.turned if kind == "turned" else self.wild)(link), kind)
        if self.chance(0.002) and link in self.server.links:
            self.event(f"down {link}")
        if self.chance(0.001):
            self.misuse(link)

    def make(self, lines):
        """A script with so many lines of links."""
        for _ in range(3):
            self.connect()
        turn = 0
        while self.heard < lines:
            self.step(LINKS[turn % len(LINKS)])
            turn += 1
        return self
