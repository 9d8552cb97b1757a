#!/usr/bin/env python3
"""What daemons that are linked do, on loopback: each part starts its own, by the path of the built program, and ends them by their process ids.

  people   three in a line and four clients across them: register, join, talk, topic, mode, kick, nick, invite, part, quit
  clash    a nickname on both sides before the link: both holders are gone, and nobody else is
  lost     the middle one is killed: who is behind it quits on every screen; it is started again, and the one behind it
  burst    users and channels from before the link are there behind it, with flags, modes and topic
  joined   two sides have one channel with other modes, another topic and another spelling: it is one behind the links, whichever was first
  wild     a peer that sends wild bytes is closed, and nobody else
  deaf     a peer that never reads is closed once more waits than its room, and nobody else
  small    a burst that does not fit into the room of a link closes it, and nobody else
  liars    peers with a wrong password, an unknown name, a name that is there, or lines out of place are closed
  counted  a peer that counts pieces is told how many were read, is read as it meant what it wrote, and is closed where it counts too many
  absent   who is away is told to a peer that said both words and by it, and neither to nor by one that said one of them or none
  away     who is away is shown by servers that have what programs expect, across one that has not, from before a link and until it is back
  doors    a peer at the clients' port stays a client, and a client at the links' port is closed
  silent   peers that connect and say nothing, or no end of a line, change nothing
  knocking who connects at the links' door without end keeps nobody waiting, and new clients come in by theirs
  reset    a peer whose connection is torn down in the middle of a line is a lost link
  waiting  a call that is under way holds up nobody, and is a link once it is answered
  refused  servers that cannot be reached are passed over
  files    the three files of examples/network, on other ports, are a network of three, and are again when any of them was killed and started
  late     a server that comes a second after it was called is called again, and linked
  again    the middle one is killed thirty times and started again, while people talk: each time it is called again, and all rooms are alike then
  crossing two whose calls of each other cross behind a delay are linked each time, and stay so
  ring     three of which each two are to be linked: all know each other within ten seconds, and then no link is lost
  flooding a client that floods another server without end is slowed: the link stays, and nobody else waits, on this machine and over a slow line
  probed   the system asks after both ends of a link
  spoken   what becomes of links is said on standard error; where that is closed, full, or a pipe that nobody reads, nothing ends

tests/linked_daemons.py PROGRAM [PART ..]. PROGRAM is crates/ircd/out/ircd, which `./ircd build` makes.
Exit status: 0 where every part held, 1 where one did not.
"""
import os
import queue
import random
import re
import select
import socket
import subprocess
import sys
import tempfile
import threading
import time

TOP = os.path.dirname(os.path.dirname(os.path.abspath(__file__)))
SECONDS = 20
# how long nothing has to come where nothing may
QUIET = 0.3
# how many may be at the door for links from one address that have not named themselves
MOST_UNNAMED = 16
PASSWORD = "pw"
TICKS = os.sysconf("SC_CLK_TCK")


def free_ports(count):
    """Ports that nobody has, all different."""
    holders = [socket.socket() for _ in range(count)]
    for holder in holders:
        holder.bind(("127.0.0.1", 0))
    ports = [holder.getsockname()[1] for holder in holders]
    for holder in holders:
        holder.close()
    return ports


class Daemon:
    """A server of a network, which may run or not."""

    def __init__(self, program, folder, name, client_room=65536, link_room=262144):
        self.program = program
        self.name = name
        self.port, self.links = free_ports(2)
        self.rooms = (client_room, link_room)
        self.peers = []
        self.head = ""
        self.path = os.path.join(folder, name + ".toml")
        self.text = None
        self.process = None

    def knows(self, name, calls=None, retry=None):
        """May be linked to a server of this name, and calls it at this port, and again after so many seconds."""
        self.peers.append((name, calls, retry))

    def configuration(self):
        text = (f'name = "{self.name}"\ninfo = "Linked"\ncreated = "2024-01-01"\nlisten = "127.0.0.1:{self.port}"\n'
                f'listen_links = "127.0.0.1:{self.links}"\nclient_room = {self.rooms[0]}\nlink_room = {self.rooms[1]}\n')
        text += self.head
        for name, calls, retry in self.peers:
            text += f'[[peer]]\nname = "{name}"\npassword = "{PASSWORD}"\n'
            if calls is not None:
                text += f'connect = "127.0.0.1:{calls}"\n'
            if retry is not None:
                text += f"retry = {retry}\n"
        return text

    def begin(self, **how):
        """Starts, and is not waited for. What it says is kept, unless it is to go somewhere else."""
        with open(self.path, "w", encoding="ascii") as file:
            file.write(self.text or self.configuration())
        with open(self.path + ".said", "wb") as said:
            self.process = subprocess.Popen([self.program, "serve", self.path], stdout=subprocess.PIPE, **({"stderr": said} | how))

    def start(self):
        self.begin()
        return self.is_ready()

    def is_ready(self):
        if self.process.stdout.readline() != b"ready\n":
            raise OSError(f"{self.name} does not say ready")
        return self

    def kill(self):
        if self.process is not None:
            self.process.kill()
            self.process.wait()
            self.process.stdout.close()
            self.process = None

    def said(self, count):
        """The first so many lines that it has said."""
        end = time.monotonic() + SECONDS
        while True:
            with open(self.path + ".said", encoding="ascii") as file:
                lines = file.read().splitlines()
            if len(lines) >= count or time.monotonic() > end:
                return lines
            time.sleep(0.02)

    def is_running(self):
        return self.process is not None and self.process.poll() is None

    def seconds(self):
        """Processor seconds so far."""
        with open(f"/proc/{self.process.pid}/stat", encoding="ascii") as file:
            fields = file.read().rsplit(")", 1)[1].split()
        return (int(fields[11]) + int(fields[12])) / TICKS


class Network:
    """Daemons, and all sockets to them. Of each pair in `calls` the first calls the second, and again after so many seconds."""

    def __init__(self, program, names, calls, retry=None, **rooms):
        self.folder = tempfile.TemporaryDirectory()
        self.sockets = []
        self.daemons = {name: Daemon(program, self.folder.name, name, **rooms) for name in names}
        for caller, called in calls:
            self.daemons[caller].knows(called, self.daemons[called].links, retry)
            self.daemons[called].knows(caller)

    def __getitem__(self, name):
        return self.daemons[name]

    def __enter__(self):
        return self

    def __exit__(self, *_):
        for stream in self.sockets:
            stream.close()
        for daemon in self.daemons.values():
            daemon.kill()
        self.folder.cleanup()

    def keep(self, stream):
        self.sockets.append(stream)
        return stream

    def person(self, server, nick):
        """A registered client."""
        return Person(self, server, nick)

    def peer(self, server, name, **how):
        """A server that is none, which has called one of the daemons."""
        return Peer(self, server, name, **how)

    def see_all(self, server, count, seconds=SECONDS):
        """Waits until a server counts so many servers."""
        probe = self.person(server, f"p{len(self.sockets)}")
        end = time.monotonic() + seconds
        while time.monotonic() < end:
            probe.says("LUSERS")
            if f" {count} servers" in probe.sees(r" 251 "):
                probe.leaves()
                return
            time.sleep(0.02)
        raise OSError(f"{server} does not see {count} servers")

    def all_run(self):
        return all(daemon.process is None or daemon.is_running() for daemon in self.daemons.values())


class Stream:
    """A socket that is read line by line. `seen` are the lines so far, `unseen` those that nobody has looked for yet."""

    def __init__(self, network, port, window=None):
        self.socket = network.keep(socket.socket())
        if window is not None:
            self.socket.setsockopt(socket.SOL_SOCKET, socket.SO_RCVBUF, window)
        self.socket.settimeout(SECONDS)
        self.socket.connect(("127.0.0.1", port))
        self.tail = b""
        self.seen = []
        self.unseen = 0
        self.is_over = False

    def says(self, *lines):
        self.sends("".join(line + "\r\n" for line in lines).encode("latin-1"))

    def sends(self, data):
        self.socket.sendall(data)

    def pump(self, wait):
        """Reads what comes within so many seconds, and tells whether anything did."""
        if self.is_over or not select.select([self.socket], [], [], wait)[0]:
            return False
        try:
            data = self.socket.recv(65536)
        except ConnectionError:
            data = b""
        self.is_over = not data
        pieces = (self.tail + data).split(b"\r\n")
        self.tail = pieces.pop()
        self.seen += [piece.decode("latin-1") for piece in pieces]
        return bool(data)

    def sees(self, pattern):
        """The first line behind the last one that was looked for which has this in it. Those before it are passed over."""
        end = time.monotonic() + SECONDS
        while True:
            for place in range(self.unseen, len(self.seen)):
                if re.search(pattern, self.seen[place]):
                    self.unseen = place + 1
                    return self.seen[place]
            left = end - time.monotonic()
            if left < 0 or not self.pump(left) and self.is_over:
                raise OSError(f"{self} does not see {pattern!r}; its last lines: {self.seen[-4:]}")

    def is_quiet(self):
        """Whether nothing more comes that was not looked for."""
        while self.pump(QUIET):
            pass
        return self.unseen == len(self.seen) and not self.tail

    def ends(self):
        """Whether the other end closes it."""
        end = time.monotonic() + SECONDS
        while not self.is_over and time.monotonic() < end:
            self.pump(end - time.monotonic())
        return self.is_over

    def is_open(self):
        while self.pump(0):
            pass
        return not self.is_over

    def times(self, pattern):
        return sum(1 for line in self.seen if re.search(pattern, line))


class Person(Stream):
    """A registered client."""

    def __init__(self, network, server, nick):
        super().__init__(network, network[server].port)
        self.nick = nick
        self.server = server
        self.says(f"NICK {nick}", f"USER {nick} 0 * :{nick}")
        self.sees(" 422 ")

    def __str__(self):
        return f"{self.nick} of {self.server}"

    def joins(self, channel):
        self.says(f"JOIN {channel}")
        self.sees(" 366 ")
        return self

    def answers(self):
        """How many seconds its server takes to answer it."""
        start = time.monotonic()
        self.says("PING still")
        self.sees(r" PONG .*:still")
        return time.monotonic() - start

    def leaves(self):
        self.says("QUIT :bye")
        self.ends()

    def finds(self, nick):
        """Whether a user of this nickname is there."""
        self.says(f"ISON {nick}")
        return nick in self.sees(" 303 ").rsplit(":", 1)[1].split()


class Peer(Stream):
    """One that says it is a server."""

    def __init__(self, network, server, name, password=PASSWORD, window=None, greets=True):
        super().__init__(network, network[server].links, window)
        self.name = name
        if greets:
            self.says(f"PASS {password} 0210010001 TREE|", f"SERVER {name} 1 1 :A peer")

    def __str__(self):
        return f"the peer {self.name}"

    def linked(self):
        """It is taken for a server, and has read the greeting."""
        self.sees("^PASS ")
        self.sees("^SERVER ")
        return self

    def brings(self, nick, channel):
        """A user of its own comes, and is a member of a channel."""
        self.says(f"NICK {nick} 1 u peer.example 1 + :{nick}", f":{self.name} NJOIN {channel} :{nick}")
        return self


def in_a_line(program, **rooms):
    """a.net, b.net and c.net; b.net calls a.net, and c.net calls b.net. All run, and know each other."""
    network = Network(program, ["a.net", "b.net", "c.net"], [("b.net", "a.net"), ("c.net", "b.net")], **rooms)
    for name in network.daemons:
        network[name].start()
        network.see_all(name, list(network.daemons).index(name) + 1)
    network.see_all("a.net", 3)
    return network


def told(part, holds, text):
    print(f"{'ok  ' if holds else 'FAIL'} {part}: {text}", flush=True)
    return holds


def all_see(people, pattern):
    for person in people:
        person.sees(pattern)


def people(program):
    with in_a_line(program) as network:
        al, bo, cy, di = (network.person(server, nick) for server, nick in
                          [("a.net", "al"), ("b.net", "bo"), ("c.net", "cy"), ("a.net", "di")])
        four = [al, bo, cy, di]
        al.joins("#den")
        for number, person in enumerate(four[1:], 1):
            person.joins("#den")
            all_see(four[:number], f"^:{person.nick}!{person.nick}@127.0.0.1 JOIN #den$")
        cy.says("NAMES #den")
        names = cy.sees(" 353 ").rsplit(":", 1)[1]
        for speaker in four:
            speaker.says(f"PRIVMSG #den :{speaker.nick} speaks")
            all_see([one for one in four if one is not speaker], f"^:{speaker.nick}![^ ]+ PRIVMSG #den :{speaker.nick} speaks$")
        cy.says("PRIVMSG al :to you alone")
        al.sees("^:cy![^ ]+ PRIVMSG al :to you alone$")
        al.says("NOTICE cy :and back")
        cy.sees("^:al![^ ]+ NOTICE cy :and back$")
        al.says("TOPIC #den :tea at four")
        all_see(four, "^:al![^ ]+ TOPIC #den :tea at four$")
        al.says("MODE #den +vo bo cy")
        all_see(four, r"^:al![^ ]+ MODE #den \+vo bo cy$")
        cy.says("MODE #den +m")
        all_see(four, r"^:cy![^ ]+ MODE #den \+m$")
        di.says("PRIVMSG #den :may I")
        di.sees(" 404 ")
        bo.says("PRIVMSG #den :I may")
        all_see([al, cy, di], "^:bo![^ ]+ PRIVMSG #den :I may$")
        cy.says("KICK #den di :not today")
        all_see(four, "^:cy![^ ]+ KICK #den di :not today$")
        bo.says("NICK bob")
        all_see([al, bo, cy], "^:bo![^ ]+ NICK bob$")
        cy.says("MODE #den +i")
        all_see([al, bo, cy], r"^:cy![^ ]+ MODE #den \+i$")
        di.says("JOIN #den")
        di.sees(" 473 ")
        cy.says("INVITE di #den")
        di.sees("^:cy![^ ]+ INVITE di #den$")
        di.joins("#den")
        all_see([al, bo, cy], "^:di![^ ]+ JOIN #den$")
        di.says("WHOIS cy cy")
        di.sees(" 312 di cy c.net ")
        di.says("PART #den :off")
        all_see(four, "^:di![^ ]+ PART #den :off$")
        cy.says("QUIT :good night")
        all_see([al, bo], "^:cy![^ ]+ QUIT :good night$")
        is_quiet = al.is_quiet() and bo.is_quiet() and di.is_quiet()
        return told("people", is_quiet and names.split() == ["@al", "bo", "cy", "di"] and network.all_run(),
                    f"four people on three servers: {len(al.seen)} lines to al, {len(bo.seen)} to bo, {len(cy.seen)} to cy, {len(di.seen)} to di, "
                    "each what it had to be, and no other")


def clash(program):
    with Network(program, ["a.net", "b.net", "c.net"], [("b.net", "a.net"), ("b.net", "c.net")]) as network:
        network["a.net"].start()
        network["c.net"].start()
        al, here = network.person("a.net", "al").joins("#den"), network.person("a.net", "zed").joins("#den")
        al.sees("JOIN #den")
        cy, there = network.person("c.net", "cy").joins("#den"), network.person("c.net", "Zed").joins("#den")
        cy.sees("JOIN #den")
        network["b.net"].start()
        for viewer, killed in [(al, "zed"), (cy, "Zed")]:
            viewer.sees(f"^:{killed}![^ ]+ QUIT :Killed \\(Nick collision\\)$")
        for holder in (here, there):
            holder.sees(r"^ERROR :Closing link \(Killed \(Nick collision\)\)$")
        al.sees("^:cy![^ ]+ JOIN #den$")
        cy.sees("^:al![^ ]+ JOIN #den$")
        al.says("PRIVMSG #den :still here")
        cy.sees("^:al![^ ]+ PRIVMSG #den :still here$")
        is_gone = here.ends() and there.ends() and not al.finds("zed") and not cy.finds("zed")
        return told("clash", is_gone and network.all_run(), "both of one nickname are gone and told why, the two others are in one room")


def lost(program):
    with in_a_line(program) as network:
        al, bo, cy, di = (network.person(server, nick).joins("#den") for server, nick in
                          [("a.net", "al"), ("b.net", "bo"), ("c.net", "cy"), ("c.net", "di")])
        al.sees("^:di![^ ]+ JOIN #den$")
        network["b.net"].kill()
        seen = [al.sees("^:[a-z]+![^ ]+ QUIT ") for _ in range(3)]
        wanted = [f":{nick}!{nick}@127.0.0.1 QUIT :a.net b.net" for nick in ("bo", "cy", "di")]
        beyond = [cy.sees("^:[a-z]+![^ ]+ QUIT ") for _ in range(2)]
        wanted_beyond = [f":{nick}!{nick}@127.0.0.1 QUIT :c.net b.net" for nick in ("al", "bo")]
        all_see([di], "^:bo![^ ]+ QUIT :c.net b.net$")
        is_lost = bo.ends() and seen == wanted and beyond == wanted_beyond and al.is_quiet()
        cy.says("PRIVMSG #den :we two")
        di.sees("^:cy![^ ]+ PRIVMSG #den :we two$")
        # the one that calls is started again: it is linked to a.net, and c.net, which called it, is not
        network["b.net"].start()
        network.see_all("a.net", 2)
        network.see_all("c.net", 1)
        is_alone = al.is_quiet() and cy.is_quiet()
        network["c.net"].kill()
        is_over = cy.ends() and di.ends()
        network["c.net"].start()
        network.see_all("a.net", 3)
        eve = network.person("c.net", "eve").joins("#den")
        al.sees("^:eve![^ ]+ JOIN #den$")
        network["c.net"].kill()
        # at every server of this side the text is that of the two ends
        al.sees("^:eve![^ ]+ QUIT :b.net c.net$")
        return told("lost", is_lost and is_alone and is_over and eve.ends() and network.all_run(),
                    "three quit on one side and two on the other, with the two names; both servers behind the loss were started again")


def burst(program):
    with Network(program, ["a.net", "b.net"], [("b.net", "a.net")]) as network:
        network["a.net"].start()
        al = network.person("a.net", "al").joins("#den")
        al.says("MODE #den +ntk sesame", "MODE #den +b *!*@*.bad.example", "TOPIC #den :before")
        al.sees(" TOPIC ")
        crowd = [network.person("a.net", f"u{number}") for number in range(70)]
        for member in crowd:
            member.says("JOIN #den sesame")
            member.sees(" 366 ")
        al.says("MODE #den +v u7")
        al.sees(" MODE #den .v u7$")
        network["b.net"].start()
        network.see_all("b.net", 2)
        bo = network.person("b.net", "bo")
        bo.says("JOIN #den")
        bo.sees(" 475 ")
        bo.says("JOIN #den sesame")
        bo.sees(" 332 bo #den :before$")
        names = []
        while True:
            line = bo.sees(" (353|366) ")
            if " 366 " in line:
                break
            names += line.rsplit(":", 1)[1].split()
        bo.says("MODE #den", "MODE #den b")
        modes = bo.sees(" 324 ").split(" #den ")[1]
        bo.sees(r" 367 bo #den \*!\*@\*\.bad\.example$")
        wanted = sorted(["@al", "+u7", "bo"] + [f"u{number}" for number in range(70) if number != 7])
        return told("burst", sorted(names) == wanted and modes == "+ntk sesame" and network.all_run(),
                    f"{len(names)} members with their flags, modes {modes}, the ban and the topic came with the link")


# what al's side and cy's have of one channel
RULES = {"al": ["MODE #Den +sk aa", "MODE #Den +bbb A!*@* b!*@* x!*@*", "TOPIC #Den :tea"],
         "cy": ["MODE #den +nkl bb 10", "MODE #den +bbb a!*@* B!*@* y!*@*"]}
# what each sees of the other's
SEEN = {"al": [":cy!cy@127.0.0.1 JOIN #den", ":a.net MODE #den +o cy", ":a.net MODE #den +nkl bb 10", ":a.net MODE #den +bb a!*@* y!*@*"],
        "cy": [":al!al@127.0.0.1 JOIN #den", ":c.net MODE #den +o al", ":c.net MODE #den +s", ":c.net MODE #den +bb b!*@* x!*@*", ":c.net TOPIC #den :tea"]}


def are_joined(program, first, second):
    """b.net links two sides that have one channel: whether both see of it what they have to, and have the same then."""
    with Network(program, ["a.net", "b.net", "c.net"], [("b.net", first), ("b.net", second)]) as network:
        network["a.net"].start()
        network["c.net"].start()
        al, cy = network.person("a.net", "al").joins("#Den"), network.person("c.net", "cy").joins("#den")
        for person in (al, cy):
            for rule in RULES[person.nick]:
                person.says(rule)
                person.sees(f" {re.escape(rule)}$")
        network["b.net"].start()
        network.see_all("a.net", 3)
        network.see_all("c.net", 3)
        all_seen = [[person.sees(".") for _ in SEEN[person.nick]] == SEEN[person.nick] and person.is_quiet() for person in (al, cy)]
        answers = []
        for person in (al, cy):
            person.says("MODE #den", "TOPIC #den", "MODE #den b")
            answers.append([person.sees(f" {number} ").split(f" {person.nick} #den ")[1] for number in (324, 332, 367, 367, 367, 367, 368)])
        wanted = ["+nskl bb 10", ":tea", "a!*@*", "b!*@*", "x!*@*", "y!*@*", ":End of channel ban list"]
        return all(all_seen) and answers == [wanted, wanted] and network.all_run()


def joined(program):
    holds = [are_joined(program, *ends) for ends in (("a.net", "c.net"), ("c.net", "a.net"))]
    return told("joined", all(holds), "both sides see what the other raises, and have one spelling, one topic, all modes and four bans")


def with_peer(program, name="w.net", **rooms):
    """a.net and b.net, which are linked; a.net may also be linked to a peer that is none of ours. al of a.net and bo of b.net share #den."""
    network = Network(program, ["a.net", "b.net"], [("b.net", "a.net")], **rooms)
    network["a.net"].knows(name)
    for server in network.daemons:
        network[server].start()
    network.see_all("a.net", 2)
    al, bo = network.person("a.net", "al").joins("#den"), network.person("b.net", "bo").joins("#den")
    al.sees("^:bo![^ ]+ JOIN #den$")
    return network, al, bo


def are_well(network, al, bo):
    """Whether al and bo still hear each other, and both daemons run."""
    al.says("PRIVMSG #den :are you there")
    bo.sees("^:al![^ ]+ PRIVMSG #den :are you there$")
    bo.says("PRIVMSG #den :I am")
    al.sees("^:bo![^ ]+ PRIVMSG #den :I am$")
    return network.all_run() and al.times(" bo![^ ]+ QUIT | bo QUIT ") == 0


def wild(program):
    network, al, bo = with_peer(program)
    chance = random.Random(48)
    with network:
        closed = 0
        for _ in range(30):
            peer = network.peer("a.net", "w.net").linked().brings("ww", "#den")
            all_see([al, bo], "^:ww!u@peer.example JOIN #den$")
            try:
                peer.sends(bytes(chance.randrange(256) for _ in range(chance.randrange(1, 4000))) + b"\r\nFOO\r\n")
            except ConnectionError:
                pass
            closed += peer.ends()
            all_see([al, bo], "^:ww!u@peer.example QUIT :a.net w.net$")
        # bytes before any greeting
        for _ in range(30):
            peer = network.peer("a.net", "w.net", greets=False)
            try:
                peer.sends(b"\x00\xff" + bytes(chance.randrange(256) for _ in range(600)) + b"\r\nx\r\n")
            except ConnectionError:
                pass
            closed += peer.ends()
        return told("wild", closed == 60 and are_well(network, al, bo) and al.is_quiet() and bo.is_quiet(),
                    f"{closed} of 60 links with wild bytes are closed; 30 times its user quits with the two names, once on each screen")


# of how many users a peer is told that does not read, and of how many new names at most
CROWD = 1000
MOST_NAMES = 400_000
# how many seconds they may take to be served
SERVED = 180


def deaf(program):
    network, al, bo = with_peer(program, link_room=65536)
    with network:
        peer = network.peer("a.net", "w.net", window=4096).linked().brings("ww", "#den")
        all_see([al, bo], "^:ww!u@peer.example JOIN #den$")
        crowd = [network.person("a.net", f"k{number}") for number in range(CROWD)]
        lost = "^:ww!u@peer.example QUIT :a.net w.net$"
        longest = 0.0
        names = 0
        while bo.times(lost) == 0 and names < MOST_NAMES:
            # each name is told to every server
            for number, one in enumerate(crowd):
                one.says(f"NICK m{number}", f"NICK k{number}")
            names += 2 * len(crowd)
            longest = max(longest, bo.answers())
            for one in crowd:
                one.is_open()
        # the names that were said are yet to be served
        end = time.monotonic() + SERVED
        while bo.times(lost) == 0 and time.monotonic() < end:
            longest = max(longest, bo.answers())
            for one in crowd:
                one.is_open()
        al.answers()
        return told("deaf", peer.ends() and longest < 1 and al.times(lost) == 1 and bo.times(lost) == 1 and are_well(network, al, bo),
                    f"a peer that does not read is closed behind {CROWD} users and {names} new names; nobody else waited more than {longest * 1000:.1f} ms")


def small(program):
    network, al, bo = with_peer(program, link_room=4096)
    with network:
        crowd = [network.person("a.net", f"k{number}") for number in range(200)]
        peer = network.peer("a.net", "w.net")
        is_over = peer.ends()
        bo.says("LUSERS")
        servers = bo.sees(" 251 ")
        return told("small", is_over and " 2 servers" in servers and are_well(network, al, bo) and crowd[0].answers() < 1,
                    "a burst of 200 users does not fit into 4,096 bytes: that link is closed, and the link of b.net is not")


def liars(program):
    network, al, bo = with_peer(program)
    with network:
        true = network.peer("a.net", "w.net").linked()
        greeting = f"PASS {PASSWORD} 0210010001 TREE|"
        rows = {
            "a wrong password": ["PASS wrong 0210010001 TREE|", "SERVER w.net 1 1 :W"],
            "a name that is no peer's": [greeting, "SERVER x.net 1 1 :X"],
            "a name that is linked": [greeting, "SERVER b.net 1 1 :B"],
            "a name that another peer has": [greeting, "SERVER w.net 1 1 :W"],
            "the name of the server itself": [greeting, "SERVER a.net 1 1 :A"],
            "no PASS": ["SERVER w.net 1 1 :W"],
            "another version": [f"PASS {PASSWORD} 0210 IRC|", "SERVER w.net 1 1 :W"],
            "the version before": [f"PASS {PASSWORD} 0210010000 TREE|", "SERVER w.net 1 1 :W"],
            "a user before SERVER": [greeting, "NICK nn 1 u h 1 + :N"],
        }
        still_open = []
        for what, lines in rows.items():
            liar = network.peer("a.net", "none", greets=False)
            liar.says(*lines)
            if not liar.ends() or liar.seen:
                still_open.append(what)
        # behind a greeting that is right: what is not this peer's to say
        true.says(":bo PRIVMSG #den :I am bo")
        is_caught = true.ends()
        return told("liars", not still_open and is_caught and bo.times("I am bo") == 0 and are_well(network, al, bo) and al.is_quiet(),
                    f"{len(rows)} greetings are refused without a word, and who speaks for another server's user is closed; not closed: {still_open or 'none'}")


def counted(program):
    network, al, bo = with_peer(program)
    with network:
        peer = network.peer("a.net", "w.net", greets=False)
        peer.says(f"PASS {PASSWORD} 0210010001 TREE| exact1", "SERVER w.net 1 1 :A peer")
        greets = peer.sees("^PASS ").endswith(" TREE| exact1")
        peer.sees("^SERVER ")
        peer.says("NICK ww 1 u peer.example 1 + :W", ":ww JOIN #den")
        al.sees(":ww!")
        # each line behind SERVER was a piece; behind these al has another nickname, which w.net has not read when it writes
        read = pieces_of(peer)
        al.says("NICK ally")
        peer.sees(":al NICK :?ally")
        peer.says(f"COUNT {read} 1", ":ww PRIVMSG al :to whom I knew as al")
        is_meant = "to whom I knew" in al.sees(" PRIVMSG ally ")
        peer.says(*(f":ww PRIVMSG #den :{number}" for number in range(63)))
        is_told = bool(peer.sees("^COUNT 66 0$"))
        is_set = sets_what_is_marked(peer, al)
        is_greater = leaves_out_the_lesser(peer, al)
        is_asked = asks_of_what_has_ended(peer, al)
        is_raised = raises_where_one_was_taken_out(peer, al)
        peer.says("COUNT 1000 1", ":ww PART #den :more than there were")
        is_closed = peer.ends()
        al.says("NICK al")
        bo.sees(" NICK :?al$")
        return told("counted", greets and is_meant and is_told and is_set and is_greater and is_asked and is_raised and is_closed and are_well(network, al, bo),
                    "it is answered with the word, al is told as ally what was said to al, 64 pieces behind the last count are counted, what is marked "
                    "is set and raises otherwise, of two topics at once the greater stays, a channel that has ended there is asked for and one that is there "
                    "told of, what a server raises counts where al has just kicked the one whom it brought, and 1000 end the link")


# what peers say behind PASS
WORDS = {"w.net": " away1 exact1", "x.net": " exact1", "y.net": "", "z.net": " away1 exact1"}


def absent(program):
    with Network(program, ["a.net", "b.net"], [("b.net", "a.net")]) as network:
        for name in WORDS:
            network["a.net"].knows(name)
        for server in network.daemons:
            network[server].start()
        network.see_all("a.net", 2)
        al, bo = network.person("a.net", "al").joins("#den"), network.person("b.net", "bo").joins("#den")
        al.sees("^:bo![^ ]+ JOIN #den$")
        peers = {name: greeting(network, name) for name in list(WORDS)[:3]}
        answered = [peer.sees("^PASS ").endswith(" TREE|" + WORDS[name]) for name, peer in peers.items()]
        # ww is away, and says so behind its coming; it is told with what is behind that
        peers["w.net"].says("NICK ww 1 u peer.example 1 + :W", ":ww MODE ww +a :at lunch", ":ww MODE ww +i")
        sees_all = [peer.sees(r" MODE ww \+[ai]") for peer in (peers["x.net"], peers["y.net"])]
        late = greeting(network, "z.net")
        is_told = late.sees(r"^:ww MODE ww \+a") == ":ww MODE ww +a :at lunch"
        # and who may not tell it is closed for it
        closed = []
        for name, nick in (("x.net", "xx"), ("y.net", "yy")):
            peers[name].says(f"NICK {nick} 1 u peer.example 1 + :{nick}", f":{nick} MODE {nick} +a :at lunch")
            closed.append(peers[name].ends())
        is_open = peers["w.net"].is_open() and late.is_open()
        return told("absent", all(answered) and all(line.endswith("+i") for line in sees_all) and is_told and all(closed) and is_open and are_well(network, al, bo),
                    "each peer is answered with the words that it said, all or some or none; that ww is away goes to another that said all, in its burst, "
                    "and not to one that said less, which is closed where it tells of it")


def away(program):
    """b.net in the middle has not what programs expect; al is away at a.net from before the links of c.net."""
    with Network(program, ["a.net", "b.net", "c.net"], [("b.net", "a.net"), ("c.net", "b.net")]) as network:
        network["a.net"].head = network["c.net"].head = "programs = true\n"
        for name in ("a.net", "b.net"):
            network[name].start()
        network.see_all("a.net", 2)
        al, bo = network.person("a.net", "al").joins("#den"), network.person("b.net", "bo").joins("#den")
        al.sees("^:bo![^ ]+ JOIN :?#den$")
        al.says("AWAY :at lunch", "PRIVMSG #den :gone")
        al.sees(" 306 ")
        bo.sees("^:al![^ ]+ PRIVMSG #den :gone$")
        network["c.net"].start()
        network.see_all("c.net", 3)
        cy = network.person("c.net", "cy")
        answers = []
        for person in (bo, cy):
            person.says("PRIVMSG al :hi", "WHO al", "WHOIS al", "USERHOST al", "NOTICE al :hi", "PING end")
            person.sees(" PONG .*end$")
            answers.append([line for line in person.seen if re.search(r" (301|302|352|421) ", line)])
        of_bo, of_cy = answers
        untold = [line.split(" ")[1] for line in of_bo] == ["352", "421"] and " H " in of_bo[0]
        shown = [line.split(" ")[1] for line in of_cy] == ["301", "352", "301", "302"]
        shown = shown and of_cy[0].endswith(" 301 cy al :at lunch") and " G " in of_cy[1] and ":al=-" in of_cy[3]
        al.says("AWAY", "PRIVMSG cy :back")
        cy.sees("^:al![^ ]+ PRIVMSG cy :back$")
        cy.says("PRIVMSG al :hi", "WHO al")
        back = " H " in cy.sees(" 352 ") and not any(" 301 " in line for line in cy.seen[-2:])
        return told("away", untold and shown and back and network.all_run(),
                    "across a server that does not show it, and from before a link, cy is told that al is away, and no more when al is back; bo nothing")


def greeting(network, name):
    """A peer that calls a.net with its words."""
    peer = network.peer("a.net", name, greets=False)
    peer.says(f"PASS {PASSWORD} 0210010001 TREE|{WORDS[name]}", f"SERVER {name} 1 1 :A peer")
    return peer


def pieces_of(peer):
    """How many pieces it was told behind PASS and SERVER."""
    return sum(not line.startswith("COUNT ") for line in peer.seen) - 2


def sets_what_is_marked(peer, al):
    """A topic of a server is set where its line is marked, else only where it is the greater."""
    al.says("TOPIC #den :zeta")
    peer.sees(" TOPIC #den :?zeta")
    count = f"COUNT {pieces_of(peer)} 1"
    peer.says(count, ":w.net TOPIC #den :alpha", f"{count} set", ":w.net TOPIC #den :beta")
    return al.sees(":a.net TOPIC #den ").endswith("beta")


def leaves_out_the_lesser(peer, al):
    """Of two topics at once, where the peer has not read the one of al, the greater stays."""
    al.says("TOPIC #den :mm")
    peer.sees(" TOPIC #den :?mm")
    peer.says(":ww TOPIC #den :kk", ":ww TOPIC #den :zz")
    return al.sees(":ww!.* TOPIC #den ").endswith("zz")


def asks_of_what_has_ended(peer, al):
    """The peer, which has not read that al was the last one in #gone, comes to it, and is asked of it; it asks of #den, and is told."""
    al.says("JOIN #gone")
    peer.sees(" JOIN :?#gone")
    count = f"COUNT {pieces_of(peer)} 1"
    al.says("PART #gone")
    peer.sees(" PART #gone")
    peer.says(count, ":ww JOIN #gone")
    is_asked = peer.sees("^(TELL .*|:a.net .*)$") == "TELL #gone"
    peer.says("TELL #den")
    is_spelled = peer.sees("^:a.net NJOIN #den :") == ":a.net NJOIN #den :"
    return is_asked and is_spelled and "ally" in peer.sees("^:a.net NJOIN #den :.") and peer.sees("^:a.net TOPIC #den :").endswith("zz")


def raises_where_one_was_taken_out(peer, al):
    """The peer brings ww to #hut and raises a key there, before it reads that al has kicked ww; a key that is less is none."""
    al.says("JOIN #hut")
    peer.sees(" JOIN :?#hut")
    peer.says(f"COUNT {pieces_of(peer)} 1", ":w.net NJOIN #hut :ww")
    al.sees(":ww!.* JOIN :?#hut")
    al.says("KICK #hut ww :out")
    peer.sees(" KICK #hut ww ")
    peer.says(":w.net MODE #hut +k xx", ":w.net MODE #hut +nk a", ":w.net MODE #hut +k yy")
    return [al.sees(":a.net MODE #hut ") for _ in range(3)] == [f":a.net MODE #hut {modes}" for modes in ("+k xx", "+n", "+k yy")]


def doors(program):
    network, al, bo = with_peer(program)
    with network:
        lost_peer = Stream(network, network["a.net"].port)
        lost_peer.says(f"PASS {PASSWORD} 0210010001 TREE|", "SERVER w.net 1 1 :W", "NICK ww 1 u h 1 + :W")
        lost_peer.sees(" (421|451) .*")
        al.says("LUSERS")
        servers = al.sees(" 251 ")
        astray = Stream(network, network["a.net"].links)
        astray.says("NICK astray", "USER astray 0 * :Astray")
        is_closed = astray.ends() and not astray.seen
        return told("doors", lost_peer.is_open() and " 2 servers" in servers and is_closed and not al.finds("astray") and are_well(network, al, bo),
                    "a peer at the clients' port is no server and stays a client; a client at the links' port is closed without a word")


def silent(program):
    network, al, bo = with_peer(program)
    with network:
        mute = [network.peer("a.net", "w.net", greets=False) for _ in range(MOST_UNNAMED - 1)]
        endless = network.peer("a.net", "w.net", greets=False)
        endless.sends(b"x" * 1_000_000)
        one_more = network.peer("a.net", "w.net", greets=False)
        is_refused = one_more.ends()
        time.sleep(QUIET)
        before = network["a.net"].seconds()
        time.sleep(1)
        busy = network["a.net"].seconds() - before
        is_open = all(one.is_open() for one in mute) and endless.is_open()
        endless.sends(b"\r\n")
        has_ended = endless.ends() and all(one.ends() for one in mute)
        return told("silent", is_refused and is_open and has_ended and busy < 0.05 and are_well(network, al, bo) and al.is_quiet(),
                    f"{len(mute)} that say nothing and a line of a million bytes without an end wait, and cost {busy * 100:.0f} of 100 of a processor; "
                    "one more is closed at once, the last one by its end, and they within 10 s")


KNOCKER = """
import socket, sys
while True:
    crowd = []
    for _ in range(100):
        one = socket.socket()
        one.setblocking(False)
        one.connect_ex(("127.0.0.1", int(sys.argv[1])))
        crowd.append(one)
    for one in crowd:
        one.close()
"""


def knocking(program):
    network, al, bo = with_peer(program)
    with network:
        # another process, so that it does not share this one's time
        knocker = subprocess.Popen([sys.executable, "-c", KNOCKER, str(network["a.net"].links)])
        try:
            time.sleep(QUIET)
            before = network["a.net"].seconds()
            start = time.monotonic()
            for number in range(50):
                network.person("a.net", f"n{number}")
            took = time.monotonic() - start
            longest = max(al.answers() for _ in range(100))
            busy = network["a.net"].seconds() - before
            is_knocking = knocker.poll() is None
        finally:
            knocker.kill()
            knocker.wait()
        return told("knocking", is_knocking and took < 5 and longest < 0.5 and are_well(network, al, bo) and al.is_quiet(),
                    f"50 clients come in in {took:.2f} s, and a PING takes {longest * 1000:.1f} ms at most; {busy:.2f} s of the daemon")


def reset(program):
    network, al, bo = with_peer(program)
    with network:
        for _ in range(10):
            peer = network.peer("a.net", "w.net").linked().brings("ww", "#den")
            all_see([al, bo], "^:ww!u@peer.example JOIN #den$")
            peer.sends(b":w.net NJOIN #den :@w")
            # no rest of the line: the connection is torn down
            peer.socket.setsockopt(socket.SOL_SOCKET, socket.SO_LINGER, b"\1\0\0\0\0\0\0\0")
            peer.socket.close()
            all_see([al, bo], "^:ww!u@peer.example QUIT :a.net w.net$")
        return told("reset", are_well(network, al, bo) and al.is_quiet() and bo.is_quiet(), "ten links torn down in the middle of a line, each seen once on each screen")


SYN_SENT = "02"


def is_calling(daemon, port):
    """Whether a daemon has a call under way to a port."""
    folder = f"/proc/{daemon.process.pid}/fd"
    own = {os.readlink(os.path.join(folder, name)) for name in os.listdir(folder)}
    with open("/proc/net/tcp", encoding="ascii") as table:
        rows = [line.split() for line in list(table)[1:]]
    return any(row[2].endswith(f":{port:04X}") and row[3] == SYN_SENT and f"socket:[{row[9]}]" in own for row in rows)


def waiting(program):
    with Network(program, ["a.net", "b.net"], [("b.net", "a.net")]) as network, socket.socket() as door:
        # a door that takes nobody: who knocks behind the first few is not answered, and asks again by and by
        port = network["a.net"].links
        door.bind(("127.0.0.1", port))
        door.listen(0)
        knocking = [network.keep(socket.socket()) for _ in range(4)]
        for one in knocking:
            one.setblocking(False)
            one.connect_ex(("127.0.0.1", port))
        start = time.monotonic()
        network["b.net"].start()
        took = time.monotonic() - start
        bo = network.person("b.net", "bo")
        longest = max(bo.answers() for _ in range(100))
        is_under_way = is_calling(network["b.net"], port)
        # the door opens: all that wait are taken, and one of them greets
        taken = []
        greeting = b""
        end = time.monotonic() + SECONDS
        while not greeting and time.monotonic() < end:
            for one in select.select([door] + taken, [], [], 0.1)[0]:
                if one is door:
                    taken.append(network.keep(door.accept()[0]))
                else:
                    greeting += one.recv(65536)
        return told("waiting", took < 1 and longest < 0.2 and is_under_way and greeting.startswith(b"PASS pw 0210010001 TREE| away1 exact1\r\nSERVER b.net 1 1 :"),
                    f"ready in {took * 1000:.0f} ms, and answers within {longest * 1000:.1f} ms while its call is under way; the call that is taken at last greets")


def refused(program):
    with Network(program, ["a.net", "b.net", "c.net"], [("b.net", "a.net"), ("b.net", "c.net")]) as network:
        # a.net is not there, c.net is
        network["c.net"].start()
        network["b.net"].start()
        network.see_all("b.net", 2)
        bo = network.person("b.net", "bo")
        network["a.net"].start()
        network.see_all("a.net", 1)
        network.see_all("c.net", 2)
        return told("refused", bo.answers() < 1 and bo.is_quiet() and network.all_run(),
                    "of two servers that are called the one that is there is linked; the other is passed over, and not called again as it comes")


def files(program):
    names = ["a", "b", "c"]
    texts = {}
    for name in names:
        with open(os.path.join(TOP, "examples/network", name + ".toml"), encoding="ascii") as file:
            texts[name] = file.read()
    used = sorted(set(re.findall(r"127\.0\.0\.1:(\d+)", "".join(texts.values()))))
    ports = dict(zip(used, free_ports(len(used))))
    with Network(program, [name + ".net" for name in names], []) as network:
        for name in names:
            daemon = network[name + ".net"]
            daemon.text = re.sub(r"(127\.0\.0\.1):(\d+)", lambda found: f"{found[1]}:{ports[found[2]]}", texts[name])
            daemon.port = int(re.search(r'listen = "127.0.0.1:(\d+)"', daemon.text)[1])
            daemon.start()
        network.see_all("a.net", 3)
        al, cy = network.person("a.net", "al").joins("#den"), network.person("c.net", "cy").joins("#den")
        al.sees("^:cy![^ ]+ JOIN #den$")
        for name in network.daemons:
            network[name].kill()
            network[name].start()
            network.see_all("a.net", 3)
            network.see_all("c.net", 3)
        return told("files", network.all_run() and len(used) == 5,
                    "al of a.net and cy of c.net are in one room; each of the three was killed and started again, and all were linked again")


def late(program):
    with Network(program, ["a.net", "b.net"], [("b.net", "a.net")], retry=2) as network:
        network["b.net"].start()
        time.sleep(1)
        network["a.net"].start()
        start = time.monotonic()
        network.see_all("b.net", 2)
        took = time.monotonic() - start
        return told("late", 0.5 < took < 5 and network.all_run(), f"who comes a second after it was called, to be called again after two, is linked {took:.2f} s later")


class Talk(threading.Thread):
    """Some who talk in a channel until they are stopped."""

    def __init__(self, people, channel):
        super().__init__(daemon=True)
        self.people = people
        self.channel = channel
        self.lines = 0
        self.is_over = False

    def run(self):
        while not self.is_over:
            for person in self.people:
                person.says(f"PRIVMSG {self.channel} :{self.lines}")
                person.is_open()
                self.lines += 1
            time.sleep(0.05)

    def ends(self):
        self.is_over = True
        self.join()


def room_at(network, server, channel):
    """Who is in a channel, its modes and its topic, as a server shows them to somebody who looks."""
    viewer = network.person(server, f"v{len(network.sockets)}")
    viewer.says(f"NAMES {channel}", f"MODE {channel}", f"LIST {channel}")
    names = []
    while not (line := viewer.sees(" (353|366) ")).split()[1] == "366":
        names += line.rsplit(":", 1)[1].split()
    modes = viewer.sees(" 324 ").split(f" {channel} ")[1]
    row = viewer.sees(" 322 ").split(f" {channel} ")[1]
    viewer.leaves()
    return sorted(names), modes, row


ROUNDS = 30


def again(program):
    with Network(program, ["a.net", "b.net", "c.net"], [("a.net", "b.net"), ("c.net", "b.net")], retry=1) as network:
        for name in network.daemons:
            network[name].start()
        network.see_all("a.net", 3, seconds=60)
        al, cy = network.person("a.net", "al").joins("#den"), network.person("c.net", "cy").joins("#den")
        al.sees("^:cy![^ ]+ JOIN #den$")
        al.says("MODE #den +tl 40", "TOPIC #den :tea at four")
        cy.sees(" TOPIC #den ")
        talkers = [network.person(server, f"{server[0]}{number}").joins("#den") for number in range(4) for server in ("a.net", "c.net")]
        talk = Talk(talkers, "#den")
        talk.start()
        unlike, longest = 0, 0.0
        try:
            for number in range(ROUNDS):
                network["b.net"].kill()
                network.see_all("a.net", 1)
                network["b.net"].start()
                start = time.monotonic()
                # the seconds until a call are those of waits that nobody ends, so talk makes them longer
                for server in network.daemons:
                    network.see_all(server, 3, seconds=60)
                longest = max(longest, time.monotonic() - start)
                bo = network.person("b.net", f"bo{number}").joins("#den")
                al.sees(f"^:bo{number}![^ ]+ JOIN #den$")
                cy.sees(f"^:bo{number}![^ ]+ JOIN #den$")
                rooms = [room_at(network, server, "#den") for server in network.daemons]
                unlike += len(rooms[0][0]) != 11 or rooms[1:] != rooms[:1] * 2
                bo.is_open()
        finally:
            talk.ends()
        return told("again", unlike == 0 and network.all_run() and talk.lines > 1000,
                    f"the middle one was killed {ROUNDS} times under {talk.lines} texts, and known to all again after {longest:.2f} s at most; rooms unlike: {unlike}")


class Line(threading.Thread):
    """A line between two servers: takes calls at a port of its own, and hands on what is sent either way, so many seconds later, and no more than so
    many bytes a second. The first call waits until the gate is open."""

    def __init__(self, network, target, delay=0.0, rate=None, gate=None):
        super().__init__(daemon=True)
        self.door = network.keep(socket.create_server(("127.0.0.1", 0)))
        self.port = self.door.getsockname()[1]
        self.network = network
        self.target = target
        self.delay = delay
        self.rate = rate
        self.gate = gate
        self.start()

    def run(self):
        while True:
            try:
                near = self.network.keep(self.door.accept()[0])
                if self.gate is not None:
                    self.gate.wait(SECONDS)
                    self.gate = None
                far = self.network.keep(socket.create_connection(("127.0.0.1", self.target)))
            except OSError:
                if self.door.fileno() < 0:
                    return
                near.close()
                continue
            for source, sink in ((near, far), (far, near)):
                pieces = queue.Queue(64)
                threading.Thread(target=self.reads, args=(source, pieces), daemon=True).start()
                threading.Thread(target=self.writes, args=(sink, pieces), daemon=True).start()

    def reads(self, source, pieces):
        data = b"-"
        while data:
            try:
                data = source.recv(16384)
            except OSError:
                data = b""
            if self.rate:
                time.sleep(len(data) / self.rate)
            pieces.put((time.monotonic() + self.delay, data))

    def writes(self, sink, pieces):
        data = b"-"
        while data:
            due, data = pieces.get()
            time.sleep(max(0.0, due - time.monotonic()))
            try:
                if data:
                    sink.sendall(data)
                else:
                    sink.shutdown(socket.SHUT_RDWR)
            except OSError:
                pass


def settles(network, seconds):
    """Looks for so many seconds at how many servers each counts, and tells when one of them last counted not all."""
    probes = [network.person(server, "probe" + server[0]) for server in network.daemons]
    start = time.monotonic()
    last = 0.0
    while (now := time.monotonic() - start) < seconds:
        for probe in probes:
            probe.says("LUSERS")
            if f" {len(probes)} servers" not in probe.sees(r" 251 "):
                last = now
        time.sleep(0.02)
    for probe in probes:
        probe.leaves()
    return last


def crossing(program):
    longest = 0.0
    for _ in range(20):
        with Network(program, ["a.net", "b.net"], []) as network:
            gate = threading.Barrier(2)
            for caller, called in (("a.net", "b.net"), ("b.net", "a.net")):
                network[caller].knows(called, Line(network, network[called].links, delay=0.02, gate=gate).port, retry=1)
            for server in network.daemons:
                network[server].begin()
            for server in network.daemons:
                network[server].is_ready()
            longest = max(longest, settles(network, 12))
    return told("crossing", longest < 10, f"two whose calls of each other crossed behind 20 ms were linked 20 times, after {longest:.2f} s at most, and stayed so")


def ring(program):
    """Two are linked as the third one calls both of them."""
    longest = 0.0
    for _ in range(10):
        with Network(program, ["a.net", "b.net", "c.net"], []) as network:
            for caller, called in (("b.net", "a.net"), ("c.net", "a.net"), ("c.net", "b.net")):
                network[caller].knows(called, Line(network, network[called].links, delay=0.02).port, retry=1)
                network[called].knows(caller)
            network["a.net"].start()
            network["b.net"].start()
            network.see_all("a.net", 2)
            network["c.net"].start()
            longest = max(longest, settles(network, 15))
    return told("ring", longest < 10, f"ten times a third one called two that were linked: all knew each other after {longest:.2f} s at most, and no link was lost then")


CLIENT = """
import socket, sys
s = socket.create_connection(("127.0.0.1", int(sys.argv[1])))
s.sendall(b"NICK %s\\r\\nUSER u 0 * :x\\r\\n" % sys.argv[2].encode())
read = b""
while b" 422 " not in read:
    read += s.recv(65536)
print("ready", flush=True)
"""

READER = CLIENT + """
while s.recv(1 << 20):
    pass
"""

FLOODER = CLIENT + """
line = b"PRIVMSG reader :" + b"x" * 400 + b"\\r\\n"
while True:
    s.sendall(line * 50)
"""


def as_process(code, *words):
    """A client that is a process of its own, so that it does not share this one's time."""
    process = subprocess.Popen([sys.executable, "-c", code, *map(str, words)], stdout=subprocess.PIPE, stderr=subprocess.DEVNULL)
    process.stdout.readline()
    return process


def flooded(program, seconds, rate):
    """The longest that others wait beside a flood to another server, whether the link is never lost meanwhile, and whether the flood was
    read to the end."""
    with Network(program, ["a.net", "b.net"], [], client_room=524288, link_room=1048576) as network:
        network["b.net"].knows("a.net", Line(network, network["a.net"].links, rate=rate).port if rate else network["a.net"].links)
        network["a.net"].knows("b.net")
        for server in network.daemons:
            network[server].start()
        network.see_all("a.net", 2)
        al, bo = network.person("a.net", "al").joins("#den"), network.person("b.net", "bo").joins("#den")
        al.sees("^:bo![^ ]+ JOIN #den$")
        clients = [as_process(READER, network["b.net"].port, "reader"), as_process(FLOODER, network["a.net"].port, "flooder")]
        longest, end = 0.0, time.monotonic() + seconds
        try:
            while time.monotonic() < end:
                time.sleep(0.05)
                longest = max(longest, al.answers(), bo.answers())
            is_flooding = all(client.poll() is None for client in clients)
        finally:
            for client in clients:
                client.kill()
                client.wait()
                client.stdout.close()
        al.says("LUSERS")
        is_linked = " 2 servers" in al.sees(" 251 ") and not al.times(" QUIT ") and not bo.times(" QUIT ")
        return longest, is_linked and network.all_run(), is_flooding


def flooding(program):
    held = True
    for seconds, rate in ((30, None), (30, 1_250_000)):
        longest, is_linked, is_read = flooded(program, seconds, rate)
        held = told("flooding", is_linked and is_read and longest < 0.025,
                    f"behind {seconds} s of a flood over a link {'of 1.25 MB/s' if rate else 'on this machine'} that link is {'there' if is_linked else 'LOST'}; "
                    f"who is flooded is {'there' if is_read else 'LOST'}; others waited {longest * 1000:.1f} ms at most") and held
    return held


def probed(program):
    with Network(program, ["a.net", "b.net"], [("b.net", "a.net")]) as network:
        for server in network.daemons:
            network[server].start()
        network.see_all("a.net", 2)
        port = network["a.net"].links
        table = subprocess.run(["ss", "-Htno", "state", "established", f"( sport = :{port} or dport = :{port} )"],
                               capture_output=True, text=True, check=True).stdout.splitlines()
        count = sum("timer:(keepalive," in row for row in table)
        return told("probed", len(table) == 2 and count == 2, f"of two ends of a link the system asks after {count}")


SAID_BY_CALLED = ["ircd: link from b.net: up",
                  "ircd: link from x.net at 127.0.0.1: refused: a wrong password",
                  "ircd: link from x.net: up",
                  "ircd: link from x.net: closed: a line with an unknown command",
                  "ircd: link from an unknown server at 127.0.0.1: lost before it was up (2 more)",
                  "ircd: link from b.net: lost"]


def all_said(program):
    with Network(program, ["a.net", "b.net"], [("b.net", "a.net")], retry=1) as network:
        called, caller = network["a.net"], network["b.net"]
        called.knows("x.net")
        caller.start()
        first = caller.said(1)[0]
        called.start()
        network.see_all("a.net", 2)
        network.peer("a.net", "x.net", password="none").ends()
        for _ in range(2):
            network.peer("a.net", "x.net", greets=False).socket.close()
        network.peer("a.net", "x.net").linked().says("FOO")
        called.said(4)
        time.sleep(1.1)
        network.peer("a.net", "x.net", greets=False).socket.close()
        called.said(5)
        caller.kill()
        lines = called.said(6)
        return told("spoken", first == "ircd: link to a.net: not reached: Connection refused (os error 111)" and lines == SAID_BY_CALLED,
                    f"the caller says first {first!r}, and the called one {lines}")


def goes_on(program, how, text):
    """Whether a server answers behind so many links that were refused, each from an address of its own, that no pipe holds what is to be said of them."""
    with Network(program, ["a.net"], []) as network:
        network["a.net"].begin(**how)
        network["a.net"].is_ready()
        al = network.person("a.net", "al")
        for count in range(1500):
            own = (f"127.0.{1 + count // 250}.{1 + count % 250}", 0)
            with socket.create_connection(("127.0.0.1", network["a.net"].links), timeout=SECONDS, source_address=own) as stream:
                stream.sendall(b"FOO\r\n")
                while stream.recv(4096):
                    pass
        return told("spoken", al.answers() < 1 and network.all_run(), f"it goes on where standard error is {text}")


def spoken(program):
    held = all_said(program)
    unread, writer = os.pipe()
    with open("/dev/full", "wb") as full:
        held = goes_on(program, {"stderr": full}, "full") and held
    held = goes_on(program, {"stderr": writer}, "a pipe that nobody reads") and held
    os.close(unread)
    held = goes_on(program, {"stderr": writer}, "a pipe whose reader is gone") and held
    os.close(writer)
    return goes_on(program, {"stderr": None, "preexec_fn": lambda: os.close(2)}, "closed") and held


PARTS = [people, clash, lost, burst, joined, wild, deaf, small, liars, counted, absent, away, doors, silent, knocking, reset, waiting, refused, files, late, again, crossing,
         ring, flooding, probed, spoken]


def holds(part, program):
    try:
        return part(program)
    except OSError as error:
        return told(part.__name__, False, f"{type(error).__name__}: {error}")


def main():
    if len(sys.argv) < 2 or not os.access(sys.argv[1], os.X_OK):
        print("usage: tests/linked_daemons.py PROGRAM [PART ..]", file=sys.stderr)
        return 1
    by_name = {part.__name__: part for part in PARTS}
    unknown = [name for name in sys.argv[2:] if name not in by_name]
    if unknown:
        print(f"linked_daemons: no part {unknown[0]}; there are {', '.join(by_name)}", file=sys.stderr)
        return 1
    wanted = [by_name[name] for name in sys.argv[2:]] or PARTS
    return 0 if all([holds(part, os.path.abspath(sys.argv[1])) for part in wanted]) else 1


if __name__ == "__main__":
    sys.exit(main())
