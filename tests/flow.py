#!/usr/bin/env python3
"""What people and strangers without a password can do to daemons that are linked, on loopback, some behind lines that narrow what goes over them: each row
starts its own daemons, and says what was wanted and what came. A link is lost where a daemon says so on standard error.

  relayed    one client floods a channel, in which somebody reads two servers away; no link is lost
  far        four flood a channel in which somebody reads two servers away, behind 100 ms a way and 12.5 MB/s; no link is lost
  leaves     one takes one nickname after another at a server with twenty others; no link is lost
  coming     clients connect, register and go, five at a time; no link is lost
  parting    fifty join and part ten channels each, with a text, beside two that say PING without end; no link is lost
  called     one says PING, or an unregistered one a byte, 1,000 times a second; a lost link is called again in time
  strangers  a thousand connect to `listen_links` and say nothing; a client's PING costs at most twice what it costs without them
  nameless   clients connect, and do not register; they are closed in time, and nobody who has registered is
  mute       a peer accepts a call and never speaks; it is called again
  reader     how long a slow reader is kept at another server than who floods it; a figure alone
  quiet      how long the line of a quiet person takes over a link over which 1, 10 and 50 flood; at 1.25 MB/s less than a second
  memory     many come and go, in waves; what stays resident is at most twice what the daemon had before, and 20 MB
  line       five servers in a line, at each two who flood a channel and a slow reader; no link is lost, and what quiet people say comes, in order
  star       the same with one server in the middle of four
  stopped    four in a line of which the last one is stopped, as one floods at the first; the link of the last one is lost, and no other

tests/flow.py PROGRAM [ROW ..] [--long] [--slack SECONDS]. PROGRAM is crates/ircd/out/ircd, which `./ircd build` makes. --long: 60 s for each flood, and
the full numbers of people; --slack: how much later than promised a busy machine may call (0.5).
Exit status: 0 where every row held, 1 where one did not.
"""
import argparse
import functools
import os
import re
import resource
import select
import signal
import socket
import subprocess
import sys
import time

import hostile_sockets
from linked_daemons import SECONDS, Network, told

HERE = os.path.dirname(os.path.abspath(__file__))
RATES = [125_000, 1_250_000, 12_500_000, None]
MIB = 1 << 20
CLIENT_ROOM = 524288
# what a server's own name may add to `retry`
SPREAD = 0.8
# until when a peer has to have named itself
NAME_WITHIN = 10
# until when a client has to have registered, where that is given
REGISTER_WITHIN = 3
# how long a link may take nothing and say nothing, where the daemon has a key for that, and for how long it is given here
GIVE_UP, SHORT_GIVE_UP = 30, 5
# what is said of a link that was up: all but these words
LOST = re.compile(r"^ircd: link (?:to|from) (\S+): (?!up$|not reached|refused|lost before)", re.M)
QUIET = "#quiet"
DEN = "#den"

# A line between two servers, in a process of its own. What waits has to wait where it comes from, so little of it lies here.
NARROW = """
sys.path.insert(0, sys.argv[1])
from types import SimpleNamespace
from linked_daemons import Line
line = Line(SimpleNamespace(keep=lambda it: it), int(sys.argv[2]), delay=float(sys.argv[4]), rate=int(sys.argv[3]))
line.door.setsockopt(socket.SOL_SOCKET, socket.SO_RCVBUF, 32768)
print(line.port, flush=True)
line.join()
"""

# Clients that say some lines once, and then others without end. @ is the nickname of each. They read all that comes.
TALKERS = """
import selectors
look, unsaid, total, last = selectors.DefaultSelector(), {}, 0, time.monotonic()
for nick in sys.argv[2].encode().split(b","):
    s = person(nick)
    once, always = [word.encode().replace(b"@", nick) for word in sys.argv[3:5]]
    s.sendall(once)
    s.setblocking(False)
    look.register(s, selectors.EVENT_READ | selectors.EVENT_WRITE)
    unsaid[s] = (always * (20000 // len(always) + 1), 0)
print("ready", flush=True)
while look.get_map():
    for key, events in look.select():
        s = key.fileobj
        block, place = unsaid[s]
        try:
            if events & selectors.EVENT_READ:
                count = len(s.recv(1 << 20))
                if not count:
                    raise ConnectionError
                total += count
            if events & selectors.EVENT_WRITE:
                unsaid[s] = (block, (place + s.send(block[place:])) % len(block))
        except BlockingIOError:
            pass
        except ConnectionError:
            look.unregister(s)
    if time.monotonic() > last + 0.2:
        last = time.monotonic()
        print("read", total, flush=True)
"""

# One that reads what is said in a channel: so many bytes a second, or all that it can; where it is one of several, it is slow in its turn alone. Where it is
# thrown off it tells so, and comes again.
READER = """
nick, channel, rate, place, several = sys.argv[2].encode(), sys.argv[3].encode(), *map(int, sys.argv[4:7])
total, last = 0, time.monotonic()
for number in range(1000000):
    s = person(nick + b"x%d" % number)
    if rate:
        # what waits has to wait at the server
        s.setsockopt(socket.SOL_SOCKET, socket.SO_RCVBUF, 16384)
    s.sendall(b"JOIN " + channel + b"\\r\\n")
    read = b""
    while b" 366 " not in read:
        read = read[-9:] + s.recv(65536)
    if number == 0:
        print("ready", flush=True)
    piece = b"-"
    try:
        while piece:
            is_slow = rate and int(time.monotonic() / 2) % several == place
            if is_slow:
                time.sleep(0.02)
            piece = s.recv(rate // 50 if is_slow else 1 << 20)
            total += len(piece)
            if time.monotonic() > last + 0.2:
                last = time.monotonic()
                print("read", total, flush=True)
    except ConnectionError:
        pass
    print("gone", total, flush=True)
"""

# Clients who register and go, five at a time, with the longest names that there are. They go without a word: one who says QUIT waits until that is read.
COMERS = """
import selectors
look, count, last = selectors.DefaultSelector(), 0, time.monotonic()
def comes():
    global count
    count += 1
    s = socket.socket()
    s.setblocking(False)
    s.connect_ex(("127.0.0.1", int(sys.argv[1])))
    look.register(s, selectors.EVENT_WRITE, (sys.argv[2] + str(count)).ljust(30, "x"))
for _ in range(5):
    comes()
print("ready", flush=True)
while True:
    for key, events in look.select():
        s = key.fileobj
        try:
            if events & selectors.EVENT_WRITE:
                s.send(b"NICK %s\\r\\nUSER uuuuuuuuuu 0 * :%s\\r\\n" % (key.data.encode(), b"x" * 50))
                look.modify(s, selectors.EVENT_READ)
                continue
            if b" 422 " not in (s.recv(65536) or b" 422 "):
                continue
        except OSError:
            pass
        look.unregister(s)
        s.close()
        comes()
    if time.monotonic() > last + 0.2:
        last = time.monotonic()
        print("came", count, flush=True)
"""

# One that says a word so many times a second, or, with 0, again as soon as it was answered. Without a nickname it does not register.
TICKER = """
nick, word, pace = sys.argv[2].encode(), sys.argv[3].encode(), int(sys.argv[4])
s = person(nick) if nick else socket.create_connection(("127.0.0.1", int(sys.argv[1])))
print("ready", flush=True)
start = due = last = time.monotonic()
said = 0
while True:
    s.sendall(word)
    said += 1
    now = time.monotonic()
    if pace:
        due = max(due + 1 / pace, now - 0.1)
        time.sleep(max(0.0, due - now))
    try:
        s.recv(65536, socket.MSG_DONTWAIT if pace else 0)
    except BlockingIOError:
        pass
    if now > last + 0.2:
        last = now
        print("pace", said / (now - start), flush=True)
"""


class Helper:
    """Clients, or a line, in a process of their own, so that they do not share this one's time."""

    def __init__(self, code, *words):
        self.process = hostile_sockets.as_process(code, *words)
        self.said = []

    @functools.cached_property
    def first(self):
        """What they say first, as they are ready."""
        look = select.poll()
        look.register(self.process.stdout, select.POLLIN)
        said = look.poll(SECONDS * 1000) and self.process.stdout.readline().decode().strip()
        if not said:
            raise OSError("clients or a line do not begin")
        return said

    def is_ready(self):
        return self.first == "ready"

    def ends(self):
        if not self.process.stdout.closed:
            self.process.kill()
            self.said = [line.split() for line in self.process.stdout.read().decode().splitlines()]
            hostile_sockets.end_of(self.process)
        return self

    def told(self, word):
        """The numbers that it told behind a word, until it was ended."""
        return [float(words[1]) for words in self.ends().said if words[:1] == [word] and len(words) == 2]

    def last(self, word):
        return ([0.0] + self.told(word))[-1]


class Tree(Network):
    """a.net, and who is linked to it. Of each link the first server calls the second, which has come before it. Some go over a line of so many bytes a
    second, which brings them so many seconds later. All run, and know each other."""

    def __init__(self, program, links, rates=None, retry=None, more="", delay=0.0, **rooms):
        names = list(dict.fromkeys(["a.net"] + [caller for caller, _ in links]))
        super().__init__(program, names, [], **({"client_room": CLIENT_ROOM, "link_room": MIB} | rooms))
        self.helpers = []
        self.delay = delay
        try:
            for caller, called in links:
                port, rate = self[called].links, (rates or {}).get((caller, called))
                self[caller].knows(called, self.narrowed(port, rate) if rate else port, retry)
                self[called].knows(caller)
            for name in names:
                self[name].text = more + self[name].configuration()
                self[name].start()
            for name in names:
                self.see_all(name, len(names))
        except BaseException:
            self.__exit__()
            raise

    def __exit__(self, *_):
        for helper in self.helpers:
            helper.ends()
        super().__exit__()

    def helps(self, code, *words):
        """Clients, or a line, which are ready in a moment."""
        self.helpers.append(Helper(code, *words))
        return self.helpers[-1]

    def narrowed(self, port, rate):
        """The port of a line to a port."""
        return int(self.helps(NARROW, HERE, port, rate, self.delay).first)

    def flooders(self, server, count=1):
        """Some who are in the channel and talk there without end."""
        nicks = ",".join(f"f{server[0]}{number}" for number in range(count))
        return self.helps(TALKERS, self[server].port, nicks, f"JOIN {DEN}\r\n", f"PRIVMSG {DEN} :{'x' * 400}\r\n")

    def reader(self, server, rate=0, place=0, several=1):
        """One who is in the channel and reads there, so many bytes a second, perhaps in its turn of several alone."""
        one = self.helps(READER, self[server].port, "r" + server[0], DEN, rate, place, several)
        one.is_ready()
        return one

    def lost(self):
        """The links that were up and are lost or closed, by the names of both ends."""
        found = set()
        for name, daemon in self.daemons.items():
            with open(daemon.path + ".said", encoding="ascii") as file:
                found.update(tuple(sorted((name, other))) for other in LOST.findall(file.read()))
        return found

    def watches(self, seconds, meanwhile=None, until=lambda lost: lost):
        """Looks for so many seconds, or until links are lost, and tells for how long. It begins as all are ready."""
        for helper in self.helpers:
            helper.is_ready()
        start = time.monotonic()
        while (took := time.monotonic() - start) < seconds and not until(self.lost()) and self.all_run():
            if meanwhile:
                meanwhile()
            time.sleep(0.02)
        return took

    def stands(self):
        return not self.lost() and self.all_run()

    def what_came(self, took):
        """What became of the links in so many seconds, in words."""
        lost = " and ".join(sorted(" - ".join(ends) for ends in self.lost()))
        return f"{f'{lost} LOST after' if lost else 'all links stand for' if self.all_run() else 'a server ENDED after'} {took:.1f} s"


class QuietRoom:
    """One person at each of some servers, all in one channel, who say a line now and then, each line with its number and its time."""

    def __init__(self, tree, servers):
        self.people = [tree.person(server, "quiet" + server[0]).joins(QUIET) for server in servers]
        self.count = 0
        self.due = 0.0
        self.heard = {(hearer, speaker): [] for hearer in self.people for speaker in self.people if hearer is not speaker}
        self.delays = {pair: [] for pair in self.heard}
        for person in self.people:
            self.waits(person)

    def waits(self, person):
        """Waits until a server shows all of them."""
        end, names = time.monotonic() + SECONDS, []
        while len(names) < len(self.people):
            if time.monotonic() > end:
                raise OSError(f"{person} does not see who is in the channel")
            person.says(f"NAMES {QUIET}")
            names = person.sees(" 353 ").rsplit(":", 1)[1].split()
            person.sees(" 366 ")

    def turn(self, speaks=True):
        """Says what is due, and hears what has come."""
        now = time.monotonic()
        if speaks and now > self.due:
            for person in self.people:
                person.says(f"PRIVMSG {QUIET} :{self.count} {now}")
            self.count, self.due = self.count + 1, now + 0.25
        for hearer in self.people:
            hearer.is_open()
            for line in hearer.seen[hearer.unseen:]:
                self.hears(hearer, line)
            hearer.unseen = len(hearer.seen)

    def hears(self, hearer, line):
        if found := re.match(rf":(\w+)![^ ]+ PRIVMSG {QUIET} :(\d+) ([\d.]+)$", line):
            speaker = next(person for person in self.people if person.nick == found[1])
            self.heard[hearer, speaker].append(int(found[2]))
            self.delays[hearer, speaker].append(time.monotonic() - float(found[3]))

    def has_all(self):
        return all(numbers == list(range(self.count)) for numbers in self.heard.values())

    def comes(self, seconds):
        """Waits until all has come, in order, but not longer than so many seconds. Whether it did."""
        end = time.monotonic() + seconds
        while not self.has_all() and time.monotonic() < end:
            self.turn(speaks=False)
            time.sleep(0.02)
        return self.has_all()

    def longest(self, speaker=None):
        """How long a line of one of them, or of anybody, took at most."""
        return max((delay for pair, delays in self.delays.items() for delay in delays if speaker in (None, pair[1])), default=0.0)

    def missing(self):
        missing = sum(self.count - len(numbers) for numbers in self.heard.values())
        return f"of {self.count * len(self.heard)} lines of quiet people {missing} are missing, and {'the others' if missing else 'all'} came in order" if \
            all(numbers == list(range(len(numbers))) for numbers in self.heard.values()) else "lines of quiet people are OUT OF ORDER"


def over(rate):
    return f"a line of {rate / 1e6:g} MB/s" if rate else "loopback"


TWO = [("b.net", "a.net")]
THREE = TWO + [("c.net", "b.net")]
FOUR = THREE + [("d.net", "c.net")]


def relayed(program, given):
    held = True
    for rate in RATES:
        for room in (MIB, 16 * MIB):
            with Tree(program, THREE, {TWO[0]: rate}, link_room=room) as tree:
                reader = tree.reader("a.net")
                tree.flooders("c.net")
                took = tree.watches(given.seconds(8))
                came = reader.last("read")
                held = told("relayed", tree.stands() and came > 50_000,
                            f"wanted: no link is lost as one at c.net floods who reads at a.net, b.net - a.net by {over(rate)}, link_room {room // MIB} MiB; "
                            f"came: {tree.what_came(took)}, {came / 1e6:.2f} MB read") and held
    return held


def far(program, given):
    with Tree(program, THREE, {TWO[0]: 12_500_000}, delay=0.1) as tree:
        reader = tree.reader("a.net")
        tree.flooders("c.net", 4)
        took = tree.watches(given.seconds(15))
        came = reader.last("read")
        return told("far", tree.stands() and came > 1_000_000,
                    "wanted: no link is lost as four at c.net flood who reads at a.net, b.net - a.net by a line of 12.5 MB/s that brings all 100 ms later, "
                    f"link_room 1 MiB; came: {tree.what_came(took)}, {came / 1e6:.1f} MB read")


def leaves(program, given):
    names = [f"l{number}.net" for number in range(20)]
    with Tree(program, [(name, "a.net") for name in names]) as tree:
        tree.helps(TALKERS, tree["a.net"].port, "flapper", "JOIN #den\r\n", "NICK one\r\nNICK two\r\n")
        before = tree["a.net"].seconds()
        took = tree.watches(given.seconds(10))
        share = (tree["a.net"].seconds() - before) / took
        return told("leaves", tree.stands(), "wanted: no link of a server with twenty others is lost as one there takes one nickname after another; "
                    f"came: {tree.what_came(took)}; the one in the middle takes {share:.2f} of a processor")


def coming(program, given):
    held, ways = True, [(125_000, MIB, 1), (1_250_000, MIB, 2)]
    if given.long:
        ways += [(125_000, 16 * MIB, 1), (1_250_000, 16 * MIB, 2), (12_500_000, MIB, 2)]
    for rate, room, count in ways:
        with Tree(program, TWO, {TWO[0]: rate}, link_room=room) as tree:
            comers = [tree.helps(COMERS, tree["b.net"].port, "cd"[number]) for number in range(count)]
            took = tree.watches(given.seconds(20))
            came = sum(comer.last("came") for comer in comers)
            held = told("coming", tree.stands() and came > 100,
                        f"wanted: no link is lost as {count} come and go, five at a time, over {over(rate)}, link_room {room // MIB} MiB; "
                        f"came: {tree.what_came(took)}, {came / took:.0f} come and go each second") and held
    return held


def parting(program, given):
    names = ",".join(f"#@{'x' * 24}{number}" for number in range(10))
    held = True
    for rate, room in ((1_250_000, MIB), (1_250_000, 16 * MIB), (12_500_000, MIB)):
        with Tree(program, TWO, {TWO[0]: rate}, link_room=room) as tree:
            for number in range(2):
                tree.helps(TICKER, tree["b.net"].port, f"p{number}", "PING x\r\n", 0)
            fifty = ",".join(f"j{number}" for number in range(50))
            joiners = tree.helps(TALKERS, tree["b.net"].port, fifty, "", f"JOIN {names}\r\nPART {names} :{'x' * 160}\r\n")
            took = tree.watches(given.seconds(15))
            came = joiners.last("read")
            held = told("parting", tree.stands() and came > 50_000,
                        f"wanted: no link is lost as fifty join and part over {over(rate)}, link_room {room // MIB} MiB; "
                        f"came: {tree.what_came(took)}, they are told {came / 1e6:.2f} MB") and held
    return held


def called_again(program, nick, word, limit):
    """After how many seconds a server that can be reached again is linked, as one says a word 1,000 times a second; and how often it did a second."""
    with Tree(program, TWO, retry=1) as tree:
        caller = tree["b.net"]
        ticker = tree.helps(TICKER, caller.port, nick, word, 1000)
        ticker.is_ready()
        tree["a.net"].kill()
        caller.said(2)
        time.sleep(1)
        tree["a.net"].start()
        start, count = time.monotonic(), 0
        while count < 2 and time.monotonic() < start + limit:
            time.sleep(0.02)
            count = caller.said(0).count("ircd: link to a.net: up")
        return (time.monotonic() - start if count == 2 else None), ticker.last("pace")


def called(program, given):
    held = True
    wanted = 1 + SPREAD + given.slack
    for what, nick, word in (("a client says PING", "p", "PING x\r\n"), ("one that is not registered says a byte", "", "x")):
        took, pace = called_again(program, nick, word, given.seconds(8))
        held = told("called", took is not None and took < wanted,
                    f"wanted: a server that can be reached again is linked within {wanted:.1f} s with `retry = 1`, as {what} {pace:.0f} times a second; "
                    f"came: {'NOT CALLED in ' + str(given.seconds(8)) + ' s' if took is None else f'linked after {took:.2f} s'}") and held
    return held


def cost(tree, person, count):
    """Microseconds of the processor that a PING takes a.net."""
    pid = tree["a.net"].process.pid
    start = hostile_sockets.processor(pid)
    for _ in range(count):
        person.answers()
    return (hostile_sockets.processor(pid) - start) / count * 1e6


def is_open(stream):
    """Whether the other end of one that says nothing has not closed it."""
    stream.setblocking(False)
    try:
        return bool(stream.recv(1))
    except BlockingIOError:
        return True
    except ConnectionError:
        return False


def strangers(program, given):
    held = True
    for count in (1000, 5000) if given.long else (1000,):
        with Tree(program, []) as tree:
            person, other = tree.person("a.net", "al"), tree.person("a.net", "bo")
            alone = cost(tree, person, 2000)
            silent = [tree.keep(socket.create_connection(("127.0.0.1", tree["a.net"].links), timeout=SECONDS)) for _ in range(count)]
            beside = cost(tree, person, 2000)
            tree.helps(TICKER, tree["a.net"].port, "p", "PING x\r\n", 0).is_ready()
            times = sorted(other.answers() for _ in range(100))
            left = sum(is_open(one) for one in silent)
            held = told("strangers", beside < 2 * alone and tree.all_run(),
                        f"wanted: a PING costs at most twice as much beside {count} silent strangers; came: {beside:.1f} us of the processor, {alone:.1f} us "
                        f"without them; another's PING beside one that says PING takes {times[50] * 1000:.1f} ms (median), {times[-1] * 1000:.1f} ms (longest); "
                        f"{left} of them are still connected") and held
    return held


def nameless(program, given):
    """Those who say nothing, or no more than a nickname, beside one who registers at once and one who does in the last second."""
    with Tree(program, [], more=f"register_within = {REGISTER_WITHIN}\n") as tree:
        person = tree.person("a.net", "al")
        silent = [tree.keep(socket.create_connection(("127.0.0.1", tree["a.net"].port), timeout=SECONDS)) for _ in range(300)]
        for half in silent[::2]:
            half.sendall(b"NICK bo\r\n")
        time.sleep(REGISTER_WITHIN - 1)
        early = sum(not is_open(one) for one in silent)
        late = tree.person("a.net", "cy")
        time.sleep(1 + given.slack)
        left = sum(is_open(one) for one in silent)
        time.sleep(REGISTER_WITHIN)
        stay = person.answers() is not None and late.answers() is not None
        return told("nameless", early == 0 and left == 0 and stay and tree.all_run(),
                    f"wanted: of 300 who do not register none is closed a second before {REGISTER_WITHIN} s are over, all are then, and two who have registered "
                    f"stay; came: {early} were closed early, {left} late or never, {'both stay' if stay else 'NOT BOTH STAY'}")


def mute(program, given):
    wanted = NAME_WITHIN + 1 + SPREAD + given.slack
    with Network(program, ["b.net"], []) as network, network.keep(socket.create_server(("127.0.0.1", 0))) as door:
        network["b.net"].knows("a.net", door.getsockname()[1], retry=1)
        network["b.net"].start()
        network.keep(door.accept()[0])
        start = time.monotonic()
        door.settimeout(wanted)
        try:
            network.keep(door.accept()[0])
            came, is_called = f"called again after {time.monotonic() - start:.1f} s", True
        except TimeoutError:
            came, is_called = f"NOT CALLED in {wanted:.1f} s", False
        return told("mute", is_called and network.all_run(), f"wanted: who accepts a call and never speaks is called again within {wanted:.1f} s; came: {came}")


def reader(program, given):
    held = True
    for rate in (50_000, 1_000_000):
        with Tree(program, TWO) as tree:
            tree.reader("a.net", rate)
            tree.flooders("b.net")
            viewer, start = tree.person("a.net", "al"), time.monotonic()
            # it may have much to read still when the server has closed it
            while (is_kept := viewer.finds("rax0")) and time.monotonic() < start + given.seconds(8):
                time.sleep(0.02)
            took = time.monotonic() - start
            held = told("reader", tree.stands(),
                        f"figure: who reads {rate / 1000:.0f} kB/s at another server than who floods, client_room {CLIENT_ROOM}, is "
                        f"{'kept for' if is_kept else 'thrown off after'} {took:.1f} s; {tree.what_came(took)}") and held
    return held


def quiet(program, given):
    held = True
    for rate in (1_250_000, 125_000):
        for count in (1, 10, 50):
            with Tree(program, TWO, {TWO[0]: rate}) as tree:
                room = QuietRoom(tree, ["a.net", "b.net"])
                reader = tree.reader("a.net")
                flood = tree.flooders("b.net", count)
                took = tree.watches(given.seconds(8), room.turn)
                flood.ends()
                has_come = tree.stands() and room.comes(3 * SECONDS)
                longest, read = room.longest(room.people[1]), reader.last("read") / 1e6
                held = told("quiet", has_come and (longest < 1 or rate < RATES[1]),
                            f"{'wanted: less than a second for' if rate == RATES[1] else 'figure:'} a line of somebody quiet over {over(rate)} beside {count} "
                            f"who flood over it; came: {longest:.2f} s at most, {room.missing()}; {tree.what_came(took)}, {read:.2f} MB read") and held
    return held


def wave(port, viewer, count):
    """So many register, and all go at once. Behind it nobody is there but the viewer."""
    crowd = []
    for number in range(count):
        crowd.append(socket.create_connection(("127.0.0.1", port), timeout=SECONDS))
        crowd[-1].sendall(b"NICK w%d\r\nUSER u 0 * :x\r\n" % number)
        if number % 500 == 499 or number == count - 1:
            for one in crowd[number // 500 * 500:]:
                hostile_sockets.wait_for(one, b" 422 ")
    for one in crowd:
        one.close()
    end = time.monotonic() + SECONDS
    while " 1 users " not in (viewer.says("LUSERS") or viewer.sees(" 251 ")):
        if time.monotonic() > end:
            raise OSError("who has gone is still there")
        time.sleep(0.02)


def memory(program, given):
    count, waves = (5000, 16) if given.long else (4000, 6)
    with Tree(program, []) as tree:
        daemon, viewer = tree["a.net"], tree.person("a.net", "al")
        # what it has in use: a server with one user
        before = hostile_sockets.Daemon.kilobytes(daemon) / 1000
        for _ in range(waves):
            wave(daemon.port, viewer, count)
        after = hostile_sockets.Daemon.kilobytes(daemon) / 1000
        wanted = 2 * before + 20
        return told("memory", after < wanted and tree.all_run(),
                    f"wanted: at most {wanted:.0f} MB resident behind {waves} waves of {count} who come and go, client_room {CLIENT_ROOM}; "
                    f"came: {after:.1f} MB, {before:.1f} before them")


def floods_everywhere(program, given, row, links):
    with Tree(program, links) as tree:
        room = QuietRoom(tree, tree.daemons)
        readers = [tree.reader(server, 50_000, place, len(tree.daemons)) for place, server in enumerate(tree.daemons)]
        floods = [tree.flooders(server, 2) for server in tree.daemons]
        took = tree.watches(given.seconds(20), room.turn)
        for flood in floods:
            flood.ends()
        has_come = tree.stands() and room.comes(3 * SECONDS)
        read, gone = sum(one.last("read") for one in readers), sum(len(one.told("gone")) for one in readers)
        return told(row, has_come and tree.stands(),
                    f"wanted: no link of five servers is lost as two flood at each, beside readers who are slow in turn, and what quiet people say comes in "
                    f"order; came: {tree.what_came(took)}; {room.missing()}, after {room.longest():.2f} s at most; {read / 1e6:.0f} MB are read, and readers "
                    f"thrown off {gone} times")


def line(program, given):
    return floods_everywhere(program, given, "line", FOUR + [("e.net", "d.net")])


def star(program, given):
    return floods_everywhere(program, given, "star", [(leaf, "a.net") for leaf in ("b.net", "c.net", "d.net", "e.net")])


def knows_key(program, row):
    """Whether a program takes a row of its configuration."""
    text = ('name = "a.net"\ninfo = "x"\ncreated = "2024-01-01"\nlisten = "127.0.0.1:0"\nclient_room = 65536\nlink_room = 65536\n' + row)
    return subprocess.run([program, "serve", "/dev/stdin", "0"], input=text.encode(), capture_output=True, check=False).returncode == 0


def stopped(program, given):
    row = f"give_up = {SHORT_GIVE_UP}\n"
    is_short = not given.long and knows_key(program, row)
    limit = (SHORT_GIVE_UP if is_short else GIVE_UP) + 10
    with Tree(program, FOUR, more=row if is_short else "") as tree:
        room = QuietRoom(tree, ["a.net", "b.net", "c.net"])
        tree.reader("d.net")
        os.kill(tree["d.net"].process.pid, signal.SIGSTOP)
        flood = tree.flooders("a.net")
        took = tree.watches(limit, room.turn)
        # and what becomes of the others then
        tree.watches(5, room.turn, until=lambda lost: len(lost) > 1)
        flood.ends()
        lost = tree.lost()
        has_come = len(lost) == 1 and room.comes(SECONDS)
        return told("stopped", lost == {("c.net", "d.net")} and has_come and tree.all_run(),
                    f"wanted: c.net - d.net is lost within {limit} s, and no other link, as d.net is stopped and one floods at a.net; "
                    f"came: {tree.what_came(took)}; {room.missing()}, after {room.longest():.2f} s at most")


ROWS = {"relayed": relayed, "far": far, "leaves": leaves, "coming": coming, "parting": parting, "called": called, "strangers": strangers, "nameless": nameless, "mute": mute, "reader": reader,
        "quiet": quiet, "memory": memory, "line": line, "star": star, "stopped": stopped}


class Given(argparse.Namespace):
    def seconds(self, short):
        """How long a flood lasts."""
        return 60 if self.long else short


def holds(row, program, given):
    try:
        return ROWS[row](program, given)
    except OSError as error:
        return told(row, False, f"{type(error).__name__}: {error}")


def main():
    ask = argparse.ArgumentParser(usage="tests/flow.py PROGRAM [ROW ..] [--long] [--slack SECONDS]")
    ask.add_argument("program")
    ask.add_argument("rows", nargs="*")
    ask.add_argument("--long", action="store_true")
    ask.add_argument("--slack", type=float, default=0.5)
    given = ask.parse_args(namespace=Given())
    if not os.access(given.program, os.X_OK):
        ask.error("no PROGRAM that can be run")
    if unknown := [row for row in given.rows if row not in ROWS]:
        ask.error(f"no row {unknown[0]}; there are {', '.join(ROWS)}")
    _, hard = resource.getrlimit(resource.RLIMIT_NOFILE)
    resource.setrlimit(resource.RLIMIT_NOFILE, (hard, hard))
    # who ends this ends all that it has started
    signal.signal(signal.SIGTERM, lambda *_: sys.exit(1))
    return 0 if all([holds(row, os.path.abspath(given.program), given) for row in given.rows or ROWS]) else 1


if __name__ == "__main__":
    sys.exit(main())
