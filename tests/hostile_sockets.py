#!/usr/bin/env python3
"""What `ircd serve` does under hostile use, on loopback: each part starts a daemon of its own, and prints what it measured.

  flood    one client that sends without end among a hundred quiet ones: each of these is answered soon
  unread   a client that never reads: it is lost once its outbox is full, and nobody else waits for it
  lagging  a client that fell behind and reads again: what waits for it comes without a pause
  files    no file descriptors left: the daemon does not spin, serves those that it has, and takes who waits once one is free
  backlog  two hundred connections at once, each of which is served
  idle     10,000 idle clients (fewer where the system allows fewer): memory, and processor time while nothing happens
  storm    1,000 clients who all join one channel at once: processor time a JOIN, beside a bare relay's, and a lone text's to as many
  slow     one client that floods another who reads slowly: that one is kept, and the one who floods is slowed
  many     ten who flood one who reads slowly: what happens to it is told, and nobody else waits
  dear     one client that asks what is dear without end, in lines that end in LF and in such as end in CR alone: another is answered soon
  burst    300 questions in one packet, by one who reads: each is answered
  crowd    more connections from one address than the file allows: these are closed, and as one leaves another is let in
  probed   the system asks after each client

tests/hostile_sockets.py [PART ..]. The program is crates/ircd/out/ircd (`./ircd build` makes it), or what IRCD names.
Exit status: 0 where every part held, 1 where one did not.
"""
import os
import resource
import select
import selectors
import socket
import subprocess
import sys
import tempfile
import time

TOP = os.path.dirname(os.path.dirname(os.path.abspath(__file__)))
IRCD = os.environ.get("IRCD", os.path.join(TOP, "crates/ircd/out/ircd"))
TICKS = os.sysconf("SC_CLK_TCK")
FILES_OF_THE_DAEMON = 64


class Daemon:
    """A running `ircd serve`."""

    def __init__(self, room=65536, files=None, more=""):
        with socket.socket() as free:
            free.bind(("127.0.0.1", 0))
            self.port = free.getsockname()[1]
        self.folder = tempfile.TemporaryDirectory()
        path = os.path.join(self.folder.name, "server.toml")
        with open(path, "w", encoding="ascii") as file:
            file.write(f'name = "a.net"\ninfo = "Hostile use"\ncreated = "2024-01-01"\nlisten = "127.0.0.1:{self.port}"\n'
                       f"client_room = {room}\nlink_room = 65536\n{more}")

        def limit():
            if files is not None:
                resource.setrlimit(resource.RLIMIT_NOFILE, (files, files))

        self.process = subprocess.Popen([IRCD, "serve", path], stdout=subprocess.PIPE, preexec_fn=limit)
        if self.process.stdout.readline() != b"ready\n":
            raise SystemExit("hostile_sockets: the daemon does not say ready")

    def __enter__(self):
        return self

    def __exit__(self, *_):
        self.process.kill()
        self.process.wait()
        self.process.stdout.close()
        self.folder.cleanup()

    def is_running(self):
        return self.process.poll() is None

    def seconds(self):
        """Processor seconds so far."""
        with open(f"/proc/{self.process.pid}/stat", encoding="ascii") as file:
            fields = file.read().rsplit(")", 1)[1].split()
        return (int(fields[11]) + int(fields[12])) / TICKS

    def kilobytes(self, what="VmRSS:"):
        """Resident memory."""
        with open(f"/proc/{self.process.pid}/status", encoding="ascii") as file:
            return next(int(line.split()[1]) for line in file if line.startswith(what))

    def connect(self, source="127.0.0.1"):
        client = socket.socket()
        client.settimeout(20)
        client.bind((source, 0))
        client.connect(("127.0.0.1", self.port))
        return client

    def person(self, nick):
        """A registered client."""
        client = self.connect()
        client.sendall(f"NICK {nick}\r\nUSER u 0 * :x\r\n".encode())
        wait_for(client, b" 422 ")
        return client


def wait_for(client, mark):
    """Reads until a mark has come, and gives all that was read."""
    read = b""
    while mark not in read:
        piece = client.recv(65536)
        if not piece:
            raise OSError("closed")
        read += piece
    return read


def asks(client, word):
    """How many seconds a PING takes."""
    start = time.monotonic()
    client.sendall(b"PING " + word + b"\r\n")
    wait_for(client, b"PONG a.net :" + word)
    return time.monotonic() - start


# what the last of these has read
SEEN = bytearray()


def asks_among(client, word):
    """How many seconds a PING takes, to one who is told other things too."""
    start = time.monotonic()
    client.sendall(b"PING " + word + b"\r\n")
    SEEN[:] = wait_for(client, b"PONG a.net :" + word)
    return time.monotonic() - start


def told(part, holds, text):
    print(f"{'ok  ' if holds else 'FAIL'} {part}: {text}", flush=True)
    return holds


def flood():
    with Daemon() as daemon:
        quiet = [daemon.person(f"q{number}") for number in range(100)]
        # the flood is another process, so that it does not share this one's time
        code = ("import socket,sys\ns=socket.create_connection(('127.0.0.1',int(sys.argv[1])))\n"
                "s.sendall(b'NICK zz\\r\\nUSER u 0 * :x\\r\\n')\n"
                "while True: s.sendall(b'NOTICE nobody :x\\r\\n' * 2000)\n")
        flooding = subprocess.Popen([sys.executable, "-c", code, str(daemon.port)], stderr=subprocess.DEVNULL)
        time.sleep(1)
        before = daemon.seconds()
        times = sorted(asks(client, b"x%d" % number) for number, client in enumerate(quiet))
        busy = daemon.seconds() - before
        is_flooding = flooding.poll() is None
        flooding.kill()
        flooding.wait()
        return told("flood", is_flooding and times[-1] < 0.5,
                    f"100 quiet clients, a PING takes {times[50] * 1000:.1f} ms (median), {times[-1] * 1000:.1f} ms (longest); {busy:.2f} s of the daemon")


def unread():
    with Daemon(room=65536) as daemon:
        deaf, friend, talker = daemon.connect(), daemon.person("friend"), daemon.person("talker")
        deaf.setsockopt(socket.SOL_SOCKET, socket.SO_RCVBUF, 4096)
        deaf.sendall(b"NICK deaf\r\nUSER u 0 * :x\r\nJOIN #c\r\n")
        for client in (friend, talker):
            client.sendall(b"JOIN #c\r\n")
            wait_for(client, b" 366 ")
        said, longest, slowed, lost = 0, 0.0, 0.0, False
        while said < 200000 and not lost:
            start = time.monotonic()
            talker.sendall((b"PRIVMSG deaf :" + b"x" * 400 + b"\r\n") * 50 + b"PING t%d\r\n" % said)
            said += 50
            answered = False
            while not answered and not lost:
                longest = max(longest, asks_among(friend, b"f%d" % said))
                lost = b"QUIT :Connection closed" in SEEN
                answered = bool(select.select([talker], [], [], 0.01)[0])
            slowed = max(slowed, time.monotonic() - start)
            if answered:
                talker.recv(65536)
        return told("unread", lost and longest < 0.5 and daemon.is_running(),
                    f"lost behind {said} lines of 416 bytes, of which fifty took {slowed:.1f} s in the end; nobody else waited more than "
                    f"{longest * 1000:.1f} ms")


def talks_to(speakers, nick, lines):
    """Has some say so many lines together, and whether who is meant is still there then. They are many, since each is slowed once much waits."""
    for speaker in speakers:
        speaker.sendall((b"PRIVMSG " + nick + b" :" + b"x" * 400 + b"\r\n") * (lines // len(speakers)) + b"ISON " + nick + b"\r\n")
    return all([nick in wait_for(speaker, b" 303 ").rsplit(b" 303 ", 1)[1] for speaker in speakers])


def longest_pause(client, mark):
    """How many seconds lie between two pieces that are read, at most, up to a mark."""
    longest, last, read = 0.0, time.monotonic(), b""
    while mark not in read:
        piece = client.recv(65536)
        if not piece:
            raise OSError("closed")
        now = time.monotonic()
        longest, last, read = max(longest, now - last), now, read[-100:] + piece
    return longest


def lagging():
    with Daemon(room=1 << 20) as daemon:
        speakers = [daemon.person(f"sp{number}") for number in range(100)]
        lost = daemon.person("lost")
        thousands = 0
        while talks_to(speakers, b"lost", 500):
            thousands += 1
        lost.close()
        pauses = []
        for number in range(5):
            nick = f"r{number}".encode()
            reader = daemon.person(nick.decode())
            # half of what would be too much waits, and as much again once some of it was read: so it lies in two pieces
            for _ in range(thousands - 2):
                talks_to(speakers, nick, 500)
            wanted = reader.recv(1 << 20)
            while len(wanted) < 1_500_000:
                wanted += reader.recv(1 << 20)
            for _ in range(2):
                talks_to(speakers, nick, 500)
            speakers[0].sendall(b"PRIVMSG " + nick + b" :the last\r\n")
            asks(speakers[0], b"done")
            pauses.append(longest_pause(reader, b":the last\r\n"))
            reader.close()
        return told("lagging", max(pauses) < 0.05,
                    f"of five who fell behind by half a megabyte and read again, the longest pause was {max(pauses) * 1000:.1f} ms")


def files():
    with Daemon(files=FILES_OF_THE_DAEMON) as daemon:
        served = []
        waiting = []
        for number in range(FILES_OF_THE_DAEMON + 20):
            client = daemon.connect()
            client.settimeout(1)
            client.sendall(f"NICK f{number}\r\nUSER u 0 * :x\r\n".encode())
            try:
                wait_for(client, b" 422 ")
                served.append(client)
            except TimeoutError:
                waiting.append(client)
            if len(waiting) == 2:
                break
        before = daemon.seconds()
        time.sleep(3)
        busy = (daemon.seconds() - before) / 3
        answer = asks(served[0], b"still")
        for client in served[1:4]:
            client.close()
        try:
            for client in waiting:
                client.settimeout(5)
                wait_for(client, b" 422 ")
            taken = True
        except OSError:
            taken = False
        return told("files", len(waiting) == 2 and busy < 0.05 and answer < 0.5 and taken,
                    f"{len(served)} served of {FILES_OF_THE_DAEMON} files, 2 wait; {busy * 100:.1f} of 100 of a processor meanwhile; "
                    f"those served are answered in {answer * 1000:.1f} ms; who waited is {'taken' if taken else 'not taken'} as others leave")


def backlog():
    with Daemon() as daemon:
        start = time.monotonic()
        clients = [daemon.connect() for _ in range(200)]
        for number, client in enumerate(clients):
            client.sendall(f"NICK b{number}\r\nUSER u 0 * :x\r\n".encode())
        for client in clients:
            wait_for(client, b" 422 ")
        return told("backlog", True, f"200 connections at once, all registered in {time.monotonic() - start:.2f} s")


def idle():
    _, hard = resource.getrlimit(resource.RLIMIT_NOFILE)
    resource.setrlimit(resource.RLIMIT_NOFILE, (hard, hard))
    count = min(10000, hard - 100)
    with Daemon() as daemon:
        empty = daemon.kilobytes()
        room_before = daemon.kilobytes("VmData:")
        clients = []
        start = time.monotonic()
        for number in range(count):
            client = daemon.connect()
            client.sendall(f"NICK i{number}\r\nUSER u 0 * :x\r\n".encode())
            clients.append(client)
            if number % 500 == 499:
                for waiting in clients[-500:]:
                    wait_for(waiting, b" 422 ")
        for waiting in clients[count - count % 500:]:
            wait_for(waiting, b" 422 ")
        took = time.monotonic() - start
        full = daemon.kilobytes()
        asked = (daemon.kilobytes("VmData:") - room_before) * 1024 / count
        before = daemon.seconds()
        time.sleep(5)
        busy = (daemon.seconds() - before) / 5
        answer = asks(clients[count // 2], b"still")
        return told("idle", busy < 0.05 and answer < 0.5 and asked < 4096,
                    f"{count} clients in {took:.1f} s; {empty} kB before, {full} kB with them: {(full - empty) / count:.2f} kB each, "
                    f"and {asked:.0f} bytes each of memory asked for, though client_room is 65536; "
                    f"{busy * 100:.2f} of 100 of a processor while they are idle; a PING takes {answer * 1000:.1f} ms")


def as_process(code, *words):
    """A client that is a process of its own, so that it does not share this one's time. It speaks as soon as it is connected."""
    head = ("import select,socket,sys,time\ndef person(nick):\n s=socket.create_connection(('127.0.0.1',int(sys.argv[1])))\n"
            " s.sendall(b'NICK '+nick+b'\\r\\nUSER u 0 * :x\\r\\n')\n r=b''\n while b' 422 ' not in r: r+=s.recv(65536)\n return s\n")
    return subprocess.Popen([sys.executable, "-c", head + code, *map(str, words)], stdout=subprocess.PIPE, stderr=subprocess.DEVNULL)


def end_of(process):
    process.kill()
    process.wait()
    process.stdout.close()


# one that takes what others send to many, and sends it on in as few writes as it can
RELAY = """
import selectors, socket
door = socket.create_server(("127.0.0.1", int(__import__("sys").argv[1])), backlog=2000)
print("ready", flush=True)
some, waiting = [], {}
look = selectors.DefaultSelector()
for _ in range(int(__import__("sys").argv[2])):
    one = door.accept()[0]
    one.setblocking(False)
    look.register(one, selectors.EVENT_READ)
names = []
while True:
    for key, _ in look.select():
        if not key.fileobj.recv(4096):
            raise SystemExit
        own = waiting[key.fileobj] = bytearray()
        names.append(b"p%d" % len(names))
        for row in waiting.values():
            row += b":p1000!u@127.0.0.1 JOIN #c\\r\\n"
        text = b" ".join(names)
        for start in range(0, len(text), 470):
            own += b":a.net 353 p1000 = #c :" + text[start:start + 470] + b"\\r\\n"
        own += b":a.net 366 p1000 #c :End of NAMES list\\r\\n"
    for one, row in waiting.items():
        if row:
            one.send(row)
            row.clear()
"""


def processor(pid):
    """Processor seconds of a process with one thread, to the nanosecond."""
    with open(f"/proc/{pid}/schedstat", encoding="ascii") as file:
        return int(file.read().split()[0]) / 1e9


def read_all(clients, mark, wanted):
    """Reads from all until a mark has come so often."""
    with selectors.DefaultSelector() as look:
        for client in clients:
            look.register(client, selectors.EVENT_READ)
        lines = 0
        while lines < wanted:
            ready = look.select(5)
            if not ready:
                raise OSError(f"{lines} lines of {wanted}")
            for key, _ in ready:
                piece = key.fileobj.recv(1 << 20)
                if not piece:
                    raise OSError("closed")
                lines += piece.count(mark)


def all_join(clients, pid):
    """How many processor seconds a JOIN takes a server, where all say it at once and read what they are shown."""
    start = processor(pid)
    for client in clients:
        client.sendall(b"JOIN #c\r\n")
        client.setblocking(False)
    read_all(clients, b" JOIN ", len(clients) * (len(clients) + 1) // 2)
    return (processor(pid) - start) / len(clients)


TEXTS = 10


def lone_text(clients, pid):
    """How many processor seconds a text to all of them takes, each said when the one before it has come."""
    time.sleep(0.5)
    start = processor(pid)
    for number in range(TEXTS):
        clients[0].sendall(b"PRIVMSG #c :text\r\n")
        read_all(clients[1:], b" PRIVMSG ", len(clients) - 1)
    return (processor(pid) - start) / TEXTS


STORM = 1000


def storm():
    with Daemon() as daemon:
        clients = [daemon.person(f"p{number}") for number in range(STORM)]
        join = all_join(clients, daemon.process.pid) * 1e6
        text = lone_text(clients, daemon.process.pid) * 1e6
        for client in clients:
            client.close()
    with socket.socket() as free:
        free.bind(("127.0.0.1", 0))
        port = free.getsockname()[1]
    relay = subprocess.Popen([sys.executable, "-c", RELAY, str(port), str(STORM)], stdout=subprocess.PIPE)
    try:
        relay.stdout.readline()
        clients = [socket.create_connection(("127.0.0.1", port)) for _ in range(STORM)]
        bare = all_join(clients, relay.pid) * 1e6
        for client in clients:
            client.close()
    finally:
        end_of(relay)
    # on a machine with other load all three grow: a JOIN that wrote each line by itself would take as much as half a text, and the list of names
    return told("storm", join < 400 or join < 3 * bare or join < text / 3,
                f"of {STORM} who join one channel at once each JOIN takes {join:.0f} us of the processor; a bare relay in Python takes {bare:.0f} us; "
                f"a text to all of them by itself, whose lines cannot wait, {text:.0f} us")


# one that reads so many bytes a second
READER = """
s = person(b"rd")
print("ready", flush=True)
rate, start, got = int(sys.argv[2]), time.monotonic(), 0
while True:
    time.sleep(0.02)
    due = int((time.monotonic() - start) * rate) - got
    got += len(s.recv(due)) if due > 0 else 0
"""

FLOODER = """
s = person(b"fl" + sys.argv[2].encode())
line = b"PRIVMSG rd :" + b"x" * 400 + b"\\r\\n"
print("ready", flush=True)
while True:
    s.sendall(line * 50)
"""


def flooded(room, rate, seconds, flooders=1):
    """For how many seconds of floods the server keeps who reads so many bytes a second, and whether to the end; and the longest that another waits."""
    with Daemon(room=room) as daemon:
        other = daemon.person("other")
        reader = as_process(READER, daemon.port, rate)
        reader.stdout.readline()
        floods = [as_process(FLOODER, daemon.port, number) for number in range(flooders)]
        for flood_of in floods:
            flood_of.stdout.readline()
        longest, took, start, kept = 0.0, 0.0, time.monotonic(), True
        try:
            while kept and took < seconds:
                time.sleep(0.05)
                asked = time.monotonic()
                other.sendall(b"ISON rd\r\n")
                # who reads may have much to read still when the server has closed it
                kept = b" 303 other :rd" in wait_for(other, b" 303 ")
                longest, took = max(longest, time.monotonic() - asked), time.monotonic() - start
        finally:
            for process in (reader, *floods):
                end_of(process)
        return kept, took, longest


def slow():
    held = True
    for room, rate in ((32768, 1000000), (1 << 20, 1000000), (65536, 50000)):
        kept, took, longest = flooded(room, rate, 30)
        held = told("slow", kept and longest < 0.1,
                    f"who reads {rate // 1000} kB/s with a room of {room} beside one who floods it is {'kept for' if kept else 'lost after'} {took:.1f} s; "
                    f"another waits {longest * 1000:.1f} ms at most") and held
    return held


def many():
    held = True
    for room in (32768, 1 << 20):
        kept, took, longest = flooded(room, 1000000, 10, flooders=10)
        held = told("many", longest < 0.1,
                    f"who reads 1000 kB/s with a room of {room} beside ten who flood it is {'kept for' if kept else 'lost after'} {took:.1f} s; "
                    f"another waits {longest * 1000:.1f} ms at most") and held
    return held


ASKER = """
s = person(b"ask")
line, end = sys.argv[2].encode(), b"\\r" if sys.argv[3] == "CR" else b"\\r\\n"
print("ready", flush=True)
s.setblocking(False)
lines = [(b"NICK ask%d" % number if line == b"NICK" else line) + end for number in range(400)]
unsent = b""
while True:
    readable, writable, _ = select.select([s], [s], [])
    if readable and not s.recv(1 << 20):
        break
    if writable:
        unsent = unsent or b"".join(lines)
        unsent = unsent[s.send(unsent):]
"""


def beside(daemon, line, ending, others):
    """The longest and the median seconds that a PING takes beside one that says a line without end."""
    asker = as_process(ASKER, daemon.port, line, ending)
    try:
        asker.stdout.readline()
        times = []
        for number in range(100):
            time.sleep(0.05)
            times.append(asks(others[number], b"x%d" % number))
        if asker.poll() is not None:
            raise OSError("who asks was closed")
    finally:
        end_of(asker)
    return max(times), sorted(times)[50]


def dear():
    held = True
    with Daemon(room=524288) as daemon:
        others = [daemon.person(f"p{number}") for number in range(3000)]
        for number, other in enumerate(others):
            other.sendall(b"JOIN " + b",".join(b"#%d" % (number * 10 + place) for place in range(10)) + b"\r\n")
            wait_for(other, b" 366 p%d #%d " % (number, number * 10 + 9))
        for line, ending in (("WHO *~*", "CR LF"), ("NICK", "CR LF"), ("WHO *~*", "CR")):
            longest, median = beside(daemon, line, ending, others)
            held = told("dear", longest < 0.025 and daemon.is_running(),
                        f"among 3,000 users in 30,000 channels, beside one who sends {line} and {ending} without end, a PING takes {median * 1000:.1f} ms "
                        f"(median), {longest * 1000:.1f} ms (longest)") and held
    return held


def burst():
    with Daemon(room=32768) as daemon:
        asked, client = daemon.person("x"), daemon.person("asks")
        client.sendall(b"WHOIS x\r\n" * 300 + b"PING done\r\n")
        read = wait_for(client, b"PONG a.net :done")
        count = read.count(b" 318 ")
        asked.close()
        return told("burst", count == 300, f"of 300 questions in one packet {count} are answered, by {len(read)} bytes")


def is_let_in(daemon, source):
    """Whether one more from an address is served, and its connection."""
    client = daemon.connect(source)
    try:
        client.sendall(b"PING x\r\n")
        return bool(client.recv(100)), client
    except ConnectionError:
        return False, client


def crowd():
    with Daemon(more="connections_per_address = 3\n") as daemon:
        first = [is_let_in(daemon, "127.0.0.1") for _ in range(3)]
        beyond = [is_let_in(daemon, "127.0.0.1")[0] for _ in range(5)]
        others = [is_let_in(daemon, f"127.0.0.{number}")[0] for number in range(2, 7)]
        first[0][1].close()
        end, again = time.monotonic() + 5, False
        while not again and time.monotonic() < end:
            again, _kept = is_let_in(daemon, "127.0.0.1")
        full = is_let_in(daemon, "127.0.0.1")[0]
        held = all(served for served, _ in first) and not any(beyond) and all(others) and again and not full
        return told("crowd", held and daemon.is_running(),
                    f"of eight from one address {sum(served for served, _ in first)} and then {sum(beyond)} are served where three are allowed, of five from "
                    f"others {sum(others)}; as one leaves the next is {'let in' if again else 'NOT let in'}, and {'one too many' if full else 'no other'}")


def probed():
    with Daemon() as daemon:
        clients = [daemon.person(f"k{number}") for number in range(5)]
        table = subprocess.run(["ss", "-Htno", "state", "established", f"sport = :{daemon.port}"], capture_output=True, text=True, check=True).stdout
        count = table.count("timer:(keepalive,")
        for client in clients:
            client.close()
        return told("probed", count == 5, f"of 5 clients the system asks after {count}")


PARTS = {"flood": flood, "unread": unread, "lagging": lagging, "files": files, "backlog": backlog, "idle": idle,
         "storm": storm, "slow": slow, "many": many, "dear": dear, "burst": burst,
         "crowd": crowd, "probed": probed}


def main():
    if not os.access(IRCD, os.X_OK):
        print(f"hostile_sockets: no program {IRCD}: ./ircd build makes it", file=sys.stderr)
        return 1
    names = sys.argv[1:] or list(PARTS)
    unknown = [name for name in names if name not in PARTS]
    if unknown:
        print(f"hostile_sockets: no part {unknown[0]}; there are {', '.join(PARTS)}", file=sys.stderr)
        return 1
    held = True
    for name in names:
        try:
            held = PARTS[name]() and held
        except OSError as error:
            held = told(name, False, f"{type(error).__name__}: {error}")
    return 0 if held else 1


if __name__ == "__main__":
    sys.exit(main())
