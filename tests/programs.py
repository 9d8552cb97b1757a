#!/usr/bin/env python3
"""What `programs = true` and `motd` of `ircd serve` do, by lines and by two real programs.

    tests/programs.py PROGRAM

Two daemons, of which one has the key: each row says a line to both, and wants what the page "With `programs`" of docs/PROFILE.md has of the one,
and the page without it of the other. Then daemons that have a message of the day, alone and with that key, beside one that has none, and files that
are no message. Then pydle (python3-pydle) and Net::Async::IRC (libnet-async-irc-perl), where they are installed, are each
in a channel whose modes another client sets and takes away: behind that they have to know which are set. Exit status: 1 where something differs.
"""
import contextlib
import importlib.util
import pathlib
import shutil
import socket
import subprocess
import sys
import tempfile
import time

FILE = """name = "a.net"
info = "A"
created = "2026-11-30"
listen = "127.0.0.1:{port}"
client_room = 65536
link_room = 65536
programs = {programs}
"""
# a line of each kind of end, an empty one, one that ends in spaces, one that is cut, and one without an end
MESSAGE = "Hello\r\n\nthere  \n" + "x" * 600 + "\nlast"
MESSAGE_TOLD = [":a.net 375 al :- a.net Message of the day - ", ":a.net 372 al :- Hello", ":a.net 372 al :- ", ":a.net 372 al :- there  ",
                (":a.net 372 al :- " + "x" * 600)[:510], ":a.net 372 al :- last", ":a.net 376 al :End of MOTD command"]
MISSING = [":a.net 422 al :MOTD File is missing"]
# a room for clients and a message: taken, and refused
TAKEN = ((2048, b""), (2048 + 105 + 5, b"Hello"), (65536, 100 * b"\n"), (65536, 8191 * b"x" + b"\n"), (65536, "\u044f".encode() + b"\r\n"))
REFUSED = ((2047, b""), (2048 + 105 + 4, b"Hello"), (65536, 101 * b"\n"), (65536, 8193 * b"x"), (65536, b"a\0"), (65536, b"a\rb\n"), (65536, b"a\r"),
           (65536, b"\xff"))
CHECKER = pathlib.Path(__file__).resolve().parent.parent / "ircd-check"
SUPPORTED = ("CASEMAPPING=rfc1459 CHANTYPES=# PREFIX=(ov)@+ CHANMODES=b,k,l,imnpst MODES=3 NICKLEN=30 CHANNELLEN=50 TOPICLEN=160 KICKLEN=160 "
             "AWAYLEN=160 MAXLIST=b:30 CHANLIMIT=#:10 TARGMAX=JOIN:,PART:,KICK:,LIST:,WHOIS:,PRIVMSG:4,NOTICE:4 :are supported by this server")
# what is said, and what of the answer has to be there: without the key, and with it
ROWS = (
    ("VERSION", ":a.net 421 al VERSION :Unknown command", ":a.net 351 al treeircd-1 a.net :RFC 2811, 2812 and 2813 in a profile"),
    ("INVITE zed #c", ":a.net 341 al #c zed", ":a.net 341 al zed #c"),
    ("FOO", ":a.net 421 al FOO :Unknown command", ":a.net 421 al FOO :Unknown command"),
    ("AWAY :x", ":a.net 421 al AWAY :Unknown command", ":a.net 306 al :You have been marked as being away"),
    ("AWAY", ":a.net 421 al AWAY :Unknown command", ":a.net 305 al :You are no longer marked as being away"),
    ("USERHOST zed", ":a.net 421 al USERHOST :Unknown command", ":a.net 302 al :zed=+u@127.0.0.1"),
    ("WHOWAS gone", ":a.net 421 al WHOWAS :Unknown command", ":a.net 369 al gone :End of WHOWAS"),
    ("NICK ally", ":al!u@127.0.0.1 NICK ally", ":al!u@127.0.0.1 NICK :ally"),
)
# a topic and a text of letters of two bytes, behind one of one byte: as they come to another client
CUT = ("TOPIC #c :x" + "\u044f" * 100, "PRIVMSG #c :x" + "\u044f" * 300)
MODES = ("+imns", "-i+t", "-s+p", "-m")


class Client:
    def __init__(self, port, nick):
        self.socket, self.seen = socket.create_connection(("127.0.0.1", port)), b""
        self.says(f"NICK {nick}", f"USER u 0 * :{nick}", "PING ready")
        self.until(b"PONG a.net :ready")

    def says(self, *lines):
        self.socket.sendall("".join(line + "\r\n" for line in lines).encode())

    def until(self, end):
        """All lines up to one that ends so."""
        self.socket.settimeout(5)
        while not any(line.endswith(end) for line in self.seen.split(b"\r\n")):
            self.seen += self.socket.recv(65536)
        lines, self.seen = self.seen.split(b"\r\n")[:-1], b""
        return lines

    def answered(self, line):
        self.says(line, "PING done")
        return self.until(b"PONG a.net :done")


@contextlib.contextmanager
def daemon(program, port, programs, message=None):
    with tempfile.TemporaryDirectory() as folder:
        file = pathlib.Path(folder, "a.toml")
        file.write_text(FILE.format(port=port, programs=str(programs).lower()) + ('motd = "motd.txt"\n' if message is not None else ""))
        pathlib.Path(folder, "motd.txt").write_bytes((message or "").encode())
        process = subprocess.Popen([program, "serve", file], cwd=folder, stdout=subprocess.PIPE, stderr=subprocess.DEVNULL)
        try:
            process.stdout.readline()
            yield
        finally:
            process.kill()
            process.wait()


def told(name, is_so):
    print("ok  " if is_so else "FAIL", name)
    return is_so


def lines_are_right(program, port, programs):
    with daemon(program, port, programs):
        al, bo, _zed = Client(port, "al"), Client(port, "bo"), Client(port, "zed")
        al.answered("JOIN #c")
        bo.answered("JOIN #c")
        result = [told(f"programs {programs}: {line}", answer.encode() in al.answered(line)) for line, *answers in ROWS for answer in [answers[programs]]]
        for line in CUT:
            al.answered(line)
            text = b"\n".join(bo.answered("PING x"))
            result.append(told(f"programs {programs}: whole letters of {line[:9]}", is_utf8(text) == programs))
        return all(result)


def welcome_is_right(program, port, programs):
    with daemon(program, port, programs):
        client = socket.create_connection(("127.0.0.1", port))
        client.sendall(b"NICK al\r\nUSER u 0 * :Al\r\nPING ready\r\n")
        text = b""
        while b"PONG a.net :ready" not in text:
            text += client.recv(65536)
        lines = text.decode().split("\r\n")
        has_it = f":a.net 005 al {SUPPORTED}" == lines[lines.index(next(line for line in lines if " 004 " in line)) + 1]
        return told(f"programs {programs}: 005 behind 004", has_it == programs)


def message_is_right(program, port, programs, message):
    """Whether it is told behind registration and as the answer to MOTD, and what else is said stays."""
    wanted = MISSING if message is None else MESSAGE_TOLD if message else [MESSAGE_TOLD[0], MESSAGE_TOLD[-1]]
    with daemon(program, port, programs, message):
        client = socket.create_connection(("127.0.0.1", port))
        client.sendall(b"NICK al\r\nUSER u 0 * :Al\r\nPING ready\r\n")
        text = b""
        while b"PONG a.net :ready" not in text:
            text += client.recv(65536)
        client.sendall(b"MOTD\r\nPRIVMSG al ::a.net 422 al :x\r\nPING done\r\n")
        while b"PONG a.net :done" not in text:
            text += client.recv(65536)
        lines = text.decode().split("\r\n")
        welcome = [line for line in lines if line.split(" ")[1:2] in (["001"], ["002"], ["003"], ["004"], ["005"])]
        expected = [*welcome, *wanted, ":a.net PONG a.net :ready", *wanted, ":al!u@127.0.0.1 PRIVMSG al ::a.net 422 al :x", ":a.net PONG a.net :done", ""]
        name = "none" if message is None else f"{len(message)} bytes"
        return told(f"programs {programs}, message: {name}", lines == expected and len(welcome) == 4 + programs)


def ends_as_wanted(program, room, message, is_taken):
    """Whether the program takes a message, or refuses the configuration, and `ircd-check` does the same."""
    with tempfile.TemporaryDirectory() as folder:
        file = pathlib.Path(folder, "a.toml")
        text = FILE.format(port=0, programs="false").replace("client_room = 65536", f"client_room = {room}")
        file.write_text(text + 'motd = "motd.txt"\n')
        pathlib.Path(folder, "motd.txt").write_bytes(message)
        served = subprocess.run([program, "serve", file, "0"], cwd=folder, capture_output=True, check=False)
        checked = subprocess.run([sys.executable, CHECKER, file], cwd=folder, capture_output=True, check=False)
        wanted = 0 if is_taken else 3
        return told(f"message {'taken' if is_taken else 'refused'}: {message[:8]} of {len(message)} bytes, room {room}",
                    served.returncode == wanted and checked.returncode == wanted)


def messages_are_right(program):
    result = [message_is_right(program, 16726 + 3 * programs + place, programs, message)
              for programs in (False, True) for place, message in enumerate((None, MESSAGE, ""))]
    result += [ends_as_wanted(program, *row, is_taken) for is_taken, rows in ((True, TAKEN), (False, REFUSED)) for row in rows]
    return all(result)


# what a program says that negotiates, and each line that it is told, without the key and with it, before what all are told who register
CAP = (
    ("CAP LS 302", [":a.net 451 * :You have not registered"], [":a.net CAP * LS :"]),
    ("NICK al", [], []),
    ("CAP REQ :a b", [":a.net 451 al :You have not registered"], [":a.net CAP al NAK :a b"]),
    ("USER u 0 * :Al", None, []),
    ("CAP", [":a.net 421 al CAP :Unknown command"], [":a.net 461 al CAP :Not enough parameters"]),
    ("CAP FOO", [":a.net 421 al CAP :Unknown command"], [":a.net 410 al FOO :Invalid CAP command"]),
    ("CAP END", [":a.net 421 al CAP :Unknown command"], None),
    ("CAP END", [":a.net 421 al CAP :Unknown command"], []),
    ("cap list", [":a.net 421 al cap :Unknown command"], [":a.net CAP al LIST :"]),
)
# the same of who asks which there are, and for none
LISTED = (
    ("CAP LS 302", [":a.net 451 * :You have not registered"], [":a.net CAP * LS :"]),
    ("NICK bo", [], []),
    ("USER u 0 * :Bo", None, None),
    ("CAP END", [":a.net 421 bo CAP :Unknown command"], []),
)


def negotiation_is_right(program, port, programs):
    with daemon(program, port, programs):
        return all([rows_are_right(port, programs, rows) for rows in (CAP, LISTED)])


def rows_are_right(port, programs, rows):
    """Where None stands the client registers."""
    with contextlib.closing(socket.create_connection(("127.0.0.1", port))) as client:
        seen, result = b"", []
        for number, (line, *wanted) in enumerate(rows):
            client.sendall(f"{line}\r\nPING {number}\r\n".encode())
            while b"PONG a.net :%d\r\n" % number not in seen:
                seen += client.recv(65536)
            lines, seen = seen.decode().split("\r\n")[:-2], b""
            is_so = any(" 001 " in line for line in lines) if wanted[programs] is None else lines == wanted[programs]
            result.append(told(f"programs {programs}: {line}", is_so))
        return all(result)


def is_utf8(text):
    try:
        return bool(text.decode())
    except UnicodeDecodeError:
        return False


PYDLE = """
import asyncio, sys, pydle
opened = asyncio.open_connection        # of this pydle, which has the argument loop that Python 3.11 has no more
asyncio.open_connection = lambda *words, loop=None, **options: opened(*words, **options)
class Bot(pydle.Client):
    async def on_connect(self):
        await self.join("#c")
    async def on_message(self, target, source, message):
        modes = self.channels["#c"]["modes"]
        print(",".join(sorted(mode for mode, value in modes.items() if value and mode not in "ov")), flush=True)
async def main():
    await Bot("bot", realname="Bot").connect("127.0.0.1", int(sys.argv[1]), tls=False)
    await asyncio.sleep(8)
asyncio.run(main())
"""
PERL = r"""
use strict; use IO::Async::Loop; use Net::Async::IRC;
my $loop = IO::Async::Loop->new; my $irc;
$irc = Net::Async::IRC->new(
    on_message_MODE => sub { print "mode\n" },
    on_message_text => sub { my ($self, $message, $hints) = @_; if ($hints->{text} eq "tell") { print "alive\n"; exit } 1 },
);
$loop->add($irc);
$irc->login(nick => "bot", host => "127.0.0.1", service => $ARGV[0])->get;
$irc->send_message("JOIN", undef, "#c"); $loop->run;
"""


def asks(program, port, programs, command):
    """What a program prints that is in a channel, as its modes change, and is then asked."""
    with daemon(program, port, programs):
        al = Client(port, "al")
        al.answered("JOIN #c")
        process = subprocess.Popen([*command, str(port)], stdout=subprocess.PIPE, stderr=subprocess.DEVNULL, text=True)
        for _ in range(50):
            time.sleep(.1)
            if any(b"bot" in line for line in al.answered("NAMES #c")):
                break
        for modes in MODES:
            al.answered(f"MODE #c {modes}")
        time.sleep(.5)
        al.says("PRIVMSG #c :tell")
        time.sleep(1)
        process.kill()
        return process.communicate()[0].split()


def main(program):
    program = pathlib.Path(program).resolve()
    result = [check(program, 16720 + programs, programs) for check in (welcome_is_right, lines_are_right, negotiation_is_right) for programs in (False, True)]
    result.append(messages_are_right(program))
    if importlib.util.find_spec("pydle"):
        print("     pydle without the key:", *asks(program, 16722, False, [sys.executable, "-c", PYDLE]))
        result.append(told("pydle: n, p and t are set", asks(program, 16723, True, [sys.executable, "-c", PYDLE]) == ["n,p,t"]))
    if shutil.which("perl") and not subprocess.run(["perl", "-MNet::Async::IRC", "-e", "1"], stderr=subprocess.DEVNULL).returncode:
        print("     Net::Async::IRC without the key:", *asks(program, 16724, False, ["perl", "-e", PERL]))
        result.append(told("Net::Async::IRC: alive behind MODE", "alive" in asks(program, 16725, True, ["perl", "-e", PERL])))
    return 0 if all(result) else 1


if __name__ == "__main__":
    sys.exit(main(sys.argv[1]))
