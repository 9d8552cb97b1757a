#!/usr/bin/env python3
"""What `ircd serve` does where its file is read again, over sockets.

    tests/reread.py PROGRAM

The file is changed beneath a running daemon, and FILE.reload is made beside it: who is kept out, limits, pace and the message of the day are the
file's then, nobody is disconnected, the journal has a line, and a bad file changes nothing. Exit status: 1 where something differs.
"""
import contextlib
import pathlib
import socket
import subprocess
import sys
import tempfile
import time

FILE = """name = "a.net"
info = "A"
created = "2026-12-01"
listen = "127.0.0.1:0"
client_room = 65536
link_room = 65536
"""
USER = b"USER u 0 * :Al\r\n"
TAKEN = "ircd: configuration: read again\n"


class Daemon:
    """A daemon, its file, and what it has said."""

    def __init__(self, program, folder, port, *more):
        self.file, self.journal, self.port = pathlib.Path(folder, "a.toml"), pathlib.Path(folder, "journal"), port
        self.request = pathlib.Path(folder, "a.toml.reload")
        self.said = 0
        self.write(*more)
        with self.journal.open("wb") as errors:
            self.process = subprocess.Popen([program, "serve", self.file], stdout=subprocess.PIPE, stderr=errors)
        self.process.stdout.readline()

    def write(self, *more, name="a.net"):
        text = FILE.replace(":0", f":{self.port}").replace("a.net", name)
        self.file.write_text(text + "\n".join(more) + "\n")

    def reread(self, *more, name="a.net"):
        """What is said of a file with these lines more, once the request is gone and a turn is over."""
        self.write(*more, name=name)
        return self.asked()

    def asked(self):
        self.request.touch()
        end = time.monotonic() + 3
        while self.request.exists() and time.monotonic() < end:
            time.sleep(0.02)
        time.sleep(0.2)
        return self.news()

    def news(self):
        text = self.journal.read_text()
        news, self.said = text[self.said:], len(text)
        return news


@contextlib.contextmanager
def daemon(program, *more):
    with tempfile.TemporaryDirectory() as folder, socket.socket() as free:
        free.bind(("127.0.0.1", 0))
        port = free.getsockname()[1]
        free.close()
        it = Daemon(program, folder, port, *more)
        try:
            yield it
        finally:
            it.process.kill()
            it.process.wait()


def client(it, name, source="127.0.0.1"):
    """A connection from an address, which says who it is."""
    one = socket.create_connection(("127.0.0.1", it.port), source_address=(source, 0))
    one.sendall(b"NICK " + name.encode() + b"\r\n" + USER)
    return one


def heard(one, wait=0.5):
    text, end = b"", time.monotonic() + wait
    while (left := end - time.monotonic()) > 0:
        one.settimeout(left)
        try:
            more = one.recv(65536)
        except TimeoutError:
            break
        except ConnectionResetError:
            return text + b"END"
        if not more:
            return text + b"END"
        text += more
    return text


def answers(one):
    """Whether a client is there still: it is answered."""
    one.sendall(b"PING here\r\n")
    return b"PONG a.net :here\r\n" in heard(one)


def told(name, is_so):
    print("ok  " if is_so else "FAIL", name)
    return is_so


def who_is_kept_out(program):
    with daemon(program) as it:
        there = client(it, "al", "127.0.0.2")
        heard(there)
        rows = [told("deny: the line", it.reread('deny = ["127.0.0.2"]') == TAKEN)]
        rows.append(told("deny: who is there stays", answers(there)))
        rows.append(told("deny: who comes is closed", heard(client(it, "bo", "127.0.0.2")) in (b"END",)))
        rows.append(told("deny: another comes in", b" 422 " in heard(client(it, "ci", "127.0.0.3"))))
        rows.append(told("deny: taken away again", it.reread() == TAKEN))
        rows.append(told("deny: it comes in again", b" 422 " in heard(client(it, "di", "127.0.0.2"))))
        return all(rows)


def limits_of_an_address(program):
    with daemon(program) as it:
        there = [client(it, f"al{number}", "127.0.0.2") for number in range(3)]
        heard(there[2])
        rows = [told("limit: the line", it.reread("connections_per_address = 3") == TAKEN)]
        rows.append(told("limit: all three are there", all(answers(one) for one in there)))
        rows.append(told("limit: they count", heard(client(it, "bo", "127.0.0.2")) == b"END"))
        there.pop().close()
        time.sleep(0.3)
        rows.append(told("limit: in the place of who went", b" 422 " in heard(client(it, "ci", "127.0.0.2"))))
        return all(rows)


def pace_of_lines(program):
    with daemon(program) as it:
        one = client(it, "al")
        heard(one)
        rows = [told("pace: the line", it.reread("lines_per_second = 2", "burst_lines = 2") == TAKEN)]
        one.sendall(b"".join(b"PING %d\r\n" % number for number in range(100)))
        paced = heard(one, 2).count(b"PONG")
        rows.append(told(f"pace: {paced} of 100 lines in 2 s", 4 <= paced <= 12))
        rows.append(told("pace: none", it.reread() == TAKEN))
        rows.append(told("pace: the others come", heard(one, 2).count(b"PONG") == 100 - paced))
        return all(rows)


def message_of_the_day(program):
    with daemon(program) as it:
        text = it.file.with_name("motd.txt")
        text.write_text("Hello\n")
        there = client(it, "al")
        first = heard(there)
        rows = [told("motd: none at first", b" 422 " in first)]
        rows.append(told("motd: the line", it.reread(f'motd = "{text}"') == TAKEN))
        rows.append(told("motd: who comes is told", b" 372 bo :- Hello\r\n" in heard(client(it, "bo"))))
        text.write_text("x\0y\n")
        rows.append(told("motd: a bad one", it.asked() == "ircd: configuration: not read again: its motd is bad\n"))
        rows.append(told("motd: changes nothing", b" 372 ci :- Hello\r\n" in heard(client(it, "ci"))))
        rows.append(told("motd: none again", it.reread() == TAKEN and b" 422 " in heard(client(it, "di"))))
        return all(rows)


def bad_files(program):
    with daemon(program, 'deny = ["127.0.0.2"]') as it:
        bad = "ircd: configuration: not read again: it is bad\n"
        rows = [told("bad: a key that is none", it.reread("port = 1") == bad)]
        rows.append(told("bad: a range that is none", it.reread('deny = ["127.0.0.1/33"]') == bad))
        rows.append(told("bad: another peer's name", it.reread('[[peer]]\nname = "bnet"\npassword = "x"\nconnect = "127.0.0.1:1"') == bad))
        it.file.unlink()
        unread = "ircd: configuration: not read again: it cannot be read\n"
        rows.append(told("bad: no file", it.asked() == unread))
        rows.append(told("bad: all is as it was", heard(client(it, "al", "127.0.0.2")) == b"END"))
        return all(rows)


def what_waits(program):
    peer = '[[peer]]\nname = "b.net"\npassword = "pw"'
    wants = " has changed: that wants a restart\n"
    with daemon(program, peer) as it:
        rows = [told("waits: nothing", it.reread(peer) == TAKEN)]
        rows.append(told("waits: the name", it.reread(peer, name="c.net") == TAKEN + f"ircd: configuration: name{wants}"))
        rows.append(told("waits: a peer's password", it.reread(peer.replace("pw", "px")) == TAKEN + f"ircd: configuration: peer{wants}"))
        rows.append(told("waits: two", it.reread("programs = true") == TAKEN
                         + f"ircd: configuration: programs{wants}ircd: configuration: peer{wants}"))
        it.request.mkdir()
        time.sleep(2.5)
        stuck = it.news()
        rows.append(told("waits: what asks cannot be taken away, once",
                         stuck == "ircd: configuration: not read again: what asks for it cannot be taken away\n"))
        it.request.rmdir()
        rows.append(told("waits: and then it can", it.reread(peer) == TAKEN))
        return all(rows)


def main():
    if len(sys.argv) != 2:
        sys.exit(__doc__)
    parts = (who_is_kept_out, limits_of_an_address, pace_of_lines, message_of_the_day, bad_files, what_waits)
    return 0 if all([part(sys.argv[1]) for part in parts]) else 1


if __name__ == "__main__":
    sys.exit(main())
