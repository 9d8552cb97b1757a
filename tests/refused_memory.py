#!/usr/bin/env python3
"""Each allocation of `ircd serve` refused in turn, while the same is said to it on loopback: by one client; and by one client and two servers, of which
one has called it and it has called the other.

What each of them has read is a front of what it reads with ample memory; the daemon serves on, or ends with the status of a failure; and where its
memory was refused before it listens, it never says that it is ready. Where there was no memory for the socket of one, that one has read nothing, the
daemon serves on, and the others are told nothing of it: then they are not compared.

tests/refused_memory.py. The program is crates/ircd/out/ircd (`./ircd build` makes it), or what IRCD names.
Exit status: 0 where all of this held each time, 1 where it did not.
"""
import os
import socket
import subprocess
import sys
import tempfile

HERE = os.path.dirname(os.path.abspath(__file__))
IRCD = os.environ.get("IRCD", os.path.join(os.path.dirname(HERE), "crates/ircd/out/ircd"))
FAILED = 4
SECONDS = 3
# what nobody says
NEVER = b"\0"
LINES = (b"NICK al\r\nUSER al 0 * :Al\r\nJOIN #c,#d\r\nMODE #c +ntk-l key\r\nTOPIC #c :a topic\r\nMODE #c +b x!*@*\r\nWHO #c\r\nWHOIS al\r\nLIST\r\n"
         b"INVITE bo #c\r\nPRIVMSG al :to myself\r\nNICK ali\r\nPART #d\r\nLUSERS\r\nISON ali\r\nNAMES\r\nQUIT :bye\r\n")


def build(folder):
    library = os.path.join(folder, "refused_memory.so")
    subprocess.run(["cc", "-O2", "-shared", "-fPIC", "-fno-builtin", "-o", library, os.path.join(HERE, "refused_memory.c")], check=True)
    return library


def server_lines(name, user, channel):
    """What a server says that is linked: who it is, a server behind it, a user and a channel; later a text, a mode and a new nickname."""
    return (f"PASS pw 0210010001 TREE|\r\nSERVER {name} 1 1 :Peer\r\n:{name} SERVER far.{name} 2 2 :Far\r\nNICK {user} 2 u far.example 2 + :User\r\n"
            f":far.{name} NJOIN {channel} :@{user}\r\n:far.{name} MODE {channel} +nt\r\n:far.{name} TOPIC {channel} :a topic\r\n"
            f":{user} INVITE al {channel}\r\n:{user} NICK {user}x\r\n").encode()


def read_until(stream, mark):
    """What is read up to a mark, or to the end."""
    read = b""
    try:
        while mark not in read:
            piece = stream.recv(65536)
            if not piece:
                break
            read += piece
    except (ConnectionError, TimeoutError):
        pass
    return read


def say(stream, lines):
    try:
        stream.sendall(lines)
    except ConnectionError:
        pass


def say_no_more(stream):
    try:
        stream.shutdown(socket.SHUT_WR)
    except OSError:
        pass


def dial(port):
    stream = socket.create_connection(("127.0.0.1", port), timeout=SECONDS)
    stream.settimeout(SECONDS)
    return stream


class Alone:
    """One client."""

    keys = ""
    ports = 1
    door = 0

    def __enter__(self):
        return self

    def __exit__(self, *_):
        pass

    def play(self, ports):
        """What each reads."""
        client = dial(ports[0])
        with client:
            say(client, LINES)
            return [read_until(client, NEVER)]


class Linked:
    """A client, a server that calls and one that is called."""

    keys = ('listen_links = "127.0.0.1:{1}"\n[[peer]]\nname = "v.net"\npassword = "pw"\n[[peer]]\nname = "w.net"\npassword = "pw"\n'
            'connect = "127.0.0.1:{2}"\n')
    ports = 2

    def __enter__(self):
        self.listener = socket.create_server(("127.0.0.1", 0))
        self.listener.settimeout(SECONDS)
        self.door = self.listener.getsockname()[1]
        return self

    def __exit__(self, *_):
        self.listener.close()

    def play(self, ports):
        called = self.listener.accept()[0]
        called.settimeout(SECONDS)
        caller, client = dial(ports[1]), dial(ports[0])
        with called, caller, client:
            say(caller, server_lines("v.net", "vi", "#v"))
            first = read_until(caller, b"SERVER a.net ")
            # the mark is what the other server is told last of what this one says
            say(called, server_lines("w.net", "wo", "#w"))
            first += read_until(caller, b"NICK wox\r\n")
            say(client, LINES)
            heard = read_until(client, NEVER)
            say_no_more(called)
            second = read_until(called, NEVER)
            say_no_more(caller)
            return [heard, first + read_until(caller, NEVER), second]


def run(folder, library, number, scene):
    """Whether an allocation of this number was refused, whether the daemon was ready, what each has read, and the status if the daemon ended."""
    frees = [socket.create_server(("127.0.0.1", 0)) for _ in range(scene.ports)]
    ports = [free.getsockname()[1] for free in frees]
    for free in frees:
        free.close()
    path = os.path.join(folder, "server.toml")
    with open(path, "w", encoding="ascii") as file:
        file.write(f'name = "a.net"\ninfo = "Little memory"\ncreated = "2024-01-01"\nlisten = "127.0.0.1:{ports[0]}"\nclient_room = 65536\nlink_room = 65536\n'
                   + scene.keys.format(*ports, scene.door))
    environment = dict(os.environ, LD_PRELOAD=library, REFUSED=str(number))
    daemon = subprocess.Popen([IRCD, "serve", path], stdout=subprocess.PIPE, stderr=subprocess.PIPE, env=environment)
    is_ready = daemon.stdout.readline() == b"ready\n"
    answers = []
    try:
        answers = scene.play(ports) if is_ready else []
    except (ConnectionError, TimeoutError):
        pass
    try:
        status = daemon.wait(timeout=0.05 if is_ready else 5)
    except subprocess.TimeoutExpired:
        status = None
        daemon.kill()
    errors = daemon.communicate()[1]
    return b"refused\n" in errors, is_ready, answers, status


def run_scene(folder, library, number, kind):
    with kind() as scene:
        return run(folder, library, number, scene)


def refuse_each(folder, library, kind):
    """How often a run was wrong."""
    what = kind.__name__.lower()
    _, _, ample, _ = run_scene(folder, library, 0, kind)
    if not ample or any(not answer.endswith(b"\r\n") for answer in ample) or b"ERROR" not in ample[0]:
        sys.exit(f"refused_memory: {what}: the script does not run to its end")
    number, wrong, ended, served_on, turned_away = 0, 0, 0, 0, 0
    while True:
        number += 1
        was_refused, is_ready, answers, status = run_scene(folder, library, number, kind)
        if not was_refused:
            break
        ended += status is not None
        served_on += status is None
        is_turned_away = status is None and b"" in answers
        turned_away += is_turned_away
        are_fronts = is_turned_away or all(whole.startswith(answer) for whole, answer in zip(ample, answers))
        if not are_fronts or status not in (None, FAILED) or (status is None and not is_ready):
            wrong += 1
            print(f"refused_memory: {what}: allocation {number}: status {status}, {[len(answer) for answer in answers]} bytes read")
    print(f"refused_memory: {what}: {number - 1} allocations refused in turn, of {[len(answer) for answer in ample]} bytes a front each time; "
          f"{ended} times the daemon ended with {FAILED}, {served_on} times it served on, {turned_away} times without one of them; {wrong} times it was wrong")
    return wrong


def main():
    with tempfile.TemporaryDirectory() as folder:
        library = build(folder)
        wrong = refuse_each(folder, library, Alone) + refuse_each(folder, library, Linked)
        sys.exit(1 if wrong else 0)


main()
