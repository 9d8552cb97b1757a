#!/usr/bin/env python3
"""What `password` and `ping_after` of `ircd serve` do, over sockets and by the clock.

    tests/doorman.py PROGRAM

The rows of crates/tests_sockets/src/asking.rt have each line that is said; here are a daemon, its clients and real seconds. Exit status: 1 where
something differs.
"""
import contextlib
import pathlib
import socket
import subprocess
import sys
import tempfile
import time

FILE = """name = "a.net"
info = "A"
created = "2026-12-01"
listen = "127.0.0.1:0"
client_room = 65536
link_room = 65536
"""
WELCOME = b":a.net 422 al :MOTD File is missing\r\n"
AWAY = b":a.net 464 * :Password incorrect\r\nERROR :Closing link (Bad password)\r\n"


@contextlib.contextmanager
def daemon(program, *more):
    """A daemon with these lines more in its file, and the port that it listens at."""
    with tempfile.TemporaryDirectory() as folder, socket.socket() as free:
        free.bind(("127.0.0.1", 0))
        port = free.getsockname()[1]
        free.close()
        file = pathlib.Path(folder, "a.toml")
        file.write_text(FILE.replace(":0", f":{port}") + "\n".join(more) + "\n")
        process = subprocess.Popen([program, "serve", file], stdout=subprocess.PIPE, stderr=subprocess.DEVNULL)
        try:
            process.stdout.readline()
            yield port
        finally:
            process.kill()
            process.wait()


def talk(port, *lines, wait=5.0):
    """What is written to who says these lines, up to its end or for so long."""
    with socket.create_connection(("127.0.0.1", port)) as client:
        client.sendall(b"".join(line.encode() + b"\r\n" for line in lines))
        return heard(client, wait)


def heard(client, wait):
    text, end = b"", time.monotonic() + wait
    while (left := end - time.monotonic()) > 0:
        client.settimeout(left)
        try:
            more = client.recv(65536)
        except TimeoutError:
            break
        except ConnectionResetError:
            more = b""
        if not more:
            return text + b"END"
        text += more
    return text


def told(name, is_so):
    print("ok  " if is_so else "FAIL", name)
    return is_so


def password_is_asked(program):
    user = ("NICK al", "USER u 0 * :Al")
    with daemon(program, 'password = "open sesame"') as port:
        return all([
            told("password: the right one", talk(port, "PASS :open sesame", *user, wait=0.5).endswith(WELCOME)),
            told("password: the last one counts", talk(port, "PASS x", "PASS :open sesame", *user, wait=0.5).endswith(WELCOME)),
            told("password: a front of it", talk(port, "PASS :open sesam", *user) == AWAY + b"END"),
            told("password: none", talk(port, *user) == AWAY + b"END"),
            told("password: a longer one", talk(port, "PASS :open sesame!", *user) == AWAY + b"END"),
            told("password: PASS alone", talk(port, "PASS", *user) == b":a.net 461 * PASS :Not enough parameters\r\n" + AWAY + b"END"),
            told("password: a probe wants none", talk(port, "PING x", wait=0.5) == b":a.net PONG a.net :x\r\n"),
            told("password: whoever is turned away leaves its nickname free", talk(port, "PASS :open sesame", *user, wait=0.5).endswith(WELCOME)),
        ])


def silence_is_noticed(program):
    with daemon(program, "ping_after = 2") as port, socket.create_connection(("127.0.0.1", port)) as bo:
        bo.sendall(b"NICK bo\r\nUSER u 0 * :Bo\r\nJOIN #c\r\n")
        with socket.create_connection(("127.0.0.1", port)) as al:
            al.sendall(b"NICK al\r\nUSER u 0 * :Al\r\nJOIN #c\r\n")
            begun, seen, other, asked, end = time.monotonic(), b"", b"", None, None
            while time.monotonic() < begun + 9 and end is None:
                other += heard(bo, 0.1)
                if other.endswith(b"PING :a.net\r\n"):
                    bo.sendall(b"PONG a.net\r\n")
                seen += heard(al, 0.1)
                now = time.monotonic() - begun
                asked = asked or (now if b"PING :a.net\r\n" in seen else None)
                end = now if seen.endswith(b"END") else None
        other += heard(bo, 1)
        print(f"     asked behind {asked:.1f} s, gone behind {end:.1f} s")
        return all([
            told("ping_after: asked in time", 1.9 < asked < 3.6),
            told("ping_after: gone in time", 3.9 < end < 6.6),
            told("ping_after: it is told", seen.endswith(b"ERROR :Closing link (Ping timeout)\r\nEND")),
            told("ping_after: others see it quit", b":al!u@127.0.0.1 QUIT :Ping timeout\r\n" in other),
            told("ping_after: who answers stays", b"END" not in other and other.count(b"PING :a.net\r\n") >= 1),
        ])


def nobody_is_asked(program):
    with daemon(program) as port:
        return told("neither key: PASS is nothing, and nobody is asked", talk(port, "PASS", "NICK al", "USER u 0 * :Al", wait=4).endswith(WELCOME))


def main():
    if len(sys.argv) != 2:
        sys.exit(__doc__)
    results = [password_is_asked(sys.argv[1]), silence_is_noticed(sys.argv[1]), nobody_is_asked(sys.argv[1])]
    sys.exit(0 if all(results) else 1)


if __name__ == "__main__":
    main()
