#!/usr/bin/env python3
"""Loads a server on loopback, and prints for each part how much processor time and how many system calls a line costs the server.

load.py PORT PID PART: PART is register, pairs, paced, flooded or idle. Processor time is that of /proc/PID/schedstat, in nanoseconds (the
server has one thread); calls are counted by `strace -c` in a run of their own (CALLS=1), since that slows the server down."""
import os
import resource
import selectors
import signal
import socket
import subprocess
import sys
import time

PORT, PID, PART = int(sys.argv[1]), int(sys.argv[2]), sys.argv[3]
COUNTS_CALLS = os.environ.get("CALLS") == "1"


def seconds():
    with open(f"/proc/{PID}/schedstat", encoding="ascii") as file:
        return int(file.read().split()[0]) / 1e9


def kilobytes():
    with open(f"/proc/{PID}/status", encoding="ascii") as file:
        return next(int(line.split()[1]) for line in file if line.startswith("VmRSS:"))


def connect():
    client = socket.create_connection(("127.0.0.1", PORT))
    client.setsockopt(socket.IPPROTO_TCP, socket.TCP_NODELAY, 1)
    return client


def wait_for(client, mark):
    read = b""
    while mark not in read:
        piece = client.recv(65536)
        if not piece:
            raise SystemExit("load: a connection was closed")
        read += piece


def people(count, room):
    clients = [connect() for _ in range(count)]
    for number, client in enumerate(clients):
        client.sendall(f"NICK p{number}\r\nUSER u 0 * :x\r\n".encode())
    for client in clients:
        wait_for(client, b" 422 ")
    if room:
        for client in clients:
            client.sendall(b"JOIN #c\r\n")
            wait_for(client, b" 366 ")
        time.sleep(0.3)
        drain(clients, 0)
    return clients


def drain(clients, wanted):
    """Reads from all until so many lines came, or nothing more comes."""
    lines = 0
    with selectors.DefaultSelector() as selector:
        for client in clients:
            selector.register(client, selectors.EVENT_READ)
        while True:
            ready = selector.select(0.3 if lines >= wanted else 5)
            if not ready:
                return lines
            for key, _ in ready:
                lines += key.fileobj.recv(65536).count(b"\n")
            if wanted and lines >= wanted:
                return lines


class Measured:
    """What a stretch of work costs the server."""

    def __enter__(self):
        self.tracer = None
        if COUNTS_CALLS:
            self.tracer = subprocess.Popen(["strace", "-f", "-c", "-o", "/dev/stderr", "-p", str(PID)], stderr=subprocess.PIPE, text=True)
            time.sleep(0.5)
        self.start = seconds()
        return self

    def __exit__(self, *_):
        end = seconds()
        self.seconds = end - self.start
        self.calls = 0
        if self.tracer:
            self.tracer.send_signal(signal.SIGINT)
            for row in self.tracer.communicate()[1].splitlines():
                words = row.split()
                if words and words[-1] == "total":
                    self.calls = int(words[3]) if len(words) > 4 else int(words[2])

    def tell(self, lines):
        if COUNTS_CALLS:
            print(f"{PART} calls_per_line={self.calls / lines:.3f} lines={lines}")
        else:
            print(f"{PART} us_per_line={self.seconds / lines * 1e6:.3f} lines={lines}")


def register():
    with Measured() as measured:
        people(2000, False)
    measured.tell(2000 * 2)


def pairs():
    clients = people(100, False)
    rounds = 500 if not COUNTS_CALLS else 50
    with Measured() as measured:
        for _ in range(rounds):
            for number, client in enumerate(clients):
                client.sendall(f"PRIVMSG p{number ^ 1} :how do you do\r\n".encode())
            drain(clients, len(clients))
    measured.tell(rounds * len(clients))


def fan_out(pause, texts):
    clients = people(101, True)
    with Measured() as measured:
        lines = 0
        for number in range(texts):
            clients[0].sendall(b"PRIVMSG #c :text %d\r\n" % number)
            if pause:
                lines += drain(clients[1:], 100)
        if not pause:
            lines = drain(clients[1:], texts * 100)
    measured.tell(lines)


def idle():
    _, hard = resource.getrlimit(resource.RLIMIT_NOFILE)
    resource.setrlimit(resource.RLIMIT_NOFILE, (hard, hard))
    before = kilobytes()
    clients = []
    for block in range(20):
        some = [connect() for _ in range(500)]
        for number, client in enumerate(some):
            client.sendall(f"NICK i{block * 500 + number}\r\nUSER u 0 * :x\r\n".encode())
        for client in some:
            wait_for(client, b" 422 ")
        clients += some
    after = kilobytes()
    with Measured() as measured:
        time.sleep(5)
    print(f"idle kB_per_client={(after - before) / len(clients):.2f} busy_percent={measured.seconds / 5 * 100:.2f} calls={measured.calls}")


parts = {"register": register, "pairs": pairs, "paced": lambda: fan_out(True, 500 if not COUNTS_CALLS else 100),
         "flooded": lambda: fan_out(False, 1000), "idle": idle}
parts[PART]()
