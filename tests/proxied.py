#!/usr/bin/env python3
"""Who comes by a proxy, and who is kept out: `proxies` and `deny` of `ircd serve`, by headers of the PROXY protocol that are good and bad.

    tests/proxied.py PROGRAM [ROW ..]

  good       each form of a good header names who comes, whole, byte by byte, and with lines behind it in one packet
  bad        each header that is none, or names nobody, is closed without a word
  plain      who is no proxy, and sends a header, has said a line; its own address counts
  slow       a header that does not come is given up after 10 s, and not before 9
  many       of 257 of whom none has said anything the last one is closed at once; who is no proxy comes in meanwhile
  deny       who is denied is closed: its own address, and one that a proxy names, and nobody beside
  limit      connections_per_address counts the addresses that are named, each apart, and the proxy's own not at all
  links      at listen_links no header is wanted, and none is read
  ban        a ban of the address that was named keeps its user out of a channel, and no other one
  tools      haproxy and stunnel, where they are installed, with the address that they were reached from

Exit status: 0 where every row held, 1 where one did not.
"""
import contextlib
import os
import pathlib
import shutil
import socket
import struct
import subprocess
import sys
import tempfile
import time

FILE = """name = "a.net"
info = "A"
created = "2026-11-30"
listen = "127.0.0.1:{port}"
client_room = 65536
link_room = 65536
"""
SIGNATURE = b"\r\n\r\n\0\r\nQUIT\n"
LOCAL, PROXY = 0x20, 0x21
TCP4, UDP4, TCP6, UDP6, UNIX = 0x11, 0x12, 0x21, 0x22, 0x31
# proxies come from here, and who is none from there
PROXY_ADDRESS, OTHER_ADDRESS = "127.0.0.1", "127.0.0.2"
WITHIN, AT_ONCE = 10, 256
# what daemons have said on standard error, where nothing is to be said of clients
SAID = []


def line(family="TCP4", source="192.0.2.7", destination="192.0.2.1", port="51000", to="6667"):
    return f"PROXY {family} {source} {destination} {port} {to}\r\n".encode()


def ends(source, destination="192.0.2.1"):
    family = socket.AF_INET6 if ":" in source else socket.AF_INET
    destination = "2001:db8::99" if ":" in source else destination
    return socket.inet_pton(family, source) + socket.inet_pton(family, destination) + struct.pack("!HH", 51000, 6667)


def binary(source="192.0.2.7", command=PROXY, family=None, more=b"", length=None):
    body = ends(source) + more
    family = (TCP6 if ":" in source else TCP4) if family is None else family
    return SIGNATURE + bytes([command, family]) + struct.pack("!H", len(body) if length is None else length) + body


# TLVs as haproxy and others write them: the authority, and one that says nothing
TLVS = b"\x02\x00\x07irc.net" + b"\x04\x00\x03\0\0\0"

# who is named, and by what
GOOD = {
    "line of IPv4": ("192.0.2.7", line()),
    "line of IPv6": ("2001:db8::7", line("TCP6", "2001:db8::7", "2001:db8::1")),
    "line of IPv6 in full": ("2001:db8::7", line("TCP6", "2001:0DB8:0000:0000:0000:0000:0000:0007", "::")),
    "line with the last port": ("192.0.2.7", line(port="65535", to="0")),
    "the longest line": ("2001:db8:ffff:ffff:ffff:ffff:ffff:ffff",
                         line("TCP6", "2001:0db8:ffff:ffff:ffff:ffff:ffff:ffff", "ffff:" * 7 + "ffff", "65535", "65535")),
    "bytes of IPv4": ("192.0.2.7", binary()),
    "bytes of IPv6": ("2001:db8::7", binary("2001:db8::7")),
    "bytes with TLVs": ("192.0.2.7", binary(more=TLVS)),
    "512 bytes": ("192.0.2.7", binary(more=b"\x04\x01\xf1" + bytes(497))),
    "bytes of IPv6 with TLVs": ("2001:db8::7", binary("2001:db8::7", more=TLVS)),
}
BAD = {
    "no header": b"NICK al\r\nUSER u 0 * :al\r\n",
    "UNKNOWN": b"PROXY UNKNOWN\r\n",
    "UNKNOWN with more": b"PROXY UNKNOWN 192.0.2.7 192.0.2.1 1 2\r\n",
    "small letters": line("tcp4"),
    "UDP in a line": line("UDP4"),
    "IPv6 where IPv4 is said": line("TCP4", "2001:db8::7", "2001:db8::1"),
    "IPv4 where IPv6 is said": line("TCP6"),
    "a destination of IPv6": line("TCP4", destination="::1"),
    "a number of 256": line(source="192.0.2.256"),
    "a zero in front": line(source="192.0.2.07"),
    "a name": line(source="localhost"),
    "no address": line(source=""),
    "two spaces": line(source=" 192.0.2.7"),
    "a space behind": line(to="6667 "),
    "a port of 65536": line(port="65536"),
    "a port with a sign": line(port="+1"),
    "a port with a zero in front": line(to="06667"),
    "three words": b"PROXY TCP4 192.0.2.7 192.0.2.1 51000\r\n",
    "five words": line(to="6667 1"),
    "a line without CR": line()[:-2] + b"\n" + b"x" * 107,
    "a long line": b"PROXY UNKNOWN " + b"x" * 92 + b"\r\n",
    "half a signature": SIGNATURE[:6] + b"\n\n",
    "LOCAL": binary(command=LOCAL),
    "LOCAL with nothing": SIGNATURE + bytes([LOCAL, 0, 0, 0]),
    "another command": binary(command=0x22),
    "version 1 in bytes": binary(command=0x11),
    "version 3": binary(command=0x31),
    "UDP": binary(family=UDP4),
    "UDP of IPv6": binary("2001:db8::7", family=UDP6),
    "a socket of unix": SIGNATURE + bytes([PROXY, UNIX]) + struct.pack("!H", 216) + bytes(216),
    "no family": SIGNATURE + bytes([PROXY, 0, 0, 0]),
    "11 bytes": SIGNATURE + bytes([PROXY, TCP4]) + struct.pack("!H", 11) + bytes(11),
    "35 bytes": SIGNATURE + bytes([PROXY, TCP6]) + struct.pack("!H", 35) + bytes(35),
    "513 bytes": binary(more=bytes(501)),
}


def free_port():
    with socket.socket() as s:
        s.bind(("127.0.0.1", 0))
        return s.getsockname()[1]


@contextlib.contextmanager
def daemon(program, more, heard=SAID):
    """Its port. What it says on standard error is heard."""
    port = free_port()
    with tempfile.TemporaryDirectory() as folder:
        path = pathlib.Path(folder, "ircd.toml")
        path.write_text(FILE.format(port=port) + more, encoding="utf-8")
        with subprocess.Popen([program, "serve", path], stdout=subprocess.PIPE, stderr=subprocess.PIPE) as process:
            try:
                if process.stdout.readline() != b"ready\n":
                    raise OSError(f"no ready: {process.stderr.read()}")
                yield port
            finally:
                process.kill()
                said = process.stderr.read()
                if said:
                    heard.append(said)


class Comer:
    """One who connects from an address, and sends something first."""

    def __init__(self, port, first=b"", address=PROXY_ADDRESS):
        self.socket = socket.create_connection(("127.0.0.1", port), 5, (address, 0))
        self.socket.setsockopt(socket.IPPROTO_TCP, socket.TCP_NODELAY, 1)
        self.seen = b""
        self.socket.sendall(first)

    def says(self, *lines):
        self.socket.sendall("".join(it + "\r\n" for it in lines).encode())

    def until(self, word, seconds=5):
        """All that has come, up to a word; what has come by then, where it is closed or late."""
        self.socket.settimeout(seconds)
        try:
            while word not in self.seen and (piece := self.socket.recv(65536)):
                self.seen += piece
        except OSError:
            pass
        seen, self.seen = self.seen, b""
        return seen

    def host(self, nick="al"):
        """The host that WHOIS shows of it, once it has registered."""
        self.says(f"NICK {nick}", f"USER u 0 * :{nick}", f"WHOIS {nick}", "PING done")
        words = [it.split() for it in self.until(b":done").decode().split("\r\n") if f" 311 {nick} {nick} " in it]
        return words[0][5] if words else None

    def is_closed(self, seconds=3):
        """Whether it is closed, and nothing was said to it."""
        self.socket.settimeout(seconds)
        try:
            return self.socket.recv(65536) == b""
        except ConnectionError:
            return True
        except OSError:
            return False

    def close(self):
        self.socket.close()


def told(row, holds, came):
    print(f"{row}: {'ok' if holds else 'WRONG'}; {came}", flush=True)
    return holds


def proxied(more=""):
    return f'proxies = ["{PROXY_ADDRESS}"]\n{more}'


def pieces_host(port, header):
    """The host of one whose header comes byte by byte."""
    comer = Comer(port)
    for place in range(len(header)):
        comer.socket.sendall(header[place:place + 1])
        time.sleep(0.0005)
    return comer, comer.host()


def whole_host(port, header):
    """And of one whose header comes with its lines, in one packet."""
    comer = Comer(port, header + b"NICK al\r\nUSER u 0 * :al\r\nWHOIS al\r\nPING done\r\n")
    words = [it.split() for it in comer.until(b":done").decode().split("\r\n") if " 311 al al " in it]
    return comer, words[0][5] if words else None


def good(program):
    wrong = []
    with daemon(program, proxied()) as port:
        for name, (address, header) in GOOD.items():
            for host_of in (pieces_host, whole_host):
                comer, host = host_of(port, header)
                comer.close()
                if host != address:
                    wrong.append((name, host_of.__name__, host))
                time.sleep(0.05)
    return told("good", not wrong, f"of {len(GOOD)} headers, in two ways each, wrong were {wrong}")


def bad(program):
    wrong = []
    with daemon(program, proxied()) as port:
        for name, header in BAD.items():
            comer = Comer(port, header)
            if not comer.is_closed():
                wrong.append(name)
            comer.close()
        comer = Comer(port, line())
        comes = comer.host() == "192.0.2.7"
        comer.close()
    return told("bad", not wrong and comes, f"of {len(BAD)} not closed were {wrong}; one with a header comes in: {comes}")


def plain(program):
    with daemon(program, proxied()) as port:
        comer = Comer(port, line(), OTHER_ADDRESS)
        answer = comer.until(b"\r\n")
        host = comer.host()
        comer.close()
    return told("plain", b" 451 " in answer and host == OTHER_ADDRESS, f"the header is answered by {answer}, and its host is {host}")


def slow(program):
    with daemon(program, proxied()) as port:
        silent, half = Comer(port), Comer(port, line()[:20])
        began = time.monotonic()
        are_closed = silent.is_closed(WITHIN + 3), half.is_closed(WITHIN + 3)
        took = time.monotonic() - began
        other = Comer(port, b"PING x\r\n", OTHER_ADDRESS)
        is_served = b"PONG" in other.until(b"PONG")
    return told("slow", all(are_closed) and WITHIN - 1 < took < WITHIN + 1 and is_served, f"closed: {are_closed}, after {took:.1f} s; others are served: {is_served}")


def many(program):
    with daemon(program, proxied()) as port:
        waiting = [Comer(port) for _ in range(AT_ONCE)]
        time.sleep(0.3)
        began = time.monotonic()
        last = Comer(port, line())
        is_closed, took = last.is_closed(), time.monotonic() - began
        other = Comer(port, b"PING x\r\n", OTHER_ADDRESS)
        is_served = b"PONG" in other.until(b"PONG")
        waiting[7].close()
        time.sleep(0.3)
        next_one = Comer(port, line())
        comes = next_one.host() == "192.0.2.7"
        # those who wait have lost nothing
        waiting[200].socket.sendall(line(source="192.0.2.8"))
        waits = waiting[200].host("bo") == "192.0.2.8"
    return told("many", is_closed and took < 1 and is_served and comes and waits,
                f"the last of {AT_ONCE + 1} is closed: {is_closed}, after {took:.2f} s; another is served: {is_served}; "
                f"once one has gone the next comes: {comes}; one who waited does: {waits}")


def deny(program):
    rows = {
        "its own address": (Comer, b"", "127.0.0.3", True), "beside it": (Comer, b"PING x\r\n", "127.0.0.5", False),
        "named, in a range": (Comer, line(source="198.51.100.77"), PROXY_ADDRESS, True),
        "named, beside the range": (Comer, line(source="198.51.101.0") + b"PING x\r\n", PROXY_ADDRESS, False),
        "named, of IPv6": (Comer, line("TCP6", "2001:db8:5::1", "::1"), PROXY_ADDRESS, True),
        "named, beside that": (Comer, line("TCP6", "2001:db9::1", "::1") + b"PING x\r\n", PROXY_ADDRESS, False),
        "mapped": (Comer, line("TCP6", "::ffff:198.51.100.7", "::1"), PROXY_ADDRESS, True),
        "in bytes": (Comer, binary("198.51.100.7"), PROXY_ADDRESS, True),
    }
    wrong = []
    # the proxy's own address is denied too, which counts for nothing
    ranges = f'deny = ["127.0.0.2/31", "{PROXY_ADDRESS}", "198.51.100.9/24", "2001:db8::/32"]\n'
    with daemon(program, proxied(ranges)) as port:
        for name, (make, first, address, is_denied) in rows.items():
            comer = make(port, first, address)
            is_out = comer.is_closed() if is_denied else b"PONG" not in comer.until(b"PONG")
            if is_out != is_denied:
                wrong.append(name)
    return told("deny", not wrong, f"of {len(rows)} wrong were {wrong}")


def limit(program):
    with daemon(program, proxied("connections_per_address = 2\n")) as port:
        first = [Comer(port, line() + b"PING x\r\n") for _ in range(2)]
        are_in = all(b"PONG" in it.until(b"PONG") for it in first)
        third = Comer(port, line() + b"PING x\r\n").is_closed()
        others = all(b"PONG" in Comer(port, line(source=f"192.0.2.{last}") + b"PING x\r\n").until(b"PONG") for last in range(20, 30))
        first[0].close()
        time.sleep(0.3)
        again = b"PONG" in Comer(port, binary() + b"PING x\r\n").until(b"PONG")
    return told("limit", are_in and third and others and again, f"two of an address are in: {are_in}; a third is closed: {third}; ten others are in: {others}; "
                f"one more, once one has gone: {again}")


def links(program):
    heard, door = [], free_port()
    with daemon(program, proxied(f'listen_links = "127.0.0.1:{door}"\n'), heard):
        for first in (b"", line()):
            peer = Comer(door, first + b"PASS x 0210010001 TREE|\r\nSERVER no.peer 1 1 :x\r\n")
            peer.until(b"\n\n", 2)
    lines = b"".join(heard).decode().split("\n")[:-1]
    return told("links", lines == ["ircd: link from no.peer at 127.0.0.1: refused: an unknown peer"], f"said: {lines}")


def ban(program):
    with daemon(program, proxied()) as port:
        op, banned, other = Comer(port, line(source="192.0.2.1")), Comer(port, line()), Comer(port, binary("192.0.2.8"))
        hosts = op.host("op"), banned.host("ban"), other.host("other")
        op.says("JOIN #c", "MODE #c +b *!*@192.0.2.7", "PING set")
        op.until(b":set")
        banned.says("JOIN #c", "PING done")
        other.says("JOIN #c", "PING done")
        is_out, is_in = b" 474 " in banned.until(b":done"), b" 366 " in other.until(b":done")
    return told("ban", is_out and is_in, f"hosts {hosts}; the one is kept out: {is_out}; the other is in: {is_in}")


@contextlib.contextmanager
def runs(command):
    with subprocess.Popen(command, stdout=subprocess.DEVNULL, stderr=subprocess.DEVNULL) as process:
        try:
            time.sleep(1)
            yield
        finally:
            process.terminate()


def haproxy_host(folder, port, word, bind="127.0.0.1", address=OTHER_ADDRESS):
    door = free_port()
    path = pathlib.Path(folder, "haproxy.cfg")
    path.write_text("listen ircs\n    mode tcp\n    timeout connect 5s\n    timeout client 1h\n    timeout server 1h\n"
                    f"    bind {bind}:{door}\n    server ircd 127.0.0.1:{port} {word}\n", encoding="utf-8")
    with runs(["haproxy", "-db", "-f", path]):
        comer = Comer(door, b"", address)
        host = comer.host()
        comer.close()
        time.sleep(2.5 if "check" in word else 0)
        return host


def stunnel_host(folder, port):
    door, key = free_port(), pathlib.Path(folder, "key.pem")
    subprocess.run(["openssl", "req", "-x509", "-newkey", "rsa:2048", "-nodes", "-subj", "/CN=a.net", "-keyout", key, "-out", f"{key}.cert"],
                   check=True, capture_output=True)
    path = pathlib.Path(folder, "stunnel.conf")
    path.write_text(f"foreground = yes\npid =\n[ircs]\naccept = 127.0.0.1:{door}\nconnect = 127.0.0.1:{port}\ncert = {key}.cert\nkey = {key}\nprotocol = proxy\n",
                    encoding="utf-8")
    said = b"NICK al\r\nUSER u 0 * :al\r\nWHOIS al\r\nPING done\r\n"
    with runs(["stunnel4", path]):
        command = ["openssl", "s_client", "-quiet", "-connect", f"127.0.0.1:{door}", "-bind", f"{OTHER_ADDRESS}:0"]
        with subprocess.Popen(command, stdin=subprocess.PIPE, stdout=subprocess.PIPE, stderr=subprocess.DEVNULL) as client:
            client.stdin.write(said)
            client.stdin.flush()
            time.sleep(1)
            client.kill()
            words = [it.split() for it in client.stdout.read().decode().split("\r\n") if " 311 al al " in it]
            return words[0][5] if words else None


def tools(program):
    hosts = {}
    with daemon(program, proxied()) as port, tempfile.TemporaryDirectory() as folder:
        if shutil.which("haproxy"):
            for word in ("send-proxy", "send-proxy-v2", "send-proxy check inter 500", "send-proxy-v2 check inter 500"):
                hosts[f"haproxy {word}"] = haproxy_host(folder, port, word)
        if shutil.which("stunnel4") and shutil.which("openssl"):
            hosts["stunnel"] = stunnel_host(folder, port)
    return told("tools", all(host == OTHER_ADDRESS for host in hosts.values()), f"who comes from {OTHER_ADDRESS} is {hosts}")


ROWS = {"good": good, "bad": bad, "plain": plain, "slow": slow, "many": many, "deny": deny, "limit": limit, "links": links, "ban": ban, "tools": tools}


def main():
    if len(sys.argv) < 2 or not os.access(sys.argv[1], os.X_OK):
        sys.exit("usage: tests/proxied.py PROGRAM [ROW ..]")
    program = os.path.abspath(sys.argv[1])
    all_hold = all([ROWS[row](program) for row in sys.argv[2:] or ROWS])
    if SAID:
        print("WRONG: of clients daemons said", SAID)
    return 0 if all_hold and not SAID else 1


if __name__ == "__main__":
    sys.exit(main())
