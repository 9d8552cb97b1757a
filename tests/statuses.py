#!/usr/bin/env python3
"""Runs the built program on words of a command line, and looks at its status, what it prints and what it says on standard error.

    python3 tests/statuses.py [--program PATH]

Not part of the gate. The rows are those of README.md: 0 where the work was done, 2 wrong words, 3 bad script or bad configuration, 4 where the program
failed. Then it gives configurations, good ones and such as break one rule of docs/ircd.8 each, to the program and to `ircd-check`: both have to take the
same ones, and `ircd-check` has to name the key. And it gives scripts to the program and to `ircd check-script`: both have to take the same ones, and to name
the same line. It prints each row that differs, and how many there are; the status is 1 where one differs.
"""

import argparse
import pathlib
import re
import socket
import subprocess
import sys
import tempfile

import generate
import model

REPOSITORY = pathlib.Path(__file__).resolve().parent.parent
SECONDS = 60

UNREACHED = b"ircd: link to b.net: not reached: Connection refused (os error 111)\n"
USAGE = b"ircd: usage: ircd sim | ircd serve FILE [TURNS]\n"
BAD_CONFIGURATION = b"ircd: bad configuration\n"
FAILED = b"ircd: failed\n"

PING = b"server a.net\nconnect a.net h\nsay 1 PING x\n"
PONG = b"1 :a.net PONG a.net :x\n"

CONFIGURATION = """\
name = "a.net"
info = "Test server"
created = "2024-01-01"
listen = "127.0.0.1:{port}"
client_room = 4096
link_room = 8192
"""

LINKS = """\
listen_links = "127.0.0.1:{port}"
[[peer]]
name = "b.net"
password = "pw"
connect = "127.0.0.1:1"
"""

NO_TEXT = b"\xff"

# a good configuration, key by key, and a good peer
OWN = {"name": '"a.net"', "info": '"Test server"', "created": '"2024-01-01"', "listen": '"127.0.0.1:0"', "client_room": "4096", "link_room": "8192"}
PEER = {"name": '"b.net"', "password": '"pw"'}


def written(own, *peers, behind=""):
    """A configuration of these keys and peers. A key whose value is None is left out."""
    tables = "".join("[[peer]]\n" + lines_of(peer) for peer in peers)
    return lines_of(own) + behind + tables


def lines_of(keys):
    return "".join(f"{key} = {value}\n" for key, value in keys.items() if value is not None)


def with_own(key, value):
    return written(OWN | {key: value})


def with_peer(**keys):
    return written(OWN, PEER | keys)


# files that are taken
GOOD = [
    written(OWN), with_peer(), with_own("name", '"a.b-3.' + 57 * "c" + '"'), with_own("info", '""'), with_own("info", '"' + 31 * "\u00e9" + 'x"'),
    with_own("created", '"x"'), with_own("created", '"' + 30 * "x" + '"'), with_own("listen", '"[::1]:0"'), with_own("listen_links", '"127.0.0.1:00"'),
    with_own("client_room", "512"), with_own("client_room", "1_048_576"), with_own("link_room", "0x200"), with_own("link_room", "16777216"),
    with_own("connections_per_address", "1"), with_own("connections_per_address", "65535"), with_own("peer", "[]"),
    with_own("name_within", "0"), with_own("name_within", "3_600"), with_own("links_per_address", "0"), with_own("links_per_address", "65535"),
    with_own("register_within", "1"), with_own("register_within", "3600"), with_own("lines_per_second", "1"), with_own("lines_per_second", "1000"),
    *[with_own("programs", programs) for programs in ("true", "false")], with_own("ping_after", "1"), with_own("ping_after", "3600"),
    *[with_own("motd", motd) for motd in ('"/dev/null"', f'"{REPOSITORY}/HANDLES"')], written(OWN | {"motd": '"/dev/null"', "client_room": "2048"}),
    with_own("password", '"x"'), with_own("password", '": open sesame"'), with_own("password", '"' + 32 * "\u00e9" + '"'),
    *[with_own(key, ranges) for key in ("deny", "proxies")
      for ranges in ("[]", '["127.0.0.1"]', '["10.1.2.3/16", "::/0"]', '["0.0.0.0/0",\n"2001:DB8::1/128", ]', '["::ffff:1.2.3.4/32"]', '["1.2.3.4/32"]')],
    written(OWN | {"lines_per_second": "2", "burst_lines": "1"}), written(OWN | {"burst_lines": "1000", "lines_per_second": "1"}),
    with_own("peer", '[{name = "b.net", password = "pw"}, {\n  name = "c.net", # the other\n  password = "\\x70w",\n}]'),
    with_peer(password='"!"'), with_peer(password='"' + 19 * "~" + ':"'), with_peer(connect='"127.0.0.1:1"', retry="1"),
    with_peer(connect='"[::ffff:127.0.0.1%0]:01"', retry="3600"),
    *[with_peer(connect='"127.0.0.1:1"', plain=plain) for plain in ("true", "false")], written(OWN, PEER, PEER | {"name": '"c.net"'}),
]

# the key or peer that is to be named, and a file that is refused
BAD = [
    *[(key, with_own(key, None)) for key in OWN],
    *[(key, with_own(key, "3")) for key in ("name", "info", "created", "listen", "listen_links")],
    *[(key, with_own(key, '"4096"')) for key in ("client_room", "link_room", "connections_per_address", "name_within", "links_per_address", "register_within",
                                            "lines_per_second")],
    ("name", with_own("name", '"anet"')), ("name", with_own("name", '"A.net"')), ("name", with_own("name", '"a.' + 62 * "b" + '"')),
    ("info", with_own("info", '"' + 32 * "\u00e9" + '"')), ("info", with_own("info", '"two\\nlines"')), ("created", with_own("created", '""')),
    ("created", with_own("created", "2024-01-01")), ("created", with_own("created", '"' + 31 * "x" + '"')),
    ("listen", with_own("listen", '"localhost:0"')), ("listen", with_own("listen", '"127.0.0.1"')), ("listen", with_own("listen", '"127.0.0.1:65536"')),
    ("listen", with_own("listen", '"127.0.0.01:0"')), ("listen", with_own("listen", '"::1:0"')), ("listen", with_own("listen", '"[1::2::3]:0"')),
    ("listen_links", with_own("listen_links", '"*:0"')),
    ("client_room", with_own("client_room", "511")), ("client_room", with_own("client_room", "1048577")), ("client_room", with_own("client_room", "4096.0")),
    ("client_room", with_own("client_room", "true")), ("link_room", with_own("link_room", "511")), ("link_room", with_own("link_room", "16777217")),
    ("connections_per_address", with_own("connections_per_address", "0")), ("connections_per_address", with_own("connections_per_address", "65536")),
    ("name_within", with_own("name_within", "-1")), ("name_within", with_own("name_within", "3601")), ("peer 1: name_within", with_peer(name_within="10")),
    ("links_per_address", with_own("links_per_address", "-1")), ("links_per_address", with_own("links_per_address", "65536")),
    ("links_per_address", with_own("links_per_address", "16.0")),
    ("register_within", with_own("register_within", "0")), ("register_within", with_own("register_within", "3601")),
    ("lines_per_second", with_own("lines_per_second", "0")), ("lines_per_second", with_own("lines_per_second", "1001")),
    *[("burst_lines", written(OWN | {"lines_per_second": "2", "burst_lines": lines})) for lines in ("0", "1001", '"10"')],
    *[(key, with_own(key, ranges)) for key in ("deny", "proxies")
      for ranges in ('"127.0.0.1"', "[1]", '[["127.0.0.1"]]', '[""]', '["localhost"]', '["10.1/16"]', '["10.1.0.0/33"]', '["10.1.0.0/016"]', '["10.1.0.0/"]',
                     '["10.1.0.0/+1"]', '["10.1.0.0/16/16"]', '["::1/129"]', '["[::1]"]', '["127.0.0.1:1"]', '["10.1.0.0 /16"]', '["127.0.0.1", "x"]', '["/8"]')],
    *[("programs", with_own("programs", programs)) for programs in ("1", '"true"', '"usual"', "[true]")],
    *[("motd", with_own("motd", motd)) for motd in ("true", '""', '"/no_such_file"', f'"{REPOSITORY}"', f'"{REPOSITORY}/README.md"', '"\\u0000"')],
    ("motd", written(OWN | {"motd": '"/dev/null"', "client_room": "2047"})),
    ("motd", written(OWN | {"motd": f'"{REPOSITORY}/HANDLES"', "client_room": "2048"})), ("peer 1: motd", with_peer(motd='"/dev/null"')),
    ("burst_lines", with_own("burst_lines", "10")),
    *[("password", with_own("password", password)) for password in ('""', "3", '"' + 65 * "x" + '"', '"two\\nlines"', '"\\r"', '"\\u0000"')],
    *[("ping_after", with_own("ping_after", seconds)) for seconds in ("0", "3601", '"60"')],
    ("port", with_own("port", "6667")), ("Name", with_own("Name", '"a.net"')),
    ("peer", with_own("peer", "3")), ("peer", with_own("peer", "[3]")), ("peer", written(OWN, behind="[peer]\n" + lines_of(PEER))),
    ("peer 1: name", with_peer(name=None)), ("peer 1: name", with_peer(name="3")), ("peer 1: name", with_peer(name='"bnet"')),
    ("peer 1: name", with_peer(name='"a.net"')), ("peer 2: name", written(OWN, PEER, PEER)),
    ("peer 1: password", with_peer(password=None)), ("peer 1: password", with_peer(password="3")), ("peer 1: password", with_peer(password='""')),
    ("peer 1: password", with_peer(password='":pw"')), ("peer 1: password", with_peer(password='"p w"')),
    ("peer 1: password", with_peer(password='"' + 21 * "x" + '"')),
    ("peer 1: connect", with_peer(connect="3")), ("peer 1: connect", with_peer(connect='"b.net:1"')),
    ("peer 1: retry", with_peer(connect='"127.0.0.1:1"', retry="0")), ("peer 1: retry", with_peer(connect='"127.0.0.1:1"', retry="3601")),
    ("peer 1: retry", with_peer(connect='"127.0.0.1:1"', retry='"1"')), ("peer 1: retry", with_peer(retry="1")),
    *[("peer 1: plain", with_peer(connect='"127.0.0.1:1"', plain=plain)) for plain in ("1", '"true"', "[true]")],
    *[("peer 1: plain", with_peer(plain=plain)) for plain in ("true", "false")], ("plain", with_own("plain", "true")),
    ("peer 1: listen_links", with_peer(listen_links='"127.0.0.1:0"')), ("peer 1: port", with_peer(port="1")),
    ("it is no TOML", written(OWN) + "client_room\n"), ("name", written(OWN) + 'name = "a.net"\n'),
    ("client_room", written(OWN) + "# another one\n  client_room\t= 4096 # again\n"), ("listen", written(OWN) + '"listen" = """\n127.0.0.1:0"""\n'),
    ("peer", written(OWN | {"peer": "[]"}) + 'peer = [{\n name = "b.net",\n password = "pw" }]\n'),
    ("peer 1: password", with_peer() + 'password = "pw"\n'), ("peer 2: name", written(OWN, PEER, PEER | {"name": '"c.net"'}) + 'name = "d.net"\n'),
]

# the line that is bad, or None, and a script; then drawn ones, one byte or line of which was changed
SCRIPTS = [
    (None, b""), (None, b"settle"), (None, b"server a.net\n"), (None, b"server a.net\nsay 1 \n"), (None, b"say 0 x\n"), (None, b"say 1 x\r\n"),
    (None, b"bytes a.net b.net 18446744073709551615\n"), (None, b"connect a.net " + 63 * b"h" + b"\n"), (None, b"gone 1\nlink a.a a.a\ncut a.a b.b\n"),
    (None, b"".join(b"server s%d.net\n" % number for number in range(256))),
    (1, b"\n"), (2, b"server a.net\n\nsettle\n"), (1, b"# words\n"), (1, b" settle\n"), (1, b"settle \n"), (1, b"settle\r\n"), (1, b"Settle\n"), (1, b"sttle\n"),
    (1, b"server a.net\r\n"), (1, b"server  a.net\n"), (1, b"server A.net\n"), (1, b"server anet\n"), (1, b"server a." + 62 * b"b" + b"\n"), (1, b"server\n"),
    (2, b"server a.net\nserver a.net\n"), (2, b"settle\nserver a.net\n"), (257, b"".join(b"server s%d.net\n" % number for number in range(257))),
    (1, b"connect a.net\n"), (1, b"connect a.net \n"), (1, b"connect a.net :h\n"), (1, b"connect a.net h i\n"), (1, b"connect a.net " + 64 * b"h" + b"\n"),
    (1, b"say 1\n"), (1, b"say 01 x\n"), (1, b"say -1 x\n"), (1, b"say 18446744073709551616 x\n"), (1, b"say \xb2 x\n"), (1, b"gone\n"), (1, b"gone 1 2\n"),
    (1, b"link a.net\n"), (1, b"link a.net b.net c.net\n"), (1, b"cut a.net b\n"), (1, b"deliver a.net b.net 1\n"), (1, b"bytes a.net b.net\n"),
    (1, b"bytes a.net b.net 00\n"), (1, b"bytes a.net b.net 1 \n"), (2, b"settle\n\xff\xfe\n"), (1, b"\0"),
]
DRAWN = 300


def rows(free, taken, links_free, links_taken, port):
    """Words, standard input, and the status, output and errors that are wanted. `free` listens on a free port, `taken` on one in use, which is `port`;
    those of links call a server that is not there."""
    closed = b"ircd: cannot listen on 127.0.0.1:%d: Address already in use (os error 98)\n" % port + FAILED
    return [
        ([], PING, 2, b"", USAGE),
        (["sim", "sim"], PING, 2, b"", USAGE),
        (["Sim"], PING, 2, b"", USAGE),
        (["serve"], b"", 2, b"", USAGE),
        (["serve", free, "0", "0"], b"", 2, b"", USAGE),
        (["serve", free, "00"], b"", 2, b"", USAGE),
        (["0", free, "serve"], b"", 2, b"", USAGE),
        ([NO_TEXT], PING, 2, b"", USAGE),
        (["sim", NO_TEXT], PING, 2, b"", USAGE),
        (["sim"], PING, 0, PONG, b""),
        (["sim"], b"server a.net\nsay 1\n", 3, b"", b"ircd: line 2: bad script\n"),
        (["serve", "no_such_file.toml", "0"], b"", 3, b"", BAD_CONFIGURATION),
        (["serve", free, "0"], b"", 0, b"ready\n", b""),
        (["serve", taken, "0"], b"", 4, b"", closed),
        (["serve", links_free, "3"], b"", 0, b"ready\n", UNREACHED),
        (["serve", links_taken, "0"], b"", 4, b"", closed),
    ]


def differs(program, row):
    """Whether the program ends in another way than a row says. The difference is printed."""
    words, script, *wanted = row
    done = subprocess.run([program, *words], input=script, capture_output=True, timeout=SECONDS, check=False)
    found = [done.returncode, done.stdout, done.stderr]
    if found == wanted:
        return False
    print(f"{words}: {found}, wanted {wanted}")
    return True


def is_lost(program):
    """Whether the program does not say that it failed, where nothing that it prints can be written."""
    with open("/dev/full", "wb") as full:
        done = subprocess.run([program, "sim"], input=PING, stdout=full, stderr=subprocess.PIPE, timeout=SECONDS, check=False)
    found = (done.returncode, done.stderr)
    if found == (4, FAILED):
        return False
    print(f"sim, with a full device: {found}, wanted {(4, FAILED)}")
    return True


def judged(program, checker, path, text):
    """The statuses of the program and of the checker for a configuration, and what the latter says of it."""
    path.write_text(text, encoding="utf-8")
    served = subprocess.run([program, "serve", str(path), "0"], capture_output=True, timeout=SECONDS, check=False)
    checked = subprocess.run([sys.executable, str(checker), str(path)], capture_output=True, timeout=SECONDS, check=False, text=True)
    return served.returncode, checked.returncode, [line.removeprefix(f"{path}: ") for line in checked.stderr.splitlines()]


def is_misjudged(program, checker, path, key, text):
    """Whether the program or the checker takes a file that is bad, or refuses one that is good (those without a key), or the checker names
    another key, or more than that one. The difference is printed."""
    served, checked, faults = judged(program, checker, path, text)
    status = 0 if key is None else 3
    named = [fault for fault in faults if not (key and fault.startswith(f"{key}: "))]
    if (served, checked, bool(faults), named) == (status, status, key is not None, []):
        return False
    print(f"the program ends with {served} and the checker with {checked} and {faults}, wanted {status} of {key}:\n{text}")
    return True


def is_misread(program, checker, path, script, line):
    """Whether the program or the checker names another line of a script as bad than this one, or takes it. The difference is printed."""
    path.write_bytes(script)
    ran = subprocess.run([program, "sim"], input=script, capture_output=True, timeout=SECONDS, check=False)
    checked = subprocess.run([sys.executable, str(checker), str(path)], capture_output=True, timeout=SECONDS, check=False, text=True)
    named = checked.stderr.startswith(f"{path}: line {line}: ") if line else checked.stderr == ""
    said = b"ircd: line %d: bad script\n" % line if line else b""
    status = 3 if line else 0
    if (ran.returncode, ran.stderr, checked.returncode, named) == (status, said, status, True):
        return False
    print(f"the program says {ran.stderr} and the checker {checked.stderr!r}, wanted {line}:\n{script}")
    return True


def drawn_scripts():
    """Scripts one byte or line of which was changed, and the line that the model of the program finds bad."""
    for seed in range(DRAWN):
        script = generate.damaged(generate.script(seed, False, 1 + seed % 3), seed)
        line = re.fullmatch(rb"ircd: line (\d+): bad script\n", model.answer(script)[2])
        yield int(line[1]) if line else None, script


def main():
    parser = argparse.ArgumentParser(description="Looks at statuses and texts of the built program.")
    parser.add_argument("--program", default=str(REPOSITORY / "crates/ircd/out/ircd"))
    program = parser.parse_args().program
    if not pathlib.Path(program).is_file():
        sys.exit(f"no program {program}: ./ircd build makes it")
    with tempfile.TemporaryDirectory() as folder, socket.socket() as listener:
        listener.bind(("127.0.0.1", 0))
        listener.listen()
        files = []
        used = listener.getsockname()[1]
        for name, text in (("free", CONFIGURATION.format(port=0)),
                           ("taken", CONFIGURATION.format(port=used)),
                           ("links_free", CONFIGURATION.format(port=0) + LINKS.format(port=0)),
                           ("links_taken", CONFIGURATION.format(port=0) + LINKS.format(port=used))):
            path = pathlib.Path(folder, name + ".toml")
            path.write_text(text)
            files.append(str(path))
        runs = rows(*files, used)
        differences = sum(differs(program, row) for row in runs) + is_lost(program)
        path = pathlib.Path(folder, "judged.toml")
        judgements = [(None, text) for text in GOOD] + BAD
        differences += sum(is_misjudged(program, REPOSITORY / "ircd-check", path, key, text) for key, text in judgements)
        scripts = [*SCRIPTS, *drawn_scripts()]
        differences += sum(is_misread(program, REPOSITORY / "tools/check_script.py", path, script, line) for line, script in scripts)
    print(f"{len(runs) + 1} runs, {len(judgements)} configurations, {len(scripts)} scripts, {differences} differences")
    return 1 if differences else 0


if __name__ == "__main__":
    sys.exit(main())
