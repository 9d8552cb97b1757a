#!/usr/bin/env python3
"""Drives `ircd serve` with `programs = true` on loopback with programs that people use.

    tests/desktop_clients.py PROGRAM [CLIENT ..]

Graphical ones run in a screen of their own that nobody sees (Xvfb), those of a terminal in tmux.
Each joins a channel through a relay that keeps all lines. There another one, who is operator, sets
modes, a ban and the topic, changes a nickname, kicks and invites; then the client invites, changes
its nickname and speaks. Judged is, by the lines: that it registers, that no line of an error
(ERROR, 400 to 599) is sent to it up to its JOIN, and none behind, and that what it says comes to
the others. By what it shows or writes into a log: each of these events; no word of an error. Where
it can be asked: that its modes, names and topic of the channel are those of the server.
catgirl comes by TLS, through stunnel and the key `proxies`; it and hexchat are told a `motd`.

Nothing is installed: who is not there is passed over, and the packages of Debian are named. Wanted
are tmux for those of a terminal, xvfb and dbus for graphical ones, xdotool where keys are pressed;
stunnel4 and openssl for catgirl. Where root runs this, the clients are run by nobody.
KEEP=FOLDER keeps the lines, what each client has shown and pictures (imagemagick) there;
PROGRAMS=false has the daemon say what it says without the key. One client takes half a minute.

Exit status: 0 where all that was judged held, 1 where something did not, 2 where none was there.
"""
import contextlib
import os
import pathlib
import re
import shutil
import signal
import socket
import sqlite3
import subprocess
import sys
import tempfile
import threading
import time

FILE = """name = "a.net"
info = "Desktop clients"
created = "2026-11-30"
listen = "127.0.0.1:{port}"
client_room = 65536
link_room = 65536
programs = {programs}
"""
PROGRAMS = os.environ.get("PROGRAMS", "true")
KEEP = os.environ.get("KEEP")
GREETING = "good morning \u00fc \u20ac \u65e5\u672c"
REPLY = "and to you \u00fc"
# before the client comes, and while it is there; it is dee
BEFORE = (
    ("op", "JOIN #den"), ("op", "TOPIC #den :coffee at three"), ("op", "MODE #den +nt"),
    ("vic", "JOIN #den"), ("amy", "JOIN #den"), ("op", "MODE #den +v vic"), ("op", "JOIN #hut"),
)
DURING = (
    ("op", "MODE #den +mk-t sesame"), ("op", "MODE #den +tl 9"), ("op", "MODE #den +b bad!*@*"),
    ("op", "MODE #den +o dee"), ("op", "MODE #den -v vic"), ("op", "MODE #den +v amy"),
    ("op", "TOPIC #den :tea at four"), ("vic", "NICK vicky"), ("amy", f"PRIVMSG #den :{GREETING}"),
    ("op", "NICK boss"), ("op", "KICK #den vicky :not before four"), ("op", "INVITE dee #hut"),
)
# what shows that it was told of this, in one line
SHOWN = {
    "the greeting": GREETING, "the topic": "tea at four", "a new nickname": "vic.*vicky",
    "who is kicked": "vicky.*not before four|not before four.*vicky", "an invitation": "#hut",
    "a key": "sesame", "a ban": r"bad!\*@\*",
}
ERROR = re.compile(r":a\.net ([45]\d\d) |ERROR ")
BAD_WORDS = re.compile(r"unknown command|not enough param|have not registered|invalid cap"
                       "|mode flags are missing", re.I)


class Relay:
    """Between a client and the daemon: all lines, with who said them and when."""

    def __init__(self, port):
        self.to, self.lines, self.began = port, [], time.monotonic()
        self.door = socket.create_server(("127.0.0.1", 0))
        self.port = self.door.getsockname()[1]
        threading.Thread(target=self.comes, daemon=True).start()

    def comes(self):
        with contextlib.suppress(OSError):
            while True:
                client = self.door.accept()[0]
                server = socket.create_connection(("127.0.0.1", self.to))
                for ends in ((client, server, ">"), (server, client, "<")):
                    threading.Thread(target=self.carries, args=ends, daemon=True).start()

    def carries(self, source, target, who):
        rest = b""
        with contextlib.suppress(OSError):
            while piece := source.recv(65536):
                *lines, rest = (rest + piece).split(b"\n")
                now = time.monotonic() - self.began
                self.lines += [(now, who, it.rstrip(b"\r").decode("utf-8", "replace"))
                               for it in lines]
                target.sendall(piece)
        with contextlib.suppress(OSError):
            target.shutdown(socket.SHUT_WR)

    def has(self, pattern, who="<"):
        return any(it[1] == who and re.search(pattern, it[2]) for it in list(self.lines))

    def text(self):
        return "".join(f"{at:7.2f} {who} {line}\n" for at, who, line in list(self.lines))


class Person:
    """One at the daemon itself, by lines. It comes from where no proxy is."""

    def __init__(self, port, nick):
        self.socket = socket.create_connection(("127.0.0.1", port), 5, ("127.0.0.2", 0))
        self.count, self.seen = 0, ""
        self.answered(f"NICK {nick}\r\nUSER u 0 * :{nick}")

    def answered(self, line):
        """What has come, up to the answer to this."""
        self.count, seen = self.count + 1, b""
        self.socket.sendall(f"{line}\r\nPING p{self.count}\r\n".encode())
        while f"PONG a.net :p{self.count}\r\n".encode() not in seen:
            if not (piece := self.socket.recv(65536)):
                raise OSError("the daemon closed a connection")
            seen += piece
        self.seen += seen.decode()
        return seen.decode()

    def has(self, pattern):
        self.answered("PING x")
        return re.search(pattern, self.seen, re.M)


def waits(holds, seconds=10):
    """Whether it holds within so many seconds."""
    end = time.monotonic() + seconds
    while not (is_so := bool(holds())) and time.monotonic() < end:
        time.sleep(0.2)
    return is_so


def free_port():
    with socket.socket() as it:
        it.bind(("127.0.0.1", 0))
        return it.getsockname()[1]


@contextlib.contextmanager
def daemon(program, folder, more=""):
    port, path = free_port(), folder / "ircd.toml"
    path.write_text(FILE.format(port=port, programs=PROGRAMS) + more)
    command = [program, "serve", path]
    with subprocess.Popen(command, stdout=subprocess.PIPE, stderr=subprocess.DEVNULL) as process:
        try:
            if process.stdout.readline() != b"ready\n":
                raise OSError("the daemon does not say ready")
            yield port
        finally:
            process.kill()


class Client:
    """What is the same for all. A client is in a folder of its own, which is its home."""
    package = command = ""
    wants, is_proxied, has_message, joins_itself = (), False, False, False
    shown, invites, other_window = SHOWN, "/invite vicky #den", ""

    def __init__(self, folder, port):
        self.folder, self.port, self.processes = folder, port, []
        self.env = os.environ | {
            "HOME": str(folder), "XDG_CONFIG_HOME": f"{folder}/config", "LANG": "C.UTF-8",
            "XDG_DATA_HOME": f"{folder}/data", "XDG_CACHE_HOME": f"{folder}/cache",
            "XDG_RUNTIME_DIR": f"{folder}/run", "LC_ALL": "C.UTF-8", "NO_AT_BRIDGE": "1",
        }
        for name in ("IRCSERVER", "IRCNICK", "DISPLAY", "DBUS_SESSION_BUS_ADDRESS", "TMUX"):
            self.env.pop(name, None)
        for name in ("run", "config", "data", "cache"):
            (folder / name).mkdir(mode=0o700)
        # some programs do not want to be root's
        nobody = {"user": 65534, "group": 65534, "extra_groups": []}
        self.as_whom = nobody if os.getuid() == 0 else {}

    def file(self, name, text):
        path = self.folder / name
        path.parent.mkdir(parents=True, exist_ok=True)
        path.write_text(text)
        return path

    def runs(self, *command, **options):
        out = open(self.folder / f"{pathlib.Path(command[0]).name}.out", "ab")
        options = {"stdout": out, "stderr": out, "stdin": subprocess.DEVNULL} | options
        options |= self.gives()
        process = subprocess.Popen(command, env=self.env, cwd=self.folder,
                                   start_new_session=True, **options)
        self.processes.append(process)
        return process

    def gives(self):
        """Who it runs as, to whom all of its folder is given."""
        if self.as_whom:
            for path in (self.folder, *self.folder.rglob("*")):
                os.chown(path, 65534, 65534, follow_symlinks=False)
        return self.as_whom

    def asks(self, *command):
        done = subprocess.run(command, env=self.env, capture_output=True, timeout=20, check=False,
                              cwd=self.folder, **self.gives())
        return done.stdout.decode("utf-8", "replace")

    def logs(self, pattern):
        return "".join(it.read_text(errors="replace") for it in sorted(self.folder.glob(pattern))
                       if it.is_file())

    def has_bus(self):
        bus = self.runs("dbus-daemon", "--session", "--nofork", "--print-address",
                        stdout=subprocess.PIPE)
        self.env["DBUS_SESSION_BUS_ADDRESS"] = bus.stdout.readline().decode().strip()

    def state(self):
        """Its modes, names and topic of the channel; None where it cannot be asked."""

    def ends(self):
        for process in reversed(self.processes):
            with contextlib.suppress(OSError):
                os.killpg(process.pid, signal.SIGTERM)
            with contextlib.suppress(subprocess.TimeoutExpired):
                process.wait(3)
            with contextlib.suppress(OSError):
                os.killpg(process.pid, signal.SIGKILL)
            process.wait()


class Terminal(Client):
    """One in a terminal, by tmux; what it shows is its screen, where its status has the modes."""
    wants, status = ("tmux",), ""

    def opens(self, *command):
        self.asks("tmux", "-S", f"{self.folder}/tmux", "-f", "/dev/null", "new-session", "-d",
                  "-x", "160", "-y", "120", "-s", "it", "--", *map(str, command))

    def types(self, line):
        self.asks("tmux", "-S", f"{self.folder}/tmux", "send-keys", "-t", "it", "-l", "--", line)
        time.sleep(0.2)
        self.asks("tmux", "-S", f"{self.folder}/tmux", "send-keys", "-t", "it", "Enter")

    def shows(self):
        return self.asks("tmux", "-S", f"{self.folder}/tmux", "capture-pane", "-p", "-J",
                         "-t", "it", "-S", "-900")

    def state(self):
        found = re.findall(self.status, self.shows()) if self.status else []
        return (found[-1] if found else "", None, None) if self.status else None

    def ends(self):
        self.asks("tmux", "-S", f"{self.folder}/tmux", "kill-server")
        super().ends()


class Window(Client):
    """One with a window, in a screen that nobody sees, with a D-Bus of its own."""
    wants = ("Xvfb", "dbus-daemon")

    def has_screen(self):
        reader, writer = os.pipe()
        self.runs("Xvfb", "-displayfd", str(writer), "-screen", "0", "1280x900x24",
                  "-nolisten", "tcp", pass_fds=(writer,))
        os.close(writer)
        with os.fdopen(reader) as file:
            self.env["DISPLAY"] = f":{file.readline().strip()}"
        self.has_bus()

    def opens(self, *command):
        self.has_screen()
        self.runs(*map(str, command))

    def picture(self, path):
        if shutil.which("import"):
            self.asks("import", "-window", "root", "it.png")
            shutil.copy(self.folder / "it.png", path)


class HexChat(Window):
    """It is asked, and told what to type, by a file that its Python reads."""
    package, command, has_message = "hexchat hexchat-python3", "hexchat", True
    HELPER = r"""
import hexchat, os
__module_name__, __module_version__, __module_description__ = "ask", "1", "by a file"
home = os.environ["HOME"]
def looks(_):
    if os.path.exists(home + "/ask"):
        line = open(home + "/ask").read().strip()
        os.remove(home + "/ask")
        there = hexchat.find_context(channel="#den")
        if line == "state" and there:
            users = [it.prefix + it.nick for it in there.get_list("users")]
            answer = "\n".join([there.get_info("modes") or "", " ".join(users),
                                there.get_info("topic") or ""])
            open(home + "/answer.new", "w").write(answer)
            os.rename(home + "/answer.new", home + "/answer")
        elif line != "state":
            (there or hexchat).command(line if line[0] != "/" else line[1:])
    return True
hexchat.hook_timer(200, looks)
"""

    def starts(self):
        self.file("conf/hexchat.conf", "gui_slist_skip = 1\nirc_nick1 = dee\nirc_user_name = dee\n"
                  "irc_real_name = Dee\nirc_logging = 1\ngui_join_dialog = 0\n"
                  "identd_server = 0\n")
        self.file("conf/addons/ask.py", self.HELPER)
        self.opens("hexchat", "-d", self.folder / "conf", f"irc://127.0.0.1:{self.port}/")

    def types(self, line):
        if not line.startswith("/"):
            line = f"/say {line}"
        os.replace(self.file("ask.new", line), self.folder / "ask")
        waits(lambda: not (self.folder / "ask").exists(), 3)

    def state(self):
        os.replace(self.file("ask.new", "state"), self.folder / "ask")
        if waits((self.folder / "answer").exists, 5):
            modes, names, topic = (self.folder / "answer").read_text().split("\n")
            return modes, names, topic
        return "", "", ""

    def shows(self):
        return self.logs("conf/logs/**/*.log")


class Catgirl(Terminal):
    """By TLS: stunnel stands between it and the relay, and names its address."""
    package, command, is_proxied, has_message = "catgirl", "catgirl", True, True
    other_window = "/window 0"
    wants = ("tmux", "stunnel4", "openssl")

    def starts(self):
        key, door = self.folder / "key.pem", free_port()
        subprocess.run(["openssl", "req", "-x509", "-newkey", "rsa:2048", "-nodes", "-subj",
                        "/CN=localhost", "-addext", "subjectAltName=DNS:localhost",
                        "-keyout", key, "-out", f"{key}.cert"], check=True, capture_output=True)
        path = self.file("stunnel.conf", f"foreground = yes\npid =\n[ircs]\naccept = 127.0.0.1:"
                         f"{door}\nconnect = 127.0.0.1:{self.port}\ncert = {key}.cert\n"
                         f"key = {key}\nprotocol = proxy\n")
        self.runs("stunnel4", str(path))
        time.sleep(1)
        self.opens("catgirl", "-h", "localhost", "-p", door, "-n", "dee", "-u", "dee", "-r", "Dee",
                   "-S", "127.0.0.3", "-t", f"{key}.cert", "-l", "-s", "saved")

    def shows(self):
        return super().shows() + self.logs("data/catgirl/log/**/*.log")


class Glirc(Terminal):
    package = command = "glirc"
    invites, other_window, status = "/invite vicky", "/focus den", r"#den \+(\w+)"

    def starts(self):
        path = self.file("glirc.cfg", f'''servers:
  * name: "den"
    hostname: "127.0.0.1"
    port: {self.port}
    tls: no
    nick: "dee"
    username: "dee"
    realname: "Dee"
''')
        self.opens("glirc", "-c", path, "den")


class Epic(Terminal):
    package = command = "epic5"
    status = r"#den \(\+(\w+)"

    def starts(self):
        self.file("none", "set mail off\n")
        self.opens("epic5", "-l", self.folder / "none", "dee", f"127.0.0.1:{self.port}")


class Irc(Terminal):
    """It shows no letters of three bytes."""
    package, command, status = "ircii", "irc", r"#den \(\+(\w+)"
    shown = SHOWN | {"the greeting": "good morning"}

    def starts(self):
        self.file("none", "")
        self.opens("irc", "-l", self.folder / "none", "dee", f"127.0.0.1:{self.port}")


class ScrollZ(Irc):
    package = command = "scrollz"
    status, shown = r"#den \[\+(\w+)", SHOWN

    def starts(self):
        self.file("none", "")
        self.opens("scrollz", "-l", self.folder / "none", "dee", f"127.0.0.1:{self.port}")


class Tiny(Terminal):
    """Its status never has a key, so its modes are not judged."""
    package = command = "tinyirc"

    def starts(self):
        self.opens("tinyirc", "dee", "127.0.0.1", self.port)


ACCOUNTS = """<?xml version='1.0' encoding='UTF-8' ?>
<account version='1.0'><account>
 <protocol>prpl-irc</protocol><name>dee@127.0.0.1</name>
 <statuses>
  <status type='available' name='Available' active='true'><attributes/></status>
 </statuses>
 <settings>
  <setting name='port' type='int'>{port}</setting>
  <setting name='username' type='string'>dee</setting>
  <setting name='realname' type='string'>Dee</setting>
 </settings>
 <settings ui='{ui}'><setting name='auto-login' type='bool'>1</setting></settings>
</account></account>
"""
FRIENDS = """<?xml version='1.0' encoding='UTF-8' ?>
<purple version='1.0'><blist><group name='Chats'>
 <chat proto='prpl-irc' account='dee@127.0.0.1'>
  <component name='channel'>#den</component><setting name='{key}' type='bool'>1</setting>
 </chat>
</group></blist><privacy/></purple>
"""
WISHES = """<?xml version='1.0' encoding='UTF-8' ?>
<pref version='1' name='/'><pref name='purple'><pref name='logging'>
 <pref name='log_chats' type='bool' value='1'/><pref name='log_system' type='bool' value='1'/>
 <pref name='format' type='string' value='txt'/>
</pref></pref></pref>
"""
PURPLE = "im.pidgin.purple."


class Pidgin(Window):
    """Its names and topic are asked by D-Bus; it keeps no modes of a channel. That it is invited
    it does not write down, but asks in a window what to do."""
    package = command = "pidgin"
    shown = {what: it for what, it in SHOWN.items() if what != "an invitation"}
    joins_itself, wants = True, (*Window.wants, "xdotool", "gdbus")
    ui, key = "gtk-gaim", "gtk-autojoin"

    def has_files(self):
        self.file("purple/accounts.xml", ACCOUNTS.format(port=self.port, ui=self.ui))
        self.file("purple/blist.xml", FRIENDS.format(key=self.key))
        self.file("purple/prefs.xml", WISHES)

    def starts(self):
        self.has_files()
        self.opens("pidgin", "-m", "-c", self.folder / "purple")

    def types(self, line):
        self.asks("xdotool", "search", "--name", "^#den", "windowfocus", "--sync")
        self.asks("xdotool", "type", "--delay", "30", "--", line)
        self.asks("xdotool", "key", "Return")

    def calls(self, name, *words):
        return self.asks("gdbus", "call", "--session", "-d", f"{PURPLE}PurpleService",
                         "-o", "/im/pidgin/purple/PurpleObject",
                         "-m", f"{PURPLE}PurpleInterface.Purple{name}", *map(str, words))

    def number(self, *words):
        return int(re.findall(r"-?\d+", re.sub("u?int32", "", self.calls(*words)) + " 0")[0])

    def state(self):
        for it in re.findall(r"\d+", re.sub("u?int32", "", self.calls("GetConversations"))):
            if "#den" in self.calls("ConversationGetName", it):
                chat = self.number("ConversationGetChatData", it)
                users = re.sub("u?int32", "", self.calls("ConvChatGetUsers", chat))
                names = [self.calls("ConvChatCbGetName", user)[2:-4]
                         for user in re.findall(r"\d+", users)]
                signs = {4: "@", 1: "+"}
                flags = [self.number("ConvChatUserGetFlags", chat, name) for name in names]
                shown = [signs.get(flag & 5, "") + name for flag, name in zip(flags, names)]
                return None, " ".join(shown), self.calls("ConvChatGetTopic", chat)[2:-4]
        return None, "", ""

    def shows(self):
        return self.logs("purple/logs/**/*.txt")


class Finch(Pidgin, Terminal):
    package = command = "finch"
    wants, ui, key = ("tmux", "dbus-daemon", "gdbus"), "gnt-purple", "gnt-autojoin"
    ends = Terminal.ends

    def starts(self):
        self.has_files()
        self.has_bus()
        Terminal.opens(self, "finch", "-c", self.folder / "purple")

    def types(self, line):
        """Into its second window, which is the channel."""
        self.asks("tmux", "-S", f"{self.folder}/tmux", "send-keys", "-t", "it", "M-2")
        Terminal.types(self, line)


class Konversation(Window):
    package, command, joins_itself = "konversation", "konversation", True

    def starts(self):
        self.opens("konversation", "--nick", "dee", "--server", "127.0.0.1", "--port", self.port,
                   "--channel", "#den", "--noautoconnect")

    def types(self, line):
        self.asks("gdbus", "call", "--session", "-d", "org.kde.konversation", "-o", "/irc",
                  "-m", "org.kde.konversation.say", "127.0.0.1", "#den", line)

    def shows(self):
        return self.logs("data/konversation/logs/**/*")


class Kvirc(Window):
    """It first asks five things in windows, which have what is usual; it is told lines of KVS. Its
    log is whole once it has ended."""
    package = command = "kvirc"
    wants = (*Window.wants, "xdotool")
    invites = 'raw "INVITE vicky #den"'

    def starts(self):
        self.opens("kvirc", "-f")
        waits(lambda: self.asks("xdotool", "search", "--name", "KVIrc"), 20)
        for key in 5 * ["alt+n"] + ["alt+f"]:
            time.sleep(1)
            window = self.asks("xdotool", "search", "--name", "KVIrc").split()[-1:]
            self.asks("xdotool", "windowfocus", *window)
            self.asks("xdotool", "key", key)
        time.sleep(4)
        self.does("option stringNickname1 dee")
        self.does("option boolAutoLogConsole 1")
        self.does("log.start")
        self.does(f"server 127.0.0.1 {self.port}")

    def types(self, line):
        line = f'privmsg "#den" {line}' if line == REPLY else line.lstrip("/")
        self.does(line.replace("join #den", 'join "#den"'))

    def does(self, lines):
        """In its language; what follows at once would take the place of it."""
        self.asks("kvirc", "-x", lines)
        time.sleep(1)

    def state(self):
        it, path = '$channel("#den")', self.folder / "answer"
        self.does(f"%n = \"\"; foreach(%u, $chan.users({it})) "
                  f"%n .= \" $chan.getflag(%u, {it})%u\"; "
                  f"file.write \"{path}\" \"$chan.mode({it})|%n|$chan.topic({it})\"")
        if waits(path.exists, 5):
            return tuple(path.read_text().strip().split("|"))
        return "", "", ""

    def shows(self):
        for _ in range(5):
            if waits(lambda: self.processes[-1].poll() is not None, 3):
                break
            self.does("quit -q")
        # what can be clicked stands between two marks
        return re.sub(r"\n!\w+\n(.*)\n", r"\1", self.logs("**/KVIrc/log/*.log"))


class Srain(Window):
    """What it shows is its log. Where it is invited, it goes to a talk with who invites."""
    package, command, joins_itself = "srain", "srain", True
    wants = (*Window.wants, "xdotool")

    def starts(self):
        self.opens("srain", f"irc://dee@127.0.0.1:{self.port}/#den")

    def types(self, line):
        line = f"/msg #den {line}" if line == REPLY else line
        window = self.asks("xdotool", "search", "--onlyvisible", "--class", "srain").split()[-1:]
        self.asks("xdotool", "windowfocus", *window)
        self.asks("xdotool", "type", "--delay", "30", "--", line)
        self.asks("xdotool", "key", "Return")

    def shows(self):
        return self.logs("data/srain/logs/**/*")


STORED = """
insert into identity(identityid, userid, identityname, realname, ident, autoawaytime)
values (1, 1, 'dee', 'Dee', 'dee', 10);
insert into identity_nick(identityid, nick) values (1, 'dee');
insert into network(networkid, userid, networkname, identityid, encodingcodec, decodingcodec,
servercodec, connected, rejoinchannels) values (1, 1, 'net', 1, 'UTF-8', 'UTF-8', 'UTF-8', 1, 1);
insert into ircserver(userid, networkid, hostname, port) values (1, 1, '127.0.0.1', {port});
insert into buffer(userid, networkid, buffername, buffercname, buffertype, joined)
values (1, 1, '#den', '#den', 2, 1);
insert into core_state values
('active_sessions', x'000000010000007f00000000075573657249640000000001');
"""


class Quassel(Client):
    """Its core, without a window: it connects by itself, and nobody types there. What it shows is
    what it keeps."""
    package, command, joins_itself = "quassel-core", "quasselcore", True
    invites = ""

    def starts(self):
        core = ("quasselcore", "--configdir", str(self.folder))
        self.asks(*core, "--select-backend=SQLite")
        adds = self.runs(*core, "--add-user", stdin=subprocess.PIPE)
        adds.communicate(b"dee\nsecret\nsecret\n", 20)
        with contextlib.closing(sqlite3.connect(self.folder / "quassel-storage.sqlite")) as store:
            store.executescript(STORED.format(port=self.port))
        self.runs(*core, "--listen", "127.0.0.1", "-p", str(free_port()))

    def shows(self):
        with contextlib.closing(sqlite3.connect(self.folder / "quassel-storage.sqlite")) as store:
            rows = store.execute("select type, sender, message from backlog join sender "
                                 "using (senderid) order by messageid")
            return "".join(" ".join(map(str, row)) + "\n" for row in rows)


CLIENTS = {it.command: it for it in (
    HexChat, Pidgin, Konversation, Kvirc, Quassel, Srain, Catgirl, Glirc, Finch, Epic, Irc,
    ScrollZ, Tiny,
)}


def told(name, holds, more=""):
    print("ok  " if holds else "FAIL", name, more if not holds else "", flush=True)
    return bool(holds)


def errors(relay, since, until):
    """Each error line, with what the client last said before it; 422 is none."""
    found, said = [], ""
    for at, who, line in list(relay.lines):
        if who == ">":
            said = line
        elif since <= at < until and ERROR.match(line) and " 422 " not in line:
            found.append(f"{line}   (last said: {said})")
    return found


def comes_in(client, relay):
    """It registers, and joins."""
    client.starts()
    if not waits(lambda: relay.has(r"^:a\.net (376|422) dee "), 40):
        return False
    time.sleep(2)
    if not client.joins_itself:
        client.types("/join #den")
    return waits(lambda: relay.has(r"^:a\.net 366 dee #den "), 20)


def is_among(client, relay, people):
    """All that happens while it is there, and whether what it says comes to the others."""
    time.sleep(2)
    for who, line in DURING:
        people[who].answered(line)
        time.sleep(0.4)
    waits(lambda: relay.has("INVITE dee"))
    time.sleep(2)
    if not client.invites:
        return True
    client.types(client.invites)
    result = told("its invitation comes to whom it names",
                  waits(lambda: people["vic"].has(r"^:dee!\S+ INVITE vicky :?#den"), 5))
    client.types("/nick deedee")
    result &= told("its new nickname comes", waits(lambda: people["op"].has("NICK :?deedee"), 5))
    client.types(REPLY)
    return told("its text comes", waits(lambda: people["op"].has(f"#den :{REPLY}"), 5)) & result


def same_state(client, people):
    """Modes, names and topic, where it tells: the client's and the server's."""
    asked, op, result = client.state(), people["op"], True
    if asked is None:
        return True
    is_modes = re.search(r" 324 boss #den \+(\w+)", op.answered("MODE #den"))[1]
    is_names = re.findall(r" 353 boss . #den :(.*)\r", op.answered("NAMES #den"))[0]
    is_topic = re.search(r" 332 boss #den :(.*)\r", op.answered("TOPIC #den"))[1]
    modes, names, topic = asked
    if modes is not None:
        letters = re.sub(r"^\+| .*", "", modes)
        result &= told(f"modes: {is_modes}", sorted(letters) == sorted(is_modes), f"has {modes!r}")
    if names is not None:
        is_so = sorted(names.split()) == sorted(is_names.split())
        result &= told(f"names: {is_names}", is_so, f"has {names!r}")
    if topic is not None:
        result &= told(f"topic: {is_topic}", topic == is_topic, f"has {topic!r}")
    return result


def shows_all(client):
    text, result = client.shows(), True
    if client.other_window:
        client.types(client.other_window)
        time.sleep(1)
        text += client.shows()
    for what, pattern in client.shown.items():
        result &= told(f"shows {what}", re.search(pattern, text))
    bad = [it.strip() for it in text.split("\n") if BAD_WORDS.search(it)]
    return told("shows no word of an error", not bad, str(bad)) and result


def judged(client, relay, people):
    came = told("registers and joins", comes_in(client, relay))
    joined = time.monotonic() - relay.began
    wrong = errors(relay, 0, joined)
    result = told("no error line up to JOIN", not wrong, "".join(f"\n       {it}" for it in wrong))
    if not came:
        print("       its last lines:", *(it[1:] for it in relay.lines[-4:]))
        return False
    result &= is_among(client, relay, people)
    result &= same_state(client, people)
    wrong = errors(relay, joined, 1e9)
    result &= told("no error line behind", not wrong, "".join(f"\n       {it}" for it in wrong))
    return shows_all(client) and result


def keeps(name, client, relay):
    """The lines, and what was shown, in the folder KEEP."""
    folder = pathlib.Path(KEEP)
    folder.mkdir(parents=True, exist_ok=True)
    (folder / f"{name}.lines").write_text(relay.text())
    with contextlib.suppress(OSError, subprocess.SubprocessError, sqlite3.Error):
        (folder / f"{name}.shown").write_text(client.shows())
        if isinstance(client, Window):
            client.picture(folder / f"{name}.png")


def one(program, name):
    """A daemon, people and one client; whether all held."""
    print(f"== {name} {version(CLIENTS[name])}", flush=True)
    with tempfile.TemporaryDirectory(ignore_cleanup_errors=True) as made:
        folder, kind = pathlib.Path(made), CLIENTS[name]
        (folder / "motd").write_text("Hello\n\u00fc, and good day\n")
        more = 'proxies = ["127.0.0.1"]\n' if kind.is_proxied else ""
        more += f'motd = "{folder}/motd"\n' if kind.has_message else ""
        with daemon(program, folder, more) as port:
            people = {nick: Person(port, nick) for nick in ("op", "vic", "amy")}
            for who, line in BEFORE:
                people[who].answered(line)
            relay = Relay(port)
            client = kind(folder, relay.port)
            with contextlib.ExitStack() as ends:
                ends.callback(relay.door.close)
                ends.callback(client.ends)
                if KEEP:
                    ends.callback(keeps, name, client, relay)
                try:
                    return judged(client, relay, people)
                except (OSError, subprocess.SubprocessError, sqlite3.Error) as error:
                    return told("runs to its end", False, repr(error))


def package(word):
    """Which has a command that is wanted."""
    return {"Xvfb": "xvfb", "dbus-daemon": "dbus", "gdbus": "libglib2.0-bin"}.get(word, word)


def version(kind):
    if not shutil.which("dpkg-query"):
        return ""
    done = subprocess.run(["dpkg-query", "-W", "-f", "${Version}", kind.package.split()[0]],
                          capture_output=True, text=True, check=False)
    return done.stdout


def told_to_end(*_):
    """What was started ends with this, and is not stopped in that."""
    signal.signal(signal.SIGTERM, signal.SIG_IGN)
    sys.exit(1)


def main():
    if len(sys.argv) < 2 or not os.access(sys.argv[1], os.X_OK):
        sys.exit("usage: tests/desktop_clients.py PROGRAM [CLIENT ..]")
    program, results = os.path.abspath(sys.argv[1]), []
    signal.signal(signal.SIGTERM, told_to_end)
    if unknown := [it for it in sys.argv[2:] if it not in CLIENTS]:
        sys.exit(f"no client of these: {', '.join(unknown)}; there are {', '.join(CLIENTS)}")
    for name in sys.argv[2:] or CLIENTS:
        kind = CLIENTS[name]
        missing = [it for it in (kind.command, *kind.wants) if not shutil.which(it)]
        if missing:
            print(f"== {name}: passed over, not there: {' '.join(missing)}; "
                  f"packages: {kind.package} {' '.join(map(package, kind.wants))}")
            continue
        results.append(one(program, name))
    return 2 if not results else 0 if all(results) else 1


if __name__ == "__main__":
    sys.exit(main())
