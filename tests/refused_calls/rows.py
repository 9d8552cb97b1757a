"""The rows of compare.py: of which kind a call is, the scene that it is made in, what is there before it, and the call.

The lines of a script are written like IRC messages: a word, its parameters, the last behind `:`; calls.rattle and the files beside it read them.
"""

LETTERS = "abcdefghijklmnopqrstuvwxyz"


def of_tables():
    """Each call on tables of 0 and more rows, so that each way to make room is met: a list that grows, a tree whose leaf comes apart."""
    rows = []

    def add(setup, call, kind="same", most=9):
        for size in range(most + 1):
            rows.append((kind, "tables", [setup.format(at=at, letter=LETTERS[at], token=at + 1) for at in range(size)], call))

    add("table_insert n{at} {at}", "table_insert new 7")
    add("map_insert n{letter} {at}", "map_insert nz 7", most=24)
    add("user_add n{letter}", "user_add new", most=24)
    # a user moves in the tree of nicknames, which wants memory where its new place is in a leaf that is full
    for size in range(1, 25):
        rows.append(("same", "tables", [f"user_add n{letter}" for letter in LETTERS[:size]], "user_rename na new"))
    for call in ("in_order", "by_home a.net", "matching n*"):
        add("user_add n{at}", call)
    for setup in ("channels_join n{at} #c", "channels_join al #c{at}"):
        for call in ("channels_join new #c", "channels_join new #new"):
            add(setup, call)
    for scope, of in (("channels", " #c"), ("channel", "")):
        room = [f"{scope}_join al{of}"]
        for setup, call in (("join n{at}", "join new"), ("invite n{at}", "invite new")):
            for size in range(10):
                lines = [f"{scope}_{setup.format(at=at)}{of}" for at in range(size)]
                rows.append(("same", "tables", room + lines, f"{scope}_{call}{of}"))
        for size in range(9):
            lines = [f"{scope}_{what}{of}" for what in ["invite new"] + [f"join n{at}" for at in range(size)]]
            rows.append(("same", "tables", room + lines, f"{scope}_join NEW{of}"))
        for bans in range(9):
            changes = [f"{scope}_change{of} +b n{at}!*@*" for at in range(bans)]
            rows.append(("same", "tables", room + changes, f"{scope}_change{of} +nbb-t+b x!*@* y!*@* z!*@*"))
    for setup, calls in (("bans_change +b n{at}!*@*", ("bans_change +bbb x!*@* y!*@* z!*@*", "bans_copy")),
                         ("modes_change +b n{at}!*@*", ("modes_change +nbb-t+b x!*@* y!*@* z!*@*", "modes_copy"))):
        for call in calls:
            add(setup, call)
    rows.append(("same", "tables", [], "read_modes +ntob-k+l-b al x!*@* key"))
    for call in ("hold 0 :text", "send 3", "send_on 3", "put 3 :text", "put_on 3 :text", "close 3", "close_link 3"):
        add("put 1 :a text", call)
    add("put 1 :a text", "send_to_others 3", kind="grew")
    add("add_server 1 a.net s{letter}.net 1 {token}", "add_server 2 a.net z.net 1 1")
    for call in ("behind 1", "links", "told_on 2", "servers"):
        add("add_server 1 a.net s{letter}.net 1 {token}", call)
    for call in ("with_room", "name_list", "lines_of_pieces"):
        rows.append(("same", "tables", [], call))
    # what takes no memory
    rows.append(("none", "tables", ["table_insert new 1"], "table_insert NEW 7"))
    for scope, of in (("channels", " #c"), ("channel", "")):
        room = [f"{scope}_join al{of}", f"{scope}_invite bo{of}", f"{scope}_change{of} +b x!*@*"]
        for call in (f"join AL{of}", f"invite BO{of}"):
            rows.append(("none", "tables", room, f"{scope}_{call}"))
        rows.append(("none", "tables", room, f"{scope}_change{of} +nt-b x!*@*"))
    return rows


HALL = [
    "add_server 1 a.net b.net 1 1", "add_server 1 b.net c.net 2 2", "add_server 2 a.net d.net 1 1", "apply user al a.net", "apply user bo a.net",
    "apply user ce b.net", "apply user de d.net", "apply user ee a.net", "apply join al #c op", "apply join bo #c", "apply join ce #c", "apply join de #d op",
    "apply join ce #f op", "apply mode al #c +ntb x!*@*", "apply topic al #c :a topic", "apply invite al de #c",
]

EFFECTS = [
    "user new a.net", "rename al alx", "quit al :bye", "join ee #new op", "join de #c", "part bo #c :bye", "kick al #c bo :out", "mode al #c +bb y!*@* z!*@*",
    "mode al #c +o bo", "topic al #c :new", "say al #c :hi", "say al bo :hi", "invite al ee #c", "umode al +",
]

# those whose change alone, shown to nobody, takes memory in this room
GROWING = ("user", "join", "invite")

# effects that do nothing, which take no memory
IDLE = ["join al #c op", "part ee #c :x", "kick al #c ee :x"]


def of_rooms():
    rows = [("room", "hall", HALL, f"apply {effect}") for effect in EFFECTS]
    rows += [("room" if effect.startswith(GROWING) else "none", "hall", HALL, f"change {effect}") for effect in EFFECTS]
    rows += [("none", "hall", HALL, f"{call} {effect}") for call in ("apply", "change") for effect in IDLE]
    for size in range(25):
        many = [f"apply user n{at} a.net" for at in range(size)]
        rows.append(("room", "hall", many, "apply user new a.net"))
        in_channel = many + [f"apply join n{at} #c" for at in range(size)]
        if size:
            rows.append(("room", "hall", in_channel, "apply say n0 #c :hi"))
            rows.append(("room", "hall", in_channel, "apply rename n0 new"))
            rows.append(("room", "hall", in_channel, "apply quit n0 :bye"))
            rows.append(("room", "hall", many + [f"apply join n0 #c{at}" for at in range(size)], "apply join n0 #new op"))
    for call in ("users", "users_at a.net", "channels_of al", "member_nicks #c"):
        rows.append(("same", "hall", HALL, call))
    rows += [("same", "hall", HALL, f"audience {effect}") for effect in EFFECTS[1:]]
    rows += [("none", "hall", HALL, f"write_line {effect}") for effect in EFFECTS if "mode" in effect and "umode" not in effect]
    return rows


LINK_LINES = [
    "NICK fe 1 u h 1 + :Fe", ":ce NICK cy", ":ce MODE ce +i", ":ce JOIN #e\x07o", ":ce JOIN #c", ":ce PART #c :x", ":ce KICK #c bo :out",
    ":ce MODE #c +ob bo q!*@*", ":ce TOPIC #c :x", ":ce PRIVMSG #c :x", ":ce NOTICE al :x", ":ce INVITE al #c", ":ce QUIT :x",
]

BURST_LINES = [
    ":b.net SERVER e.net 2 3 :E", ":b.net NJOIN #c :@ce", ":b.net NJOIN #new :@ce,+ce,zz", ":b.net MODE #c +b q!*@*", ":b.net TOPIC #f :x",
    ":b.net SQUIT c.net :x", "NICK al 1 u h 1 + :Al", ":ce NICK al", ":b.net KILL al :Nick collision",
]


def of_lines():
    rows = [("same", "hall", HALL, f"read_effect 1 :{line}") for line in LINK_LINES]
    rows += [("same", "hall", HALL, f"burst_line 1 :{line}") for line in LINK_LINES + BURST_LINES]
    out_of_place = (":ce MODE #c +b x!*@*", ":b.net NJOIN #c :@ce", "NICK ge 1 u h 1 + :Ge")
    rows += [("closes", "hall", HALL, f"handshake 1 :{line}") for line in out_of_place]
    rows += [("none", "hall", HALL, f"handshake 1 :{line}") for line in ("SERVER e.net 1 1 :E",)]
    rows += [("same", "hall", HALL, call) for call in ("burst 3", "burst 1", "read_changes +bo-nt x!*@* al")]
    return rows


ASKED = [
    "NAMES #c", "NAMES", "ISON al bo", "LUSERS", "WHOIS al", "WHOIS a*", "INVITE ee #c", "JOIN #c,#new,#d", "JOIN 0", "KICK #c bo :out", "KICK #c bo,ce :out",
    "PART #c :x", "MODE #c", "MODE #c b", "MODE #c +o-t+b bo y!*@*", "MODE #c +bk y!*@* key", "MODE al +i", "MODE al",
]

DECIDED = ["NICK alx", "TOPIC #c", "TOPIC #c :new", "PRIVMSG #c,bo :hi", "NOTICE bo :hi", "PING x", "PONG x", "MOTD", "QUIT :bye", "PASS x", "XYZZY"]


def of_questions():
    rows = [("same", "hall", HALL, f"ask al :{line}") for line in ASKED]
    rows += [("grew", "hall", HALL, f"ask al :{line}") for line in ("LIST", "LIST #c,#d", "WHO #c", "WHO *", "WHO")]
    rows += [("grew", "hall", HALL + ["ask al :LIST #c"], "ask al :LIST")]
    rows += [("none" if line == "PONG x" else "grew", "hall", HALL, f"decide al :{line}") for line in ASKED + DECIDED + ["LIST", "WHO #c"]]
    rows += [("same", "hall", HALL, "joiner ee #c"), ("same", "hall", HALL, "only al :x")]
    rows += [("same", "hall", HALL + ["put al :x"] * size, "put al :x") for size in range(9)]
    rows += [("open", "hall", HALL + ["put al :x"] * size, "joiner ee #c") for size in range(9)]
    rows += [("same", "hall", HALL, f"register new :{line}") for line in ("USER u 0 * :New", "PING x", "JOIN #c", "QUIT :x")]
    rows += [("same", "hall", HALL + ["register new :NICK new"], "register new :USER u 0 * :New")]
    return rows


LINKED = ["open_link 2", "meet 2 b.net", "add_server 2 a.net b.net 1 1"]

STAGE = [
    "apply 1 user al a.net", "seat 1 al", "apply 3 user bo a.net", "seat 3 bo", "apply 1 join al #c op", "apply 3 join bo #c", "apply 1 mode al #c +nb x!*@*",
    "apply 1 topic al #c :a topic", *LINKED, "come 2 user ce b.net", "add_server 2 b.net e.net 2 2", "come 2 user fe e.net", "come 2 join ce #c",
    "come 2 join fe #f op", "open_link 4", "meet 4 c.net", "add_server 4 a.net c.net 1 1",
]

# what a link brings, and goes on to the other
BROUGHT = [
    "user ge b.net", "rename ce cy", "umode ce +", "join ce #e op", "part ce #c :x", "kick ce #c bo :out", "mode ce #c +ob bo q!*@*", "topic ce #c :x",
    "say ce #c :x", "say ce al :x", "quit ce :x",
]


def of_stages():
    calls = [f"come 2 {effect}" for effect in BROUGHT]
    calls += ["take 2 quit ce :x", "take 2 join fe #c", "take 2 topic ce #c :x", "carry_out 1 quit al :bye", "remove_user al"]
    calls += ["tell_all 2 ::a.net SQUIT x.net :x", "tell_on 2 ::a.net SQUIT x.net :x", "close_link 2", "waiting 7"]
    calls += [f"apply 1 {effect}" for effect in EFFECTS if "ee" not in effect and " de " not in effect]
    calls += ["apply 1 invite al ce #c", "apply 1 say al ce :hi"]
    # (what is put out goes into an empty batch as it stands, and the server goes on with that: so a fresh one is the server's behind the next step)
    rows = [("stage", "stage", STAGE + fresh, call) for call in calls for fresh in ([], ["fresh", "nothing"])]
    for size in range(13):
        rows.append(("stage", "stage", [f"open_link {at}" for at in range(size)], "open_link 99"))
        rows.append(("stage", "stage", [f"waiting {at}" for at in range(size)], "waiting 99"))
        rows.append(("stage", "stage", [f"seat {at} n{LETTERS[at]}" for at in range(size)], "seat 99 new"))
        rows.append(("stage", "stage", LINKED + [f"add_server 2 b.net s{at}.net 2 {at + 2}" for at in range(size)], "add_server 2 b.net z.net 2 99"))
    return rows


def client(number, name, *lines):
    return [f"connect {number}"] + [f"say {number} :{line}" for line in (f"NICK {name}", f"USER u 0 * :{name}", *lines)]


UP = ["up 2", "hear 2 :PASS pw 0210010001 TREE|", "hear 2 :SERVER b.net 1 1 :B"]

OTHER = ["up 4", "hear 4 :PASS pq 0210010001 TREE|", "hear 4 :SERVER c.net 1 1 :C"]

ALONE = [*client(1, "al", "JOIN #c", "MODE #c +nb x!*@*", "TOPIC #c :a topic"), *client(3, "bo", "JOIN #c")]

SERVER = [
    *ALONE, *UP, "hear 2 :NICK ce 1 u h 1 + :Ce", "hear 2 ::b.net NJOIN #c :ce", "hear 2 ::b.net SERVER e.net 2 2 :E", "hear 2 :NICK fe 2 u h 2 + :Fe",
    "hear 2 ::e.net NJOIN #f :@fe", *OTHER, "connect 5",
]


# a fresh batch is handed over, and what is put out next goes into it
FRESH = ["fresh", "connect 9"]


def of_servers():
    said = [f"say 1 :{line}" for line in ASKED + DECIDED + ["LIST", "WHO #c", "PRIVMSG ce :hi", "INVITE ce #c"] if "ee" not in line and "PONG" not in line]
    more = ["NICK ge 1 u h 1 + :Ge", ":b.net NJOIN #new :@ce", "XYZZY"]
    heard = [f"hear 2 :{line}" for line in LINK_LINES[1:] + BURST_LINES + more]
    calls = said + heard + ["connect 7", "gone 1", "down 2", "down 4", "call 7 d.net"]
    rows = [("server", "server", SERVER + fresh, call) for call in calls for fresh in ([], FRESH)]
    rows += [("server", "server", SERVER + ["say 5 :NICK zz", *fresh], "say 5 :USER u 0 * :Z") for fresh in ([], FRESH)]
    rows += [("server", "server", ALONE + FRESH, "say 1 :PRIVMSG #c :hi"), ("server", "server", ALONE, "up 2")]
    rows += [("server", "server", before + UP[:2] + FRESH, UP[2]) for before in ([], ALONE)]
    for size in range(13):
        many = [line for at in range(size) for line in client(at + 1, f"n{LETTERS[at]}", "JOIN #c")]
        rows += [("server", "server", many, "connect 99"), ("server", "server", many + ["connect 99", "say 99 :NICK new"], "say 99 :USER u 0 * :New")]
        rows.append(("server", "server", [f"up {at}" for at in range(size)], "up 99"))
        rows += [("server", "server", many, call) for call in ("say 1 :PRIVMSG #c :hi", "say 1 :NICK new", "gone 1") if size > 1]
    rows += [("server all", "server", [], "all"), ("none", "server", [], "new")]
    return rows


PAIR = [
    "connect a.net", "say 1 :NICK al", "say 1 :USER u 0 * :Al", "say 1 :JOIN #c", "connect b.net", "say 2 :NICK bo", "say 2 :USER u 0 * :Bo", "say 2 :JOIN #d",
]

JOINED = PAIR + ["link a.net b.net", "settle"]


def of_nets():
    rows = [("net", "net", [], call) for call in ("connect a.net", "link a.net b.net")]
    rows += [("net new", "net", [], "new"), ("net play", "net", [], "play")]
    rows += [("net", "net", PAIR[:at], PAIR[at]) for at in range(1, len(PAIR))]
    rows += [("net", "net", PAIR, "link a.net b.net")]
    linking = PAIR + ["link a.net b.net"]
    rows += [("net", "net", linking, call) for call in ("deliver a.net b.net", "bytes a.net b.net 40", "settle")]
    rows += [("net", "net", linking + ["deliver a.net b.net"] * 2, call) for call in ("bytes b.net a.net 40", "deliver b.net a.net")]
    rows += [("net", "net", linking + ["deliver a.net b.net"] * 2 + ["deliver b.net a.net"] * 2, call) for call in ("bytes a.net b.net 99", "settle")]
    given = ("say 1 :JOIN #d", "say 2 :PRIVMSG al :hi", "gone 1", "cut a.net b.net", "say 1 :NICK ali", "connect b.net")
    rows += [("net", "net", JOINED, call) for call in given]
    for last in ("say 1 :JOIN #d", "gone 1", "cut a.net b.net"):
        rows.append(("net", "net", JOINED + [last], "settle"))
    rows.append(("none", "net", JOINED, "agrees a.net b.net"))
    rows.append(("none", "net", PAIR + ["say 1 :JOIN #d", "say 1 :MODE #d +b x!*@*"], "agrees a.net b.net"))
    return rows


PIECES = ["client 1", "room 1 10", "bytes 1 :NICK al`", "bytes 1 :~USER u 0 * :Al`~"]

CALLED = ["called 2 b.net", "room 2 57"]

LOST = [
    "client 1", "bytes 1 :NICK al`~USER u 0 * :Al`~JOIN #c`~", "client 2", "room 2 65536",
    "bytes 2 :NICK bo`~USER u 0 * :Bo`~JOIN #c`~PRIVMSG #c :hi`~", "over 1",
]

TREE = [
    "client 1", "room 1 65536", "bytes 1 :NICK al`~USER u 0 * :Al`~JOIN #c`~", "called 2 b.net", "room 2 65536", "client 3", "bytes 3 :NICK cy`~",
    "bytes 2 :PASS pw 0210010001 TREE|`~SERVER b.net 1 1 :B`~NICK b 1 u h 1 + :B`~:b.net NJOIN #c :@b`~", "bytes 1 :PRIVMSG #c :hi`~",
    "bytes 2 ::b PRIVMSG #c :ho`~",
]


def of_engines():
    rows = []
    for verb in ("turns", "run"):
        rows += [
            ("engine", "engine", PIECES, f"{verb} 4096 4096 20"),
            ("engine", "engine", LOST, f"{verb} 4096 4096 20"),
            ("engine", "engine", LOST, f"{verb} 512 4096 20"),
            ("engine", "engine", CALLED, f"{verb} 4096 57 10"),
            ("engine", "engine", TREE, f"{verb} 4096 4096 20"),
            ("engine", "engine", TREE + ["over 2"], f"{verb} 4096 4096 20"),
            ("engine", "engine", TREE + ["over 1", "over 3"], f"{verb} 4096 4096 20"),
        ]
    rows += [("making", "engine", steps, "wire") for steps in ([], PIECES, LOST, TREE)]
    rows += [("making", "engine", [], f"outbox {room}") for room in (1, 4096)]
    return rows


# what is written with ample memory to the connections of some engines: all that a client takes, and the greeting of a server that is called
WRITTEN = [(PIECES, [":a.net 001", "", "", ""]), (CALLED, ["", "PASS pw 0210010001 TREE|^M^JSERVER a.net 1 1 :A^M^J", "", ""])]

# the groups, by what each call is of
GROUPS = {
    "tables": of_tables, "rooms": of_rooms, "lines": of_lines, "questions": of_questions, "stages": of_stages, "servers": of_servers, "nets": of_nets,
    "engines": of_engines,
}
