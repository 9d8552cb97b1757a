# Writes a script for `ircd sim`: so many users (size) register, join their channels (each, in number) and invite each other, and then there are so many turns.
# setup is channels or invitations, the last of these that is done. part is what a turn is, as bench/one_user/run says. by is one or all: whose turns.
function say(i, text) { print "say " i " " text }
function register(i, nick) {
    print "connect a.net h"
    say(i, "NICK " nick)
    say(i, "USER u 0 * :U")
}

# the number of a user, where those behind the last are the first again
function around(i) { return (i - 1) % size + 1 }

# host, whose channel user me joins, is far from it; more is the number of who connects
function turn(me, more,    host) {
    host = around(me + int(size / 3))
    if (part == "NICK") {
        say(me, "NICK v" me)
        say(me, "NICK u" me)
    } else if (part == "JOIN") {
        if (setup == "invitations") say(host, "INVITE u" me " #c" host)
        say(me, "JOIN #c" host)
        say(me, "PART #c" host)
    } else if (part == "NEW") {
        say(me, "JOIN #c" me "x")
        say(me, "PART #c" me "x")
    } else {
        register(more, "u" me "x")
        say(more, "JOIN #c" me "x")
        if (setup == "invitations") say(host, "INVITE u" me "x #c" host)
        say(more, "QUIT")
    }
}

BEGIN {
    print "server a.net"
    for (i = 1; i <= size; i++) {
        register(i, "u" i)
        for (k = 0; k < each; k++) say(i, "JOIN #c" around(i + k))
    }
    if (setup == "invitations") {
        for (i = 1; i <= size; i++) say(i, "INVITE u" around(i + 1) " #c" i)
    }
    for (i = 0; i < turns; i++) turn(by == "all" ? (i * 7919) % size + 1 : int(size / 2), size + i + 1)
}
