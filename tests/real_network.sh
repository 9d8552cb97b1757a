#!/bin/bash
# Drives three daemons in a line on loopback, a.net - b.net - c.net, with the four real clients of tests/real_clients.sh: irssi at a.net, ii at b.net, weechat and sic at c.net.
# A nickname is on both sides before the links are made; then all meet in one room, talk, set a topic and modes, kick and change a name; the middle daemon is killed, and started
# again; at last the third one is killed. Each screen has to show what the others do, and whom a link takes away or brings back.
# The configurations are examples/network/*.toml with a digit before each port, so that clients are at 16661 to 16663 (PORTS is another digit: 2, as the system gives those from
# 32768 on to whoever calls). b.net calls both others, so there are people on both sides before a link, and starting it again makes both links.
#
# tests/real_network.sh PROGRAM. PROGRAM is crates/ircd/out/ircd, which `./ircd build` makes. Clients that are missing are installed by apt-get.
# Exit status: 0 where every screen showed what it had to, 1 where one did not; each `FAIL` names the client and what it does not show.
# shellcheck disable=SC2317
set -u

[ $# = 1 ] || { echo 'usage: tests/real_network.sh PROGRAM' >&2; exit 1; }
top=$(cd "$(dirname "$0")/.." && pwd)
ircd=$1
ports=${PORTS:-1}
room='#den'
# shellcheck source=tests/clients.sh
. "$top/tests/clients.sh"

for server in a b c; do
    sed "s/:\([67]66[0-9]\)\"/:$ports\1\"/" "$top/examples/network/$server.toml" >"$work/$server.toml"
done

kills() { { kill -9 "$1"; wait "$1"; } 2>/dev/null; }

# comes NICK CLIENT PORT: starts a client, which joins the room
comes() {
    port=$ports$3
    "start_$2" "$1"
    sees "$2" 'Welcome to the Internet Relay Network'
    "$2_types" "/join $room"
}

# what each screen shows besides: CLIENT WHO TEXT
given() { case $1 in irssi | weechat) echo "$room [[(]$3[])] by $2" ;; ii) echo "$2 changed mode/$room -> $3" ;; sic) echo "^$2 .*MODE.*$room $3" ;; esac; }
# ii shows a new name only where a colon stands before it, which the daemon does not write; what is said under that name it shows
renamed() { case $1 in irssi | weechat) echo "$2 is now known as $3" ;; sic) echo "^$2 .*NICK.*$3" ;; esac; }
# irssi takes the names of two servers for a split: one line has all whom it takes away, and one all who come back
split() { case $1 in irssi) echo "Netsplit ${3/ / <-> } quits:.*$2" ;; *) gone "$@" ;; esac; }

# all_see WHAT WHO TEXT CLIENT..: WHAT is one of the names above
all_see() {
    local what=$1 who=$2 text=$3 client
    shift 3
    for client; do sees "$client" "$("$what" "$client" "$who" "$text")"; done
}

# speaks CLIENT NICK TEXT: everybody else hears it
speaks() {
    local client
    "$1_types" "$3"
    for client in irssi ii weechat sic; do
        [ "$client" = "$1" ] || sees "$client" "$(said "$client" "$2" "$3")"
    done
}

echo '-- zed by ii at a.net, zed by sic at c.net, and no link'
serve "$work/a.toml"
serve "$work/c.toml"
third=$daemon
comes ann irssi 6661
all_see joined ann '' irssi
comes zed ii 6661
all_see joined zed '' irssi
comes dan weechat 6663
all_see joined dan '' weechat
comes zed sic 6663
all_see joined zed '' weechat

echo '-- b.net calls both: no zed is left'
serve "$work/b.toml"
middle=$daemon
all_see gone zed 'Killed .Nick collision' irssi weechat
sees ii 'Closing link .Killed .Nick collision'
sees sic 'Closing link .Killed .Nick collision'
all_see joined dan '' irssi
all_see joined ann '' weechat

echo '-- ann by irssi at a.net, bob by ii at b.net, dan by weechat and eve by sic at c.net'
comes bob ii 6662
all_see joined bob '' irssi weechat
comes eve sic 6663
all_see joined eve '' irssi ii weechat
speaks irssi ann 'good morning from the first'
speaks ii bob 'and from the second'
speaks weechat dan 'and from the third'
speaks sic eve 'and from me'
irssi_types "/topic $room tea at four"
all_see set_topic ann 'tea at four' irssi ii weechat sic
weechat_types "/mode $room +o eve"
all_see given dan '.o eve' irssi ii weechat sic
sic_types ":TOPIC $room :tea at five"
all_see set_topic eve 'tea at five' irssi ii weechat sic
weechat_types '/kick bob not before four'
for client in irssi ii weechat sic; do sees "$client" "$(kicked "$client" dan bob 'not before four')"; done
ii_types "/join $room"
for client in irssi weechat; do sees "$client" "$(joined "$client" bob)" 2; done
sees sic "$(joined sic bob)"
sic_types '/nick eva'
all_see renamed eve eva irssi weechat sic
ii_types '/nick rob'
all_see renamed bob rob irssi weechat sic
speaks sic eva 'is it four'
speaks ii rob 'not yet'

echo '-- b.net is killed'
kills "$middle"
for who in rob dan eva; do all_see split "$who" 'a.net b.net' irssi; done
for who in ann rob; do all_see split "$who" 'c.net b.net' weechat sic; done
weechat_types 'we two are left'
all_see said dan 'we two are left' sic

echo '-- b.net is started again, and links both by its configuration'
serve "$work/b.toml"
for who in dan eva; do sees irssi "Netsplit over, joins:.*$who"; done
sees weechat "$(joined weechat ann)" 2
sees sic "$(joined sic ann)"
comes rob ii 6662
all_see joined rob '' irssi weechat sic
speaks irssi ann 'there you are'
speaks ii rob 'here I am'
speaks weechat dan 'and so are we'
speaks sic eva 'all four of us'

echo '-- c.net is killed: both other servers tell it with the names of its link'
kills "$third"
for who in dan eva; do all_see split "$who" 'b.net c.net' irssi ii; done
irssi_types 'two of us'
all_see said ann 'two of us' ii
ii_types 'indeed'
all_see said rob 'indeed' irssi

[ "$failed" = 0 ] && echo 'real_network: every screen showed what it had to'
exit "$failed"
