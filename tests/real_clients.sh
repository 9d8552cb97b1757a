#!/bin/bash
# Drives `ircd serve` on loopback with four real clients of Debian's packages: irssi, ii, weechat and sic. In each of two pairs one makes
# a room and the other joins it; they talk, a topic is set, one is kicked, comes back, parts, comes back and quits; each screen has to show it.
# The program is crates/ircd/out/ircd (`./ircd build` makes it), or what IRCD names; PROGRAMS=true has it say what programs expect. Clients that are missing are installed by apt-get.
# Exit status: 0 where every screen showed what it had to, 1 where one did not.
set -u

top=$(cd "$(dirname "$0")/.." && pwd)
ircd=${IRCD:-$top/crates/ircd/out/ircd}
port=${PORT:-16690}
room='#den'
# shellcheck source=tests/clients.sh
. "$top/tests/clients.sh"

cat >"$work/server.toml" <<TOML
name = "a.net"
info = "Real clients"
created = "2024-01-01"
listen = "127.0.0.1:$port"
client_room = 65536
link_room = 65536
programs = ${PROGRAMS:-false}
TOML
serve "$work/server.toml"

# pair OPERATOR NICK OTHER NICK
pair() {
    local op=$1 op_nick=$2 other=$3 nick=$4
    echo "-- $op_nick by $op, $nick by $other"
    "start_$op" "$op_nick"
    sees "$op" 'Welcome to the Internet Relay Network'
    "start_$other" "$nick"
    sees "$other" 'Welcome to the Internet Relay Network'
    "${op}_types" "/join $room"
    sees "$op" "$(joined "$op" "$op_nick")"
    "${other}_types" "/join $room"
    sees "$op" "$(joined "$op" "$nick")"
    sleep 0.5
    "${op}_types" "good morning $nick"
    sees "$other" "$(said "$other" "$op_nick" "good morning $nick")"
    "${other}_types" "and to you $op_nick"
    sees "$op" "$(said "$op" "$nick" "and to you $op_nick")"
    "${op}_types" "/topic $room tea at four"
    sees "$op" "$(set_topic "$op" "$op_nick" 'tea at four')"
    sees "$other" "$(set_topic "$other" "$op_nick" 'tea at four')"
    "${op}_types" "/kick $nick not before four"
    sees "$op" "$(kicked "$op" "$op_nick" "$nick" 'not before four')"
    sees "$other" "$(kicked "$other" "$op_nick" "$nick" 'not before four')"
    "${other}_types" "/join $room"
    sleep 0.5
    "${other}_types" '/part back at four'
    sees "$op" "$(left "$op" "$nick" 'back at four')"
    "${other}_types" "/join $room"
    sleep 0.5
    "${other}_types" '/quit good night'
    sees "$op" "$(gone "$op" "$nick" 'good night')"
    "${op}_types" '/quit'
}

pair irssi ann ii bob
room='#hut'
pair weechat dan sic eve
[ "$failed" = 0 ] && echo 'real_clients: every screen showed what it had to'
exit "$failed"
