# What tests/real_clients.sh and tests/real_network.sh share, which read this file: four clients of Debian's packages, and how their screens are read.
# Clients that are missing are installed by apt-get. The script sets ircd (the program), port (where clients connect) and room; failed is 1 once a screen did not show
# what it had to. All that is started is ended with the script.
# shellcheck shell=bash disable=SC2154

name=$(basename "$0" .sh)
failed=0

want() { command -v "$1" >/dev/null || missing="$missing $1"; }
missing=
for client in irssi ii weechat sic tmux; do want "$client"; done
if [ -n "$missing" ]; then
    # shellcheck disable=SC2086
    { apt-get update && apt-get install -y $missing; } >/dev/null 2>&1
    missing=
    for client in irssi ii weechat sic tmux; do want "$client"; done
    [ -z "$missing" ] || { echo "$name: not there, and not to be installed:$missing" >&2; exit 1; }
fi
[ -x "$ircd" ] || { echo "$name: no program $ircd: ./ircd build makes it" >&2; exit 1; }

work=$(mktemp -d)
panes=$work/tmux
stop() {
    tmux -S "$panes" kill-server 2>/dev/null
    # shellcheck disable=SC2046
    kill $(jobs -p) 2>/dev/null
    wait 2>/dev/null
    # a client that is just ending may still write there
    rm -rf "$work" 2>/dev/null || { sleep 1; rm -rf "$work"; }
}
trap stop EXIT
# what is typed to a client that has ended is lost, and shows as what others do not see
trap : PIPE

# serve CONFIGURATION: starts the program, and waits until it says that it is ready; its process is $daemon
serve() {
    local _
    : >"$1.out"
    "$ircd" serve "$1" >"$1.out" &
    daemon=$!
    for _ in $(seq 100); do grep -q '^ready$' "$1.out" && return; sleep 0.1; done
    echo "$name: ircd does not say ready: $1" >&2
    exit 1
}

# start_CLIENT NICK (connects to $port), CLIENT_types LINE (as a person would type it), CLIENT_shows: all that its screen has shown
start_irssi() {
    tmux -S "$panes" new-session -d -s irssi -x 150 -y 200 "irssi --home=$work/irssi -c 127.0.0.1 -p $port -n $1"
}
irssi_types() { tmux -S "$panes" send-keys -t irssi -l -- "$1" \; send-keys -t irssi Enter; }
irssi_shows() { tmux -S "$panes" capture-pane -p -J -t irssi -S -500; }

start_weechat() {
    tmux -S "$panes" new-session -d -s weechat -x 150 -y 200 \
        "weechat -d $work/weechat -r '/server add den 127.0.0.1/$port -notls;/set irc.server.den.nicks $1;/set irc.server.den.tls off;/connect den'"
}
weechat_types() { tmux -S "$panes" send-keys -t weechat -l -- "$1" \; send-keys -t weechat Enter; }
weechat_shows() { tmux -S "$panes" capture-pane -p -J -t weechat -S -500; }

start_ii() {
    rm -rf "$work/ii"
    ii -s 127.0.0.1 -p "$port" -n "$1" -i "$work/ii" >/dev/null 2>&1 &
}
ii_types() {
    local in=$work/ii/127.0.0.1/in line
    case $1 in
        /join*) line="/j ${1#/join }" ;;
        /part*) line="/PART $room :${1#/part }" ;;
        /quit*) line="/QUIT :${1#/quit }" ;;
        /nick*) line="/NICK ${1#/nick }" ;;
        *) line=$1 in=$work/ii/127.0.0.1/$room/in ;;
    esac
    # where ii has ended, nobody reads there
    echo "$line" | timeout 10 tee "$in" >/dev/null
}
ii_shows() { cat "$work/ii/127.0.0.1/out" "$work/ii/127.0.0.1/$room/out" 2>/dev/null; }

start_sic() {
    rm -f "$work/sic.in" "$work/sic.out"
    mkfifo "$work/sic.in"
    sic -h 127.0.0.1 -p "$port" -n "$1" <"$work/sic.in" >"$work/sic.out" 2>&1 &
    exec 7>"$work/sic.in"
}
sic_types() {
    case $1 in
        /join*) echo ":j ${1#/join }" >&7; echo ":s ${1#/join }" >&7 ;;
        /part*) echo ":PART $room :${1#/part }" >&7 ;;
        /quit*) echo ":QUIT :${1#/quit }" >&7 ;;
        /nick*) echo ":NICK ${1#/nick }" >&7 ;;
        *) echo "$1" >&7 ;;
    esac
}
sic_shows() { cat "$work/sic.out"; }

# sees CLIENT PATTERN [TIMES]: within 30 seconds (irssi holds its commands back for a while) its screen shows a line with the pattern, or so many; once one is missing, within 5
sees() {
    local times=${3:-1} _
    for _ in $(seq $((failed ? 50 : 300))); do
        [ "$("$1_shows" | grep -Ec -- "$2")" -ge "$times" ] && { echo "ok   $1: $2${3:+, $3 times}"; return; }
        sleep 0.1
    done
    echo "FAIL $1 does not show: $2${3:+, $3 times}"
    "$1_shows" | grep -v '^ *$' | tail -25 | sed 's/^/     | /'
    failed=1
}

# what each screen shows of somebody else: WHO TEXT
joined() { case $1 in irssi | weechat) echo "$2 [[(].*has joined $room" ;; ii) echo "$2\(.*\) has joined $room" ;; sic) echo "^$2 .*JOIN.*$room" ;; esac; }
said() { case $1 in irssi) echo "<[ @+]?$2> $3" ;; weechat) echo "$2 +. +$3" ;; ii | sic) echo "<$2> $3" ;; esac; }
set_topic() { case $1 in irssi) echo "$2 changed the topic of $room to: $3" ;; weechat) echo "$2 has (changed|set) topic for $room.*$3" ;; ii) echo "$2 changed topic to \"$3\"" ;; sic) echo "^$2 .*TOPIC.*$room.*$3" ;; esac; }
kicked() { case $1 in irssi) echo "($3 was|You were) kicked from $room by $2 .$4" ;; weechat) echo "$2 has kicked $3 .$4" ;; ii) echo "$2 kicked $3 +\(\"$4\"\)" ;; sic) echo "^$2 .*KICK.*$room $3.*$4" ;; esac; }
left() { case $1 in irssi | weechat) echo "$2 [[(].*has left $room [[(]\"?$3" ;; ii) echo "$2\(.*\) has left $room" ;; sic) echo "^$2 .*PART.*$room.*$3" ;; esac; }
gone() { case $1 in irssi | weechat) echo "$2 [[(].*has quit [[(]\"?$3" ;; ii) echo "$2\(.*\) has quit \"$3\"" ;; sic) echo "^$2 .*QUIT.*$3" ;; esac; }
