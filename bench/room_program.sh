# What bench/room/run and bench/saying/run share, which read this file: a Rattle program over crates/irc_room, proved and built. The script sets here (its folder).
# rounds is how often each program is run, and made a temporary folder, which goes with the script. Nothing in the repository is changed; where crates/*/out has
# earlier work, it starts from a copy of that.
top=$(cd "$here/../.." && pwd)
rounds=${ROUNDS:-5}

made=$(mktemp -d)
trap 'rm -rf "$made"' EXIT

# build_room_program FILE: $program of a file in Rattle, in a repository of irc_room and the crates that it stands on
build_room_program() {
    local crates=(irc_line irc_names irc_tables irc_users irc_modes irc_channels irc_effects irc_room) crate part
    git init -q "$made"
    mkdir -p "$made/crates/room_bench/src"
    for crate in "${crates[@]}"; do
        mkdir "$made/crates/$crate"
        for part in src specs proofs out; do
            if [ -d "$top/crates/$crate/$part" ]; then
                cp -a "$top/crates/$crate/$part" "$made/crates/$crate/"
            fi
        done
        grep "^$crate:" "$top/crates.txt" >>"$made/crates.txt"
    done
    echo 'room_bench: irc_room irc_users irc_channels irc_modes irc_tables irc_line irc_names arrayvec' >>"$made/crates.txt"
    cp "$1" "$made/crates/room_bench/src/main.rt"
    echo "proving and building the Rattle program (from nothing: many minutes) .."
    if ! (cd "$made/crates/room_bench" && rt run) >"$made/rattle.log" 2>&1; then
        cat "$made/rattle.log" >&2
        exit 1
    fi
    program=$made/crates/room_bench/out/room_bench
}

# value_of NAME TEXT: the number behind NAME= among the words of a text
value_of() { tr ' ' '\n' <<<"$2" | sed -n "s/^$1=//p"; }

median() { sort -n | awk '{ x[NR] = $1 } END { print NR % 2 ? x[(NR + 1) / 2] : (x[NR / 2] + x[NR / 2 + 1]) / 2 }'; }
