# What bench/fan_out/run, bench/one_user/run and bench/queries/run share, which read this file: they time `ircd sim` on scripts, beside the same in plain Rust.
# The script sets here (its folder). program is the built program, rounds how often each script is run, and made a temporary folder, which goes with the script.
top=$(cd "$here/../.." && pwd)
program=${PROGRAM:-$top/crates/ircd/out/ircd}
rounds=${ROUNDS:-5}

if [ ! -x "$program" ]; then
    echo "no program at $program: ./ircd build makes it" >&2
    exit 1
fi

made=$(mktemp -d)
trap 'rm -rf "$made"' EXIT

# build_plain FILE: $made/plain of a file in Rust
build_plain() { rustc -O --edition 2024 -o "$made/plain" "$1"; }

# seconds INPUT COMMAND..: the processor time of the command
seconds() {
    local input=$1
    shift
    local TIMEFORMAT='%3U %3S'
    { time "$@" <"$input" >/dev/null 2>"$made/errors"; } 2>&1 | awk '{ print $1 + $2 }'
}

median() { sort -n | awk '{ x[NR] = $1 } END { print NR % 2 ? x[(NR + 1) / 2] : (x[NR / 2] + x[NR / 2 + 1]) / 2 }'; }

# a_line LINES FIRST WHOLE: microseconds a line
a_line() { awk -v lines="$1" -v first="$2" -v whole="$3" 'BEGIN { printf "%.4f\n", (whole - first) * 1000000 / lines }'; }

# growth FILE: the last time by the first
growth() { awk 'NR == 1 { first = $1 } { last = $1 } END { printf "%.2f", last / first }' "$1"; }
