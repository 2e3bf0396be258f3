#!/usr/bin/env bash
# Measures what a script, or a text of pairs, of at most 1 MiB can cost.
#
#   bench/hostile.sh [SECONDS [KIB]]     a run is ended after so many seconds of processor, 600 if left out, and may
#                                        have so many KiB of memory, 4 GiB if left out
#
# hostile.awk draws scripts over a new file of cap 1, whose directory is of the greatest depth, twenty bits, and has 20
# entries, or as many as half a script makes, or 256 of sixteen wards; the rest is one of these:
# - `combine` of a table that was sent; `restart` and `combine`; `send`; `deliver` and `send`;
# - a merge of the deepest pages and their split, each delivered, so that the directory's depth changes by turns;
# - `show`; `page`; `inflight`, over as many requests in flight as entries, or as a quarter of the script begins;
# - `begin` through a copy that was told nothing; `hop` of requests in the order begun.
# Then `load` of pairs at cap 1, two and two of which share nineteen bits and no more, so that there are as many splits
# as a text can make; and, over the file that it makes, 100 `combine` of a table that was sent, and 100 `send`.
#
# Of each run are printed: the entries of its directory, the lines behind those that make it, the seconds of processor,
# the MB that it printed and the MiB of memory that it had. Of one that was ended, and whose lines print a line each, it
# says what the whole would take, by the lines that were printed; these go out in blocks of some hundred lines.
#
# The program is the one that ./exhash builds, or the one that the variable EXHASH names.
#
# Wanted: 10 seconds, and one more for each 200 MB that is printed; of `restart` and `combine` by turns, and of merges and
# splits by turns, 200 seconds, since each second line or so makes a directory of 2^20 pointers anew, and of the first
# over as many entries as half a script makes 550, since each `combine` takes all of them too; 600 MiB, of the load 1.3
# times the file that it writes, over an opened file 4 times its size.
#
# Status: 0 where all that is met, 1 where something isn't, 2 where nothing could be measured.
set -u
export LC_ALL=C

LIMIT=${1:-600}
ROOM=${2:-$((4 * 1024 * 1024))}
LARGEST=$((1024 * 1024))
KINDS=(combine restart send deliver halve show page inflight begin hop)

die() {
    echo "bench/hostile.sh: $*" >&2
    exit 2
}

bench=$(cd "$(dirname "$0")" && pwd) || exit 2
root=$(dirname "$bench")
program=${EXHASH:-$root/crates/exh_cli/out/exh_cli}
shared=/dev/shm
[ -d "$shared" ] && [ -w "$shared" ] || shared=${TMPDIR:-/tmp}
folder=$(mktemp -d "$shared/exhash-bench.XXXXXX") || exit 2
trap 'rm -rf "$folder"' EXIT

# Runs the program on the input $6 with the words behind it, and prints a row: what the run is ($1), the entries of its
# directory ($2), the lines before those that are measured ($3) and these ($4), the MiB wanted ($5), then the
# microseconds, KiB, lines and bytes that it took and printed, and whether it was ended.
measure() {
    local what=$1 entries=$2 before=$3 lines=$4 wanted=$5 input=$6 told counted ended=whole
    shift 6
    mkfifo "$folder/pipe" || die 'no pipe could be made'
    wc -lc < "$folder/pipe" > "$folder/counted" &
    told=$(ulimit -t "$LIMIT" && ulimit -v "$ROOM" && "$folder/clock" "$input" "$folder/pipe" "$program" "$@") ||
        ended=ended
    wait
    rm -f "$folder/pipe"
    read -r -a counted < "$folder/counted"
    echo "$what $entries $before $lines $wanted ${told:-0 0 0} ${counted[*]} $ended"
}

# Makes the script of the kind $1 over the table $2 and measures it.
measure_script() {
    local entries before
    awk -v kind="$1" -v table="$2" -v size="$LARGEST" -v counted="$folder/entries" -f "$bench/hostile.awk" \
        > "$folder/script" || die "no script of $1 could be made"
    [ "$(wc -c < "$folder/script")" -le "$LARGEST" ] || die "the script of $1 is too long"
    entries=$(cat "$folder/entries")
    before=$(lines_before "$1")
    measure "$1" "$entries" "$before" "$(($(wc -l < "$folder/script") - before))" 600 "$folder/script" serve
}

# How many lines of the script come before those of the kind $1.
lines_before() {
    awk -v kind="$1" '
        NR > 1 && /^send 1$/ { before = NR; if (kind != "inflight" && kind != "hop") exit }
        (kind == "inflight" || kind == "hop") && $1 == "begin" { before = NR }
        END { print before }
    ' "$folder/script"
}

# Measures a load of the longest text of pairs, and scripts over the file that it makes.
measure_load() {
    awk -v left="$LARGEST" 'BEGIN {
        line = "file cap=1 wards=0 copies=1 keyer=plain"
        for (pair = 0; length(line) < left; pair++) {
            print line
            left -= length(line) + 1
            if (pair % 2 == 0) number = (number + 40503) % 65536
            line = sprintf(pair % 2 ? "#%04x10 v" : "#%04x v", number)
        }
    }' > "$folder/pairs"
    local row first='file cap=1 wards=0 copies=2 keyer=plain' size entries line
    row=$(measure load 0 0 "$(wc -l < "$folder/pairs")" WANTED "$folder/pairs" load "$folder/load.exh")
    size=$(stat -c %s "$folder/load.exh" || echo 0)
    echo "${row/WANTED/$((size * 13 / 10 / 1024 / 1024))}"
    [ "$size" -gt 0 ] || return
    size=$((size * 4 / 1024 / 1024))
    entries=$("$program" check "$folder/load.exh") || die 'what was loaded is no page file'
    for line in 'combine 2 1' 'send 1'; do
        { echo "$first"; echo 'send 1'; yes "$line" | head -n 100; } > "$folder/script"
        measure "opened:${line%% *}" "${entries##* }" 2 100 "$size" "$folder/script" serve --open "$folder/load.exh"
    done
}

cc -O2 -Wall -Wextra -o "$folder/clock" "$bench/clock.c" || die 'clock.c could not be built'
# The first call builds the program.
[ "$("${EXHASH:-$root/exhash}" serve < "$root/examples/one-key.script" | tail -n 1)" = 'r4 none' ] ||
    die 'exhash does not answer examples/one-key.script'
{
    for kind in "${KINDS[@]}"; do
        for table in deep wide wards; do
            measure_script "$kind" "$table"
        done
    done
    measure_load
} > "$folder/rows"
machine="$(nproc) x $(sed -n 's/^model name[^:]*: //p' /proc/cpuinfo | head -n 1)"
echo "machine: $machine, load $(cut -d ' ' -f 1 /proc/loadavg); a run has $LIMIT seconds and $((ROOM / 1024)) MiB"
awk '
    # How many seconds a run over so many entries may take that prints nothing.
    function allowed(what, entries) {
        if (what == "restart" && entries > 256) return 550
        return what == "restart" || what == "halve" ? 200 : 10
    }
    function fall(what) { short[++falls] = "FALLS SHORT: " $1 " over " $2 " entries: " what }
    BEGIN { printf "%-15s %8s %8s %9s %9s %8s\n", "what", "entries", "lines", "seconds", "MB", "MiB" }
    # what entries before lines wanted microseconds elapsed KiB lines bytes ended
    NF == 11 {
        seconds = $6 / 1e6
        printed = $10 / 1e6
        memory = $8 / 1024
        answered = $9 - $3 + 1
        rows++
        printf "%-15s %8d %8d %9.2f %9.1f %8.1f", $1, $2, $4, seconds, printed, memory
        whole = ""
        if ($11 == "ended" && $1 !~ /show|inflight|load/ && answered > 0)
            whole = sprintf("  the whole: %.0f seconds", seconds * $4 / answered)
        print whole ($11 == "ended" ? "  ended" : "")
        if ($11 == "ended") fall(sprintf("ended after %.1f seconds, with %d MiB", seconds, memory))
        else if (seconds > (most = allowed($1, $2) + printed / 200)) fall(sprintf("%.1f seconds, %.1f are wanted", seconds, most))
        if (memory > $5) fall(sprintf("%d MiB, %d are wanted", memory, $5))
    }
    END {
        if (!rows) {
            print "bench/hostile.sh: nothing was measured" > "/dev/stderr"
            exit 2
        }
        for (i = 1; i <= falls; i++) print short[i]
        exit falls > 0
    }' "$folder/rows"
