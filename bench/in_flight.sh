#!/usr/bin/env bash
# Measures whether the order in which requests in flight are answered costs time.
#
#   bench/in_flight.sh [REQUESTS]        so many requests, 22,000 if left out, which is what a script has room for
#
# Three scripts begin and answer as many requests each, gets of a key that isn't there, under one ward:
# - in order: all are begun, then answered in the order begun;
# - backwards: all are begun, then answered in the other order;
# - again: half are begun; each is answered and its name begun again at once, and then all are answered.
#
# Of each are printed the seconds of processor, the least of five runs, and that in units of the fastest of the three.
# The program is the one that ./exhash builds, or the one that the variable EXHASH names.
#
# Wanted: each within twice the fastest.
#
# Status: 0 where that is met, 1 where it isn't, 2 where nothing could be measured.
set -u
export LC_ALL=C

requests=${1:-22000}
RUNS=5

die() {
    echo "bench/in_flight.sh: $*" >&2
    exit 2
}

bench=$(cd "$(dirname "$0")" && pwd) || exit 2
root=$(dirname "$bench")
program=${EXHASH:-$root/crates/exh_cli/out/exh_cli}
folder=$(mktemp -d "${TMPDIR:-/tmp}/exhash-bench.XXXXXX") || exit 2
trap 'rm -rf "$folder"' EXIT

# Prints the script of a kind.
script() {
    awk -v kind="$1" -v requests="$requests" '
        function begin(name) { print "begin r" name " c1 1 get k" }
        function hop(name) { print "hop r" name }
        BEGIN {
            print "file cap=2 wards=0 copies=1 keyer=plain"
            names = kind == "again" ? int(requests / 2) : requests
            for (name = 1; name <= names; name++) begin(name)
            for (name = 1; kind == "again" && name <= names; name++) { hop(name); begin(name) }
            for (name = 1; name <= names; name++) hop(kind == "backwards" ? names + 1 - name : name)
        }'
}

cc -O2 -Wall -Wextra -o "$folder/clock" "$bench/clock.c" || die 'clock.c could not be built'
# The first call builds the program.
[ "$("${EXHASH:-$root/exhash}" serve < "$root/examples/one-key.script" | tail -n 1)" = 'r4 none' ] ||
    die 'exhash does not answer examples/one-key.script'
for kind in in-order backwards again; do
    script "$kind" > "$folder/script"
    for ((run = 0; run < RUNS; run++)); do
        told=$("$folder/clock" "$folder/script" "$folder/text" "$program" serve) || die "the script $kind failed"
        answered=$(grep -c ' none$' "$folder/text")
        [ "$answered" -eq $((requests / 2 * 2)) ] || die "$answered requests of $kind were answered"
        echo "$kind ${told%% *}"
    done
done > "$folder/rows"
echo "machine: $(nproc) x $(sed -n 's/^model name[^:]*: //p' /proc/cpuinfo | head -n 1), load $(cut -d ' ' -f 1 /proc/loadavg)"
awk -v requests="$requests" '
    !($1 in least) { kinds[++count] = $1; least[$1] = $2 }
    $2 < least[$1] { least[$1] = $2 }
    END {
        if (!count) exit 2
        fastest = least[kinds[1]]
        for (i = 2; i <= count; i++) if (least[kinds[i]] < fastest) fastest = least[kinds[i]]
        for (i = 1; i <= count; i++) {
            of = least[kinds[i]] / fastest
            printf "%-10s %d requests %.3f seconds, %.2f of the fastest\n", kinds[i], requests, least[kinds[i]] / 1e6, of
            if (of > 2) short = 1
        }
        exit short
    }' "$folder/rows"
