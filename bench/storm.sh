#!/usr/bin/env bash
# Measures storms: callers, keepers and couriers over one live file, each on a thread of its own, all at once.
#
#   bench/storm.sh [RUNS [CALLS]]     RUNS runs of each kind, 5 if left out; each caller makes CALLS calls a run, 10,000
#                                     if left out, and at most that
#
# What is measured: storms of 16 callers by two copies of the directory, of 2 and of 16 records a page, over 1, 4 and 16
# wards of a file in memory, by keyer sha. They call 50 keys: by turns a put, a get and a delete (`exh_live`). There is
# a keeper for each ward and a courier to each copy, which make rounds until all callers are done; a keeper waits for a
# millisecond before each of its own, as one without work to do would. After each run the file is closed, and diaries
# and journals are settled. The program bench makes each run.
# - restless: how many times as long a storm takes over 16 wards of 2 records a page whose keepers never rest: the least
#   milliseconds of all runs, by those of one whose keepers do.
# - moves: how often a call was sent on to another page, a call, in all runs together; most: in the worst of them. A
#   gate of each caller counts its turns: it is asked before each hop. A call's hops are those that send it on, those
#   that find a page full, and the last, which answers it; after each that finds a page full the caller splits it, or
#   another caller has. So turns less calls less splits are moves, and hops to a page that another caller split
#   meanwhile: at least the moves. Each split is a caller's, and is counted by its notice.
# - splits: those that the wards tell of, a run.
# - memory: the most MiB that the program had at any time, with a quarter of the calls and with all; the worst run
#   counts. 'kept' is that of a program with no file, no directory and no threads, which writes as many calls down in
#   journals and diaries alone. Its keys and values have about as many bytes; where they have fewer or more, its memory
#   is counted with as many.
#
# Wanted: at most 0.1 moves a call over 4 wards; a storm whose keepers never rest within 5 times the time; and memory beside journals and diaries that is flat in the number of
# calls: from a quarter of the calls to all of them a storm takes at most 1.1 times as much more as 'kept' does.
#
# Status: 0 where all that is met, 1 where something isn't, 2 where nothing could be measured.
set -u
export LC_ALL=C

RUNS=${1:-5}
CALLS=${2:-10000}

die() {
    echo "bench/storm.sh: $*" >&2
    exit 2
}

bench=$(cd "$(dirname "$0")" && pwd) || exit 2
root=$(dirname "$bench")
folder=$(mktemp -d "${TMPDIR:-/tmp}/exhash-bench.XXXXXX") || exit 2
trap 'rm -rf "$folder"' EXIT

# Makes a run of the way $1 by $2 records a page over 2^$3 wards, of $4 calls a caller, and prints a line: these, the
# most KiB of memory, what the program printed, and the microseconds from its start to its end.
clock() {
    local line
    line=$("$folder/clock" /dev/null "$folder/line" "$program" "$@") || die "$program $* ended with status $?"
    line=${line#* }
    echo "$1 $2 $((1 << $3)) $4 ${line##* } $(cat "$folder/line") ${line%% *}"
}

# Makes a run of each kind.
measure() {
    local cap bits way
    for cap in 2 16; do
        for bits in 0 2 4; do
            for way in storm kept; do
                clock "$way" "$cap" "$bits" "$CALLS"
                clock "$way" "$cap" "$bits" $((CALLS / 4))
            done
        done
    done
    clock restless 2 4 "$CALLS"
}

cc -O2 -Wall -Wextra -o "$folder/clock" "$bench/clock.c" || die 'clock.c could not be built'
program=$("$bench/build") || die 'the program bench could not be built'
for ((run = 0; run < RUNS; run++)); do
    measure
done > "$folder/runs" || exit 2
machine="$(nproc) x $(sed -n 's/^model name[^:]*: //p' /proc/cpuinfo | head -n 1)"
echo "machine: $machine, load $(cut -d ' ' -f 1 /proc/loadavg); $RUNS runs of $CALLS calls a caller"
awk -v all="$CALLS" -v quarter=$((CALLS / 4)) '
    function fail(text) {
        print "bench/storm.sh: " text > "/dev/stderr"
        failed = 1
        exit 2
    }
    function judge(what, found, bound) {
        if (found > bound) falls[++short] = sprintf("FALLS SHORT: %s: %.2f, at most %s is wanted", what, found, bound)
    }
    function most(name, value) { if (!(name in greatest) || value > greatest[name]) greatest[name] = value }
    function least(name, value) { if (!(name in fewest) || value < fewest[name]) fewest[name] = value }
    function add(name, value) { sum[name] += value }
    # Prints the moves and splits of storms.
    function tell(cap, wards,    at, moves) {
        at = "storm " cap " " wards
        moves = sum[at " moves"] / sum[at " runs"]
        printf "%3d  %5d  %6.3f  %6.3f  %7.1f\n", cap, wards, moves, greatest[at " moves"],
            sum[at " splits"] / sum[at " runs"]
        if (wards == 4) judge("moves a call over 4 wards, " cap " records a page", moves, 0.1)
    }
    # Prints the memory of storms and of kept, and how much more it is with all calls.
    function tell_memory(cap, wards,    i, way, at, few, many, more) {
        printf "%3d  %5d", cap, wards
        for (i = 1; i <= 2; i++) {
            way = i == 1 ? "storm" : "kept"
            at = way " " cap " " wards
            few = greatest[at " memory " quarter]
            many = greatest[at " memory " all]
            more[way] = many - few
            printf "  %6.2f  %6.2f", few, many
        }
        # Journals and diaries each have the bytes of all keys and values.
        more["kept"] += 2 * (texts["storm " cap " " wards] - texts["kept " cap " " wards]) / 1048576
        printf "  %5.2f\n", more["storm"] / more["kept"]
        judge("growth of memory by kept, " cap " records a page, wards " wards, more["storm"] / more["kept"], 1.1)
    }
    # Prints how long a storm takes whose keepers never rest, and one whose keepers do.
    function tell_rest(    rest, none) {
        rest = fewest["storm 2 16"] / 1000
        none = fewest["restless 2 16"] / 1000
        print "cap  wards  ms, keepers rest  ms, never  times"
        printf "%3d  %5d  %16.0f  %9.0f  %5.2f\n", 2, 16, rest, none, none / rest
        judge("time of a storm whose keepers never rest, by one whose keepers do", none / rest, 5)
    }
    # way cap wards calls KiB answers, of a storm turns splits, then texts microseconds
    NF != ($1 == "kept" ? 8 : 10) || $6 != 16 * $4 { fail("wrong values: " $0) }
    $4 == all { least($1 " " $2 " " $3, $NF) }
    $1 != "restless" {
        at = $1 " " $2 " " $3
        most(at " memory " $4, $5 / 1024)
        # What the last runs have more with all calls.
        texts[at, $4] = $(NF - 1)
        texts[at] = texts[at, all] - texts[at, quarter]
    }
    $1 == "storm" && $4 == all {
        moves = ($7 - $6 - $8) / $6
        add(at " runs", 1)
        add(at " moves", moves)
        add(at " splits", $8)
        most(at " moves", moves)
    }
    END {
        if (failed) exit 2
        if (!(("kept 16 16 memory " all) in greatest)) fail("nothing was measured")
        split("2 16", caps, " ")
        split("1 4 16", counts, " ")
        print "cap  wards   moves    most   splits"
        for (c = 1; c <= 2; c++) {
            for (i = 1; i <= 3; i++) tell(caps[c], counts[i])
        }
        tell_rest()
        print "cap  wards  storm, MiB      kept, MiB       growth by kept"
        for (c = 1; c <= 2; c++) {
            for (i = 1; i <= 3; i++) tell_memory(caps[c], counts[i])
        }
        for (i = 1; i <= short; i++) print falls[i]
        exit (short > 0)
    }' "$folder/runs"
