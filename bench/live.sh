#!/usr/bin/env bash
# Times calls of a live file by several callers, beside a ward by itself and beside LMDB and gdbm.
#
#   bench/live.sh [RUNS [CALLS]]      the best of RUNS runs counts, 5 if left out; all callers together make CALLS calls a
#                                     run, 400,000 if left out
#   bench/live.sh callers [TIMES]     times nothing: TIMES times, 100 if left out, and each time with other dice, sixteen
#                                     callers make 10,000 calls each over a file of four wards and 64 keys
#
# What is measured: millions of calls a second by 1, 2 and 4 callers, each on a thread of its own. A file begins with
# every other one of 100,000 keys, whose first bits are evenly spread; then half of the calls are gets, and a quarter
# each puts and deletes. Keys and values have 8 bytes. The calls are the same whoever makes them, and at one caller as
# many gets must find their value everywhere. What fills a file isn't timed.
# - live: a live file of 1, 4 and 16 wards of 16 records a page in memory, by keyer plain. Callers look at a copy of the
#   directory that a courier's rounds told of what filled the file, and of nothing since. Each file is settled
#   afterwards.
# - alone: a ward by itself, on one thread, with neither lock nor diary.
# The program bench makes both.
# - lmdb, gdbm: live_rivals.c makes the calls by LMDB's threads, of which one writes at a time, and by gdbm behind one
#   mutex. They are to stand as well as they can: their files are on /dev/shm where there is one, nothing is
#   synchronized, and the fastest of several settings counts.
#
# Wanted: two callers over 4 wards make at least 1.5 times as many calls as one, and four, where there are 4 processors,
# at least 2 times; one caller over 1 ward takes at most 1.7 times the time of a ward by itself; and callers over 4
# wards are ahead of LMDB and gdbm at each number of callers.
#
# By `callers` the list live of crates/beside plays its story of that name: the file is settled each time, all answers are
# there, and each reply is the map machine's, told the calls in the journals' order, of which the last ones get each key.
#
# Status: 0 where all that is met, 1 where something isn't, 2 where nothing could be measured.
set -u
export LC_ALL=C

# Settings of gdbm that were worth a try: cached buckets, block size, whether the file is mapped to memory.
SETTINGS=('0 0 1' '1000 0 1' '8000 0 1' '0 4096 1' '8000 4096 1')

die() {
    echo "bench/live.sh: $*" >&2
    exit 2
}

bench=$(cd "$(dirname "$0")" && pwd) || exit 2
root=$(dirname "$bench")
shared=/dev/shm
[ -d "$shared" ] && [ -w "$shared" ] || shared=${TMPDIR:-/tmp}
folder=$(mktemp -d "$shared/exhash-bench.XXXXXX") || exit 2
trap 'rm -rf "$folder"' EXIT

# Plays the story of many callers $1 times.
play() {
    local time failed=0
    (cd "$root/crates/beside" && rt run) > "$folder/log" 2>&1 || {
        cat "$folder/log" >&2
        die "the program beside could not be built"
    }
    for ((time = 1; time <= $1; time++)); do
        "$root/crates/beside/out/beside" live "$time" 10000 callers > "$folder/said" 2>&1 || {
            failed=$((failed + 1))
            echo "FALLS SHORT: time $time: $(tr '\n' ' ' < "$folder/said")"
        }
    done
    echo "$(($1 - failed)) of $1 times: $(cat "$folder/said")"
    exit $((failed > 0))
}

[ "${1:-}" = callers ] && play "${2:-100}"

RUNS=${1:-5}
CALLS=${2:-400000}

# Makes a run of the way $1 over $2 wards by $3 callers by the rest of the words, and prints a line.
clock() {
    local way=$1 wards=$2 callers=$3 line
    shift 3
    line=$("$@") || die "$* ended with status $?"
    echo "$way $wards $callers $line"
}

# Makes a run of each way, and of both rivals by each setting.
measure() {
    local callers bits setting map
    clock alone 1 1 "$program" alone "$CALLS"
    for callers in 1 2 4; do
        for bits in 0 2 4; do
            clock live $((1 << bits)) "$callers" "$program" live "$bits" "$callers" "$CALLS"
        done
        for map in 0 1; do
            clock lmdb 0 "$callers" "$folder/live_rivals" lmdb "$folder/lmdb" "$callers" "$CALLS" "$map"
        done
        for setting in "${SETTINGS[@]}"; do
            # shellcheck disable=SC2086 # Three words.
            clock gdbm 0 "$callers" "$folder/live_rivals" gdbm "$folder/gdbm" "$callers" "$CALLS" $setting
        done
    done
}

cc -O2 -Wall -Wextra -o "$folder/live_rivals" "$bench/live_rivals.c" -lgdbm -llmdb -lpthread ||
    die "the rivals' libraries could not be built against (Debian: apt-get install liblmdb-dev libgdbm-dev)"
program=$("$bench/build") || die 'the program bench could not be built'
mkdir "$folder/lmdb" || exit 2
for ((run = 0; run < RUNS; run++)); do
    measure
done > "$folder/times"
processors=$(nproc)
machine="$processors x $(sed -n 's/^model name[^:]*: //p' /proc/cpuinfo | head -n 1)"
echo "machine: $machine, load $(cut -d ' ' -f 1 /proc/loadavg); best of $RUNS runs; millions of calls a second"
awk -v processors="$processors" '
    function fail(text) {
        print "bench/live.sh: " text > "/dev/stderr"
        failed = 1
        exit 2
    }
    function judge(what, is_met, quotient, bound) {
        if (!is_met) falls[++short] = sprintf("FALLS SHORT: %s: %.2f, %s is wanted", what, quotient, bound)
    }
    function most(what, quotient, bound) { judge(what, quotient <= bound, quotient, "at most " bound) }
    function least(what, quotient, bound) { judge(what, quotient >= bound, quotient, "at least " bound) }
    # Prints the line of a way over so many wards.
    function tell(way, wards, name) {
        printf "%-9s  %5s  %7.3f  %7.3f  %7.3f\n", way, name, rate[way, wards, 1], rate[way, wards, 2], rate[way, wards, 4]
    }
    # way wards callers calls nanoseconds found
    $3 == 1 && found != "" && $6 != found { fail("other gets found their value: " $0) }
    $5 == 0 { fail("nothing took time: " $0) }
    {
        if ($3 == 1) found = $6
        calls = $4 / $5 * 1000
        if (!(($1, $2, $3) in rate) || calls > rate[$1, $2, $3]) rate[$1, $2, $3] = calls
    }
    END {
        if (failed) exit 2
        if (!(("gdbm", 0, 4) in rate)) fail("nothing was measured")
        split("1 4 16", counts, " ")
        print "way        wards   1 caller  2 callers  4 callers"
        for (i = 1; i <= 3; i++) tell("live", counts[i], counts[i])
        printf "alone          1  %7.3f\n", rate["alone", 1, 1]
        tell("lmdb", 0, "")
        tell("gdbm", 0, "")
        one = rate["live", 4, 1]
        printf "over 4 wards: two callers %.2f of one, four %.2f\n", rate["live", 4, 2] / one, rate["live", 4, 4] / one
        printf "one caller over 1 ward takes %.2f of the time of a ward by itself\n", rate["alone", 1, 1] / rate["live", 1, 1]
        least("two callers by one over 4 wards", rate["live", 4, 2] / one, 1.5)
        if (processors >= 4) least("four callers by one over 4 wards", rate["live", 4, 4] / one, 2)
        most("one caller by a ward by itself", rate["alone", 1, 1] / rate["live", 1, 1], 1.7)
        for (callers = 1; callers <= 4; callers *= 2) {
            least("calls over 4 wards by LMDB, callers " callers, rate["live", 4, callers] / rate["lmdb", 0, callers], 1)
            least("calls over 4 wards by gdbm, callers " callers, rate["live", 4, callers] / rate["gdbm", 0, callers], 1)
        }
        for (i = 1; i <= short; i++) print falls[i]
        exit (short > 0)
    }' "$folder/times"
