#!/usr/bin/env bash
# Times looks at a copy of the directory, beside a plain read of such a directory.
#
#   bench/copy.sh [RUNS [LOOKS]]     the best of RUNS runs counts, 5 if left out; each reader makes LOOKS looks a run,
#                                    4,000,000 if left out
#
# What is measured, over directories of 1,000 and 60,000 pages, for pseudokeys that are evenly spread:
# - looks a second by 1, 2 and 4 readers of a copy, each on a thread of its own, alone and beside a writer that takes
#   and publishes 1,000 notices a second;
# - as the limit, a plain read of the directory's array on one thread;
# - as the floor of a look by `left_right`'s scheme, two additions to an atomic counter that no other thread has, and a
#   plain read between them, on one thread;
# - a take of a directory, and a take of a copy with its publish, with no reader on a thread.
# The program bench makes each run, and checks nothing but that each look names a page.
#
# Wanted: a look by one reader takes at most 4 times a plain read, and at most 1.2 times its floor; readers beside a
# writer make at least 0.9 times as many looks as readers alone; 4 readers, where there are 4 processors, at least 3 times
# as many as one; and a take with its publish at most 5 times the time of a take.
#
# Status: 0 where all that is met, 1 where something isn't, 2 where nothing could be measured.
set -u
export LC_ALL=C

RUNS=${1:-5}
LOOKS=${2:-4000000}
readonly TAKES=20000

die() {
    echo "bench/copy.sh: $*" >&2
    exit 2
}

bench=$(cd "$(dirname "$0")" && pwd) || exit 2
root=$(dirname "$bench")
folder=$(mktemp -d "${TMPDIR:-/tmp}/exhash-bench.XXXXXX") || exit 2
trap 'rm -rf "$folder"' EXIT

# Makes a run by the way $1 over $2 pages, of $3 looks or takes by each of $4 readers, one if left out, `written` or
# alone, and prints a line.
clock() {
    local line
    line=$("$program" "$@") || die "$* ended with status $?"
    echo "$1 $2 ${4:-1} ${5:-alone} $line"
}

# Makes all runs over $1 pages, in turns.
measure() {
    local pages=$1 run readers
    for ((run = 0; run < RUNS; run++)); do
        clock plain "$pages" "$LOOKS"
        clock floor "$pages" "$LOOKS"
        clock publish "$pages" "$TAKES"
        for readers in 1 2 4; do
            clock copy "$pages" "$LOOKS" "$readers"
            clock copy "$pages" "$LOOKS" "$readers" written
        done
    done
}

program=$("$bench/build") || die 'the program bench could not be built'
for pages in 1000 60000; do
    measure "$pages"
done > "$folder/times"
processors=$(nproc)
machine="$processors x $(sed -n 's/^model name[^:]*: //p' /proc/cpuinfo | head -n 1)"
echo "machine: $machine, load $(cut -d ' ' -f 1 /proc/loadavg); best of $RUNS runs; millions of looks a second"
awk -v processors="$processors" '
    function judge(what, is_met, quotient, bound) {
        if (!is_met) falls[++short] = sprintf("FALLS SHORT: %s: %.2f, %s is wanted", what, quotient, bound)
    }
    function most(what, quotient, bound) { judge(what, quotient <= bound, quotient, "at most " bound) }
    function least(what, quotient, bound) { judge(what, quotient >= bound, quotient, "at least " bound) }
    # Prints the line of a way over so many pages, alone or beside a writer.
    function tell(way, pages, beside) {
        printf "%6d  %-5s  %-7s  %8.2f  %8.2f  %8.2f\n", pages, way, beside, rate[way, pages, 1, beside],
            rate[way, pages, 2, beside], rate[way, pages, 4, beside]
    }
    # way pages readers beside looks nanoseconds published sum
    $1 == "publish" {
        if (!(($2, "take") in cost) || $6 / $5 < cost[$2, "take"]) cost[$2, "take"] = $6 / $5
        if (!(($2, "publish") in cost) || $7 / $5 < cost[$2, "publish"]) cost[$2, "publish"] = $7 / $5
        next
    }
    {
        looks = $6 > 0 ? $5 / $6 * 1000 : 0
        if (!(($1, $2, $3, $4) in rate) || looks > rate[$1, $2, $3, $4]) rate[$1, $2, $3, $4] = looks
        if ($4 == "written" && $6 > 0) paced = $7 / $6 * 1e9
    }
    END {
        if (!(("plain", 60000, 1, "alone") in rate)) {
            print "bench/copy.sh: nothing was measured" > "/dev/stderr"
            exit 2
        }
        split("1000 60000", sizes, " ")
        print " pages  way    beside   1 reader  2 readers 4 readers"
        for (i = 1; i <= 2; i++) {
            pages = sizes[i]
            printf "%6d  plain  alone    %8.2f\n", pages, rate["plain", pages, 1, "alone"]
            look_by_floor = rate["floor", pages, 1, "alone"] / rate["copy", pages, 1, "alone"]
            printf "%6d  floor  alone    %8.2f  a look takes %.2f times as long\n", pages,
                rate["floor", pages, 1, "alone"], look_by_floor
            tell("copy", pages, "alone"); tell("copy", pages, "written")
            printf "%6d  a take %.2f microseconds, with its publish %.2f\n", pages, cost[pages, "take"] / 1000,
                cost[pages, "publish"] / 1000
            most("a look by a plain read at " pages " pages", rate["plain", pages, 1, "alone"] / rate["copy", pages, 1, "alone"], 4)
            most("a look by its floor at " pages " pages", look_by_floor, 1.2)
            for (readers = 1; readers <= 4; readers *= 2) {
                least("looks by " readers " beside a writer at " pages " pages",
                    rate["copy", pages, readers, "written"] / rate["copy", pages, readers, "alone"], 0.9)
            }
            if (processors >= 4) {
                least("looks of 4 readers by those of one at " pages " pages",
                    rate["copy", pages, 4, "alone"] / rate["copy", pages, 1, "alone"], 3)
            }
            most("a take with its publish by a take at " pages " pages", cost[pages, "publish"] / cost[pages, "take"], 5)
        }
        printf "notices a second beside the last run: %.0f\n", paced
        for (i = 1; i <= short; i++) print falls[i]
        exit (short > 0)
    }' "$folder/times"
