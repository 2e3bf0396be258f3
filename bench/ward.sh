#!/usr/bin/env bash
# Compares a ward of the hash file with gdbm's own library on the same calls, in one run, and shrinks the ward.
#
#   bench/ward.sh [RUNS]     the best of RUNS runs counts, 5 if left out; a run makes 3 rounds of 60,000 records, 18 of
#                            10,000 or 180 of 1,000, each of other keys, and what counts is the time of all its rounds
#
# So as many calls count at each size, and no round can be quicker for having been made before.
#
# What is compared: microseconds a call, at 1,000, 10,000 and 60,000 records. A round begins with an empty file, puts
# as many new keys as that, with the splits that they bring, and then gets each of them once, in another order. Keys
# and values have 8 bytes, and the keys' first bits are evenly spread.
# - the program bench calls a ward of 16 records a page over pages in memory, by keyer plain and by keyer sha. Its
#   caller hashes a key once, asks a copy of the directory for the page, hops until it is answered, and splits where
#   that is to be done first; the copy takes each notice at once.
# - ward_gdbm.c calls gdbm_store and gdbm_fetch. It is to stand as well as it can: its file is on /dev/shm where there
#   is one, it takes no lock and doesn't synchronize, and the fastest of several settings counts.
# Then the ward's caller deletes until a tenth of the records is left. After each delete it asks the copy for the pair
# that the page is of, and tries to merge it, and then the pair of the merged page, as long as `Ward::merge` takes them.
# It keeps no counts of its own: whether a pair fits is found by reading both pages.
#
# The same calls are made by keyer plain over pages that stand as images, with a cache of 64 decoded ones, as the
# program's do ('images'). And at 10,000 records they are made over images with a cache of 1, 64 and 1,024 decoded pages,
# by both keyers; and in a ward of 110,000 records, some 10,000 pages, each key is got once, and then twice, one get
# behind the other.
#
# Where valgrind is there, it counts the instructions of one round by keyer plain, a call: of puts and gets with their
# splits, and of deletes with their merges. They hardly differ from run to run, and tell what work grows with the
# records; the times also tell how far away the memory of that many records is.
#
# Wanted: with keyer plain a put with its splits takes at most 0.25 of gdbm's time, and a get, which writes its entry
# of the journal, no more than gdbm's; with keyer sha neither takes more than gdbm's; a put or get makes at most 900
# instructions, a delete with its merges at most 1,300; and a call at 60,000 records, a delete too, takes at most 1.5
# times its time at 1,000, and at most 1.2 times its instructions. Over images a put takes at most 0.5 of gdbm's time,
# a get 1.5, and by both keyers at most 3 times one over pages in memory.
#
# Status: 0 where all that is met, 1 where something isn't, 2 where nothing could be measured.
set -u
export LC_ALL=C

RUNS=${1:-5}
# The records of all rounds of a run.
readonly RECORDS=180000
# Those of the ward that gets of images are timed in.
readonly IMAGES=110000
# Settings of gdbm that were worth a try: cached buckets, block size, whether the file is mapped to memory.
SETTINGS=('0 0 1' '1000 0 1' '8000 0 1' '0 4096 1' '8000 4096 1')

die() {
    echo "bench/ward.sh: $*" >&2
    exit 2
}

bench=$(cd "$(dirname "$0")" && pwd) || exit 2
root=$(dirname "$bench")
shared=/dev/shm
[ -d "$shared" ] && [ -w "$shared" ] || shared=${TMPDIR:-/tmp}
folder=$(mktemp -d "$shared/exhash-bench.XXXXXX") || exit 2
trap 'rm -rf "$folder"' EXIT

# Runs a program of name $1 on rounds of $2 records, and prints a line: both, and what it printed.
clock() {
    local name=$1 records=$2 line
    shift 2
    line=$("$@") || die "$* ended with status $?"
    echo "$name $records $line"
}

# Runs all programs on rounds of $1 records, in turns.
measure() {
    local records=$1 rounds=$((RECORDS / $1)) run setting
    for ((run = 0; run < RUNS; run++)); do
        clock plain "$records" "$program" ward plain "$records" "$rounds"
        clock sha "$records" "$program" ward sha "$records" "$rounds"
        clock images "$records" "$program" ward plain "$records" "$rounds" 64
        for setting in "${SETTINGS[@]}"; do
            # shellcheck disable=SC2086 # Three words.
            clock gdbm "$records" "$folder/ward_gdbm" "$folder/base" "$records" "$rounds" $setting
        done
    done
}

# Runs the program over pages in memory and over images, by turns.
measure_images() {
    local run keyer size
    for ((run = 0; run < RUNS; run++)); do
        for keyer in plain sha; do
            for size in 0 1 64 1024; do
                # shellcheck disable=SC2046 # Without a size the pages are in memory.
                clock "calls $keyer" "$size" "$program" ward "$keyer" 10000 $((RECORDS / 10000)) $(cache "$size")
                # shellcheck disable=SC2046
                clock "gets $keyer" "$size" "$program" gets "$keyer" "$IMAGES" $(cache "$size")
            done
        done
    done
}

# The word for a cache of $1 pages, and none for pages in memory.
cache() {
    [ "$1" = 0 ] || echo "$1"
}

# Prints how many instructions a round of $1 records makes in a part of the program, by keyer plain.
count() {
    valgrind --tool=callgrind --callgrind-out-file=/dev/null --toggle-collect="bench::$2" "$program" ward plain "$1" 1 2>&1 |
        sed -n 's/.*Collected : *//p'
}

cc -O2 -Wall -Wextra -o "$folder/ward_gdbm" "$bench/ward_gdbm.c" -lgdbm ||
    die "gdbm's library could not be built against (Debian: apt-get install libgdbm-dev)"
program=$("$bench/build") || die 'the program bench could not be built'
for records in 1000 10000 60000; do
    measure "$records"
    if command -v valgrind > "$folder/log"; then
        echo "count $records $(count "$records" 'caller::Caller::call*') $(count "$records" 'ward_times::delete_time*')"
    fi
done > "$folder/times"
measure_images > "$folder/images"
machine="$(nproc) x $(sed -n 's/^model name[^:]*: //p' /proc/cpuinfo | head -n 1)"
echo "machine: $machine, load $(cut -d ' ' -f 1 /proc/loadavg); best of $RUNS runs; microseconds a call"
awk -v run="$RECORDS" '
    function fail(text) {
        print "bench/ward.sh: " text > "/dev/stderr"
        failed = 1
        exit 2
    }
    function judge(what, quotient, most) {
        if (quotient > most) {
            falls[++short] = sprintf("FALLS SHORT: %s: %.2f, at most %.2f is wanted", what, quotient, most)
        }
    }
    # Microseconds a call. Nine tenths of the records are deleted.
    function cost(name, records, column) {
        return best[name, records, column] / (column == 6 ? run * 9 / 10 : run) / 1000
    }
    # Prints a line of a call of the ward, beside the one of gdbm whose times are in column `rival`, if any. Where
    # `share` is given, the call may take that share of the time of gdbm by plain, and as much by sha.
    function tell(records, call, column, rival, share,    plain, sha, gdbm) {
        plain = cost("plain", records, column)
        sha = cost("sha", records, column)
        printf "%7d  %-6s  %6.3f  %6.3f", records, call, plain, sha
        if (rival) {
            gdbm = cost("gdbm", records, rival)
            printf "  %6.3f  %10.2f  %8.2f", gdbm, plain / gdbm, sha / gdbm
        }
        print ""
        if (share) {
            judge("a " call " of plain by one of gdbm at " records " records", plain / gdbm, share)
            judge("a " call " of sha by one of gdbm at " records " records", sha / gdbm, 1)
        }
    }
    # Prints a line of a call over images, beside the one of gdbm, whose share of the time it may take.
    function tell_images(records, call, column, share,    images, gdbm) {
        images = cost("images", records, column)
        gdbm = cost("gdbm", records, column)
        printf "%7d  %-6s  %6.3f over images, %.2f of gdbm\n", records, call, images, images / gdbm
        judge("a " call " over images by one of gdbm at " records " records", images / gdbm, share)
    }
    # Prints how many instructions a call makes: a put or get, and a delete.
    function tell_work(records) {
        printf "%7d  work    %6.0f instructions a put or get, %.0f a delete\n", records, calls[records], deletes[records]
        judge("a put or get by 900 instructions at " records " records", calls[records] / 900, 1)
        judge("a delete by 1,300 instructions at " records " records", deletes[records] / 1300, 1)
    }
    # Prints how the cost of a call grows from 1,000 to 60,000 records, by plain and by sha.
    function tell_growth(call, column,    plain, sha) {
        plain = cost("plain", 60000, column) / cost("plain", 1000, column)
        sha = cost("sha", 60000, column) / cost("sha", 1000, column)
        printf "growth   %-6s  %6.2f  %6.2f\n", call, plain, sha
        judge("the growth of a " call " of plain", plain, 1.5)
        judge("the growth of a " call " of sha", sha, 1.5)
    }
    $1 == "count" {
        # Each key is put and got, a tenth of them once more, and nine tenths are deleted.
        calls[$2] = $3 / ($2 * 2.1)
        deletes[$2] = $4 / ($2 * 0.9)
        next
    }
    # name records found puts gets, of a ward deletes left
    $3 != run || (NF > 5 && $7 != run / 10) { fail("wrong values: " $0) }
    {
        for (column = 4; column <= NF && column <= 6; column++) {
            if (!(($1, $2, column) in best) || $column < best[$1, $2, column]) {
                best[$1, $2, column] = $column
            }
        }
    }
    END {
        if (failed) exit 2
        if (!(("gdbm", 60000, 5) in best)) fail("nothing was measured")
        split("1000 10000 60000", sizes, " ")
        print "records  call     plain     sha    gdbm  plain/gdbm  sha/gdbm"
        for (i = 1; i <= 3; i++) {
            tell(sizes[i], "put", 4, 4, 0.25)
            tell(sizes[i], "get", 5, 5, 1)
            tell(sizes[i], "delete", 6)
            tell_images(sizes[i], "put", 4, 0.5)
            tell_images(sizes[i], "get", 5, 1.5)
            if (sizes[i] in calls) tell_work(sizes[i])
        }
        tell_growth("put", 4)
        tell_growth("get", 5)
        tell_growth("delete", 6)
        printf "growth   gdbm    %6.2f of a put, %.2f of a get\n", cost("gdbm", 60000, 4) / cost("gdbm", 1000, 4),
            cost("gdbm", 60000, 5) / cost("gdbm", 1000, 5)
        if (1000 in calls) {
            printf "growth   work    %6.2f of a put or get, %.2f of a delete\n", calls[60000] / calls[1000],
                deletes[60000] / deletes[1000]
            judge("the growth of the work of a put or get", calls[60000] / calls[1000], 1.2)
            judge("the growth of the work of a delete", deletes[60000] / deletes[1000], 1.2)
        }
        for (i = 1; i <= short; i++) print falls[i]
        exit (short > 0)
    }' "$folder/times"
status=$?
[ "$status" -le 1 ] || exit "$status"
awk -v run="$RECORDS" -v images="$IMAGES" '
    function fail(text) {
        print "bench/ward.sh: " text > "/dev/stderr"
        failed = 1
        exit 2
    }
    function keep(what, nanoseconds) {
        if (!(what in best) || nanoseconds < best[what]) best[what] = nanoseconds
    }
    function tell(what, keyer, calls,    i) {
        printf "%-8s  %-5s", what, keyer
        for (i = 1; i <= 4; i++) printf "  %9.3f", best[what, keyer, sizes[i]] / calls / 1000
        print ""
    }
    # calls keyer size found puts gets deletes left; gets keyer size pages found once twice
    $1 == "calls" {
        if ($4 != run || $8 != run / 10) fail("wrong values: " $0)
        keep("put" SUBSEP $2 SUBSEP $3, $5)
        keep("get" SUBSEP $2 SUBSEP $3, $6)
        keep("delete" SUBSEP $2 SUBSEP $3, $7)
    }
    $1 == "gets" {
        if ($5 != images * 3) fail("wrong values: " $0)
        pages[$2] = $4
        keep("first" SUBSEP $2 SUBSEP $3, $6)
        keep("second" SUBSEP $2 SUBSEP $3, $7 - $6)
    }
    END {
        if (failed) exit 2
        split("0 1 64 1024", sizes, " ")
        print "call      keyer  in memory     1 page   64 pages  1,024 pages decoded beside images"
        for (k = split("plain sha", keyers, " "); k > 0; k--) {
            tell("put", keyers[k], run)
            tell("get", keyers[k], run)
            tell("delete", keyers[k], run * 9 / 10)
            printf "          %-5s  %d pages, each key got twice in turn:\n", keyers[k], pages[keyers[k]]
            tell("first", keyers[k], images)
            tell("second", keyers[k], images)
            cost = best["first", keyers[k], 64] / best["first", keyers[k], 0]
            if (cost > 3) falls[++short] = sprintf("FALLS SHORT: a get over images by one over pages in memory, %s: %.2f, at most 3 is wanted", keyers[k], cost)
        }
        for (i = 1; i <= short; i++) print falls[i]
        exit (short > 0)
    }' "$folder/images" || status=$?
exit "$status"
