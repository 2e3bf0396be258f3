#!/usr/bin/env bash
# Times page files: reading, opening and writing them, beside the digests of their blocks alone.
#
#   bench/file.sh [RUNS]     the best of RUNS runs counts, 5 if left out
#
# The files are of one ward of cap 16, of 1,000, 10,000 and 60,000 pages, under the keyer plain. Keys and values have 8
# bytes, and the keys' first bits are evenly spread, so that a page has some 11 records, and none is turned away.
# The program bench makes them: what `load` takes in is too short for the longer ones. All files lie in memory, on
# /dev/shm where there is one. Timed are, in turns:
# - in the program bench, over the file's bytes in memory: the SHA-256 of its blocks alone, compared with those that
#   they have; opening it, which tests legality and makes wards; writing it to nowhere. That is the processor's time;
# - the program itself, by the processor that it takes: `exhash check` and `exhash dump` of the file, to nowhere;
# - bench once more, as it opens the file and writes it to another one, for the most memory that it takes;
# - file_walk.c: walks of gdbm and LMDB over files of the same records, from opening to closing; gdbm_dump of gdbm's
#   file and db5.3_dump of a file of Berkeley DB of the same records, to nowhere. None of them has digests.
# Then `exhash load` of the longest input of pairs, 1 MiB, beside gdbmtool's `store` and db5.3_load of the same pairs,
# by the processor that they take; they don't synchronize, and the fastest setting of each counts. exhash does.
#
# Wanted: opening at most 1.3 times the time of the digests, and writing what was opened and hasn't changed 0.1; `check`
# at most 1.3 times that and `dump` at most 1.6 times, also the time from the start of the program to its end; memory at
# most 1.3 times the file. `load` at most 0.4 times gdbmtool's time without the digests of its file, and at most as long
# with them.
#
# Status: 0 where all that is met, 1 where something isn't, 2 where nothing could be measured.
set -u
export LC_ALL=C

RUNS=${1:-5}
# Pages, and how many records it takes for as many.
SIZES=('1000 10929' '10000 112666' '60000 653903')
# Settings of gdbmtool that were worth a try.
SETTINGS=('' '--cache-size=100' '--cache-size=4000' '--block-size=512' '--block-size=4096' '--no-mmap')

die() {
    echo "bench/file.sh: $*" >&2
    exit 2
}

bench=$(cd "$(dirname "$0")" && pwd) || exit 2
root=$(dirname "$bench")
program=$root/crates/exh_cli/out/exh_cli
shared=/dev/shm
[ -d "$shared" ] && [ -w "$shared" ] || shared=${TMPDIR:-/tmp}
folder=$(mktemp -d "$shared/exhash-bench.XXXXXX") || exit 2
trap 'rm -rf "$folder"' EXIT

# Prints a line: the words up to --, then what the command behind it prints.
tell() {
    local words=() line
    while [ "$1" != -- ]; do
        words+=("$1")
        shift
    done
    shift
    line=$("$@") || die "$* ended with status $?"
    echo "${words[*]} $line"
}

# Turns the pairs of a dump into lines that db5.3_load reads: a key, then its value.
to_db() {
    awk '$1 == "pair" {
        for (i = 2; i <= 3; i++) {
            word = $i
            if (word ~ /^#/) {
                word = substr(word, 2)
                gsub(/../, "\\\\&", word)
            } else {
                gsub(/\\/, "\\5c", word)
            }
            print word
        }
    }'
}

# Makes the files of $1 pages and $2 records, and runs all programs on them, in turns.
measure() {
    local pages=$1 records=$2 file=$folder/file.exh run walk made
    made=$("$timed" make "$file" "$records") || die "no file of $records records could be made"
    [ "$made" = "$pages" ] || die "$records records make $made pages, not $pages"
    echo "size $pages $(stat -c %s "$file")"
    for walk in gdbm lmdb; do
        "$folder/file_walk" "$walk" "$folder/$walk" "$records" || die "$walk made no file"
    done
    "$program" dump "$file" | to_db | db5.3_load -T -t btree "$folder/db" || die 'db5.3_load made no file'
    for ((run = 0; run < RUNS; run++)); do
        tell open "$pages" -- "$timed" open "$file"
        tell check "$pages" -- "$folder/clock" /dev/null /dev/null "$program" check "$file"
        tell dump "$pages" -- "$folder/clock" /dev/null /dev/null "$program" dump "$file"
        tell save "$pages" -- "$folder/clock" /dev/null /dev/null "$timed" save "$file" "$folder/copy.exh"
        cmp -s "$file" "$folder/copy.exh" || die 'a file that was opened and written is another file'
        for walk in gdbm lmdb; do
            tell "$walk" "$pages" -- "$folder/file_walk" "$walk" "$folder/$walk"
        done
        tell gdbm_dump "$pages" -- "$folder/clock" /dev/null /dev/null gdbm_dump "$folder/gdbm"
        tell db_dump "$pages" -- "$folder/clock" /dev/null /dev/null db5.3_dump "$folder/db"
    done
    rm -f "$folder"/*.exh "$folder"/gdbm "$folder"/lmdb "$folder"/db
}

# Writes the longest input of pairs to $folder/pairs, and for others the same pairs to $folder/stores and $folder/lines.
write_pairs() {
    awk -v left=1048576 -v pairs="$folder/pairs" -v stores="$folder/stores" -v lines="$folder/lines" 'BEGIN {
        srand(7)
        first = "file cap=16 wards=0 copies=1 keyer=plain"
        print first > pairs
        for (left -= length(first) + 1; left >= 27; left -= 27) {
            key = ""
            for (i = 0; i < 4; i++) key = key sprintf("%04x", int(rand() * 65536))
            print "#" key " " substr(key, 9) > pairs
            print "store " key " " substr(key, 9) > stores
            print key "\n" substr(key, 9) > lines
        }
    }'
}

# Times the loading of pairs.
measure_load() {
    local run setting kind
    write_pairs
    "$program" load "$folder/load.exh" < "$folder/pairs" > "$folder/loaded" || die 'pairs could not be loaded'
    [ "$(tail -n 1 "$folder/loaded")" = "loaded $(sort -u "$folder/stores" | wc -l)" ] || die 'a load lacks pairs'
    for ((run = 0; run < RUNS; run++)); do
        tell load pairs -- "$folder/clock" "$folder/pairs" /dev/null "$program" load "$folder/load.exh"
        tell loaded pairs -- "$timed" open "$folder/load.exh"
        for setting in "${SETTINGS[@]}"; do
            # shellcheck disable=SC2086 # None or one word.
            tell store pairs -- "$folder/clock" "$folder/stores" /dev/null \
                gdbmtool --norc --quiet --newdb --no-lock $setting "$folder/base"
        done
        for kind in btree hash; do
            rm -f "$folder/db"
            tell db_load pairs -- "$folder/clock" "$folder/lines" /dev/null db5.3_load -T -t "$kind" "$folder/db"
        done
    done
}

for name in clock file_walk; do
    cc -O2 -Wall -Wextra -o "$folder/$name" "$bench/$name.c" -lgdbm -llmdb ||
        die "$name.c could not be built (Debian: apt-get install libgdbm-dev liblmdb-dev)"
done
for name in gdbmtool gdbm_dump db5.3_load db5.3_dump; do
    [ -n "$(command -v "$name")" ] || die "there is no $name (Debian: apt-get install gdbmtool db5.3-util)"
done
timed=$("$bench/build") || die 'the program bench could not be built'
[ "$("$root/exhash" check "$root/examples/three-pairs.files/three-pairs.exh" | cut -d ' ' -f 1)" = legal ] ||
    die 'exhash does not take examples/three-pairs.files/three-pairs.exh'
for size in "${SIZES[@]}"; do
    # shellcheck disable=SC2086 # Two words.
    measure $size
done > "$folder/times" || exit 2
measure_load >> "$folder/times" || exit 2
machine="$(nproc) x $(sed -n 's/^model name[^:]*: //p' /proc/cpuinfo | head -n 1)"
echo "machine: $machine, load $(cut -d ' ' -f 1 /proc/loadavg); best of $RUNS runs; milliseconds"
awk '
    function judge(what, quotient, wanted) {
        if (quotient > wanted) {
            falls[++short] = sprintf("FALLS SHORT: %s: %.2f, at most %.2f is wanted", what, quotient, wanted)
        }
    }
    function keep(name, value) {
        if (!((name, $2) in best) || value < best[name, $2]) best[name, $2] = value
    }
    function keep_most(name, value) {
        if (value > most[name, $2]) most[name, $2] = value
    }
    # Milliseconds.
    function cost(name, pages) { return best[name, pages] / 1e6 }
    # Prints a line of a part, beside the digests.
    function tell(what, pages, wanted,    quotient) {
        quotient = cost(what, pages) / cost("digests", pages)
        printf "%6d  %-7s  %9.2f  %6.2f\n", pages, what, cost(what, pages), quotient
        judge(what " at " pages " pages", quotient, wanted)
    }
    # The most memory of a command, by the size of the file.
    function memory(command, pages,    quotient) {
        quotient = most[command, pages] * 1024 / size[pages]
        judge("memory of " command " at " pages " pages", quotient, 1.3)
        return quotient
    }
    function tell_all(pages) {
        printf "%6d  digests  %9.2f\n", pages, cost("digests", pages)
        tell("open", pages, 1.3)
        tell("write", pages, 0.1)
        tell("check", pages, 1.3)
        tell("dump", pages, 1.6)
        printf "%6d  memory   %9.2f times the file to open and write it, %.2f of check, %.2f of dump\n", pages,
            memory("save", pages), memory("check", pages), memory("dump", pages)
        printf "%6d  others   walks of gdbm %.2f and LMDB %.2f, gdbm_dump %.2f, db5.3_dump %.2f\n", pages,
            cost("gdbm", pages), cost("lmdb", pages), cost("gdbm_dump", pages), cost("db_dump", pages)
    }
    # Prints what loading pairs takes, beside the stores of gdbmtool.
    function tell_load(    load, own, store) {
        load = cost("load", "pairs")
        own = cost("load digests", "pairs")
        store = cost("store", "pairs")
        printf "load of 1 MiB: %.2f, of which digests %.2f; gdbmtool %.2f, db5.3_load %.2f\n", load, own, store,
            cost("db_load", "pairs")
        judge("load without its digests by gdbmtool", (load - own) / store, 0.4)
        judge("load by gdbmtool", load / store, 1)
    }
    $1 == "size" { size[$2] = $3 }
    $1 == "open" {
        keep("digests", $3)
        keep("open", $4)
        keep("write", $5)
    }
    $1 == "load" || $1 == "store" || $1 == "db_load" || $1 == "gdbm_dump" || $1 == "db_dump" { keep($1, $3 * 1000) }
    $1 == "loaded" { keep("load digests", $3) }
    $1 == "check" || $1 == "dump" {
        keep($1, $3 * 1000)
        keep_most($1, $5)
    }
    $1 == "save" { keep_most("save", $5) }
    $1 == "gdbm" || $1 == "lmdb" {
        keep($1, $4)
    }
    END {
        if (!(("lmdb", 60000) in best)) {
            print "bench/file.sh: nothing was measured" > "/dev/stderr"
            exit 2
        }
        print " pages  part          time  by the digests"
        tell_all(1000)
        tell_all(10000)
        tell_all(60000)
        tell_load()
        for (i = 1; i <= short; i++) print falls[i]
        exit (short > 0)
    }' "$folder/times"
