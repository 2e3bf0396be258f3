#!/usr/bin/env bash
# Times the calls, the commits and the opening of a store of the library exhash, and direct calls, beside a ward by itself
# and beside gdbm, LMDB and SQLite in the same run, and counts the blocks that commits write.
#
#   bench/store.sh [RECORDS [GETS [FOLDER]]]     200,000 records and 10,000,000 gets if left out; the files stand in FOLDER,
#                                                a new one of TMPDIR if left out
#
# The program bench_store makes the calls of stores and the direct ones, bench those of a ward, and store_rivals.c those of
# the others. Keys and values have 8 bytes; the files are of keyer sha and cap 16. All is synchronized: SQLite in the mode
# WAL with synchronous=FULL, gdbm by gdbm_sync, LMDB as it does by itself.
# - calls: microseconds of a put of a new key, and of a get, of each once; of the ward over images with a cache of 64.
# - commits after 1, 100 and 10,000 puts for keys that are there, 10, 5 and 2 of them: the milliseconds of one, and the blocks of
#   4,096 bytes that one writes to all files of the folder, by strace's count of their bytes.
# - open: the milliseconds in which all is there to be called.
# - direct: the microseconds of 200 gets, puts and removals, each a transaction of its own.
# - memory: KiB of a store that is opened and then got so often, and of one that is got once.
#
# Wanted: a put and a get of a store take at most 1.1 times the ward's; a commit at most 1.2 times SQLite's time, and at most
# 1.2 times its blocks; that many gets at most 1.1 times the memory.
#
# Status: 0 where all that is met, 1 where something isn't, 2 where nothing could be measured.
set -u
export LC_ALL=C

RECORDS=${1:-200000}
GETS=${2:-10000000}
# Puts of a commit, and how many commits.
COMMITS=('1 10' '100 5' '10000 2')
DIRECT=200
RIVALS=(gdbm lmdb sqlite)

die() {
    echo "bench/store.sh: $*" >&2
    exit 2
}

bench=$(cd "$(dirname "$0")" && pwd) || exit 2
folder=${3:-$(mktemp -d)} || exit 2
[ -n "${3:-}" ] || trap 'rm -rf "$folder"' EXIT
short=0
[ -n "$(command -v strace)" ] || die 'there is no strace (Debian: apt-get install strace)'
cc -O2 -Wall -Wextra -o "$folder/clock" "$bench/clock.c" || die 'clock.c could not be built'
cc -O2 -Wall -Wextra -o "$folder/store_rivals" "$bench/store_rivals.c" -lgdbm -llmdb -lsqlite3 ||
    die 'store_rivals.c could not be built (Debian: apt-get install libgdbm-dev liblmdb-dev libsqlite3-dev)'
stores=${BENCH_STORE:-$("$bench/build" bench_store)} || exit 2
wards=${BENCH_WARD:-$("$bench/build")} || exit 2

# What a command prints.
told() { "$@" || die "$* ended with status $?"; }

# The blocks that a command writes to files of the folder, its opening and closing too.
blocks_of() {
    strace -f -y -e trace=write,pwrite64,writev,pwritev,msync "$@" 2>&1 > /dev/null | awk -v folder="<$folder/" '
        index($0, folder) && match($0, /= [0-9]+$/) { bytes += substr($0, RSTART + 2) }
        END { printf "%d\n", (bytes + 4095) / 4096 }'
}

# Says that a measure is above what is wanted.
see() {
    awk -v what="$1" -v is="$2" -v to="$3" -v times="$4" 'BEGIN {
        if (is > to * times) { printf "FALLS SHORT: %s: %.2f times, where %.1f is wanted\n", what, is / to, times; exit 1 }
    }' || short=1
}

file=$folder/store.exh
read -r found puts gets commit <<< "$(told "$stores" calls "$file" "$RECORDS")"
[ "$found" = "$RECORDS" ] || die "only $found gets of $RECORDS found their value"
read -r _ ward_puts ward_gets _ <<< "$(told "$wards" ward sha "$RECORDS" 1 64)"
show_calls() {
    awk -v name="$1" -v records="$RECORDS" -v puts="$2" -v gets="$3" -v commit="$4" 'BEGIN {
        printf "%-8s a put %.2f us, a get %.2f us, the commit of all %.1f ms\n", name, puts / records / 1e3,
            gets / records / 1e3, commit / 1e6 }'
}
echo "calls, $RECORDS records"
show_calls store "$puts" "$gets" "$commit"
show_calls ward "$ward_puts" "$ward_gets" 0
for rival in "${RIVALS[@]}"; do
    read -r right its_puts its_gets its_commit <<< "$(told "$folder/store_rivals" "$rival" "$folder/$rival" "$RECORDS" calls)"
    [ "$right" = "$RECORDS" ] || die "$rival: only $right gets found their value"
    show_calls "$rival" "$its_puts" "$its_gets" "$its_commit"
done
see 'a put beside a ward' "$puts" "$ward_puts" 1.1
see 'a get beside a ward' "$gets" "$ward_gets" 1.1

for setting in "${COMMITS[@]}"; do
    read -r count times <<< "$setting"
    echo "commits of $count puts"
    for name in store "${RIVALS[@]}"; do
        if [ "$name" = store ]; then
            command=("$stores" commits "$file" "$RECORDS" "$count")
        else
            command=("$folder/store_rivals" "$name" "$folder/$name" "$RECORDS" commits "$count")
        fi
        spent=$(told "${command[@]}" "$times")
        # A run of one commit and one of three differ by two commits.
        one=$(blocks_of "${command[@]}" 1)
        three=$(blocks_of "${command[@]}" 3)
        eval "${name}_time=$((spent / times)) ${name}_blocks=$(((three - one) / 2))"
        awk -v name="$name" -v spent="$spent" -v times="$times" -v blocks="$(((three - one) / 2))" 'BEGIN {
            printf "%-8s %.2f ms, %d blocks\n", name, spent / times / 1e6, blocks }'
    done
    # shellcheck disable=SC2154 # Set above, by name.
    see "the time of a commit of $count" "$store_time" "$sqlite_time" 1.2
    # shellcheck disable=SC2154
    see "the blocks of a commit of $count" "$store_blocks" "$sqlite_blocks" 1.2
done

echo "open"
awk -v spent="$(told "$stores" open "$file")" 'BEGIN { printf "%-8s %.1f ms\n", "store", spent / 1e6 }'
for rival in "${RIVALS[@]}"; do
    awk -v name="$rival" -v spent="$(told "$folder/store_rivals" "$rival" "$folder/$rival" "$RECORDS" open)" 'BEGIN {
        printf "%-8s %.1f ms\n", name, spent / 1e6 }'
done

show_direct() {
    awk -v name="$1" -v count="$DIRECT" -v gets="$2" -v puts="$3" -v removals="$4" 'BEGIN {
        printf "%-8s a get %.1f us, a put %.1f us, a removal %.1f us\n", name, gets / count / 1e3, puts / count / 1e3,
            removals / count / 1e3 }'
}
few=$(told "$folder/clock" /dev/null /dev/null "$stores" gets "$file" "$RECORDS" 1 | awk '{ print $3 }')
many=$(told "$folder/clock" /dev/null /dev/null "$stores" gets "$file" "$RECORDS" "$GETS" | awk '{ print $3 }')
echo "direct, each a transaction"
read -r _ gets puts removals <<< "$(told "$stores" direct "$file" "$RECORDS" "$DIRECT")"
show_direct store "$gets" "$puts" "$removals"
for rival in "${RIVALS[@]}"; do
    read -r _ gets puts removals <<< "$(told "$folder/store_rivals" "$rival" "$folder/$rival" "$RECORDS" direct "$DIRECT")"
    show_direct "$rival" "$gets" "$puts" "$removals"
done

echo "memory: $few KiB with a get, $many KiB with $GETS"
see "the memory of $GETS gets" "$many" "$few" 1.1
exit "$short"
