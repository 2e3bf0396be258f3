#!/usr/bin/env bash
# Times one put, swap and del of a page file of version 3, each a program of its own, beside a change of one row by
# sqlite3 and a store by gdbmtool, and counts what they write.
#
#   bench/in_place.sh [FOLDER]     the files stand in FOLDER, a new one of TMPDIR if left out
#
# The files have 10,929, 112,666, 653,903 and 3,380,501 pairs under keyer sha and cap 16, of keys of 12 bytes and values of
# 8: some 1,000, 10,000, 60,000 and 300,000 pages. SQLite has the same pairs in one table with its key as primary key, in
# the mode WAL with synchronous=FULL; gdbmtool stores with and without a synchronization. Of each 20 changes of keys that
# stand evenly in the file the median counts, by the clock, from the start of the program to its end. strace counts the
# calls that synchronize, and the blocks of 4,096 bytes that are written to the page file, of one put, swap and del.
#
# Wanted: as many blocks written at each size; at most 16 calls that synchronize; at most 3.5 times SQLite's time, and at
# each size within 1.5 of the others; memory of at most 2 MiB and 9 bytes a block.
#
# Status: 0 where all that is met, 1 where something isn't, 2 where nothing could be measured.
set -u
export LC_ALL=C

SIZES=(10929 112666 653903 3380501)
CHANGES=20
SYNCS_WANTED=16
TIMES_WANTED=3.5
SPREAD_WANTED=1.5

die() {
    echo "bench/in_place.sh: $*" >&2
    exit 2
}

bench=$(cd "$(dirname "$0")" && pwd) || exit 2
root=$(dirname "$bench")
program=$root/crates/exh_cli/out/exh_cli
folder=${1:-$(mktemp -d)} || exit 2
[ -n "${1:-}" ] || trap 'rm -rf "$folder"' EXIT
short=0
for name in sqlite3 gdbmtool strace; do
    [ -n "$(command -v "$name")" ] || die "there is no $name (Debian: apt-get install sqlite3 gdbmtool strace)"
done
[ -x "$program" ] || die "$program isn't built"
cc -O2 -Wall -Wextra -o "$folder/clock" "$bench/clock.c" || die 'clock.c could not be built'

key() { printf 'key%09d' "$1"; }

# The median of the clock's microseconds of a command, of which N is the number of a key.
median_of() {
    local count=$1 i line
    shift
    for ((i = 0; i < CHANGES; i++)); do
        line=$("$folder/clock" /dev/null /dev/null "${@//@KEY@/$(key $((count * i / CHANGES + 1)))}") || die "$* failed"
        echo "$line" | awk '{ print $2 }'
    done | sort -n | awk '{ all[NR] = $1 } END { print all[int((NR + 1) / 2)] }'
}

# How many calls of a command synchronize, and how many blocks it writes to the page file.
counted() {
    strace -f -e trace=fsync,fdatasync,pwrite64 -y "$@" 2>&1 > /dev/null | awk -v file="$folder/file.exh" '
        /^(\[pid +[0-9]+\] )?f(data)?sync/ { syncs++ }
        /pwrite64/ && index($0, file ">") { blocks++ }
        END { print syncs + 0, blocks + 0 }'
}

for count in "${SIZES[@]}"; do
    rm -f "$folder"/file.exh "$folder"/plain.exh "$folder"/base* "$folder"/rows*
    {
        echo 'file cap=16 wards=0 copies=1 keyer=sha'
        awk -v count="$count" 'BEGIN { for (i = 1; i <= count; i++) printf "key%09d v%07d\n", i, i }'
    } > "$folder/text"
    "$program" load --long "$folder/plain.exh" < "$folder/text" > /dev/null || die 'the pairs are not loaded'
    "$program" convert "$folder/plain.exh" "$folder/file.exh" || die 'no file of version 3 could be made'
    rm -f "$folder/plain.exh"
    sed 1d "$folder/text" | awk '{ print $1 "," $2 }' > "$folder/rows.csv"
    sqlite3 "$folder/rows" 'PRAGMA journal_mode=WAL; CREATE TABLE pairs (key TEXT PRIMARY KEY, value TEXT) WITHOUT ROWID;' \
        ".mode csv" ".import $folder/rows.csv pairs" > /dev/null || die 'sqlite3 made no file'
    sed 1d "$folder/text" | awk '{ print "store " $1 " " $2 }' > "$folder/stores"
    gdbmtool --norc --quiet --newdb --no-lock "$folder/base" < "$folder/stores" || die 'gdbmtool made no file'
    rm -f "$folder/stores" "$folder/text" "$folder/rows.csv"
    put=$(median_of "$count" "$program" put "$folder/file.exh" @KEY@ other)
    swap=$(median_of "$count" "$program" swap "$folder/file.exh" @KEY@ other more)
    sqlite=$(median_of "$count" sqlite3 "$folder/rows" \
        "PRAGMA synchronous=FULL; UPDATE pairs SET value = 'other' WHERE key = '@KEY@';")
    plain=$(median_of "$count" gdbmtool --norc --quiet "$folder/base" store @KEY@ other)
    synced=$(median_of "$count" gdbmtool --norc --quiet --synchronize "$folder/base" store @KEY@ other)
    memory=$("$folder/clock" /dev/null /dev/null "$program" put "$folder/file.exh" "$(key 1)" third | awk '{ print $3 }')
    read -r syncs blocks <<< "$(counted "$program" put "$folder/file.exh" "$(key 2)" third)"
    del=$(median_of "$count" "$program" del "$folder/file.exh" @KEY@)
    size=$(stat -c %s "$folder/file.exh")
    awk -v count="$count" -v put="$put" -v swap="$swap" -v del="$del" -v sqlite="$sqlite" -v plain="$plain" \
        -v synced="$synced" -v memory="$memory" -v syncs="$syncs" -v blocks="$blocks" -v size="$size" \
        -v times="$TIMES_WANTED" -v most="$SYNCS_WANTED" 'BEGIN {
        printf "%8d pairs: put %.1f ms, swap %.1f, del %.1f; sqlite3 %.1f ms; gdbmtool %.1f, synchronized %.1f; ", count,
            put / 1e3, swap / 1e3, del / 1e3, sqlite / 1e3, plain / 1e3, synced / 1e3
        printf "%d blocks written, %d synchronizations; %.1f MiB of memory for %d blocks\n", blocks, syncs,
            memory / 1024, size / 4096
        room = 2048 + 9 * size / 4096 / 1024
        if (put > sqlite * times || syncs > most || memory > room) {
            printf "FALLS SHORT: %.1f times SQLite, %d synchronizations, %.1f MiB where %.1f, %d and %.1f are wanted\n",
                put / sqlite, syncs, memory / 1024, times, most, room / 1024
            exit 1
        }
    }' || short=1
    echo "$put $blocks" >> "$folder/puts"
done
awk -v wanted="$SPREAD_WANTED" '
    NR == 1 { least = most = $1; blocks = $2 }
    { if ($1 < least) least = $1; if ($1 > most) most = $1; if ($2 != blocks) differ = 1 }
    END { if (most > least * wanted || differ) { print "FALLS SHORT: a put depends on the size"; exit 1 } }' \
    "$folder/puts" || short=1
exit "$short"
