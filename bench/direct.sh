#!/usr/bin/env bash
# Times a get of one key out of a page file, beside gdbmtool's fetch of the same key, and counts what it reads; the
# pairs of the greatest file, beside the digests of its blocks; and loads of long texts, beside gdbmtool's stores.
#
#   bench/direct.sh [RUNS]     the best of RUNS runs counts, 5 if left out
#
# The files are those of bench/file.sh, and one more: of one ward of cap 16, of 1,000, 10,000, 60,000 and 300,000 pages,
# under the keyer plain. gdbmtool has the same pairs, a key as its hexadecimal digits. A run is the gets of 100 keys that
# stand evenly in the file, each a program of its own, by the processor that they take, the start of the program included.
# strace tells which blocks the get of each of twenty of these keys reads: the header, blocks of the table and one page.
# Each file is measured as one of version 2, and as the one of version 3 that `convert` makes of it.
#
# Wanted of version 2: at most 2 times gdbmtool's time, at 60,000 pages 1.3 times; on average at most 24 blocks at 60,000
# pages and 40 at 300,000, of the smaller files fewer than a table that is read whole takes. Of version 3: at most
# gdbmtool's time, 10 blocks on average, and 1.05 of the bytes of version 2. No block is read twice. `pairs` at 60,000
# pages, to nowhere: at most 1.3 times the digests' time.
#
# The long texts have 10 and 100 MiB, of pairs of keys of 12 bytes and values of 40, for `load --long` at keyer sha and
# cap 16. gdbmtool stores the same pairs, without a lock and without synchronizing, and mdb_load of LMDB loads them. One
# run each counts, by the processor that it takes. Wanted: at most gdbmtool's time without the digests of the file, and
# memory of at most 1.5 of the file. (LMDB has no tool that fetches one key.)
#
# Status: 0 where all that is met, 1 where something isn't, 2 where nothing could be measured.
set -u
export LC_ALL=C

RUNS=${1:-5}
# Pages, how many records it takes for as many, how many times gdbmtool's time is wanted, and how many blocks on average.
SIZES=('1000 10929 2 6' '10000 112666 2 18' '60000 653903 1.3 24' '300000 3380501 2 40')
KEYS=100
# How many pages the file has of which the pairs are timed, and how many times the digests' time is wanted.
PAIRS_OF=60000
PAIRS_WANTED=1.3
# Of version 3: how many times gdbmtool's time is wanted, how many blocks on average, and how much of version 2's bytes.
PLACED_WANTED=(1.0 10 1.05)
# How many MiB the long texts have.
LONG_TEXTS=(10 100)

die() {
    echo "bench/direct.sh: $*" >&2
    exit 2
}

bench=$(cd "$(dirname "$0")" && pwd) || exit 2
root=$(dirname "$bench")
program=$root/crates/exh_cli/out/exh_cli
shared=/dev/shm
[ -d "$shared" ] && [ -w "$shared" ] || shared=${TMPDIR:-/tmp}
folder=$(mktemp -d "$shared/exhash-bench.XXXXXX") || exit 2
trap 'rm -rf "$folder"' EXIT
short=0

for name in gdbmtool mdb_load strace; do
    [ -n "$(command -v "$name")" ] || die "there is no $name (Debian: apt-get install gdbmtool lmdb-utils strace)"
done
timed=$("$bench/build") || die 'the program bench could not be built'
[ "$("$root/exhash" get "$root/examples/three-pairs.files/three-pairs.exh" @)" = x ] ||
    die 'exhash does not take examples/three-pairs.files/three-pairs.exh'
cc -O2 -Wall -Wextra -o "$folder/clock" "$bench/clock.c" || die 'clock.c could not be built'

# Each key as the program takes it, and as gdbmtool has it.
write_words() {
    "$program" dump "$folder/file.exh" | awk -v words="$folder/words" -v stores="$folder/stores" -v keys="$KEYS" '
        BEGIN { for (i = 33; i < 127; i++) code[sprintf("%c", i)] = sprintf("%02x", i) }
        $1 == "pair" {
            digits = substr($2, 2)
            if ($2 !~ /^#/) {
                digits = ""
                for (i = 1; i <= length($2); i++) digits = digits code[substr($2, i, 1)]
            }
            all[++count] = digits
            print "store " digits " v" > stores
        }
        END { for (i = 1; i <= keys; i++) print all[int(count * (i - 1) / keys) + 1] > words }'
}

cat > "$folder/gets" <<'END'
while read -r key; do "$1" get "$2" --hex "$key"; done < "$3"
END
cat > "$folder/fetches" <<'END'
while read -r key; do gdbmtool --norc --quiet --read-only "$1" fetch "$key"; done < "$2"
END

# Times the pairs of the file, and the digests of its blocks alone.
time_pairs() {
    local run line own='' digests=''
    for ((run = 0; run < RUNS; run++)); do
        line=$("$folder/clock" /dev/null /dev/null "$program" pairs "$folder/file.exh") || die 'pairs are not told'
        [ -z "$own" ] || [ "${line%% *}" -lt "$own" ] && own=${line%% *}
        line=$("$timed" open "$folder/file.exh") || die 'the digests could not be timed'
        [ -z "$digests" ] || [ "${line%% *}" -lt "$digests" ] && digests=${line%% *}
    done
    awk -v pages="$1" -v own="$own" -v digests="$digests" -v wanted="$PAIRS_WANTED" 'BEGIN {
        printf "%6d pages: pairs %.0f ms, the digests %.0f ms, %.2f times\n", pages, own / 1e3, digests / 1e6,
            own * 1e3 / digests
        if (own * 1e3 > digests * wanted) {
            printf "FALLS SHORT: pairs at %d pages: %.2f, at most %.1f is wanted\n", pages, own * 1e3 / digests, wanted
            exit 1
        }
    }' || short=1
}

# Times the load of a text of so many MiB, and the stores of the same pairs.
time_load() {
    local line own memory digests rival tree size
    rm -f "$folder/file.exh" "$folder/base"
    awk -v most=$(($1 * 1024 * 1024)) -v stores="$folder/stores" -v lines="$folder/lines" 'BEGIN {
        print "file cap=16 wards=0 copies=1 keyer=sha"
        print "VERSION=3\nformat=print\ntype=btree\nmapsize=4294967296\nHEADER=END" > lines
        while (printed < most) {
            key = sprintf("key%09d", ++count)
            value = sprintf("value%035d", count * 7)
            print key " " value
            print "store " key " " value > stores
            print " " key "\n " value > lines
            printed += 54
        }
        print "DATA=END" > lines
    }' > "$folder/text"
    line=$("$folder/clock" "$folder/text" /dev/null "$program" load --long "$folder/file.exh") ||
        die 'a long text is not loaded'
    read -r own _ memory <<< "$line"
    line=$("$timed" open "$folder/file.exh") || die 'the digests could not be timed'
    digests=${line%% *}
    line=$("$folder/clock" "$folder/stores" /dev/null gdbmtool --norc --quiet --newdb --no-lock "$folder/base") ||
        die 'gdbmtool made no file'
    rival=${line%% *}
    line=$("$folder/clock" "$folder/lines" /dev/null mdb_load -n "$folder/tree") || die 'mdb_load made no file'
    tree=${line%% *}
    rm -f "$folder/tree" "$folder/tree-lock"
    size=$(stat -c %s "$folder/file.exh")
    awk -v mib="$1" -v own="$own" -v memory="$memory" -v digests="$digests" -v rival="$rival" -v tree="$tree" \
        -v size="$size" 'BEGIN {
        time = (own - digests / 1e3) / rival
        room = memory * 1024 / size
        printf "%6d MiB of pairs: load --long %.1f s, of which digests %.1f, gdbmtool %.1f s: %.2f times without; ", mib,
            own / 1e6, digests / 1e9, rival / 1e6, time
        printf "mdb_load %.1f s; ", tree / 1e6
        printf "%.0f MB of memory, %.2f of the file\n", memory * 1024 / 1e6, room
        if (time > 1 || room > 1.5) {
            printf "FALLS SHORT: a load of %d MiB: %.2f and %.2f, at most 1 and 1.5 are wanted\n", mib, time, room
            exit 1
        }
    }' || short=1
}

# Times the gets of the keys out of a file of so many pages, beside gdbmtool's fetches, and counts what they read.
#   time_gets PAGES VERSION FILE TIMES BLOCKS
time_gets() {
    local run line best='' rival='' blocks twice
    for ((run = 0; run < RUNS; run++)); do
        line=$("$folder/clock" /dev/null /dev/null sh "$folder/gets" "$program" "$3" "$folder/words") ||
            die 'a key is not found'
        [ -z "$best" ] || [ "${line%% *}" -lt "$best" ] && best=${line%% *}
        line=$("$folder/clock" /dev/null /dev/null sh "$folder/fetches" "$folder/base" "$folder/words") ||
            die 'gdbmtool does not find a key'
        [ -z "$rival" ] || [ "${line%% *}" -lt "$rival" ] && rival=${line%% *}
    done
    awk 'NR % 5 == 1' "$folder/words" | while read -r key; do
        strace -e trace=pread64 "$program" get "$3" --hex "$key" 2>&1 >/dev/null |
            sed -n "s/^pread64(.*, 4096, \([0-9]*\)) *= 4096$/$key \1/p"
    done > "$folder/reads"
    blocks=$(awk '{ keys[$1] = 1; read++ } END { for (key in keys) count++; if (count) printf "%.1f", read / count }' \
        "$folder/reads")
    [ -n "$blocks" ] || die 'strace tells no read'
    twice=$(sort "$folder/reads" | uniq -d | wc -l)
    if [ "$twice" != 0 ]; then
        echo "FALLS SHORT: at $1 pages $twice blocks are read twice"
        short=1
    fi
    awk -v pages="$1" -v version="$2" -v own="$best" -v rival="$rival" -v wanted="$4" -v blocks="$blocks" -v most="$5" \
        -v keys="$KEYS" 'BEGIN {
        printf "%6d pages, version %d: get %.2f ms, gdbmtool %.2f ms, %.2f times; %.1f blocks read on average\n", pages,
            version, own / keys / 1e3, rival / keys / 1e3, own / rival, blocks
        if (own > rival * wanted || blocks > most) {
            printf "FALLS SHORT: get at %d pages: %.2f and %.1f blocks, at most %.1f and %d are wanted\n", pages,
                own / rival, blocks, wanted, most
            exit 1
        }
    }' || short=1
}

# Says how long the file of version 3 is beside that of version 2 it was made of.
compare_sizes() {
    awk -v pages="$1" -v plain="$(stat -c %s "$folder/file.exh")" -v placed="$(stat -c %s "$folder/placed.exh")" \
        -v wanted="${PLACED_WANTED[2]}" 'BEGIN {
        printf "%6d pages: version 3 has %.3f of the bytes of version 2\n", pages, placed / plain
        if (placed > plain * wanted) {
            printf "FALLS SHORT: at most %.2f is wanted\n", wanted
            exit 1
        }
    }' || short=1
}

for size in "${SIZES[@]}"; do
    # shellcheck disable=SC2086 # Four words.
    set -- $size
    made=$("$timed" make "$folder/file.exh" "$2") || die "no file of $2 records could be made"
    [ "$made" = "$1" ] || die "$2 records make $made pages, not $1"
    rm -f "$folder/base" "$folder/stores" "$folder/placed.exh"
    "$program" convert "$folder/file.exh" "$folder/placed.exh" || die 'no file of version 3 could be made'
    write_words
    gdbmtool --norc --quiet --newdb --no-lock "$folder/base" < "$folder/stores" || die 'gdbmtool made no file'
    time_gets "$1" 2 "$folder/file.exh" "$3" "$4"
    time_gets "$1" 3 "$folder/placed.exh" "${PLACED_WANTED[@]:0:2}"
    compare_sizes "$1"
    [ "$1" != "$PAIRS_OF" ] || time_pairs "$1"
done
for mib in "${LONG_TEXTS[@]}"; do time_load "$mib"; done
exit "$short"
