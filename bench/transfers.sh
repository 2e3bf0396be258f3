#!/usr/bin/env bash
# Times `import` of 200,000 and 1,000,000 pairs into a new file, beside gdbm_load, mdb_load and sqlite3's `.import` of the
# same pairs, and `export`, beside gdbm_dump; and counts the memory of both.
#
#   bench/transfers.sh [FOLDER] [COUNT ..]     the files stand in FOLDER, a new one of TMPDIR if left out
#
# The pairs have keys of 12 bytes and values of 40, in an order by chance. Each program makes a file that didn't exist, in
# one run by the clock, and what it made is on the disk when it counts as done: behind gdbm_load, which doesn't synchronize,
# `sync FILE` runs; sqlite3 has one transaction with synchronous=FULL and the key as primary key; mdb_load synchronizes.
#
# Wanted: an import in at most 1.2 of the time of the fastest of the three, an export in at most 1.5 of gdbm_dump's, and at
# most 16 MiB of memory more for an import of 1,000,000 pairs than for one of 200,000.
#
# Status: 0 where all that is met, 1 where something isn't, 2 where nothing could be measured.
set -u
export LC_ALL=C

IMPORT_WANTED=1.2
EXPORT_WANTED=1.5
MEMORY_WANTED=16
COUNTS=(200000 1000000)
# Makes of lines `KEY VALUE` what gdbm_load reads: of each its length and its bytes in base64.
GDBM_TEXT='
import base64, sys
print("# GDBM dump file\n#:version=1.1\n#:format=standard\n# End of header")
count = 0
for line in sys.stdin.buffer:
    for part in line.split():
        print(f"#:len={len(part)}\n{base64.b64encode(part).decode()}")
    count += 1
print(f"#:count={count}\n# End of data")'

die() {
    echo "bench/transfers.sh: $*" >&2
    exit 2
}

bench=$(cd "$(dirname "$0")" && pwd) || exit 2
program=$(dirname "$bench")/crates/exh_cli/out/exh_cli
folder=${1:-$(mktemp -d)} || exit 2
[ -n "${1:-}" ] || trap 'rm -rf "$folder"' EXIT
[ $# -gt 1 ] && COUNTS=("${@:2}")
for name in sqlite3 gdbm_load gdbm_dump mdb_load shuf; do
    [ -n "$(command -v "$name")" ] || die "there is no $name (Debian: apt-get install sqlite3 gdbmtool lmdb-utils)"
done
[ -x "$program" ] || die "$program isn't built"
cc -O2 -Wall -Wextra -o "$folder/clock" "$bench/clock.c" || die 'clock.c could not be built'
short=0
memories=()

# The pairs in the text of each program.
make_texts() {
    seq 1 "$1" | shuf --random-source=<(yes) | awk -v at="$folder" '{
        key = sprintf("key%09d", $1)
        value = sprintf("value%035d", $1 * 7)
        print key " " value > (at "/words")
        print key "," value > (at "/rows")
        print " " key "\n " value > (at "/pairs")
    }'
    { printf 'VERSION=3\nformat=print\ntype=btree\nmapsize=4294967296\nHEADER=END\n'; cat "$folder/pairs"; echo DATA=END; } > "$folder/lines"
    python3 -c "$GDBM_TEXT" < "$folder/words" > "$folder/ascii" || die 'no text for gdbm_load could be made'
    rm "$folder/pairs"
}

# The microseconds by the clock, and the KiB of memory, of a command from IN to OUT.
timed() {
    "$folder/clock" "$@" || die "${*:3} failed"
}

# A time is said beside its rival's, and falls short where it takes longer than wanted.
#   judge WHAT TIME RIVAL'S WANTED
judge() {
    awk -v what="$1" -v own="$2" -v rival="$3" -v wanted="$4" 'BEGIN {
        printf "%s: %.2f of the time\n", what, own / rival
        if (own / rival > wanted) {
            printf "FALLS SHORT: %s: %.2f, at most %s are wanted\n", what, own / rival, wanted
            exit 1
        }
    }' || short=1
}

measure() {
    local own memory base tree table fastest out dumped
    rm -f "$folder"/file.exh "$folder"/base "$folder"/tree* "$folder"/table*
    make_texts "$1"
    sync -f "$folder"
    read -r _ own memory <<< "$(timed "$folder/words" /dev/null "$program" import "$folder/file.exh" --create)"
    read -r _ base _ <<< "$(timed /dev/null /dev/null sh -c "gdbm_load -n '$folder/ascii' '$folder/base' && sync '$folder/base'")"
    read -r _ tree _ <<< "$(timed "$folder/lines" /dev/null mdb_load -n "$folder/tree")"
    read -r _ table _ <<< "$(timed /dev/null /dev/null sqlite3 "$folder/table" "PRAGMA journal_mode=WAL; PRAGMA synchronous=FULL" \
        'CREATE TABLE pairs (key TEXT PRIMARY KEY, value TEXT) WITHOUT ROWID' ".mode csv" ".import $folder/rows pairs")"
    read -r _ out _ <<< "$(timed /dev/null "$folder/out" "$program" export "$folder/file.exh")"
    read -r _ dumped _ <<< "$(timed /dev/null "$folder/dumped" gdbm_dump "$folder/base")"
    [ "$(grep -vc '^#' "$folder/out")" = "$1" ] || die 'the export has not each pair'
    awk -v count="$1" -v own="$own" -v base="$base" -v tree="$tree" -v table="$table" -v out="$out" -v dumped="$dumped" \
        -v memory="$memory" 'BEGIN { printf "%d pairs: import %.2f s, gdbm_load %.2f s, mdb_load %.2f s, sqlite3 %.2f s; export %.2f s, gdbm_dump %.2f s; %.1f MiB\n",
            count, own / 1e6, base / 1e6, tree / 1e6, table / 1e6, out / 1e6, dumped / 1e6, memory / 1024 }'
    fastest=$(printf '%s\n' "$base" "$tree" "$table" | sort -n | head -n 1)
    memories+=("$memory")
    judge "import of $1 pairs, of the fastest's" "$own" "$fastest" "$IMPORT_WANTED"
    judge "export of $1 pairs, of gdbm_dump's" "$out" "$dumped" "$EXPORT_WANTED"
}

for count in "${COUNTS[@]}"; do
    measure "$count"
done
awk -v more=$(((memories[-1] - memories[0]) / 1024)) -v wanted="$MEMORY_WANTED" 'BEGIN {
    printf "memory: %d MiB more for the greatest than for the least\n", more
    if (more > wanted) { printf "FALLS SHORT: memory: %d MiB more, at most %s are wanted\n", more, wanted; exit 1 }
}' || short=1
exit "$short"
