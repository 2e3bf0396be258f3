#!/usr/bin/env bash
# Times a load of 100,000 pairs into a page file of version 3 of 1,000,000, beside gdbmtool's stores of the same with one
# synchronization at the end.
#
#   bench/load_into.sh [FOLDER]     the files stand in FOLDER, a new one of TMPDIR if left out
#
# The pairs stand under keyer sha and cap 16, with keys of 12 bytes and values of 8. Each runs once, by the clock.
#
# Wanted: at most 2 times gdbmtool's time.
#
# Status: 0 where all that is met, 1 where something isn't, 2 where nothing could be measured.
set -u
export LC_ALL=C

HELD=1000000
MORE=100000
TIMES_WANTED=2

die() {
    echo "bench/load_into.sh: $*" >&2
    exit 2
}

bench=$(cd "$(dirname "$0")" && pwd) || exit 2
root=$(dirname "$bench")
program=$root/crates/exh_cli/out/exh_cli
folder=${1:-$(mktemp -d)} || exit 2
[ -n "${1:-}" ] || trap 'rm -rf "$folder"' EXIT
[ -n "$(command -v gdbmtool)" ] || die 'there is no gdbmtool (Debian: apt-get install gdbmtool)'
[ -x "$program" ] || die "$program isn't built"
cc -O2 -Wall -Wextra -o "$folder/clock" "$bench/clock.c" || die 'clock.c could not be built'

# A text of pairs of the numbers from one up to another.
text_of() {
    echo 'file cap=16 wards=0 copies=1 keyer=sha'
    awk -v first="$1" -v last="$2" 'BEGIN { for (i = first; i <= last; i++) printf "key%09d v%07d\n", i, i }'
}

# A page file of version 3 of the pairs up to a number.
make_file() {
    text_of 1 "$1" > "$folder/text"
    "$program" load --long "$folder/plain.exh" < "$folder/text" > /dev/null || die 'the pairs are not loaded'
    rm -f "$folder/$2"
    "$program" convert "$folder/plain.exh" "$folder/$2" || die 'no file of version 3 could be made'
    rm -f "$folder/plain.exh" "$folder/text"
}

# By the clock, in microseconds.
time_of() {
    local input=$1 line
    shift
    line=$("$folder/clock" "$input" /dev/null "$@") || die "$* failed"
    echo "$line" | awk '{ print $2 }'
}

make_file "$HELD" held.exh
text_of $((HELD + 1)) $((HELD + MORE)) > "$folder/more"
text_of 1 "$HELD" | sed 1d | awk '{ print "store " $1 " " $2 }' > "$folder/stores"
rm -f "$folder/base"
gdbmtool --norc --quiet --newdb --no-lock "$folder/base" < "$folder/stores" || die 'gdbmtool made no file'
{
    sed 1d "$folder/more" | awk '{ print "store " $1 " " $2 }'
    echo sync
} > "$folder/stores"
load=$(time_of "$folder/more" "$program" load --into "$folder/held.exh")
gdbm=$(time_of "$folder/stores" gdbmtool --norc --quiet --no-lock "$folder/base")
awk -v load="$load" -v gdbm="$gdbm" -v more="$MORE" -v held="$HELD" -v times="$TIMES_WANTED" 'BEGIN {
    printf "%d pairs into %d: %.0f ms; gdbmtool %.0f ms\n", more, held, load / 1e3, gdbm / 1e3
    if (load > gdbm * times) {
        printf "FALLS SHORT: %.1f times gdbmtool, where %d is wanted\n", load / gdbm, times
        exit 1
    }
}'
