#!/usr/bin/env bash
# Compares `exhash serve` with gdbmtool on the same calls, and with itself on ten times the calls.
#
#   bench/serve.sh [RUNS]     the best of RUNS runs of each counts, of exhash on a whole script that of three times as
#                             many; 20 if left out
#
# There are two pairs of scripts, of at most 100 KiB and 1 MiB:
# - one page: calls.awk draws puts, gets and deletes over 16 keys;
# - growth: growth.awk puts new keys, splits full pages and tells copy 1 of each split, up to some 1,000 and 10,000
#   pages, and then gets keys through the told copy 1 and the untold copy 2. It says what each line is to print, and
#   exhash must print just that, so no line of it is refused.
#
# What is compared: the processor time of one whole process that reads a list of calls as text from a file, makes them
# over a fresh hash file, and writes the answers to a file. On a machine that does nothing else that is its time from
# start to end, which is printed beside it.
# - exhash reads two lines a call at least, `begin` and `hop`, and writes a line to each. Its hash file is in memory.
# - gdbmtool (GNU dbm's own tool) reads one line a call, `store`, `fetch` or `delete`, and writes the value of
#   each fetch. It parses its commands too, but has 28 to 40 bytes of them for 100 of the script. Its hash file is one
#   of the file system's.
# gdbmtool is to stand as well as it can: its file is on /dev/shm where there is one, it doesn't synchronize after
# writes, takes no lock, reads no start file and meets no call that it would answer by an error, and the fastest of
# several settings of its blocks and cache counts, which together run twice as often as exhash does.
# The values that both answer to gets must be the same, in order.
#
# Of each script are also measured its first tenth and its first nine tenths, by lines, and its first line alone, which
# is what the process takes without calls. A line of the first tenth takes a tenth's part of the difference of the first
# tenth and the first line, and a line of the last tenth that of the difference of the whole and nine tenths.
#
# Status: 0 where all that is wanted (below) is met; 1 where something isn't; 2 where nothing could be measured.
set -u
export LC_ALL=C

RUNS=${1:-20}
SMALL=$((100 * 1024))
LARGE=$((1024 * 1024))
# Wanted, in hundredths: the share of gdbmtool's time, of one page and of growth, whose pages are images that nothing
# has touched yet; a line of the last tenth by one of the first; the time of the large script by that of the small one.
# And the most KiB of memory.
MOST_SHARE=45
MOST_GROWTH_SHARE=125
MOST_AGED=150
MOST_GROWTH=1200
MOST_MEMORY=$((64 * 1024))
# Settings of gdbmtool that were worth a try.
SETTINGS=('' '--cache-size=100' '--cache-size=4000' '--block-size=512' '--block-size=4096' '--no-mmap')

die() {
    echo "bench/serve.sh: $*" >&2
    exit 2
}

bench=$(cd "$(dirname "$0")" && pwd) || exit 2
root=$(dirname "$bench")
program=$root/crates/exh_cli/out/exh_cli
shared=/dev/shm
[ -d "$shared" ] && [ -w "$shared" ] || shared=${TMPDIR:-/tmp}
folder=$(mktemp -d "$shared/exhash-bench.XXXXXX") || exit 2
trap 'rm -rf "$folder"' EXIT

# The fewest microseconds of processor of each command so far, by the name that it is given, the fewest from its start
# to its end, and the most KiB of memory.
declare -A best whole memory

# Runs a command once, from file $2 to file $3, and keeps what it takes under the name $1.
clock() {
    local name=$1 input=$2 output=$3 spent passed kib line
    shift 3
    line=$("$folder/clock" "$input" "$output" "$@") || die "$* failed"
    read -r spent passed kib <<< "$line"
    if [ -z "${best[$name]:-}" ] || [ "$spent" -lt "${best[$name]}" ]; then
        best[$name]=$spent
    fi
    if [ -z "${whole[$name]:-}" ] || [ "$passed" -lt "${whole[$name]}" ]; then
        whole[$name]=$passed
    fi
    if [ -z "${memory[$name]:-}" ] || [ "$kib" -gt "${memory[$name]}" ]; then
        memory[$name]=$kib
    fi
}

# Runs gdbmtool once in each setting on the calls $1.
clock_rival() {
    local setting
    for setting in "${SETTINGS[@]}"; do
        rm -f "$folder/base"
        # shellcheck disable=SC2086 # No word where there is no setting.
        clock "gdbmtool $1 $setting" "$folder/$1.commands" "$folder/$1.theirs" \
            gdbmtool --norc --quiet --newdb --no-lock $setting "$folder/base"
    done
}

# Makes the calls $1, which $2.awk draws, in a script of at most $3 bytes, and the script's beginnings.
draw() {
    local lines
    awk -v bytes="$3" -v script="$folder/$1.script" -v text="$folder/$1.text" -v commands="$folder/$1.commands" \
        -f "$bench/$2.awk" || die 'awk could not make the calls'
    lines=$(wc -l < "$folder/$1.script")
    head -n 1 "$folder/$1.script" > "$folder/$1.none"
    head -n $((lines / 10)) "$folder/$1.script" > "$folder/$1.first"
    head -n $((lines - lines / 10)) "$folder/$1.script" > "$folder/$1.nine"
}

# Measures all commands on the calls $1, in turns. A last tenth is the small difference of two times, so these are taken
# more often.
measure() {
    local run part
    for ((run = 0; run < RUNS; run++)); do
        for part in none first nine script nine script nine script; do
            clock "$part $1" "$folder/$1.$part" "$folder/$1.ours" "$program" serve
        done
        clock "shell $1" "$folder/$1.script" "$folder/$1.shell" "$root/exhash" serve
        if [ "$has_rival" = yes ]; then
            clock_rival "$1"
        fi
    done
}

# Sets `rival` to the name of gdbmtool's fastest runs on the calls $1, and `rival_setting` to its setting.
best_rival() {
    local setting
    rival=
    for setting in "${SETTINGS[@]}"; do
        if [ -z "$rival" ] || [ "${best["gdbmtool $1 $setting"]}" -lt "${best[$rival]}" ]; then
            rival="gdbmtool $1 $setting"
            rival_setting=${setting:-its own block and cache sizes}
        fi
    done
}

# Prints the milliseconds of the command $1: of processor, and from its start to its end.
milliseconds() {
    awk -v spent="${best[$1]}" -v passed="${whole[$1]}" \
        'BEGIN { printf "%.2f ms of processor, %.2f ms from start to end", spent / 1000, passed / 1000 }'
}

# Prints $1 / $2.
ratio() {
    awk -v a="$1" -v b="$2" 'BEGIN { printf "%.2f", a / b }'
}

fail() {
    echo "  FAILED: $*"
    failed=yes
}

# Prints what was measured on the calls $1, which may take $2 hundredths of gdbmtool's time.
report() {
    echo "$1: $(wc -c < "$folder/$1.script") bytes of script, $(wc -l < "$folder/$1.commands") calls"
    if [ -e "$folder/$1.text" ]; then
        echo "  $(($(grep -c '^split ' "$folder/$1.script") + 1)) pages at the end"
        cmp -s "$folder/$1.ours" "$folder/$1.text" || fail 'the script prints something else'
    fi
    echo "  exhash serve      $(milliseconds "script $1")"
    echo "  ./exhash serve    $(milliseconds "shell $1")"
    if [ "$has_rival" = yes ]; then
        compare "$1" "$2"
    fi
    report_tenths "$1"
    report_memory "$1"
}

# Prints how exhash stands to gdbmtool on the calls $1, and whether it takes at most $2 hundredths of its time.
compare() {
    best_rival "$1"
    echo "  gdbmtool          $(milliseconds "$rival") ($rival_setting)"
    echo "  exhash/gdbmtool   $(ratio "${best["script $1"]}" "${best[$rival]}")"
    if [ $((100 * ${best["script $1"]})) -gt $(($2 * ${best[$rival]})) ]; then
        fail "at most $(ratio "$2" 100) of gdbmtool's time is wanted"
    fi
    if awk '$2 == "is" { print $3 }' "$folder/$1.ours" | cmp -s - "$folder/$1.theirs"; then
        echo "  the same answers to $(wc -l < "$folder/$1.theirs") gets"
    else
        fail 'the answers to gets differ'
    fi
}

# Prints the time of a line in the first and in the last tenth of the script $1.
report_tenths() {
    local lines first last
    lines=$(($(wc -l < "$folder/$1.script") / 10))
    first=$((${best["first $1"]} - ${best["none $1"]}))
    last=$((${best["script $1"]} - ${best["nine $1"]}))
    echo "  a line            $(ratio "$first" "$lines") us in the first tenth, $(ratio "$last" "$lines") us in the" \
        "last, $lines lines each; $(ratio "$last" "$first") times the first"
    if [ $((100 * last)) -gt $((MOST_AGED * first)) ]; then
        fail "at most $(ratio "$MOST_AGED" 100) times is wanted"
    fi
}

# Prints the peak memory of the script $1.
report_memory() {
    local kib=${memory["script $1"]}
    echo "  peak memory       $(ratio "$kib" 1024) MiB"
    if [ "$kib" -gt "$MOST_MEMORY" ]; then
        fail "at most $((MOST_MEMORY / 1024)) MiB are wanted"
    fi
}

# Draws, measures and reports a pair of scripts of name $1, of the calls that $2.awk draws, which may take $3 hundredths
# of gdbmtool's time.
report_pair() {
    local small=$1-100-KiB large=$1-1-MiB
    draw "$small" "$2" "$SMALL"
    draw "$large" "$2" "$LARGE"
    measure "$small"
    measure "$large"
    report "$small" "$3"
    report "$large" "$3"
    small=${best["script $small"]}
    large=${best["script $large"]}
    echo "$1: ten times the script takes $(ratio "$large" "$small") times the time"
    if [ $((100 * large)) -gt $((MOST_GROWTH * small)) ]; then
        fail "at most $(ratio "$MOST_GROWTH" 100) times is wanted"
    fi
}

failed=no
has_rival=yes
if ! command -v gdbmtool > /dev/null; then
    has_rival=no
    echo 'gdbmtool is not there, so exhash is measured alone (Debian: apt-get install gdbmtool)'
fi
cc -O2 -Wall -Wextra -o "$folder/clock" "$bench/clock.c" || die 'clock.c could not be compiled'
# The first call builds the program.
[ "$("$root/exhash" serve < "$root/examples/one-key.script" | tail -n 1)" = 'r4 none' ] ||
    die 'exhash does not answer examples/one-key.script'
echo "machine: $(nproc) x $(sed -n 's/^model name[^:]*: //p' /proc/cpuinfo | head -n 1)," \
    "load $(cut -d ' ' -f 1 /proc/loadavg); best of $RUNS runs"
report_pair one-page calls "$MOST_SHARE"
report_pair growth growth "$MOST_GROWTH_SHARE"
[ "$failed" = no ]
