#!/usr/bin/env bash
# Counts the moves of gets through copies that are told late, beside the bound that each reply tells.
#
#   bench/moves.sh [SEEDS]     over files of so many seeds; 8 if left out
#
# A file grows from one page to 10,000, and copy 2 of its directory is told of each split once 0, 10, 100 or 1,000
# further ones came: a script of at most 1 MiB each, which moves.awk draws. Each get is begun through copy 2 and hops
# once the next key was put, so that its page may be split under it. moves.awk says what each line is to print, and
# exhash must print just that; all numbers below are read off what exhash printed.
#
# Of the gets begun while the file had so many pages it prints the moves of one, on average and at most, and the same of
# the bound; for the greater files the averages as bars too. Of each get it is seen that its moves are at most its
# bound, and that its distance when begun, which is the bound less the splits since, is at most the number of splits
# that its copy lacks, and 0 where it lacks none.
#
# Status: 0 where all of that holds; 1 where something doesn't; 2 where nothing could be counted.
set -u
export LC_ALL=C

SEEDS=${1:-8}
PAGES=10000
LATE=(0 10 100 1000)
LARGEST=$((1024 * 1024))

die() {
    echo "bench/moves.sh: $*" >&2
    exit 2
}

bench=$(cd "$(dirname "$0")" && pwd) || exit 2
root=$(dirname "$bench")
folder=$(mktemp -d "${TMPDIR:-/tmp}/exhash-bench.XXXXXX") || exit 2
trap 'rm -rf "$folder"' EXIT

# Runs the script of the seed $1 and a copy told after $2 splits, and keeps what it printed.
run() {
    local size
    awk -v seed="$1" -v late="$2" -v pages="$PAGES" -v script="$folder/script" -v text="$folder/text" \
        -f "$bench/moves.awk" || die 'awk could not make the script'
    size=$(wc -c < "$folder/script")
    [ "$size" -le "$LARGEST" ] || die "a script has $size bytes"
    "$root/exhash" serve < "$folder/script" > "$folder/printed" || die 'exhash refused a script'
    if ! cmp -s "$folder/printed" "$folder/text"; then
        echo "FAILED: exhash prints something else for seed $1, told after $2"
        failed=yes
    fi
    cat "$folder/printed" >> "$folder/late-$2"
}

# Reads what was printed for a copy told after `late` splits, and adds a line for each range of pages to the file `rows`:
# the range, the gets, and the moves and bound of one, each on average and at most.
count() {
    awk -v late="$1" -v rows="$folder/rows" '
        $1 == "notice" { split($2, place, "/"); changes = place[2] }
        $1 == "r2" && $2 == "at" {
            before = changes
            pages = before + 1
            range = pages <= 1000 ? 1 : pages <= 2000 ? 2 : pages <= 5000 ? 3 : 4
        }
        $1 == "r2" && $(NF - 3) == "moves" {
            moves = $(NF - 2)
            bound = $NF
            distance = bound - (changes - before)
            lacks = before < late ? before : late
            if (moves > bound || distance < 0 || distance > lacks)
                wrong++
            gets[range]++
            moves_sum[range] += moves
            bound_sum[range] += bound
            if (moves > moves_most[range])
                moves_most[range] = moves
            if (bound > bound_most[range])
                bound_most[range] = bound
        }
        END {
            split("1..1,000 1,001..2,000 2,001..5,000 5,001..10,000", names, " ")
            for (range = 1; range <= 4; range++)
                printf "%d\t%s\t%d\t%.3f\t%d\t%.3f\t%d\n", late, names[range], gets[range],
                    moves_sum[range] / gets[range], moves_most[range],
                    bound_sum[range] / gets[range], bound_most[range] >> rows
            if (wrong)
                print "FAILED: " wrong " replies tell too many moves or too great a distance"
            exit wrong > 0
        }
    ' "$folder/late-$1" || failed=yes
}

# Prints the rows as a table.
table() {
    awk -F '\t' '
        BEGIN { printf "%-10s %-14s %7s   %-22s %s\n", "told after", "pages", "gets", "moves: average, most", "bound: average, most" }
        { printf "%-10s %-14s %7d   %10.3f %6d      %10.3f %6d\n", $1, $2, $3, $4, $5, $6, $7 }
    ' "$folder/rows"
}

# Prints the averages of the greater files as bars, twenty columns a move: the moves as #, what is left of the bound
# as dots; and behind them the averages and the greatest.
picture() {
    awk -F '\t' '
        function drawn(mark, columns,    bar) {
            while (length(bar) < columns)
                bar = bar mark
            return bar
        }
        $2 ~ /^[25]/ {
            if ($1 == 0) {
                title = "pages " $2 ":  # moves, . bound"
                printf "%-62s average   most\n", title
            }
            moves = int($4 * 20 + 0.5)
            bar = drawn("#", moves) drawn(".", int($6 * 20 + 0.5) - moves)
            printf "  %4d splits late  %-40s %.3f of %.3f, %d of %d\n", $1, bar, $4, $6, $5, $7
        }
    ' <(sort -t "$(printf '\t')" -s -k 2,2 "$folder/rows")
}

failed=no
# The first call builds the program.
[ "$("$root/exhash" serve < "$root/examples/one-key.script" | tail -n 1)" = 'r4 none' ] ||
    die 'exhash does not answer examples/one-key.script'
for ((seed = 1; seed <= SEEDS; seed++)); do
    for late in "${LATE[@]}"; do
        run $((20260100 + seed)) "$late"
    done
done
for late in "${LATE[@]}"; do
    count "$late"
done
table
picture
[ "$failed" = no ]
