# Draws a hostile script for bench/hostile.sh.
#
#   awk -v kind=KIND -v table=TABLE -v size=BYTES -f hostile.awk
#
# A file of cap 1 and keyer plain is split, and copy 1 is told of each split: where TABLE is `deep`, twenty times along
# one path; where it is `wards`, so along one in each of sixteen wards; where it is `wide`, as often as half the script
# takes, for `inflight` a quarter, the shortest prefixes first, so that a key serves for many splits. Then the script
# has the lines of KIND to its end.

# Prints a line, and counts its bytes.
function say(line) {
    print line
    used += length(line) + 1
}

# A key of two bytes that a prefix begins, or of three where that has more than sixteen bits; zeros are behind it.
function key_of(prefix,    count, i, number) {
    number = 0
    count = length(prefix) > 16 ? 24 : 16
    for (i = 1; i <= count; i++) number = 2 * number + (i <= length(prefix) ? substr(prefix, i, 1) : 0)
    return sprintf(count == 16 ? "#%04x" : "#%06x", number)
}

# Puts a key into a page of a ward and splits that until its prefix is the longest, as long as there is room.
function split_down(ward, page, prefix, most) {
    say("begin r1 c1 1 put " key_of(prefix) " a")
    say("hop r1")
    while (length(prefix) < longest && used < most) {
        say("split " ward " " page)
        say("deliver 1 " ward " " ++told[ward])
        entries++
        waiting[length(prefix) + 1, ++count[length(prefix) + 1]] = prefix "1"
        numbers[prefix "1"] = ++pages[ward]
        prefix = prefix "0"
    }
}

# The bits of a ward's number.
function bits_of(ward,    bits, i) {
    for (i = 0; i < ward_bits; i++) {
        bits = ward % 2 bits
        ward = int(ward / 2)
    }
    return bits
}

# The lines of a kind, the turn-th of them.
function line_of(turn) {
    if (kind == "combine") return "combine 2 1"
    if (kind == "restart") return turn % 2 ? "restart 2" : "combine 2 1"
    if (kind == "send") return "send 1"
    if (kind == "deliver") return turn % 2 ? "deliver 2 0 " (int(turn / 2) % told[0] + 1) : "send 2"
    if (kind == "halve" && turn % 2) return turn % 4 == 1 ? "merge 0 0" : "split 0 0"
    if (kind == "halve") return "deliver 1 0 " (told[0] + turn / 2)
    if (kind == "show") return "show 1"
    if (kind == "page") return "page 0 0"
    if (kind == "inflight") return "inflight"
    if (kind == "hop") return "hop r" (turn + 1)
    if (kind == "begin") return "begin r" (turn + 1) " c1 2 get #ffff"
    exit 2
}

BEGIN {
    longest = 20
    ward_bits = table == "wards" ? 4 : 0
    say("file cap=1 wards=" ward_bits " copies=2 keyer=plain")
    half = kind == "inflight" ? size / 4 : size / 2
    for (ward = 0; ward < 2 ^ ward_bits; ward++) split_down(ward, 0, bits_of(ward), size)
    for (bits = 1; table == "wide" && bits < longest; bits++)
        for (i = 1; i <= count[bits] && used < half; i++)
            split_down(0, numbers[waiting[bits, i]], waiting[bits, i], half)
    say("send 1")
    # As many requests in flight as there are entries, or as another quarter of the script begins.
    for (name = 2; kind == "inflight" && name <= entries + 1 && used < size / 2; name++)
        say("begin r" name " c1 1 get #0000")
    # As many as can then be answered, in the order begun: a begin has 27 bytes or so, a hop 10.
    begins = used + (size - used) * 3 / 4
    for (name = 2; kind == "hop" && used < begins; name++) say("begin r" name " c1 1 get #0000")
    print entries > counted
    for (turn = 1; used + length(line_of(turn)) < size; turn++) say(line_of(turn))
}
