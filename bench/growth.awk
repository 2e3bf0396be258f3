# Writes calls over a file that grows three times: as a script of exhash, as the text that it is to print, and as
# commands of gdbmtool.
#
#   awk -v bytes=N -v script=FILE -v text=FILE -v commands=FILE -f growth.awk
#
# The script is the longest of whole calls that has at most N bytes. Its file has one ward, 2 records a page and two
# copies of the directory. Up to seven eighths of the bytes each call puts a new key through copy 1. A put that is
# answered `split` has its page split, copy 1 told of it, and goes on. Copy 2 is told nothing. The calls that follow are
# gets of keys that are there, through copy 1 and copy 2 in turns. The ones through copy 1 are of any key, and answered
# at their first hop. All those through copy 2 begin at page 0, and go on by right links; they are of keys that are at
# most 4 moves away.
#
# A key is two bytes, written `#` and four digits, and no key is put twice. Keyer plain makes the two bytes the 16
# leading bits of the pseudokey, so what is kept here, the pages with their keys, tells where a split is due and what
# each line prints. gdbmtool takes the same word as a key of five bytes.

BEGIN {
    cap = 2
    far = 4
    state = 20260101
    emit("file cap=" cap " wards=0 copies=2 keyer=plain", "")
    printf "" > commands
    for (call = 1; total + size <= bytes * 7 / 8; call++) {
        keep()
        draw_put()
    }
    keep()
    find_near()
    for (; total + size <= bytes; call++) {
        keep()
        draw_get(call % 2 + 1)
    }
}

# The next number of the sequence of Park and Miller, cut to 0 to n - 1.
function draw(n) {
    state = (16807 * state) % 2147483647
    return int(state / 2147483647 * n)
}

# Adds a line to those that wait, and what it prints.
function emit(line, printed) {
    lines = lines line "\n"
    size += length(line) + 1
    if (printed != "")
        answers = answers printed "\n"
}

# Writes what waits.
function keep() {
    printf "%s", lines > script
    printf "%s", answers > text
    printf "%s", theirs > commands
    total += size
    lines = answers = theirs = ""
    size = 0
}

# The bit of a key at a depth, 0 being the highest of 16.
function bit(key, depth) {
    return int(key / 2 ^ (15 - depth)) % 2
}

# Whether the prefix of a page begins a key.
function begins(page, key) {
    return int(key / 2 ^ (16 - depth_of[page])) == bits_of[page]
}

# The page of a key, by the splits that there were.
function home(key,    page, depth, bits) {
    page = depth = bits = 0
    while ((depth, bits) in right_of) {
        if (bit(key, depth))
            page = right_of[depth, bits]
        bits = 2 * bits + bit(key, depth)
        depth++
    }
    return page
}

function word(key) {
    return sprintf("#%04x", key)
}

# Puts a new key through copy 1.
function draw_put(    key, page) {
    do key = draw(65536); while (key in value_of)
    page = home(key)
    value_of[key] = "v" call
    theirs = "store " word(key) " " value_of[key] "\n"
    emit("begin r1 c1 1 put " word(key) " " value_of[key], "r1 at 0/" page)
    while (count[page] == cap) {
        emit("hop r1", "r1 split")
        split_page(page)
        if (!begins(page, key)) {
            page = link[page]
            emit("hop r1", "r1 moved 0/" page)
        }
    }
    emit("hop r1", "r1 new")
    put_at(page, key)
}

function put_at(page, key) {
    key_at[page, count[page]++] = key
}

# The prefix of a page as it is printed.
function prefix(page,    i, printed) {
    for (i = depth_of[page] - 1; i >= 0; i--)
        printed = printed int(bits_of[page] / 2 ^ i) % 2
    return printed == "" ? "-" : printed
}

# Splits a page, whose right child has the next number, and tells copy 1.
function split_page(page,    right, i, keys, held) {
    right = ++splits
    emit("split 0 " page, "notice 0/" splits " prefix " prefix(page) " number 1 split right " right)
    emit("deliver 1 0 " splits, "copy 1 took 0/" splits)
    right_of[depth_of[page] + 0, bits_of[page] + 0] = right
    link[right] = link[page]
    link[page] = right
    depth_of[right] = ++depth_of[page]
    bits_of[page] *= 2
    bits_of[right] = bits_of[page] + 1
    keys = count[page]
    for (i = 0; i < keys; i++)
        held[i] = key_at[page, i]
    count[page] = 0
    for (i = 0; i < keys; i++)
        put_at(begins(page, held[i]) ? page : right, held[i])
}

# Lists the keys that are there, and those of them that are few moves from page 0.
function find_near(    key, page, moves, i) {
    for (page = 0; page <= splits; page++)
        for (i = 0; i < count[page]; i++)
            there[1, sizes[1]++] = key_at[page, i]
    page = 0
    for (moves = 0; moves <= far; moves++) {
        for (i = 0; i < count[page]; i++)
            there[2, sizes[2]++] = key_at[page, i]
        page = link[page]
    }
}

# Gets a key through a copy.
function draw_get(copy,    key, page) {
    key = there[copy, draw(sizes[copy])]
    page = copy == 1 ? home(key) : 0
    theirs = "fetch " word(key) "\n"
    emit("begin r1 c1 " copy " get " word(key), "r1 at 0/" page)
    while (!begins(page, key)) {
        page = link[page]
        emit("hop r1", "r1 moved 0/" page)
    }
    emit("hop r1", "r1 is " value_of[key])
}
