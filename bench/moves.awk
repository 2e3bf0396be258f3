# Writes a script that tells its moves, over a file that grows, and the text that it is to print.
#
#   awk -v seed=N -v late=N -v pages=N -v script=FILE -v text=FILE -f moves.awk
#
# The file has one ward, one record a page and two copies of the directory, and grows to the pages that are asked for.
# New keys are put through copy 1, which is told of each split at once. Copy 2 is told of a split once `late` further
# ones have come. After each eighth put a key that is there is drawn, a get of it is begun through copy 2, the next put
# is made with its splits, and then the get hops until it is answered. Of one seed the puts and gets are the same,
# however late copy 2 is.
#
# A key is two bytes, written `#` and four digits, and no key is put twice. Keyer plain makes the two bytes the 16
# leading bits of the pseudokey, so what is kept here, the splits and the pages with their keys, tells what each line
# prints: a copy that was told of the first splits names a page by these alone, and from there a get goes by right
# links.

BEGIN {
    state = seed
    emit("file cap=1 wards=0 copies=2 keyer=plain moves=yes", "")
    for (call = 1; splits + 1 < pages; call++) {
        key = draw_new()
        if (call % 8 || !keys) {
            put(key)
        } else {
            get_over(there[draw(keys)], key)
        }
    }
}

# The next number of the sequence of Park and Miller, cut to 0 to n - 1.
function draw(n) {
    state = (16807 * state) % 2147483647
    return int(state / 2147483647 * n)
}

function draw_new(    key) {
    do key = draw(65536); while (key in is_there)
    is_there[key]
    return key
}

# Writes a line, and what it prints.
function emit(line, printed) {
    print line > script
    if (printed != "")
        print printed > text
}

function word(key) {
    return sprintf("#%04x", key)
}

# The bit of a key at a depth, 0 being the highest of 16.
function bit(key, depth) {
    return int(key / 2 ^ (15 - depth)) % 2
}

# Whether the prefix of a page begins a key.
function begins(page, key) {
    return int(key / 2 ^ (16 - depth_of[page])) == bits_of[page]
}

# The page that a copy names for a key, which was told of the first splits up to a number.
function named(key, told,    page, depth, bits) {
    page = depth = bits = 0
    while ((depth, bits) in right_of && right_of[depth, bits] <= told) {
        if (bit(key, depth))
            page = right_of[depth, bits]
        bits = 2 * bits + bit(key, depth)
        depth++
    }
    return page
}

# How many moves it is from a page to that of a key.
function moves_to(page, key,    moves) {
    for (moves = 0; !begins(page, key); moves++)
        page = link[page]
    return moves
}

# Puts a new key through copy 1.
function put(key,    page, moves, before) {
    page = named(key, splits)
    before = splits
    emit("begin r1 c1 1 put " word(key) " v", "r1 at 0/" page)
    while (page in key_at) {
        emit("hop r1", "r1 split")
        split_page(page)
        if (!begins(page, key)) {
            page = link[page]
            moves++
            emit("hop r1", "r1 moved 0/" page)
        }
    }
    emit("hop r1", "r1 new moves " (moves + 0) " of " splits - before)
    key_at[page] = key
    there[keys++] = key
}

# Gets a key through copy 2, a new key being put meanwhile.
function get_over(key, new,    page, far, moves, before) {
    page = named(key, splits - late)
    far = moves_to(page, key)
    before = splits
    emit("begin r2 c2 2 get " word(key), "r2 at 0/" page)
    put(new)
    while (!begins(page, key)) {
        page = link[page]
        moves++
        emit("hop r2", "r2 moved 0/" page)
    }
    emit("hop r2", "r2 is v moves " (moves + 0) " of " far + splits - before)
}

# The prefix of a page as it is printed.
function prefix(page,    i, printed) {
    for (i = depth_of[page] - 1; i >= 0; i--)
        printed = printed int(bits_of[page] / 2 ^ i) % 2
    return printed == "" ? "-" : printed
}

# Splits a page, whose right half gets the next number, and tells the copies what they are to be told by then.
function split_page(page,    right, key) {
    right = ++splits
    emit("split 0 " page, "notice 0/" splits " prefix " prefix(page) " number 1 split right " right)
    emit("deliver 1 0 " splits, "copy 1 took 0/" splits)
    if (splits > late)
        emit("deliver 2 0 " splits - late, "copy 2 took 0/" splits - late)
    right_of[depth_of[page] + 0, bits_of[page] + 0] = right
    link[right] = link[page]
    link[page] = right
    depth_of[right] = ++depth_of[page]
    bits_of[page] *= 2
    bits_of[right] = bits_of[page] + 1
    key = key_at[page]
    delete key_at[page]
    key_at[begins(page, key) ? page : right] = key
}
