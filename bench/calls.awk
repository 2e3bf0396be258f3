# Writes one list of calls twice: as a script of exhash and as commands of gdbmtool.
#
#   awk -v bytes=N -v script=FILE -v commands=FILE -f calls.awk
#
# The script is the longest of whole calls that has at most N bytes. The calls are drawn from a fixed
# sequence, so that each run gives the same two files: puts, gets and deletes of 16 keys, which one page of
# cap 16 holds, so that no call meets a full page. A get or a delete is drawn only for a key that is there:
# gdbmtool tells of a key that isn't in a message of its own to standard error, which would slow it.
# Each put has a new value, so that a wrong get shows.

BEGIN {
    keys = 16
    state = 20260101
    line = "file cap=16 wards=0 copies=1 keyer=sha"
    printf "%s\n", line > script
    printf "" > commands
    size = length(line) + 1
    for (call = 1; ; call++) {
        key = "key" draw(keys)
        draw_call(draw(3))
        begin = "begin r" call " c1 1 " ours
        hop = "hop r" call
        size += length(begin) + length(hop) + 2
        if (size > bytes)
            exit
        printf "%s\n%s\n", begin, hop > script
        printf "%s\n", theirs > commands
    }
}

# The next number of the sequence of Park and Miller, cut to 0 to n - 1.
function draw(n) {
    state = (16807 * state) % 2147483647
    return int(state / 2147483647 * n)
}

# Sets the call of the given kind on the key in both spellings: 0 a put, 1 a get, 2 a delete.
function draw_call(kind) {
    if (kind == 0 || !(key in there)) {
        there[key]
        ours = "put " key " value" call
        theirs = "store " key " value" call
    } else if (kind == 1) {
        ours = "get " key
        theirs = "fetch " key
    } else {
        delete there[key]
        ours = "del " key
        theirs = "delete " key
    }
}
