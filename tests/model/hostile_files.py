"""Page files by chance of which the reader must say what they are: right ones of any shape, and ones with faults.

A right file is made of its leaves and its forwarding pages, without a run that leaves it, so that small numbers of it
show what a run seldom comes to. One to three changes are then made to it, each for itself, and laid over each other;
nine files in ten have right digests afterwards, so that what a digest would find first is found by the later tests.
"""

import collections
import functools
import random
import struct
from typing import NamedTuple

from .bits import low_bound
from .file import File
from .file_reader import file_of
from .other_files import (
    WAYS,
    altered,
    block_of,
    cut,
    lengthened,
    places_of,
    turned,
    with_another_entry,
    with_block,
)
from .page_file import (
    BLOCK,
    CONTENT,
    ENTRIES_OF_BLOCK,
    FORWARD,
    LIVE,
    MERGE,
    NO_LINK,
    SPLIT,
    bytes_of_file,
    check_text,
    sealed,
)
from .page_reader import Fault
from .tables import Entry, Kind
from .version import CAP_LIMIT, FIRST, KEY_LIMIT, KNOWN, LIMIT, NUMBER_LIMIT, PLACED, VALUE_LIMIT

# Right files that changes are made to, and how many splits and merges each of one ward had at most.
RIGHT_FILES = 400
CHANGES = 14
# The bits of a file's wards; many wards take long to read.
WARD_BITS = (0, 0, 0, 1, 1, 1, 2, 2, 3, 4)
# Of a hundred files, those whose digests are left wrong, that are cut, and that are made longer.
TORN, CUT, LONGER = 10, 4, 6
LEGAL, TWO_FAULTS, RIGHT_DIGESTS = "legal", "two faults of two lines at once", "right digests"
WITH_MERGES = "merges in the table"
LONG, LONG_FORWARD = "a leaf longer than the first version's", "a forwarding page's low bound of more digits than those"
# Of a hundred right files, those of which a leaf is split down to the longest prefix.
DRILLED = 25
# The lengths that the versions bound, and those next to them; what a field of four bytes has from the highest digit
# down: some with one digit on either side of where a version's digits end.
LENGTHS = (0, 1, 2, *(version.limit + by for version in KNOWN for by in (-1, 0, 1)))
FIELDS = (0, 0, 1 << 30, 1 << 31, 3 << 30, 1, *(1 << 32 - version.limit - by for version in KNOWN for by in (0, 1)))


class Hostile(NamedTuple):
    """A file by chance: its bytes, the line that `check` must print, its status, and what came up in it."""

    content: bytes
    line: str
    status: int
    met: collections.Counter


def verdict(content):
    """The line that `check` prints of bytes, and its status."""
    try:
        return check_text(file_of(content))[0], 0
    except Fault as fault:
        return fault.text(), 1


def name_of(line):
    """What is counted of a line: it without places and numbers."""
    return LEGAL if line.startswith(LEGAL) else line.partition(" at ")[0]


# Right files.


def change(dice, ward, limit):
    """Splits a leaf that is shorter than a limit, or merges two buddies."""
    leaf = dice.choice(sorted(ward.leaves))
    parent = leaf[:-1]
    are_buddies = leaf != ward.prefix and {parent + "0", parent + "1"} <= ward.leaves
    if are_buddies and dice.random() < 0.5:
        ward.leaves ^= {parent, parent + "0", parent + "1"}
    elif len(leaf) < limit:
        split(ward, leaf)


def split(ward, leaf):
    right = low_bound(leaf + "1")
    ward.lows += [] if right in ward.lows else [right]
    ward.leaves ^= {leaf, leaf + "0", leaf + "1"}


def drill(dice, ward, limit):
    """Splits a leaf, and then one of its halves, and so on down to a limit; and maybe merges the last two again."""
    leaf = dice.choice(sorted(ward.leaves))
    while len(leaf) < limit:
        split(ward, leaf)
        leaf += dice.choice("01")
    if dice.random() < 0.5 and leaf != ward.prefix:
        ward.leaves ^= {leaf[:-1], leaf[:-1] + "0", leaf[:-1] + "1"}


def version_by(dice, is_split):
    """The version of an entry: odd of a split, and mostly small."""
    return dice.choice((2, 2, 4, 1000, NUMBER_LIMIT - 1)) + is_split - 2 * (is_split and dice.random() < 0.5)


def tell_table(dice, ward):
    """Makes the start table say what the ward's pages say."""
    own, rest = ward.lows[0], ward.lows[1:]
    ward.lows = [own, *dice.sample(rest, len(rest))]
    fronts = {leaf[:length] for leaf in ward.leaves for length in range(len(ward.prefix), len(leaf))}
    forwards = {low[: low.rindex("1")] for low in rest} - fronts
    splits = {it: Entry(version_by(dice, True), Kind.SPLIT, ward.page_at(low_bound(it + "1"))) for it in sorted(fronts)}
    merges = {it: Entry(version_by(dice, False), Kind.MERGE) for it in sorted(forwards)}
    ward.start = frozenset((splits | merges).items())


def key_under(dice, leaf):
    """A key whose pseudokey under keyer plain the leaf begins."""
    count = -(-LIMIT // 8)
    digits = leaf + "".join(dice.choices("01", k=8 * count - len(leaf)))
    front = int(digits, 2).to_bytes(count, "big")
    length = dice.choice((0, 0, 0, 1, 5, 6, KEY_LIMIT - count))
    return front + dice.randbytes(length)


def fill(dice, file):
    """Puts records in, so many as each page takes, and some of the greatest size."""
    room = {leaf: dice.randrange(file.cap + 1) for ward in file.wards for leaf in sorted(ward.leaves)}
    keys = [key_under(dice, leaf) for leaf, count in room.items() for _ in range(count)]
    if file.keyer == "sha":
        keys = [b"%d" % dice.randrange(100_000) for _ in keys] + [dice.randbytes(KEY_LIMIT)]
    for key in keys:
        leaf = next(it for it in room if file.pseudokey(key).startswith(it))
        if room[leaf] and key not in file.map:
            room[leaf] -= 1
            file.map[key] = dice.randbytes(dice.choice((0, 1, 1, 2, VALUE_LIMIT)))


@functools.cache
def right_file(number):
    """The right file of a number: its bytes and what came up in it."""
    dice = random.Random(f"right file {number}")
    keyer, bits, version = dice.choice(("sha", "plain")), WARD_BITS[number % len(WARD_BITS)], dice.choice(KNOWN)
    file = File.empty(dice.choice((1, 2, 3, 4, CAP_LIMIT)), bits, keyer)
    if dice.randrange(100) < DRILLED:
        drill(dice, dice.choice(file.wards), version.limit)
    for ward in file.wards:
        for _ in range(dice.randrange(CHANGES // len(file.wards) + 2)):
            change(dice, ward, version.limit)
        tell_table(dice, ward)
    fill(dice, file)
    has_merges = any(entry.kind is Kind.MERGE for ward in file.wards for _, entry in ward.start)
    is_long = any(len(leaf) > FIRST.limit for ward in file.wards for leaf in ward.leaves)
    places = [(ward.leaf_of(number), low) for ward in file.wards for number, low in enumerate(ward.lows)]
    is_fine = any(leaf is None and "1" in low[FIRST.limit :] for leaf, low in places)
    met = collections.Counter([f"keyer {keyer}", f"wards {len(file.wards)}", f"version {version.number}"])
    met.update([WITH_MERGES] * has_merges + [LONG] * is_long + [LONG_FORWARD] * is_fine)
    return bytes_of_file(file, version), met


# Changes. Each is made to a right file, and makes the digests of what it changes right.


def with_another_first_byte(dice, content):
    """The file with another byte of those that say what it is, or of its version."""
    return altered(dice, content, 0, dice.randrange(10))


def record_by(dice):
    """The bytes of a record; seldom one whose lengths are out of range."""
    key = dice.choice((1, 1, 2, 2, 3, 0, KEY_LIMIT, KEY_LIMIT + 1))
    value = dice.choice((0, 1, 1, VALUE_LIMIT, VALUE_LIMIT + 1))
    return bytes([key, value]) + dice.randbytes(key + value)


def with_a_page_by_chance(dice, content):
    """The file with a page in which each field is by chance."""
    place = dice.choice(places_of(content)[0])
    count = dice.choice((0, 0, 1, 2, CAP_LIMIT, CAP_LIMIT + 1))
    kind, length = dice.choice((LIVE, LIVE, FORWARD, 0)), dice.choice(LENGTHS)
    link = dice.choice((0, 1, NO_LINK))
    head = struct.pack(">BBBxII4x", kind, length, count, link, dice.choice(FIELDS))
    records = b"".join(record_by(dice) for _ in range(min(count, 3)))
    return with_block(content, place, sealed(head + records))


def with_an_entry_by_chance(dice, content):
    """The file with an entry in which each field is by chance."""
    tables = places_of(content)[1]
    if not tables:
        return with_another_entry(dice, content)
    [count] = struct.unpack(">I", content[16:20])
    head = (dice.choice((0, 1, 15, 16)), dice.choice((SPLIT, MERGE, 3)), dice.choice(LENGTHS))
    bits, number = dice.choice(FIELDS), dice.choice((0, 1, 2, 3, NUMBER_LIMIT))
    image = struct.pack(">BBBxIII", *head, bits, number, dice.choice((0, 0, 1, 2)))
    at = len(image) * dice.randrange(min(count, ENTRIES_OF_BLOCK))
    block = block_of(content, tables[0])
    block[at : at + len(image)] = image
    return with_block(content, tables[0], sealed(bytes(block)))


def in_another_version(dice, content):
    """The file with the number of a version that is read, or of one that isn't."""
    header = block_of(content, 0)
    header[8:10] = dice.choice((*(version.number for version in KNOWN), 0, PLACED.number, 4)).to_bytes(2, "big")
    return with_block(content, 0, sealed(bytes(header)))


def with_a_count_beside_a_limit(dice, content):
    """The file with a number of entries, or of a ward's pages, next to where a version's end."""
    header, limit = block_of(content, 0), dice.choice(KNOWN).limit
    at, most = dice.choice(((16, 2**limit), (20, 2 ** (limit - header[11]))))
    header[at : at + 4] = (most + dice.choice((-1, 0, 1))).to_bytes(4, "big")
    return with_block(content, 0, sealed(bytes(header)))


# How often each change is made. What the digest would find, and what changes the length, is done at last.
CHANGES_TO_A_FILE = {
    **{way: count for way, count in WAYS.items() if way not in (cut, lengthened, turned)},
    with_another_first_byte: 2,
    in_another_version: 6,
    with_a_count_beside_a_limit: 2,
    with_a_page_by_chance: 3,
    with_an_entry_by_chance: 4,
}


def laid_over(right, one, other):
    """The file with the changes of two others, where both changed a byte with another byte there."""
    joined = (int.from_bytes(it, "big") for it in (right, one, other))
    return functools.reduce(int.__xor__, joined).to_bytes(len(right), "big")


def resealed(content):
    """The file with the digest of each of its blocks made right."""
    return b"".join(sealed(content[at : at + CONTENT]) for at in range(0, len(content), BLOCK))


def torn(dice, content):
    """The file with a digit turned behind its version, its digest left."""
    at = dice.randrange(10, len(content))
    return content[:at] + bytes([content[at] ^ 1 << dice.randrange(8)]) + content[at + 1 :]


def are_two_faults(changed):
    """Whether two changes, each for itself, would be told by two lines."""
    lines = {verdict(it)[0] for it in changed}
    return len(changed) == 2 and len(lines) == 2 and not any(line.startswith(LEGAL) for line in lines)


def hostile_file(seed):
    """The file of a seed."""
    dice = random.Random(f"file {seed}")
    right, met = right_file(dice.randrange(RIGHT_FILES))
    count = dice.choice((0, 1, 1, 1, 1, 2, 2, 3))
    ways = dice.choices(list(CHANGES_TO_A_FILE), list(CHANGES_TO_A_FILE.values()), k=count)
    changed = [way(dice, right) for way in ways]
    content = functools.reduce(functools.partial(laid_over, right), changed) if changed else right
    content = resealed(content) if len(changed) > 1 else content
    chance, is_torn = dice.randrange(100), dice.randrange(100) < TORN
    content = torn(dice, content) if is_torn else content
    if chance < CUT + LONGER:
        content = (cut if chance < CUT else lengthened)(dice, content)
    line, status = verdict(content)
    names = [name_of(line)] + [RIGHT_DIGESTS] * (not is_torn) + [TWO_FAULTS] * are_two_faults(changed)
    return Hostile(content, line, status, met + collections.Counter(names))
