"""Page files that no run saves, by chance: legal ones whose changes have greater versions, and damaged ones."""

import struct

from .page_file import BLOCK, CONTENT, FORWARD, LIVE, sealed
from .tables import table_of
from .version import NUMBER_LIMIT

HEAD_END = 16
# The bytes of a header, a page's head and an entry that say something, and some that don't.
HEADER = (8, 9, 10, 11, 12, 13, 15, 16, 18, 19, 23, 27, 31, 84, 4000)
HEAD = (0, 0, 0, 1, 2, 2, 3, 4, 7, 8, 9, 10, 11, 12)
IMAGE = (0, 1, 2, 3, 4, 5, 6, 7, 8, 11, 12, 15)


def strange(dice, file):
    """An opened file with greater versions in its tables, and its pages numbered in another order."""
    file = file.opened()
    for ward in file.wards:
        others = ward.lows[1:]
        dice.shuffle(others)
        places = [0] + [1 + others.index(low) for low in ward.lows[1:]]
        ward.lows[1:] = others
        table = table_of(ward.start)
        ward.start = frozenset((it, raised(dice, entry, places)) for it, entry in table.items())
    return file


def raised(dice, entry, places):
    """An entry with a greater version of its kind, whose page has another number."""
    most = NUMBER_LIMIT - (NUMBER_LIMIT - entry.version) % 2
    version = dice.choice((entry.version, entry.version + 2, most, most))
    return entry._replace(version=min(version, most), right=places[entry.right])


def with_block(content, place, block):
    return content[: place * BLOCK] + block + content[(place + 1) * BLOCK :]


def block_of(content, place):
    return bytearray(content[place * BLOCK : place * BLOCK + CONTENT])


def altered(dice, content, place, at):
    """The file with another byte at a place of a block, whose digest is made right."""
    block = block_of(content, place)
    block[at] = dice.choice((0, 1, 2, 3, 17, 255, block[at] ^ 1, (block[at] + 1) % 256, (block[at] - 1) % 256))
    return with_block(content, place, sealed(bytes(block)))


def places_of(content):
    """The places of the page blocks, and those of the table blocks, of a right file."""
    pages = sum(struct.unpack(">16I", content[20:84]))
    return range(1, 1 + pages), range(1 + pages, len(content) // BLOCK)


def cut(dice, content):
    return content[: dice.choice((0, len(content) - 1, len(content) - BLOCK, dice.randrange(len(content))))]


def lengthened(dice, content):
    return content + bytes([dice.randrange(256)]) * dice.choice((1, BLOCK))


def turned(dice, content):
    at = dice.choice((dice.randrange(8), dice.choice((8, 9)), dice.randrange(len(content))))
    return content[:at] + bytes([content[at] ^ 1 << dice.randrange(8)]) + content[at + 1 :]


def with_another_header(dice, content):
    return altered(dice, content, 0, dice.choice(HEADER))


def with_a_lower_cap(_dice, content):
    """The file with a cap of 1, which its fullest page is above if its own was greater."""
    header = block_of(content, 0)
    header[10] = 1
    return with_block(content, 0, sealed(bytes(header)))


def with_another_head(dice, content):
    return altered(dice, content, dice.choice(places_of(content)[0]), dice.choice(HEAD))


def with_another_record(dice, content):
    """The file with another byte where the records of a page stand or might stand."""
    return altered(dice, content, dice.choice(places_of(content)[0]), dice.choice((16, 17, 18, 19, 22, 23, 4063)))


def with_another_entry(dice, content):
    """The file with another byte in an entry, or behind the last."""
    tables = places_of(content)[1]
    if not tables:
        return with_another_head(dice, content)
    [count] = struct.unpack(">I", content[16:20])
    entry = dice.randrange(min(count + 1, 254))
    return altered(dice, content, dice.choice(tables), 16 * entry + dice.choice(IMAGE))


def with_pages_exchanged(dice, content):
    """The file with two pages, each in the place of the other."""
    pages = places_of(content)[0]
    one, other = dice.choice(pages), dice.choice(pages)
    first, second = (content[it * BLOCK : (it + 1) * BLOCK] for it in (one, other))
    return with_block(with_block(content, one, second), other, first)


def with_entries_exchanged(dice, content):
    """The file with the first two entries, each in the place of the other."""
    tables = places_of(content)[1]
    if not tables:
        return cut(dice, content)
    block = block_of(content, tables[0])
    block[:16], block[16:32] = block[16:32], block[:16]
    return with_block(content, tables[0], sealed(bytes(block)))


def with_records_exchanged(dice, content):
    """The file with the first two records of a page, each in the place of the other."""
    place = dice.choice(places_of(content)[0])
    block = block_of(content, place)
    if block[0] != LIVE or block[2] < 2:
        return with_another_record(dice, content)
    end = 18 + block[16] + block[17]
    last = end + 2 + block[end] + block[end + 1]
    block[16:last] = block[end:last] + block[16:end]
    return with_block(content, place, sealed(bytes(block)))


def with_another_target(dice, content):
    """The file with another target of a forwarding page, where there is one."""
    forwards = [place for place in places_of(content)[0] if content[place * BLOCK] == FORWARD]
    if not forwards:
        return with_another_head(dice, content)
    return altered(dice, content, dice.choice(forwards), 7)


def with_a_leaf_forwarded(dice, content):
    """The file with a forwarding page to page 0 in place of a live one without a record."""
    blocks = [(place, block_of(content, place)) for place in places_of(content)[0]]
    empty = [(place, block) for place, block in blocks if block[0] == LIVE and not block[2]]
    if not empty:
        return with_another_target(dice, content)
    place, block = dice.choice(empty)
    block[:HEAD_END] = struct.pack(">B3xI", FORWARD, 0) + block[8:HEAD_END]
    return with_block(content, place, sealed(bytes(block)))


# The ways of damage, and how often each is taken.
WAYS = {
    cut: 2,
    lengthened: 3,
    turned: 11,
    with_another_header: 3,
    with_a_lower_cap: 4,
    with_another_head: 4,
    with_another_record: 3,
    with_another_entry: 11,
    with_pages_exchanged: 2,
    with_entries_exchanged: 2,
    with_records_exchanged: 3,
    with_another_target: 6,
    with_a_leaf_forwarded: 6,
}


def damaged(dice, content):
    """The bytes of a right file, damaged in one way."""
    [way] = dice.choices(list(WAYS), list(WAYS.values()))
    return way(dice, content)
