"""The ways in which a page file of version 3 is broken, and how often each is taken.

Some change a draft of it, others its bytes. What is changed has right digests afterwards, but for what is torn, cut or
made longer. Where a way finds nothing to change it leaves the file as it is.
"""

import struct

from .bits import low_bound
from .drafts import Draft
from .other_files import cut, lengthened
from .page_file import BLOCK, CONTENT, FORWARD, LIVE, NO_LINK, sealed
from .placed_file import CELL, EMPTY, OF_GROUP, SLOTS
from .version import CAP_LIMIT, KEY_LIMIT, KNOWN, LIMIT, NUMBER_LIMIT, PLACED, VALUE_LIMIT

HEAD = 16
# Of a hundred files those whose digests are left wrong, that are cut or made longer, and that get an empty group.
TORN, CUT, LONGER, EMPTY_GROUP = 8, 3, 3, 2
# The settings of a header, and what they are changed to.
SETTINGS = {10: (0, 1, 1, 2, 16, 17, 255), 11: (0, 1, 2, 4, 5, 255), 12: (0, 1, 2, 3)}
# The lengths of prefixes that are bounded, and those next to them.
LENGTHS = (0, 1, 2, 3, 19, 20, 21, 255)
FIELDS = (0, 0, 1 << 30, 1 << 31, 3 << 30, 1, 1 << 11, 1 << 12, 1 << 13)


# ---- the header


def with_another_setting(dice, draft):
    at = dice.choice(list(SETTINGS))
    draft.header[at] = dice.choice(SETTINGS[at])


def with_a_low_cap(_, draft):
    draft.header[10] = 1


def with_another_count(dice, draft):
    """The count of a ward, or of one that the file hasn't, changed."""
    ward = dice.choice((dice.randrange(2 ** draft.ward_bits), dice.randrange(16)))
    count, most = draft.counts()[ward], 2 ** (LIMIT - draft.ward_bits)
    others = (0, count + 1, within(count - 1), count + OF_GROUP, most, most + 1, NUMBER_LIMIT)
    draft.set_count(ward, dice.choice(others))


def with_a_count_moved(dice, draft):
    """A page less of one ward and one more of another, so that there are as many pages."""
    counts = draft.counts()
    many = [ward for ward, count in enumerate(counts) if count > 1]
    if many and draft.ward_bits:
        one, other = dice.choice(many), dice.randrange(2 ** draft.ward_bits)
        draft.set_count(one, counts[one] - 1)
        draft.set_count(other, draft.counts()[other] + 1)


def with_other_stamps(dice, draft):
    draft.header[84:100] = dice.randbytes(16)


def within(number):
    """The number, or the nearest that four bytes hold."""
    return min(max(number, 0), NUMBER_LIMIT)


# ---- cells


def with_another_number(dice, draft):
    """A cell with another number of its page."""
    place = dice.randrange(len(draft.numbers))
    number = draft.numbers[place]
    others = (number + 1, number - 1, place, len(draft.pages), NUMBER_LIMIT)
    draft.numbers[place] = within(dice.choice(others))


def with_another_slot_number(dice, draft):
    """A slot with another number: of the same kind, of the other, none, or the greatest."""
    if filled := draft.filled():
        place, length = dice.choice(filled)
        number, page = draft.slots[place][length]
        number = dice.choice((0, number + 1, number + 2, number - 1, NUMBER_LIMIT, NUMBER_LIMIT - 1))
        draft.slots[place][length] = within(number), page


def with_a_slot_less(dice, draft):
    if filled := draft.filled():
        place, length = dice.choice(filled)
        draft.slots[place][length] = EMPTY


def with_another_slot_page(dice, draft):
    """A slot with another page: of the file, or beside its end."""
    if filled := draft.filled():
        place, length = dice.choice(filled)
        count = len(draft.pages)
        others = (0, place, dice.randrange(count), count, count + OF_GROUP, NUMBER_LIMIT)
        draft.slots[place][length] = draft.slots[place][length][0], dice.choice(others)


def with_a_merge_of_another_page(dice, draft):
    """A Merge's slot whose page is no place, or of another low bound."""
    merges = [it for it in draft.filled() if draft.slots[it[0]][it[1]][0] % 2 == 0]
    if merges:
        place, length = dice.choice(merges)
        count = len(draft.pages)
        others = (0, dice.randrange(count), dice.randrange(count), count, count + 1, NUMBER_LIMIT)
        draft.slots[place][length] = draft.slots[place][length][0], dice.choice(others)


def with_a_split_of_another_ward(dice, draft):
    """A Split's slot whose page has the right number, but in another ward."""
    splits = [it for it in draft.filled() if draft.slots[it[0]][it[1]][0] % 2]
    if splits:
        place, length = dice.choice(splits)
        number, page = draft.slots[place][length]
        others = [it for it, its in enumerate(draft.numbers) if it != page and [its] == draft.numbers[page : page + 1]]
        draft.slots[place][length] = number, dice.choice(others or [page])


def with_a_slot_more(dice, draft):
    """A slot filled by chance; where there is one it names the page of the low bound that it is to have."""
    place, length = dice.randrange(len(draft.pages)), dice.randrange(SLOTS)
    right = draft.places().get(low_bound(draft.low(place)[:length] + "1"), dice.randrange(len(draft.pages)))
    draft.slots[place][length] = dice.choice((1, 2, 3, 0, NUMBER_LIMIT)), right


def with_a_short_slot(dice, draft):
    """A slot filled at a length below the ward bits, with the page 0 of the ward that it would lead to."""
    if draft.ward_bits:
        length = dice.randrange(draft.ward_bits)
        fitting = [place for place in range(2**draft.ward_bits) if "1" not in draft.low(place)[length:]]
        place = dice.choice(fitting or [0])
        right = draft.places().get(low_bound(draft.low(place)[:length] + "1"), 0)
        draft.slots[place][length] = dice.choice((1, 2)), right


def with_a_slot_twice(dice, draft):
    """A slot that stands once more in the cell of a page whose low bound goes on from its prefix."""
    if filled := draft.filled():
        place, length = dice.choice(filled)
        prefix = draft.low(place)[:length]
        others = [it for it in range(len(draft.pages)) if draft.low(it)[:length] == prefix and it != place]
        if others:
            draft.slots[dice.choice(others)][length] = draft.slots[place][length]


def with_a_slot_at_another_length(dice, draft):
    if filled := draft.filled():
        place, length = dice.choice(filled)
        other = min(max(length + dice.choice((-1, 1)), 0), SLOTS - 1)
        slots = draft.slots[place]
        slots[length], slots[other] = slots[other], slots[length]


def with_cells_exchanged(dice, draft):
    """Two cells in each other's places."""
    one, other = dice.randrange(len(draft.pages)), dice.randrange(len(draft.pages))
    for them in (draft.numbers, draft.slots) if dice.randrange(2) else (draft.slots,):
        them[one], them[other] = them[other], them[one]


def with_a_page_named_in_an_empty_slot(dice, draft):
    place, length = dice.randrange(len(draft.pages)), dice.randrange(SLOTS)
    draft.slots[place][length] = 0, dice.choice((1, place + 1, NUMBER_LIMIT))


# ---- places


def with_births_in_another_order(dice, draft):
    """The pages behind the first ones in any order, and renumbered: a right file, where its links are led on."""
    first, order = 2 ** draft.ward_bits, list(range(len(draft.pages)))
    order[first:] = dice.sample(order[first:], len(order) - first)
    draft.reorder(order)
    if dice.randrange(3):
        draft.renumber()


def with_first_places_exchanged(dice, draft):
    """Two pages 0 in each other's places, or one of them and a page behind them, and all else led on."""
    first, order = 2 ** draft.ward_bits, list(range(len(draft.pages)))
    if len(order) > 1:
        one, other = dice.randrange(first), dice.choice((dice.randrange(first), dice.randrange(len(order))))
        order[one], order[other] = order[other], order[one]
        draft.reorder(order)
        if dice.randrange(2):
            draft.renumber()


def with_a_page_more(dice, draft):
    """A page more at the end, as one that is there already, or by chance."""
    place = dice.randrange(len(draft.pages))
    draft.pages.append(bytearray(draft.pages[place]))
    draft.slots.append([EMPTY] * SLOTS)
    if dice.randrange(2):
        draft.pages[-1][:] = page_by_chance(dice)
    ward = draft.ward(len(draft.pages) - 1)
    draft.numbers.append(draft.counts()[ward])
    draft.set_count(ward, draft.counts()[ward] + 1)


def with_a_page_less(_, draft):
    """The last page gone, with its cell and its count."""
    ward = draft.ward(len(draft.pages) - 1)
    if draft.counts()[ward] > 1:
        draft.set_count(ward, draft.counts()[ward] - 1)
        draft.pages.pop(), draft.numbers.pop(), draft.slots.pop()


def with_pages_exchanged(dice, draft):
    """Two pages in each other's places, the cells left."""
    one, other = dice.randrange(len(draft.pages)), dice.randrange(len(draft.pages))
    draft.pages[one], draft.pages[other] = draft.pages[other], draft.pages[one]


# ---- pages


def record_by(dice):
    """The bytes of a record; seldom one whose lengths are out of range."""
    key = dice.choice((1, 1, 2, 2, 3, 0, KEY_LIMIT, KEY_LIMIT + 1))
    value = dice.choice((0, 1, 1, VALUE_LIMIT, VALUE_LIMIT + 1))
    return bytes([key, value]) + dice.randbytes(key + value)


def page_by_chance(dice):
    """The content of a page in which each field is by chance."""
    count = dice.choice((0, 0, 1, 2, CAP_LIMIT, CAP_LIMIT + 1))
    kind, length = dice.choice((LIVE, LIVE, FORWARD, 0)), dice.choice(LENGTHS)
    head = struct.pack(">BBBxII4x", kind, length, count, dice.choice((0, 1, NO_LINK)), dice.choice(FIELDS))
    return (head + b"".join(record_by(dice) for _ in range(min(count, 3)))).ljust(CONTENT, b"\0")


def with_a_page_by_chance(dice, draft):
    draft.pages[dice.randrange(len(draft.pages))][:] = page_by_chance(dice)


def with_another_head(dice, draft):
    """A page with another kind, length, count or first digits of its prefix, or with a byte that must be zero."""
    page = dice.choice(draft.pages)
    at = dice.choice((0, 1, 1, 2, 2, 3, 8, 9, 10, 11, 12, 15, 4063))
    page[at] = dice.choice((0, 1, 2, 3, 17, 255, page[at] ^ 1, page[at] ^ 128))


def with_another_record(dice, draft):
    """A page with another byte where its first record stands or might stand."""
    page = dice.choice(draft.pages)
    at = dice.choice((16, 17, 18, 18, 18, 19, 22, 23))
    page[at] = dice.choice((0, 1, 65, 129, 255, page[at] ^ 128, page[at] ^ 1))


def with_records_exchanged(dice, draft):
    full = [page for page in draft.pages if page[0] == LIVE and page[2] > 1]
    if full:
        page = dice.choice(full)
        end = 18 + page[16] + page[17]
        last = end + 2 + page[end] + page[end + 1]
        page[16:last] = page[end:last] + page[16:end]


def with_another_link(dice, draft):
    """A page with another right link or target."""
    place = dice.randrange(len(draft.pages))
    link = draft.link(place) or 0
    draft.set_link(place, dice.choice((0, link + 1, within(link - 1), len(draft.pages), NO_LINK)))


def with_another_target(dice, draft):
    """A forwarding page with another target."""
    forwards = [place for place, page in enumerate(draft.pages) if page[0] == FORWARD]
    if forwards:
        place = dice.choice(forwards)
        count = min(draft.counts()[draft.ward(place)], len(draft.pages))
        draft.set_link(place, dice.choice((dice.randrange(count + 1), dice.randrange(count + 1), count, NO_LINK)))


def with_a_leaf_forwarded(dice, draft):
    """A forwarding page to page 0 in place of a live one without a record."""
    empty = [page for page in draft.pages if page[0] == LIVE and not page[2] and any(page[8:12])]
    if empty:
        page = dice.choice(empty)
        page[:8] = struct.pack(">B3xI", FORWARD, 0)


def with_a_page_of_another_ward(dice, draft):
    """A page without a record whose low bound is another one, maybe of another ward."""
    empty = [page for page in draft.pages if page[0] == FORWARD or not page[2]]
    lone = [page for place, page in enumerate(draft.pages[:16]) if page in empty and draft.counts()[place] == 1]
    if empty:
        page = dice.choice(dice.choice((empty, lone)) or empty)
        page[8] ^= dice.choice((128, 64, 32, 16))
        page[1] = page[1] and dice.choice((page[1], max(page[1], 4)))


# ---- bytes


def altered(dice, content, place, at):
    """The file with another byte at a place of a block, whose digest is made right."""
    start = place * BLOCK
    block = bytearray(content[start : start + CONTENT])
    block[at] = dice.choice((0, 1, 2, 3, 17, 255, block[at] ^ 1, block[at] ^ 128))
    return content[:start] + sealed(bytes(block)) + content[start + BLOCK :]


def walk_blocks_of(content):
    return range(1, len(content) // BLOCK, OF_GROUP + 1)


def with_another_first_byte(dice, content):
    return altered(dice, content, 0, dice.randrange(8))


def with_another_version(dice, content):
    """The file with the number of a version, of which some aren't read."""
    number = dice.choice((*(version.number for version in KNOWN), 0, 4, 4, 4, 259, 768, PLACED.number))
    return sealed(content[:8] + number.to_bytes(2, "big") + content[10:CONTENT]) + content[BLOCK:]


def with_a_header_that_is_not_padded(dice, content):
    return altered(dice, content, 0, dice.choice((13, 16, 19, 100, 4063, dice.randrange(100, CONTENT))))


def with_a_byte_behind_the_cells(dice, content):
    """The file with a byte behind the last cell of a walk block, which may be where one more would stand."""
    blocks = walk_blocks_of(content)
    place = dice.choice(blocks)
    count = OF_GROUP if place != blocks[-1] else len(content) // BLOCK - place - 1
    at = dice.choice((count * CELL, CONTENT - 1, dice.randrange(count * CELL, CONTENT)))
    return altered(dice, content, place, at)


def with_another_byte_of_cells(dice, content):
    place = dice.choice(walk_blocks_of(content))
    return altered(dice, content, place, dice.randrange(CELL * min(OF_GROUP, len(content) // BLOCK - place - 1)))


def with_blocks_exchanged(dice, content):
    """Two blocks behind the header in each other's places."""
    blocks = [content[at : at + BLOCK] for at in range(0, len(content), BLOCK)]
    one, other = dice.randrange(1, len(blocks)), dice.randrange(1, len(blocks))
    blocks[one], blocks[other] = blocks[other], blocks[one]
    return b"".join(blocks)


def torn(dice, content):
    """The file with a digit turned behind its version, its digest left: in a header, a walk block or a page."""
    places = (0, dice.choice(walk_blocks_of(content)), dice.randrange(1, len(content) // BLOCK))
    place = dice.choice(places)
    at = place * BLOCK + dice.choice((dice.randrange(10, BLOCK), dice.randrange(CONTENT, BLOCK)))
    return content[:at] + bytes([content[at] ^ 1 << dice.randrange(8)]) + content[at + 1 :]


def with_an_empty_group(_, content):
    """The file with a walk block of no page behind its end."""
    return content + sealed(b"")


# How often each change of a draft is made.
WAYS = {
    with_another_setting: 3,
    with_a_low_cap: 4,
    with_another_count: 5,
    with_a_count_moved: 7,
    with_other_stamps: 1,
    with_another_number: 3,
    with_another_slot_number: 3,
    with_a_slot_less: 2,
    with_another_slot_page: 4,
    with_a_merge_of_another_page: 15,
    with_a_split_of_another_ward: 5,
    with_a_slot_more: 4,
    with_a_short_slot: 3,
    with_a_slot_twice: 4,
    with_a_slot_at_another_length: 2,
    with_cells_exchanged: 3,
    with_a_page_named_in_an_empty_slot: 1,
    with_births_in_another_order: 3,
    with_first_places_exchanged: 6,
    with_a_page_more: 3,
    with_a_page_less: 2,
    with_pages_exchanged: 3,
    with_a_page_by_chance: 4,
    with_another_head: 7,
    with_another_record: 3,
    with_records_exchanged: 3,
    with_another_link: 4,
    with_another_target: 6,
    with_a_leaf_forwarded: 3,
    with_a_page_of_another_ward: 12,
}
# The same of changes of bytes.
RAW_WAYS = {
    with_another_first_byte: 3,
    with_another_version: 4,
    with_a_header_that_is_not_padded: 3,
    with_a_byte_behind_the_cells: 4,
    with_another_byte_of_cells: 1,
    with_blocks_exchanged: 2,
}


def changed(dice, right):
    """The right file with some changes, its digests right."""
    draft = Draft(right)
    for way in dice.choices(list(WAYS), list(WAYS.values()), k=dice.choice((0, 1, 1, 1, 1, 2))):
        way(dice, draft)
    content = draft.content()
    for way in dice.choices(list(RAW_WAYS), list(RAW_WAYS.values()), k=dice.choice((0, 0, 0, 1))):
        content = way(dice, content)
    return content


def broken(dice, right):
    """The right file with some changes; seldom torn, cut or made longer, and seldom as it was."""
    content, chance = changed(dice, right), dice.randrange(100)
    if dice.randrange(100) < TORN:
        content = torn(dice, content)
    for limit, way in ((CUT, cut), (CUT + LONGER, lengthened), (CUT + LONGER + EMPTY_GROUP, with_an_empty_group)):
        if chance < limit:
            return way(dice, content)
    return content
