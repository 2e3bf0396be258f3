"""Files of so many empty pages that wards can't be asked for them one by one."""

import struct

from .bits import digits_of, low_bound
from .page_file import LIVE, NO_LINK, field_of, sealed
from .placed_file import Page, placed_bytes
from .version import PLACED


def leaves_of(own, count):
    """So many prefixes that part a ward, in order."""
    if count == 1:
        return [own]
    return leaves_of(own + "0", count - count // 2) + leaves_of(own + "1", count // 2)


def empty_page(leaf, right):
    head = struct.pack(">BB2xI", LIVE, len(leaf), right)
    return sealed(head + field_of(leaf, PLACED.width))


def ward_of(own, count, dice):
    """The pages of a ward of so many, those behind the first numbered by chance, and its entries' numbers."""
    leaves = leaves_of(own, count)
    births = [0, *dice.sample(range(1, count), count - 1)]
    numbers = {leaf: number for number, leaf in enumerate(births)} | {count: NO_LINK}
    pages = [Page(low_bound(leaves[at]), empty_page(leaves[at], numbers[at + 1])) for at in births]
    fronts = {leaf[:length] for leaf in leaves for length in range(len(own), len(leaf))}
    return pages, dict.fromkeys(fronts, 1)


def file_of_many(dice, ward_bits, counts, stamps):
    """The file of wards with so many empty pages each, born in any order."""
    pages, numbers = [], {}
    for ward, count in enumerate(counts):
        its, entries = ward_of(digits_of(ward, ward_bits), count, dice)
        pages.append(its)
        numbers |= entries
    turns = [ward for ward, count in enumerate(counts) for _ in range(count - 1)]
    dice.shuffle(turns)
    return placed_bytes((1, ward_bits, "sha"), pages, numbers, stamps, turns)
