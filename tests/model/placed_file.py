"""The bytes of a page file of version 3: each page has its place for good, and a cell beside it.

A file is written of pages and tables alone. In which order the pages were born is told by the wards in turn: each of
them once for each of its pages behind its page 0.
"""

import struct
from typing import NamedTuple

from .bits import low_bound
from .page_file import BLOCK, CONTENT, KEYERS, MAGIC, page_block, sealed
from .version import PLACED

# The bytes of a cell, the cells of a walk block, the slots of a cell, and the bytes of a stamp.
CELL = 164
OF_GROUP = 24
SLOTS = 20
STAMP = 8
# Where the stamps stand in a header: the file's own, and the one before it.
STAMPS = 84
# Those that the reader draws for a new file.
DRAWN = b"its own ", b"before\0\0"
EMPTY = (0, 0)


class Page(NamedTuple):
    """A page that is to be written: its low bound and its block."""

    low: str
    block: bytes


class Cell(NamedTuple):
    """What stands beside a page: its number in its ward, and for each length a slot's number and page."""

    number: int
    slots: list

    def content(self):
        return struct.pack(f">I{2 * SLOTS}I", self.number, *(field for slot in self.slots for field in slot))


def walk_block_at(group):
    """The block in which the cells of a group stand."""
    return 1 + (OF_GROUP + 1) * group


def page_block_at(place):
    """The block in which the page at a place stands."""
    return 2 + place + place // OF_GROUP


def in_groups(items):
    return [items[at : at + OF_GROUP] for at in range(0, len(items), OF_GROUP)]


def ward_by_ward(pages):
    """The wards in turn where each has all its births before the next one's."""
    return [ward for ward, its in enumerate(pages) for _ in its[1:]]


def births_of(pages, wards_in_turn):
    """The pages with their numbers in the order of their births: those of number 0 first."""
    births, numbers = [(its[0], 0) for its in pages], [1] * len(pages)
    for ward in wards_in_turn:
        births.append((pages[ward][numbers[ward]], numbers[ward]))
        numbers[ward] += 1
    if numbers != list(map(len, pages)):
        raise ValueError("the wards in turn aren't those of the pages")
    return births


def cells_of(births, ward_bits, numbers):
    """The cells of pages in the order of their births, by the number of the entry at each prefix."""
    places = {page.low: place for place, (page, _) in enumerate(births)}

    def slot(low, length):
        prefix = low[:length]
        if length < ward_bits or "1" in low[length:] or prefix not in numbers:
            return EMPTY
        return numbers[prefix], places[low_bound(prefix + "1")]

    return [Cell(number, [slot(page.low, length) for length in range(SLOTS)]) for page, number in births]


def header_of(settings, counts, stamps):
    """The header of a cap, the ward bits and a keyer's number, of counts of pages and of two stamps."""
    counts = [*counts, *[0] * (16 - len(counts))]
    fields = struct.pack(">HBBB7x", PLACED.number, *settings) + struct.pack(">16I", *counts)
    return sealed(MAGIC + fields + b"".join(stamps))


def placed_bytes(settings, pages, numbers, stamps, wards_in_turn=None):
    """The file of each ward's pages, and of the number of the entry at each prefix."""
    cap, ward_bits, keyer = settings
    births = births_of(pages, ward_by_ward(pages) if wards_in_turn is None else wards_in_turn)
    cells = cells_of(births, ward_bits, numbers)
    blocks = [header_of((cap, ward_bits, KEYERS[keyer]), list(map(len, pages)), stamps)]
    for group, beside in zip(in_groups(births), in_groups(cells)):
        blocks.append(sealed(b"".join(cell.content() for cell in beside)))
        blocks += [page.block for page, _ in group]
    return b"".join(blocks)


def placed_file(file, stamps, wards_in_turn=None):
    """The bytes of the page file of version 3 of wards."""
    pages = [
        [Page(low, page_block(file, ward, number, PLACED)) for number, low in enumerate(ward.lows)]
        for ward in file.wards
    ]
    numbers = {prefix: entry.version for ward in file.wards for prefix, entry in ward.table().items()}
    return placed_bytes((file.cap, file.ward_bits, file.keyer), pages, numbers, stamps, wards_in_turn)


def stamp_after(stamp):
    """The stamp that the reader draws after another: it has no byte of that."""
    return bytes(255 - it for it in stamp)


def stamps_of(content):
    """The two stamps of a file of version 3."""
    return content[STAMPS : STAMPS + STAMP], content[STAMPS + STAMP : STAMPS + 2 * STAMP]


def is_placed(content):
    """Whether bytes are read as a file of version 3."""
    return int.from_bytes(content[8:10], "big") == PLACED.number


def with_stamps(content, stamps):
    """The file with other stamps."""
    head = content[:STAMPS] + b"".join(stamps)
    return sealed(head + content[len(head) : CONTENT]) + content[BLOCK:]


def shuffled(dice, file):
    """The wards in turn where the pages of a file are born in any order."""
    return dice.sample(turns := [ward.number for ward in file.wards for _ in ward.lows[1:]], len(turns))
