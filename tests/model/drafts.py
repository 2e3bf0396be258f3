"""A page file of version 3 taken apart, so that one thing of it can be changed, and put together with right digests."""

import struct

from .bits import digits_of, low_bound
from .page_file import BLOCK, CONTENT, FORWARD, NO_LINK, sealed
from .placed_file import CELL, OF_GROUP, SLOTS, in_groups, page_block_at, walk_block_at
from .version import NUMBER_LIMIT, PLACED

COUNTS = 20


class Draft:
    """The header's content, the ward bits, the pages' contents by their places, and of each cell the number and the slots.

    It may be changed so that it is no file any more, and so each change takes it as one that may be none.
    """

    def __init__(self, content):
        """Takes a right file apart."""
        self.header = bytearray(content[:CONTENT])
        self.ward_bits = content[11]
        self.pages, self.numbers, self.slots = [], [], []
        for place in range(sum(self.counts())):
            start = page_block_at(place) * BLOCK
            self.pages.append(bytearray(content[start : start + CONTENT]))
            start = walk_block_at(place // OF_GROUP) * BLOCK + place % OF_GROUP * CELL
            number, *fields = struct.unpack(f">I{2 * SLOTS}I", content[start : start + CELL])
            self.numbers.append(number)
            self.slots.append(list(zip(fields[::2], fields[1::2])))

    def content(self):
        """The file put together."""
        beside = [
            struct.pack(f">I{2 * SLOTS}I", number, *(field for slot in slots for field in slot))
            for number, slots in zip(self.numbers, self.slots)
        ]
        blocks = [bytes(self.header)]
        for cells, pages in zip(in_groups(beside), in_groups(self.pages)):
            blocks += [b"".join(cells), *map(bytes, pages)]
        return b"".join(map(sealed, blocks))

    def counts(self):
        return list(struct.unpack(">16I", self.header[COUNTS : COUNTS + 64]))

    def set_count(self, ward, count):
        self.header[COUNTS + 4 * ward : COUNTS + 4 * ward + 4] = min(count, NUMBER_LIMIT).to_bytes(4, "big")

    def low(self, place):
        """The low bound of the page at a place."""
        return low_bound(digits_of(int.from_bytes(self.pages[place][8:12], "big"), 32))

    def places(self):
        """The place of each low bound."""
        return {self.low(place): place for place in range(len(self.pages))}

    def ward(self, place):
        return int(self.low(place)[: self.ward_bits] or "0", 2)

    def filled(self):
        """The place and the length of each slot whose number isn't 0."""
        lengths = range(PLACED.limit)
        return [(place, it) for place, slots in enumerate(self.slots) for it in lengths if slots[it][0]]

    def link(self, place):
        """The page to which a page's image leads; none of a live page without a right link."""
        link = int.from_bytes(self.pages[place][4:8], "big")
        return link if self.pages[place][0] == FORWARD or link != NO_LINK else None

    def set_link(self, place, link):
        self.pages[place][4:8] = min(link, NUMBER_LIMIT).to_bytes(4, "big")

    def reorder(self, order):
        """Brings the pages into another order, with what is beside them; the slots name them where they are then."""
        after = {before: place for place, before in enumerate(order)}
        self.pages = [self.pages[before] for before in order]
        self.numbers = [self.numbers[before] for before in order]
        named = [self.slots[before] for before in order]
        self.slots = [[(number, after.get(page, page)) for number, page in slots] for slots in named]

    def renumber(self):
        """Gives each page the number that its place gives it, and leads each link to the page where it led."""
        old = [(self.ward(place), number) for place, number in enumerate(self.numbers)]
        before, numbers = {}, []
        for ward, _ in old:
            numbers.append(before.get(ward, 0))
            before[ward] = numbers[-1] + 1
        new = {ward_and_number: number for ward_and_number, number in zip(old, numbers)}
        for place, (ward, _) in enumerate(old):
            if (ward, self.link(place)) in new:
                self.set_link(place, new[ward, self.link(place)])
        self.numbers = numbers
