"""What a call makes of a page file of version 3, block by block; the rest of the file may be damaged, and isn't asked."""

import struct
from typing import NamedTuple

from .bits import low_bound, parent_of, pseudokey_of
from .file import File
from .other_files import with_block
from .page_file import BLOCK, FORWARD, LIVE, MAGIC, NO_LINK, field_of, sealed
from .page_reader import HEAD, ILLEGAL, TRAILING, TRUNCATED, Fault, Forward, Live, keyer_of
from .placed_file import (
    EMPTY,
    OF_GROUP,
    SLOTS,
    STAMP,
    STAMPS,
    Cell,
    header_of,
    is_placed,
    page_block_at,
    stamp_after,
    stamps_of,
    walk_block_at,
)
from .placed_reader import PlacedReader
from .version import LIMIT, NUMBER_LIMIT, PLACED

# The replies of calls that are done.
DONE = ("new", "was", "swapped")


def is_in_place(content):
    """Whether a call changes a file in place: its first bytes, up to the stamps' end, are those of one of version 3."""
    return is_placed(content) and content.startswith(MAGIC) and len(content) >= STAMPS + 2 * STAMP


class Home(NamedTuple):
    """The live page of a key, and its place."""

    place: int
    page: Live


class PlacedChange(PlacedReader):
    """A call over the blocks of a file, of which the content has those that it changed so far."""

    def __init__(self, content):
        super().__init__(content)
        self.head = self.header()
        self.keyer = keyer_of(self.head.keyer)
        blocks, end = len(content) // BLOCK, page_block_at(self.head.pages() - 1) + 1
        if blocks != end:
            raise Fault(TRUNCATED if blocks < end else TRAILING)

    def value(self, key):
        """The value that a key has; none where it has none."""
        _, page = self.home_of(self.head, pseudokey_of(self.keyer, key))
        return dict(page.records).get(key)

    def call(self, call):
        """The reply, and the content afterwards, which is the old one where the call isn't done."""
        before, pseudokey = self.content, pseudokey_of(self.keyer, call.key)
        home = Home(*self.home_of(self.head, pseudokey))
        while call.word == "put" and self.overflows(home.page, call.key):
            home = self.split(home, pseudokey)
        reply, records = self.answered(home.page, call)
        if reply.word not in DONE:
            return reply, before
        self.put_page(home.place, home.page._replace(records=records))
        if call.word == "del":
            self.merge(home)
        own, _ = stamps_of(before)
        self.put_head(self.head.counts, (stamp_after(own), own))
        return reply, self.content

    def overflows(self, page, key):
        """Whether a page must be split before it takes a key."""
        is_full = len(page.records) >= self.head.cap and len(page.prefix) < LIMIT
        return is_full and key not in dict(page.records)

    def answered(self, page, call):
        """What the map machine answers over the records of a page, and what it leaves of them."""
        file = File(self.head.cap, self.head.ward_bits, self.keyer, dict(page.records))
        reply = file.answer(call)
        return reply, [(key, file.map[key]) for key in file.keys_under("")]

    # ---- splits and merges

    def split(self, home, pseudokey):
        """Splits the home of a pseudokey. Gives its home then."""
        prefix, cell = home.page.prefix, self.cell(home.place)
        number, place = cell.slots[len(prefix)]
        if number % 2:
            raise Fault(ILLEGAL)
        place, in_ward = self.revived(prefix, place) if number else self.added(prefix)
        left, right = (Home(at, self.half_of(home.page, it)) for at, it in ((home.place, "0"), (place, "1")))
        left = left._replace(page=left.page._replace(right=in_ward))
        self.put_change(home.place, cell, len(prefix), place)
        for half in (left, right):
            self.put_page(*half)
        return right if pseudokey.startswith(right.page.prefix) else left

    def half_of(self, page, digit):
        """The half of a page on whose records' pseudokeys the digit follows its prefix."""
        prefix = page.prefix + digit
        records = [(key, value) for key, value in page.records if pseudokey_of(self.keyer, key).startswith(prefix)]
        return Live(low_bound(prefix), prefix, page.right, records)

    def added(self, prefix):
        """The place and the number of a page behind the others, in the ward of a prefix."""
        counts, place = list(self.head.counts), self.head.pages()
        ward = int(low_bound(prefix)[: self.head.ward_bits] or "0", 2)
        number = counts[ward]
        counts[ward] += 1
        if not self.head._replace(counts=counts).is_in_range():
            raise Fault(ILLEGAL)
        cells = self.group(place // OF_GROUP)
        self.put_head(counts, stamps_of(self.content))
        self.put_group(place // OF_GROUP, [*cells, Cell(number, [EMPTY] * SLOTS)])
        return place, number

    def revived(self, prefix, place):
        """The place and the number of the forwarding page that stood for the right half of a prefix before."""
        if place >= self.head.pages():
            raise Fault(ILLEGAL)
        number = self.cell(place).number
        if number == NUMBER_LIMIT:
            raise Fault(ILLEGAL)
        page = self.page_at(place)
        if not isinstance(page, Forward) or page.low != low_bound(prefix + "1"):
            raise Fault(ILLEGAL)
        return place, number

    def merge(self, home):
        """Merges the page that a key left with its buddy, where both are live and at most half full together."""
        if len(home.page.prefix) <= self.head.ward_bits:
            return
        parent, place = parent_of(home.page.prefix), home.place
        if home.page.prefix.endswith("1"):
            place, _ = self.home_of(self.head, low_bound(parent))
        left = self.page_at(place)
        if not is_live(left, parent + "0"):
            return
        cell = self.cell(place)
        number, right_place = cell.slots[len(parent)]
        if number % 2 == 0 or right_place >= self.head.pages():
            raise Fault(ILLEGAL)
        right = self.page_at(right_place)
        if number == NUMBER_LIMIT or not is_live(right, parent + "1"):
            return
        if len(left.records) + len(right.records) <= self.head.cap // 2:
            self.put_change(place, cell, len(parent), right_place)
            self.put_page(place, Live(left.low, parent, right.right, left.records + right.records))
            self.put_page(right_place, Forward(right.low, cell.number))

    # ---- blocks

    def page_at(self, place):
        self.place = page_block_at(place) - 1
        return self.page(self.keyer)

    def group(self, group):
        """The cells of a group, which may begin behind the last page."""
        count = min(OF_GROUP, self.head.pages() - group * OF_GROUP)
        return self.walk_block(group, count) if count else []

    def cell(self, place):
        return self.group(place // OF_GROUP)[place % OF_GROUP]

    def put_block(self, place, block):
        self.content = with_block(self.content, place, block)

    def put_head(self, counts, stamps):
        self.head = self.head._replace(counts=tuple(counts))
        self.put_block(0, header_of((self.head.cap, self.head.ward_bits, self.head.keyer), counts, stamps))

    def put_group(self, group, cells):
        self.put_block(walk_block_at(group), sealed(b"".join(cell.content() for cell in cells)))

    def put_change(self, place, cell, length, page):
        """Gives a slot of the cell at a place the next number, and a page."""
        cells = self.group(place // OF_GROUP)
        cell.slots[length] = cell.slots[length][0] + 1, page
        cells[place % OF_GROUP] = cell
        self.put_group(place // OF_GROUP, cells)

    def put_page(self, place, page):
        self.put_block(page_block_at(place), block_of(page))


def is_live(page, prefix):
    return isinstance(page, Live) and page.prefix == prefix


def block_of(page):
    """The block of a page."""
    if isinstance(page, Forward):
        return sealed(struct.pack(">B3xI", FORWARD, page.target) + field_of(page.low, PLACED.width))
    link = NO_LINK if page.right is None else page.right
    head = struct.pack(">BBBxI", LIVE, len(page.prefix), len(page.records), link)
    records = b"".join(bytes([len(key), len(value)]) + key + value for key, value in page.records)
    return sealed((head + field_of(page.prefix, PLACED.width)).ljust(HEAD, b"\0") + records)
