"""What the bytes of a page file of version 3 say, or the first fault of bytes that are none."""

import itertools
import struct
from typing import NamedTuple

from .bits import low_bound, pseudokey_of
from .legal import TESTS, Parts, has_table
from .page_file import BLOCK, CONTENT, KEYERS, MAGIC
from .page_reader import (
    DIGEST,
    ILLEGAL,
    LENGTH,
    OF_MAGIC,
    OF_VERSION,
    PADDING,
    TRAILING,
    BlockReader,
    Fault,
    Live,
    has_digit,
    keyer_of,
)
from .placed_file import CELL, OF_GROUP, SLOTS, STAMP, STAMPS, Cell, page_block_at, walk_block_at
from .tables import Entry, Kind
from .version import CAP_LIMIT, PLACED, WARD_BITS_LIMIT

COUNTS = 20
WARDS_LIMIT = 2**WARD_BITS_LIMIT


class Header(NamedTuple):
    """The fields of a header of version 3."""

    cap: int
    ward_bits: int
    keyer: int
    counts: tuple

    def pages(self):
        return sum(self.counts)

    def is_in_range(self):
        if not 1 <= self.cap <= CAP_LIMIT or self.ward_bits > WARD_BITS_LIMIT or self.keyer not in KEYERS.values():
            return False
        wards, most = 2**self.ward_bits, 2 ** (PLACED.limit - self.ward_bits)
        return all(1 <= count <= most for count in self.counts[:wards]) and not any(self.counts[wards:])


class PlacedReader(BlockReader):
    """Reads a file of version 3, block by block. A fault within a block is told with its place."""

    def __init__(self, content):
        super().__init__(content, PLACED)

    def block_at(self, place):
        self.place = place - 1
        return self.block()

    def header(self):
        block = self.block()
        if block[: len(MAGIC)] != MAGIC:
            raise Fault(OF_MAGIC)
        number, *fields = struct.unpack(">HBBB", block[8:13])
        if number != PLACED.number:
            raise Fault(OF_VERSION)
        self.fails(DIGEST, self.is_torn(block))
        header = Header(*fields, struct.unpack(f">{WARDS_LIMIT}I", block[COUNTS:STAMPS]))
        self.fails(LENGTH, not header.is_in_range())
        self.fails(PADDING, has_digit(block[13:COUNTS] + block[STAMPS + 2 * STAMP : CONTENT]))
        return header

    def walk_block(self, group, count):
        """The cells of a group of so many pages."""
        block = self.block_at(walk_block_at(group))
        self.fails(DIGEST, self.is_torn(block))
        cells = [cell_of(block[at : at + CELL]) for at in range(0, count * CELL, CELL)]
        slots = itertools.chain.from_iterable(cell.slots for cell in cells)
        self.fails(PADDING, any(page and not number for number, page in slots))
        self.fails(PADDING, has_digit(block[count * CELL : CONTENT]))
        return cells

    def placed(self):
        """All that stands in the file."""
        header = self.header()
        keyer, pages, cells = keyer_of(header.keyer), [], []
        for group in range(-(-header.pages() // OF_GROUP)):
            count = min(OF_GROUP, header.pages() - len(pages))
            cells += self.walk_block(group, count)
            pages += [self.page(keyer) for _ in range(count)]
        if len(self.content) > (self.place + 1) * BLOCK:
            raise Fault(TRAILING)
        return Placed(header, pages, cells)

    def file(self):
        """The whole file."""
        placed = self.placed()
        parts = placed.parts()
        for reason, test in enumerate(TESTS[:-1], 1):
            if not test(parts):
                raise Fault(ILLEGAL, reason=reason)
        if placed.faults(parts):
            raise Fault(ILLEGAL, reason=len(TESTS))
        return parts.file()

    def home_of(self, header, pseudokey):
        """The place of the page to which the cells lead a pseudokey, and the page, by the cells on its walk and it alone."""
        groups, count, keyer = {}, header.pages(), keyer_of(header.keyer)
        place = int(pseudokey[: header.ward_bits] or "0", 2)
        for length in range(header.ward_bits, PLACED.limit):
            group, at = divmod(place, OF_GROUP)
            if group not in groups:
                groups[group] = self.walk_block(group, min(OF_GROUP, count - group * OF_GROUP))
            number, page = groups[group][at].slots[length]
            if number % 2 == 0:
                break
            if pseudokey[length] == "1" and page >= count:
                raise Fault(ILLEGAL)
            place = page if pseudokey[length] == "1" else place
        self.place = page_block_at(place) - 1
        page = self.page(keyer)
        if not isinstance(page, Live) or not pseudokey.startswith(page.prefix):
            raise Fault(ILLEGAL)
        return place, page

    def value_of(self, key):
        """The value of a key, by the header, the cells on its walk and one page alone; none where it has none."""
        header = self.header()
        _, page = self.home_of(header, pseudokey_of(keyer_of(header.keyer), key))
        return dict(page.records).get(key)


def cell_of(content):
    number, *fields = struct.unpack(f">I{2 * SLOTS}I", content)
    return Cell(number, list(zip(fields[::2], fields[1::2])))


class Placed(NamedTuple):
    """What stands in a file of version 3: its pages and their cells, by their places."""

    header: Header
    pages: list
    cells: list

    def wards(self):
        """The ward of each page."""
        return [int(page.low[: self.header.ward_bits] or "0", 2) for page in self.pages]

    def numbers(self):
        """How many pages of its ward stand before each page."""
        before = [0] * 2**self.header.ward_bits
        numbers = []
        for ward in self.wards():
            numbers.append(before[ward])
            before[ward] += 1
        return numbers

    def slots(self):
        """Each slot whose number isn't 0: its page's place, its length, its number and its page."""
        for place, cell in enumerate(self.cells):
            for length, (number, page) in enumerate(cell.slots):
                if number:
                    yield place, length, number, page

    def parts(self):
        """Each ward's pages in the order of their places, and the table that the cells come to."""
        pages = [[] for _ in range(2**self.header.ward_bits)]
        wards, numbers = self.wards(), self.numbers()
        for ward, page in zip(wards, self.pages):
            pages[ward].append(page)
        entries = []
        for place, length, number, page in self.slots():
            kind = Kind.SPLIT if number % 2 else Kind.MERGE
            right = numbers[page] if page < len(numbers) else None
            entry = Entry(number, kind, right if kind is Kind.SPLIT else 0)
            entries.append((wards[place], self.pages[place].low[:length], entry))
        return Parts(self.header.cap, self.header.ward_bits, keyer_of(self.header.keyer), pages, entries)

    def faults(self, parts):
        """The names of the points of reason 6 that don't hold."""
        tests = {
            TABLE: has_table(parts),
            FIRST_PLACES: self.wards()[: len(parts.pages)] == list(range(len(parts.pages))),
            COUNTED: list(map(len, parts.pages)) == list(self.header.counts[: len(parts.pages)]),
            NUMBERED: self.numbers() == [cell.number for cell in self.cells],
            SLOT_LENGTH: not any("1" in self.pages[place].low[length:] for place, length, _, _ in self.slots()),
            NO_PLACE: all(page < len(self.pages) for *_, page in self.slots()),
            OTHER_LOW: all(self.is_at_its_low(*slot) for slot in self.slots()),
        }
        return [name for name, holds in tests.items() if not holds]

    def is_at_its_low(self, place, length, _, page):
        """Whether the page of a slot, where it is one, has the low bound of the right half of the slot's prefix."""
        right = low_bound(self.pages[place].low[:length] + "1")
        return page >= len(self.pages) or self.pages[page].low == right


# The points of reason 6.
TABLE, FIRST_PLACES, COUNTED, NUMBERED = "the table", "the first places", "the counts", "a page's number"
SLOT_LENGTH, NO_PLACE, OTHER_LOW = "a slot's length", "a slot's page is no place", "a slot's page of another low bound"
POINTS = (TABLE, FIRST_PLACES, COUNTED, NUMBERED, SLOT_LENGTH, NO_PLACE, OTHER_LOW)
