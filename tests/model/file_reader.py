"""What the bytes of a page file say, or the first fault of bytes that are none.

The reader here is that of versions 1 and 2, whose entries stand in table blocks.
"""

import struct
from typing import NamedTuple

from .bits import pseudokey_of
from .legal import TESTS, Parts
from .page_file import BLOCK, CONTENT, ENTRIES_OF_BLOCK, KEYERS, MAGIC, MERGE, SPLIT
from .page_reader import (
    DIGEST,
    ILLEGAL,
    KIND,
    LENGTH,
    OF_MAGIC,
    OF_VERSION,
    ORDER,
    PADDING,
    PREFIX,
    TRAILING,
    BlockReader,
    Fault,
    Live,
    are_rising,
    digits_in,
    has_digit,
    keyer_of,
)
from .placed_file import is_placed
from .placed_reader import PlacedReader
from .tables import Entry, Kind
from .version import CAP_LIMIT, CURRENT, FIRST, LIMIT, WARD_BITS_LIMIT

IMAGE = 16


class Header(NamedTuple):
    """The fields of a header."""

    cap: int
    ward_bits: int
    keyer: int
    entries: int
    counts: tuple


class Reader(BlockReader):
    """Reads a file of version 1 or 2, block by block. A fault within a block is told with its place."""

    def __init__(self, content):
        super().__init__(content, version_of(content))

    def header(self):
        block = self.block()
        if block[:8] != MAGIC:
            raise Fault(OF_MAGIC)
        number, *fields = struct.unpack(">HBBB3xI", block[8:20])
        if number != self.version.number:
            raise Fault(OF_VERSION)
        self.fails(DIGEST, self.is_torn(block))
        header = Header(*fields, struct.unpack(">16I", block[20:84]))
        self.fails(LENGTH, not self.is_in_range(header))
        self.fails(PADDING, has_digit(block[13:16] + block[84:CONTENT]))
        return header

    def is_in_range(self, header):
        limit = self.version.limit
        if not 1 <= header.cap <= CAP_LIMIT or header.ward_bits > WARD_BITS_LIMIT:
            return False
        wards, most = 2**header.ward_bits, 2 ** (limit - header.ward_bits)
        are_counted = all(1 <= count <= most for count in header.counts[:wards])
        is_few = header.entries < 2**limit and not any(header.counts[wards:])
        return header.keyer in KEYERS.values() and are_counted and is_few

    def table(self, count, last):
        """So many entries of a table block, which come after the prefix of the last one."""
        block = self.block()
        self.fails(DIGEST, self.is_torn(block))
        entries = [self.entry(block[at : at + IMAGE]) for at in range(0, count * IMAGE, IMAGE)]
        self.fails(PADDING, any(block[count * IMAGE : CONTENT]))
        self.fails(ORDER, not are_rising([*last, *(prefix for _, prefix, _ in entries)]))
        return entries

    def entry(self, image):
        """The ward, the prefix and the entry of an image."""
        ward, kind, length, zero = image[:4]
        field = image[4 : 4 + self.version.width]
        change_version, right = struct.unpack(">II", image[8:])
        self.fails(KIND, kind not in (SPLIT, MERGE))
        self.fails(PADDING, zero or any(image[4 + len(field) : 8]) or kind == MERGE and right)
        digits = digits_in(field)
        self.fails(PREFIX, length >= self.version.limit or "1" in digits[length:])
        return ward, digits[:length], Entry(change_version, Kind.SPLIT if kind == SPLIT else Kind.MERGE, right)

    def tables(self, count):
        """The entries of the table blocks that come next, so many."""
        entries = []
        while len(entries) < count:
            most = min(ENTRIES_OF_BLOCK, count - len(entries))
            entries += self.table(most, [prefix for _, prefix, _ in entries[-1:]])
        return entries

    def sought(self, header, blocks, prefix):
        """The entry at a prefix with its ward, by the table blocks that lie in the middle of what is left; none where
        there is none. Blocks that were read are known by their numbers."""
        least, end = 0, -(-header.entries // ENTRIES_OF_BLOCK)
        while least < end:
            middle = least + (end - least) // 2
            if middle not in blocks:
                self.place = sum(header.counts) + middle
                blocks[middle] = self.table(min(ENTRIES_OF_BLOCK, header.entries - middle * ENTRIES_OF_BLOCK), [])
            prefixes = [it for _, it, _ in blocks[middle]]
            if prefixes[0] <= prefix <= prefixes[-1]:
                return blocks[middle][prefixes.index(prefix)] if prefix in prefixes else None
            least, end = (least, middle) if prefix < prefixes[0] else (middle + 1, end)
        return None

    def named_page(self, header, ward, pseudokey):
        """The page that the splits of a ward name for a pseudokey."""
        number, blocks = 0, {}
        for length in range(header.ward_bits, LIMIT):
            found = self.sought(header, blocks, pseudokey[:length])
            if not found or found[0] != ward or found[2].kind is not Kind.SPLIT:
                break
            number = found[2].right if pseudokey[length] == "1" else number
        return number

    def value_of(self, key):
        """The value of a key, by the header, some table blocks and the pages on the key's way; none where it has none."""
        header = self.header()
        pseudokey = pseudokey_of(keyer_of(header.keyer), key)
        ward = int(pseudokey[: header.ward_bits] or "0", 2)
        first, count = 1 + sum(header.counts[:ward]), header.counts[ward]
        number = self.named_page(header, ward, pseudokey)
        # Of a ward that tells more pages than the file has, the first that isn't there ends it.
        there = max(len(self.content) // BLOCK - first, 0)
        for _ in range(min(count, there + 1)):
            if number is None or number >= count:
                break
            self.place = first + number - 1
            page = self.page(keyer_of(header.keyer))
            if isinstance(page, Live) and pseudokey.startswith(page.prefix):
                return dict(page.records).get(key)
            number = page.leads_to(pseudokey)
        raise Fault(ILLEGAL)

    def file(self):
        """The whole file."""
        header = self.header()
        keyer = keyer_of(header.keyer)
        pages = [[self.page(keyer) for _ in range(count)] for count in header.counts[: 2**header.ward_bits]]
        entries = self.tables(header.entries)
        if len(self.content) > (self.place + 1) * BLOCK:
            raise Fault(TRAILING)
        parts = Parts(header.cap, header.ward_bits, keyer, pages, entries)
        for reason, test in enumerate(TESTS, 1):
            if not test(parts):
                raise Fault(ILLEGAL, reason=reason)
        return parts.file()


def version_of(content):
    """The version by whose rules bytes are read that don't name version 3: the first where they name it, else the
    second, whatever they name."""
    return FIRST if int.from_bytes(content[8:10], "big") == FIRST.number else CURRENT


def reader_of(content):
    """The reader of bytes, by the version that they name and that the commands read."""
    return PlacedReader(content) if is_placed(content) else Reader(content)


def file_of(content):
    """The file that the bytes are, as it is when it is opened, or their first fault."""
    return reader_of(content).file()


def value_in(content, key):
    """The value that a key has in the file that the bytes are, or the first fault on the key's way."""
    return reader_of(content).value_of(key)
