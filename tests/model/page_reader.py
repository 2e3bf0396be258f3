"""What the blocks of a page file say, and the pages in them; or the first fault of one."""

import hashlib
import itertools
import struct
from typing import NamedTuple

from .bits import digits_of, low_bound, pseudokey_of
from .page_file import BLOCK, CONTENT, FORWARD, KEYERS, LIVE, NO_LINK
from .version import CAP_LIMIT, KEY_LIMIT, VALUE_LIMIT

KIND, LENGTH, ORDER, PADDING, DIGEST, PREFIX = range(30, 36)
OF_MAGIC, OF_VERSION, TRUNCATED, TRAILING, ILLEGAL, READ = range(36, 42)
HEAD = 16


class Fault(Exception):
    """The first fault of a file: its number, the block's place for 30 to 35, the reason for 40."""

    def __init__(self, number, place=None, reason=None):
        super().__init__(number, place, reason)
        self.number, self.place, self.reason = number, place, reason

    def text(self):
        """How `check`, `dump`, `pairs` and `serve --open` print it."""
        place = "" if self.place is None else f" at {self.place}"
        return f"refused {self.number}{place}" + (f" reason {self.reason}" if self.reason else "")


class Live(NamedTuple):
    """A live page as it stands in a file: its records are pairs of a key and a value."""

    low: str
    prefix: str
    right: int | None
    records: list

    def leads_to(self, pseudokey):
        """The page to which it leads from here; none where it leads nowhere."""
        return None if self.low > pseudokey else self.right


class Forward(NamedTuple):
    """A forwarding page as it stands in a file."""

    low: str
    target: int

    def leads_to(self, pseudokey):
        """The same of a forwarding page."""
        return None if self.low > pseudokey else self.target


def keyer_of(number):
    """The word of a keyer."""
    return next(word for word, it in KEYERS.items() if it == number)


def digits_in(field):
    """The binary digits of the bytes of a prefix or a low bound."""
    return digits_of(int.from_bytes(field, "big"), 8 * len(field))


def has_digit(content):
    """Whether a byte of these isn't zero."""
    return content != bytes(len(content))


def are_rising(places):
    return all(one < other for one, other in itertools.pairwise(places))


class BlockReader:
    """Reads blocks, and pages in them, of a version. A fault within a block is told with its place."""

    def __init__(self, content, version):
        self.content, self.version = content, version
        self.place = -1

    def block(self):
        """The next block."""
        self.place += 1
        block = self.content[self.place * BLOCK : (self.place + 1) * BLOCK]
        if len(block) < BLOCK:
            raise Fault(TRUNCATED)
        return block

    def fails(self, number, is_failed):
        """Raises the fault of a test, where that failed."""
        if is_failed:
            raise Fault(number, self.place)

    def is_torn(self, block):
        return hashlib.sha256(block[:CONTENT]).digest() != block[CONTENT:]

    def page(self, keyer):
        block = self.block()
        self.fails(DIGEST, self.is_torn(block))
        kind, length, count = block[:3]
        self.fails(KIND, kind not in (LIVE, FORWARD))
        self.fails(LENGTH, count > CAP_LIMIT or kind == FORWARD and count)
        records, end = self.records(block, count)
        field = block[8 : 8 + self.version.width]
        self.fails(PADDING, block[3] or has_digit(block[8 + len(field) : HEAD] + block[end:CONTENT]))
        digits, [link] = digits_in(field), struct.unpack(">I", block[4:8])
        used = length if kind == LIVE else self.version.limit
        self.fails(PREFIX, length > self.version.limit or "1" in digits[used:])
        if kind == FORWARD:
            self.fails(PREFIX, length or "1" not in digits)
            return Forward(low_bound(digits), link)
        prefix = digits[:length]
        places = [(pseudokey_of(keyer, key), key) for key, _ in records]
        self.fails(PREFIX, not all(pseudokey.startswith(prefix) for pseudokey, _ in places))
        self.fails(ORDER, not are_rising(places))
        return Live(low_bound(prefix), prefix, None if link == NO_LINK else link, records)

    def records(self, block, count):
        """So many records of a page, and where they end."""
        records, at = [], HEAD
        for _ in range(count):
            key, value = block[at : at + 2]
            self.fails(LENGTH, not 1 <= key <= KEY_LIMIT or value > VALUE_LIMIT)
            at += 2 + key + value
            records.append((block[at - key - value : at - value], block[at - value : at]))
        return records, at
