"""What differs between versions of the page file, and the limits that all have."""

from typing import NamedTuple


class Version(NamedTuple):
    """A version of the page file: its number, the most bits of a prefix, and the bytes that these stand in."""

    number: int
    limit: int
    width: int


FIRST = Version(number=1, limit=16, width=2)
# The version whose limit the file keeps, and that is written.
CURRENT = Version(number=2, limit=20, width=4)
# The version in which each page keeps its place, and whose entries stand in cells.
PLACED = Version(number=3, limit=20, width=4)
# Those whose entries stand in table blocks.
KNOWN = (FIRST, CURRENT)
LIMIT = CURRENT.limit

CAP_LIMIT = 16
WARD_BITS_LIMIT = 4
COPY_LIMIT = 8
KEY_LIMIT = 64
VALUE_LIMIT = 128
NUMBER_LIMIT = 2**32 - 1
INDEX_LIMIT = 2**64 - 1
SCRIPT_LIMIT = 2**20
