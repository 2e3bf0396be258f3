"""Entries and notices, and what follows from a set of entries that somebody was told.

What somebody was told is a frozen set of pairs of a prefix and an entry. In which order it was told, and how often,
can't be said by a set; so its table, its walks and its leaves can't depend on it.
"""

import enum
import functools
from typing import NamedTuple

from .bits import low_bound
from .version import LIMIT


class Kind(enum.IntEnum):
    """What a change was, in the order of entries of one version."""

    MERGE = 0
    SPLIT = 1


class Entry(NamedTuple):
    """What a notice leaves at its prefix. Entries are in the order of these fields; `right` is 0 of a merge."""

    version: int
    kind: Kind
    right: int = 0

    def text(self):
        """The entry's words, as in the lines `notice` and `entry`."""
        what = f"split right {self.right}" if self.kind is Kind.SPLIT else "merge"
        return f"number {self.version} {what}"


class Notice(NamedTuple):
    """What a split or a merge tells."""

    ward: int
    index: int
    prefix: str
    entry: Entry

    def told(self):
        """What somebody who takes the notice is told."""
        return self.prefix, self.entry


@functools.lru_cache(maxsize=256)
def table_of(told):
    """The greatest entry at each prefix, in the order of prefixes."""
    table = {}
    for prefix, entry in told:
        table[prefix] = max(entry, table.get(prefix, entry))
    return dict(sorted(table.items()))


def walk(told, ward_bits, pseudokey):
    """Where the walk for a pseudokey stops: at a prefix, with a page."""
    table, prefix, page = table_of(told), pseudokey[:ward_bits], 0
    while len(prefix) < LIMIT and prefix in table and table[prefix].kind is Kind.SPLIT:
        digit = pseudokey[len(prefix)]
        page = table[prefix].right if digit == "1" else page
        prefix += digit
    return prefix, page


@functools.lru_cache(maxsize=256)
def leaves_of(told, ward_bits):
    """Where walks stop: pairs of a prefix and a page, in the order of prefixes."""
    leaves, low = [], low_bound("")
    while low is not None:
        prefix, page = walk(told, ward_bits, low)
        leaves.append((prefix, page))
        low = next_low(prefix)
    return leaves


def next_low(prefix):
    """The least pseudokey above all that the prefix begins; none behind the last."""
    front = prefix.rstrip("1")
    return low_bound(front[:-1] + "1") if front else None


def depth_of(told, ward_bits):
    """The depth of the directory: the greatest length of a leaf."""
    return max(len(prefix) for prefix, _ in leaves_of(told, ward_bits))
