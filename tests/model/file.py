"""A file's wards and the one map of its records: what a hop, a split and a merge come to."""

from dataclasses import dataclass, field
from typing import NamedTuple

from .bits import digits_of, low_bound, lowest_cleared, parent_of, pseudokey_of
from .tables import Entry, Kind, Notice, table_of
from .version import LIMIT, NUMBER_LIMIT


class Refused(Exception):
    """A step or a view that is refused, with its number."""

    def __init__(self, number):
        super().__init__(number)
        self.number = number


class Call(NamedTuple):
    """What a request asks: `value` is what a put or a swap gives, `old` what a swap has to find; else both are empty."""

    word: str
    key: bytes
    value: bytes = b""
    old: bytes = b""


class Reply(NamedTuple):
    """What a call is answered: `is`, `was` or `differs` with a value, `none`, `new`, `full` or `swapped`."""

    word: str
    value: bytes | None = None


class Moved(NamedTuple):
    """The outcome of a hop that goes on at another page."""

    page: int


class MustSplit(NamedTuple):
    """The outcome of a hop that waits for a split."""


class Stray(NamedTuple):
    """The outcome of a hop that can't lead to the key."""


@dataclass
class Ward:
    """A ward: its prefix, what its start table tells, its leaves, its pages' low bounds, its notices."""

    number: int
    prefix: str
    start: frozenset = frozenset()
    leaves: set = field(default_factory=set)
    # The low bound of each page, by its number.
    lows: list = field(default_factory=list)
    notices: list = field(default_factory=list)

    def told(self):
        """What the ward's own table was told."""
        return self.start.union(notice.told() for notice in self.notices)

    def table(self):
        return table_of(self.told())

    def has_page(self, number):
        return number < len(self.lows)

    def leaf_of(self, number):
        """The prefix of a live page; none of a forwarding one."""
        low = self.lows[number]
        return next((leaf for leaf in self.leaves if low_bound(leaf) == low), None)

    def page_at(self, low):
        """The number of the page of a low bound; none where there is no such page."""
        return self.lows.index(low) if low in self.lows else None

    def right_of(self, leaf):
        """The number of the live page with the next greater low bound, if there is one."""
        greater = [low for low in map(low_bound, self.leaves) if low > low_bound(leaf)]
        return self.page_at(min(greater)) if greater else None

    def target_of(self, number):
        """The page that a forwarding page leads to."""
        return self.page_at(lowest_cleared(self.lows[number]))

    def distance(self, number, pseudokey):
        """How many moves a page is from the answer for a pseudokey."""
        forwards = 0
        while (leaf := self.leaf_of(number)) is None:
            number = self.target_of(number)
            forwards += 1
        return forwards + sum(low_bound(leaf) < low <= pseudokey for low in map(low_bound, self.leaves))

    def change(self, prefix, kind, right=0):
        """Issues the next notice at a prefix."""
        table = self.table()
        version = table[prefix].version + 1 if prefix in table else 1
        index = sum(entry.version for entry in table.values()) + 1
        notice = Notice(self.number, index, prefix, Entry(version, kind, right))
        self.notices.append(notice)
        return notice


@dataclass
class File:
    """The settings of a file, its records, and its wards."""

    cap: int
    ward_bits: int
    keyer: str
    map: dict = field(default_factory=dict)
    wards: list = field(default_factory=list)

    @classmethod
    def empty(cls, cap, ward_bits, keyer):
        """A new file: each ward has one page, live, without a record."""
        prefixes = [digits_of(number, ward_bits) for number in range(2**ward_bits)]
        wards = [Ward(it, own, leaves={own}, lows=[low_bound(own)]) for it, own in enumerate(prefixes)]
        return cls(cap, ward_bits, keyer, wards=wards)

    def opened(self):
        """The file as it is after it was saved and opened: its tables are where it starts."""

        def again(ward):
            start = frozenset(ward.table().items())
            return Ward(ward.number, ward.prefix, start, set(ward.leaves), list(ward.lows))

        return File(self.cap, self.ward_bits, self.keyer, dict(self.map), [again(ward) for ward in self.wards])

    def pseudokey(self, key):
        return pseudokey_of(self.keyer, key)

    def ward_of(self, key):
        """The ward of a key."""
        own = self.pseudokey(key)[: self.ward_bits]
        return next(ward for ward in self.wards if ward.prefix == own)

    def keys_under(self, prefix):
        """The keys whose pseudokeys the prefix begins, in the order of records."""
        keys = [key for key in self.map if self.pseudokey(key).startswith(prefix)]
        return sorted(keys, key=lambda key: (self.pseudokey(key), key))

    def count_under(self, prefix):
        """How many records the live page of a prefix has."""
        return sum(self.pseudokey(key).startswith(prefix) for key in self.map)

    def answer(self, call):
        """The map machine: what a call is answered. The map is afterwards what the machine leaves."""
        before = self.map.get(call.key)
        if call.word == "get":
            return Reply("none") if before is None else Reply("is", before)
        if call.word == "del":
            self.map.pop(call.key, None)
            return Reply("none") if before is None else Reply("was", before)
        if call.word == "swap":
            return self.answer_swap(call, before)
        if before is None and self.count_under(self.pseudokey(call.key)[:LIMIT]) >= self.cap:
            return Reply("full")
        self.map[call.key] = call.value
        return Reply("new") if before is None else Reply("was", before)

    def answer_swap(self, call, before):
        """What a swap is answered, over a key that has a value, or none."""
        if before is None:
            return Reply("none")
        if before != call.old:
            return Reply("differs", before)
        self.map[call.key] = call.value
        return Reply("swapped")

    def hop(self, ward, number, call):
        """The hop table: what one hop of a call at a page comes to."""
        pseudokey = self.pseudokey(call.key)
        if not ward.has_page(number) or ward.lows[number] > pseudokey:
            return Stray()
        leaf = ward.leaf_of(number)
        if leaf is None:
            return Moved(ward.target_of(number))
        if not pseudokey.startswith(leaf):
            return Moved(ward.right_of(leaf))
        adds = call.word == "put" and call.key not in self.map
        if adds and self.count_under(leaf) >= self.cap and len(leaf) < LIMIT:
            return MustSplit()
        return self.answer(call)

    def live_leaf(self, ward_number, number):
        """The ward of a number and the prefix of its live page of a number."""
        if ward_number >= len(self.wards):
            raise Refused(24)
        ward = self.wards[ward_number]
        if not ward.has_page(number):
            raise Refused(1)
        leaf = ward.leaf_of(number)
        if leaf is None:
            raise Refused(3)
        return ward, leaf

    def split(self, ward_number, number):
        """Splits a page. Gives the notice, and whether a forwarding page became live again."""
        ward, leaf = self.live_leaf(ward_number, number)
        if self.count_under(leaf) < self.cap:
            raise Refused(4)
        if len(leaf) >= LIMIT:
            raise Refused(5)
        right = low_bound(leaf + "1")
        is_revived = right in ward.lows
        if not is_revived:
            ward.lows.append(right)
        ward.leaves ^= {leaf, leaf + "0", leaf + "1"}
        return ward.change(leaf, Kind.SPLIT, ward.page_at(right)), is_revived

    def merge(self, ward_number, number):
        """Merges a page with its right buddy. Gives the notice."""
        ward, leaf = self.live_leaf(ward_number, number)
        if leaf == ward.prefix or leaf.endswith("1"):
            raise Refused(6)
        parent = parent_of(leaf)
        if parent + "1" not in ward.leaves:
            raise Refused(7)
        if self.count_under(parent) > self.cap:
            raise Refused(8)
        if ward.table()[parent].version == NUMBER_LIMIT:
            raise Refused(9)
        ward.leaves ^= {parent, parent + "0", parent + "1"}
        return ward.change(parent, Kind.MERGE)
