"""What stands in a page file, as pages and entries, and the six reasons for which it isn't legal."""

import itertools
from typing import NamedTuple

from .bits import WORD_BITS, digits_of, low_bound, lowest_cleared
from .file import File, Ward
from .page_reader import Forward, Live
from .tables import Kind


class Parts(NamedTuple):
    """What stands in a file: for each ward its pages, and the entries with their wards."""

    cap: int
    ward_bits: int
    keyer: str
    pages: list
    entries: list

    def wards(self):
        """Each ward's prefix and pages."""
        return [(digits_of(number, self.ward_bits), pages) for number, pages in enumerate(self.pages)]

    def file(self):
        """The file that has these parts."""
        file = File(self.cap, self.ward_bits, self.keyer)
        for number, (own, pages) in enumerate(self.wards()):
            start = frozenset((prefix, entry) for ward, prefix, entry in self.entries if ward == number)
            leaves = {page.prefix for page in lives(pages)}
            file.wards.append(Ward(number, own, start, leaves, [page.low for page in pages]))
            file.map |= {key: value for page in lives(pages) for key, value in page.records}
        return file


def lives(pages):
    return [page for page in pages if isinstance(page, Live)]


def keep_cap(parts):
    return all(len(page.records) <= parts.cap for pages in parts.pages for page in lives(pages))


def have_lows(parts):
    for own, pages in parts.wards():
        lows = [page.low for page in pages]
        if not pages or not isinstance(pages[0], Live) or lows[0] != low_bound(own):
            return False
        if len(set(lows)) < len(lows) or not all(low.startswith(own) for low in lows):
            return False
    return True


def have_leaves(parts):
    for own, pages in parts.wards():
        prefixes = sorted(page.prefix for page in lives(pages))
        are_long = all(len(prefix) >= parts.ward_bits for prefix in prefixes)
        are_apart = not any(other.startswith(one) for one, other in itertools.pairwise(prefixes))
        covered = sum(2 ** (WORD_BITS - len(prefix)) for prefix in prefixes)
        if not are_long or not are_apart or covered != 2 ** (WORD_BITS - len(own)):
            return False
    return True


def have_links(parts):
    for pages in parts.pages:
        numbers = sorted((page.low, number) for number, page in enumerate(pages) if isinstance(page, Live))
        following = [number for _, number in numbers[1:]] + [None]
        if any(pages[number].right != right for (_, number), right in zip(numbers, following)):
            return False
    return True


def have_targets(parts):
    for pages in parts.pages:
        lows = {page.low: number for number, page in enumerate(pages)}
        forwards = [page for page in pages if isinstance(page, Forward)]
        if any(lows.get(lowest_cleared(page.low)) != page.target for page in forwards):
            return False
    return True


def has_table(parts):
    splits, merges = {}, set()
    for own, pages in parts.wards():
        lows = {page.low: number for number, page in enumerate(pages)}
        fronts = {page.prefix[:length] for page in lives(pages) for length in range(len(own), len(page.prefix))}
        splits |= {front: lows[low_bound(front + "1")] for front in fronts}
        merges |= {page.low[: page.low.rindex("1")] for page in pages if isinstance(page, Forward)}
    told = {Kind.SPLIT: set(), Kind.MERGE: set()}
    for ward, prefix, entry in parts.entries:
        is_own = ward < len(parts.pages) and prefix[: parts.ward_bits] == digits_of(ward, parts.ward_bits)
        has_version = entry.version >= 1 and (entry.version % 2 == 1) == (entry.kind is Kind.SPLIT)
        is_right = entry.kind is Kind.MERGE or splits.get(prefix) == entry.right
        if not is_own or not has_version or not is_right:
            return False
        told[entry.kind].add(prefix)
    return told == {Kind.SPLIT: set(splits), Kind.MERGE: merges}


# The tests of the reasons 1 to 6, in this order.
TESTS = (keep_cap, have_lows, have_leaves, have_links, have_targets, has_table)
