"""Page files of version 3 with several faults that the same block has, or the whole file, so that one must be first.

Which fault is answered is told here by the order in which docs/FORMATS.md tests, and not by reading the file.
"""

import collections
import random
from typing import NamedTuple

from .broken_files import right_placed
from .drafts import Draft
from .page_file import BLOCK, CONTENT, FORWARD, LIVE, NO_LINK
from .placed_file import EMPTY, OF_GROUP, page_block_at, walk_block_at
from .version import CAP_LIMIT, KEY_LIMIT, PLACED, VALUE_LIMIT

# Files that are made one after the other of one right file.
OF_ONE = 50
HEADER, WALK_BLOCK, PAGE, WHOLE = "the header", "a walk block", "a page", "the whole"
CUT, TORN, MORE = "38", "34", "39"


class Crowded(NamedTuple):
    """A file with several faults: its bytes, the line that `check` prints, and the faults that came up, in order."""

    content: bytes
    line: str
    met: collections.Counter


# Each makes a fault in a draft, at a place where that has one, and says whether it could.


def another_magic(dice, draft, _):
    draft.header[dice.randrange(8)] ^= 1 << dice.randrange(8)
    return True


def another_version(dice, draft, _):
    draft.header[8:10] = dice.choice((0, 4, 5, 255, 256, 259, 768)).to_bytes(2, "big")
    return True


def field_out_of_range(dice, draft, _):
    at, value = dice.choice(((10, 0), (10, CAP_LIMIT + 1), (11, 5), (11, 255), (12, 0), (12, 3), (20, 1)))
    draft.header[at] = value
    return True


def unpadded_header(dice, draft, _):
    draft.header[dice.choice((*range(13, 20), 100, 101, CONTENT - 1))] = 1
    return True


def unpadded_walk_block(dice, draft, place):
    """A page in a slot without a number."""
    empty = [length for length, slot in enumerate(draft.slots[place]) if slot == EMPTY]
    draft.slots[place][dice.choice(empty)] = 0, dice.randrange(1, 5)
    return True


def another_kind(dice, draft, place):
    draft.pages[place][0] = dice.choice((0, 3, 128, 255))
    return True


def length_out_of_range(dice, draft, place):
    """More records than a page may have, or a record's length that is out of range."""
    page = draft.pages[place]
    of_records = ((16, 0), (16, KEY_LIMIT + 1), (17, VALUE_LIMIT + 1)) if page[2] else ()
    at, value = dice.choice(((2, CAP_LIMIT + 1), (2, 255), *of_records))
    page[at] = value
    return True


def unpadded_page(dice, draft, place):
    draft.pages[place][dice.choice((3, 12, 15, CONTENT - 1))] = 1
    return True


def another_prefix(dice, draft, place):
    """A length that is out of range, or a bit of a prefix that none can have."""
    page = draft.pages[place]
    at, value = dice.choice(((1, PLACED.limit + 1), (1, 255), (11, page[11] | 1), (10, page[10] | 8)))
    page[at] = value
    return True


def records_out_of_order(_, draft, place):
    page = draft.pages[place]
    if page[0] != LIVE or page[2] < 2:
        return False
    end = 18 + page[16] + page[17]
    last = end + 2 + page[end] + page[end + 1]
    page[16:last] = page[end:last] + page[16:end]
    return True


def low_cap(_, draft, __):
    draft.header[10] = 1
    return any(page[0] == LIVE and page[2] > 1 for page in draft.pages)


def two_lows(dice, draft, _):
    """A page once more at the end, with its cell."""
    place = dice.randrange(len(draft.pages))
    ward = draft.ward(place)
    draft.pages.append(bytearray(draft.pages[place]))
    draft.slots.append([EMPTY] * PLACED.limit)
    draft.numbers.append(draft.counts()[ward])
    draft.set_count(ward, draft.counts()[ward] + 1)
    return True


def longer_leaf(dice, draft, _):
    """A leaf that leaves out a half of what it had; it has no record."""
    leaves = [page for page in draft.pages if page[0] == LIVE and not page[2] and page[1] < PLACED.limit]
    if leaves:
        dice.choice(leaves)[1] += 1
    return bool(leaves)


def another_link(dice, draft, _):
    place = dice.choice([place for place, page in enumerate(draft.pages) if page[0] == LIVE])
    link = draft.link(place)
    draft.set_link(place, dice.choice((0, 7)) if link is None else dice.choice((link + 1, NO_LINK)))
    return True


def another_target(dice, draft, _):
    forwards = [place for place, page in enumerate(draft.pages) if page[0] == FORWARD]
    if forwards:
        place = dice.choice(forwards)
        draft.set_link(place, draft.link(place) + dice.choice((1, 2)))
    return bool(forwards)


def another_table(dice, draft, _):
    """A page's number that is another, or a slot without its entry."""
    place = dice.randrange(len(draft.numbers))
    filled = draft.filled()
    if filled and dice.randrange(2):
        place, length = dice.choice(filled)
        draft.slots[place][length] = EMPTY
    else:
        draft.numbers[place] += 1
    return True


# The faults of each kind of block, in the order of the tests. What isn't made in a draft is done at last.
FAULTS = {
    HEADER: {
        CUT: None,
        "36": another_magic,
        "37": another_version,
        TORN: None,
        "31": field_out_of_range,
        "33": unpadded_header,
    },
    WALK_BLOCK: {CUT: None, TORN: None, "33": unpadded_walk_block},
    PAGE: {
        CUT: None,
        TORN: None,
        "30": another_kind,
        "31": length_out_of_range,
        "33": unpadded_page,
        "35": another_prefix,
        "32": records_out_of_order,
    },
    WHOLE: {
        MORE: None,
        "40 reason 1": low_cap,
        "40 reason 2": two_lows,
        "40 reason 3": longer_leaf,
        "40 reason 4": another_link,
        "40 reason 5": another_target,
        "40 reason 6": another_table,
    },
}
PLACELESS = ("36", "37", CUT, MORE)


def names_of_pairs():
    """The names of each fault and the one that is tested next."""
    return [f"{kind}: {one}, {other}" for kind, its in FAULTS.items() for one, other in zip(its, list(its)[1:])]


def start_of(dice, draft, kind):
    """Which fault of a kind is the first that may be made: often a target's neighbour, where there is a target."""
    has_targets = kind == WHOLE and any(page[0] == FORWARD for page in draft.pages)
    return dice.choice((4, 5, dice.randrange(7))) if has_targets else dice.randrange(len(FAULTS[kind]))


def made(dice, draft, kind, place):
    """Makes some faults of a kind, the last ones first, and gives them in the order of the tests."""
    faults = FAULTS[kind]
    first, *others = list(faults)[start_of(dice, draft, kind) :]
    chosen = [first, *(fault for fault in others if dice.randrange(2))]
    done = [fault for fault in reversed(chosen) if faults[fault] is None or faults[fault](dice, draft, place)]
    return done[::-1]


def block_of(kind, place):
    """The block of a kind that a page at a place has."""
    return {HEADER: 0, WALK_BLOCK: walk_block_at(place // OF_GROUP), PAGE: page_block_at(place), WHOLE: None}[kind]


def with_last_faults(dice, content, faults, block):
    """The file torn in a block, cut in it, or longer, where these are among its faults."""
    if TORN in faults:
        at = block * BLOCK + dice.randrange(CONTENT, BLOCK)
        content = content[:at] + bytes([content[at] ^ 1]) + content[at + 1 :]
    if CUT in faults:
        content = content[: block * BLOCK + dice.choice((0, 1, dice.randrange(BLOCK), BLOCK - 1))]
    return content + bytes(dice.choice((1, BLOCK))) if MORE in faults else content


def crowded_file(seed):
    """The file of a seed; one to which no fault could be made is right."""
    dice = random.Random(f"crowded file {seed}")
    right, _, _ = right_placed(seed // OF_ONE)
    draft, kind = Draft(right), dice.choice((HEADER, WALK_BLOCK, PAGE, PAGE, WHOLE, WHOLE))
    full = [place for place, page in enumerate(draft.pages) if page[0] == LIVE and page[2] > 1]
    place = dice.choice(full or range(len(draft.pages)))
    faults, block = made(dice, draft, kind, place), block_of(kind, place)
    content = with_last_faults(dice, draft.content(), faults, block)
    pairs = [f"{kind}: {one}, {other}" for one, other in zip(faults, faults[1:2])]
    if not faults:
        return Crowded(content, "legal", collections.Counter(["legal"]))
    at = "" if kind == WHOLE or faults[0] in PLACELESS else f" at {block}"
    return Crowded(content, f"refused {faults[0]}{at}", collections.Counter(pairs))
