"""Page files of version 3 by chance of which the reader must say what they are: right ones, and ones with faults.

The right ones have the pages that scripts and loads leave, and others of any shape, born in any order, with any stamps.
One to three changes are made to such a file; nine in ten have right digests afterwards, so that what a digest would
find first is found by the later tests.
"""

import collections
import functools
import random
from typing import NamedTuple

from .broken_ways import broken
from .file import Call, File
from .file_reader import file_of, reader_of
from .hostile_files import fill, right_file, split, tell_table
from .legal import TESTS
from .page_file import put
from .page_reader import OF_VERSION, Fault
from .placed_file import OF_GROUP, is_placed, placed_file, shuffled
from .stories import story_of
from .version import KEY_LIMIT

# Files that are made one after the other of one right file.
OF_ONE = 50
LEGAL, OTHER_VERSION, NO_PAGE = "legal", "of another version", "for a ward without a page"
FULL_GROUP = "a full last group"
# What the number of a fault in a block says of it.
IN_BLOCKS = range(30, 36)
# Pairs of a load.
PAIRS = (0, 5, 30, 60, 100, 150)
# Pages that fill groups, and those next to them.
NEAR_GROUPS = tuple(groups * OF_GROUP + by for groups in (1, 2, 3) for by in (-1, 0, 0, 1))


class Broken(NamedTuple):
    """A file by chance: its bytes, a key to be asked for, and what came up in it."""

    content: bytes
    key: bytes
    met: collections.Counter


def kind_of(place):
    """The kind of the block at a place."""
    if place == 0:
        return "the header"
    return "a page" if (place - 1) % (OF_GROUP + 1) else "a walk block"


def names_of(content):
    """What is counted of what a file is: its fault, in which kind of block, for which reason and point."""
    try:
        file_of(content)
    except Fault as fault:
        name = f"refused {fault.number}" + (f" reason {fault.reason}" if fault.reason else "")
        if not is_placed(content):
            return [name] if fault.number == OF_VERSION else [OTHER_VERSION]
        if fault.number in IN_BLOCKS:
            return [name, f"{name} of {kind_of(fault.place)}"]
        return [name, *(points_of(content, fault.reason) if fault.reason else [])]
    return [LEGAL]


def points_of(content, reason):
    """What is counted of a reason: the point of the last that alone doesn't hold, and a ward without a page."""
    placed = reader_of(content).placed()
    parts = placed.parts()
    if reason != len(TESTS):
        return [NO_PAGE] if reason == 2 and not all(parts.pages) else []
    points = placed.faults(parts)
    return [f"for {points[0]} alone"] if len(points) == 1 else ["for several points"]


# Right files.


def saved_by_a_story(dice, number):
    """A file that a story's run left."""
    for seed in range(10 * number, 10 * number + 10):
        runs = [run for run in story_of(seed).runs if run.status == 0]
        contents = [content for run in runs for name, content in run.files.items() if name != "damaged.exh"]
        if contents:
            return file_of(dice.choice(contents))
    raise ValueError("no story saves a file")


def loaded(dice, _):
    """A file of pairs by chance, which are put one after the other."""
    keyer = dice.choice(("sha", "plain"))
    file = File.empty(dice.choice((1, 2, 3, 4)), dice.randrange(5), keyer)
    for _ in range(dice.choice(PAIRS)):
        key = dice.randbytes(dice.choice((1, 2, 2, 3, 3, KEY_LIMIT)))
        put(file, Call("put", key, dice.randbytes(dice.randrange(3))))
    return file.opened()


def of_any_shape(_, number):
    return file_of(right_file(number)[0])


def of_whole_groups(dice, _):
    """A file of as many pages as groups have, or one more or less."""
    file, count = File.empty(dice.choice((1, 3)), dice.randrange(5), "plain"), dice.choice(NEAR_GROUPS)
    while sum(len(ward.lows) for ward in file.wards) < count:
        ward = dice.choice(file.wards)
        split(ward, dice.choice(sorted(ward.leaves, key=len)[: len(ward.leaves) // 2 + 1]))
    for ward in file.wards:
        tell_table(dice, ward)
    fill(dice, file)
    return file


MAKERS = (saved_by_a_story, loaded, of_any_shape, of_whole_groups)


@functools.lru_cache(maxsize=2)
def right_placed(number):
    """The right file of a number: its bytes, its keys, and what came up in it."""
    dice = random.Random(f"placed file {number}")
    file = MAKERS[number % len(MAKERS)](dice, number)
    turns, stamps = shuffled(dice, file), (dice.randbytes(8), dice.randbytes(8))
    count = sum(len(ward.lows) for ward in file.wards)
    met = [f"keyer {file.keyer}", f"wards {len(file.wards)}", "one group" if count <= OF_GROUP else "several groups"]
    met += [FULL_GROUP] * (count % OF_GROUP == 0)
    met += ["births not ward by ward"] * (turns != sorted(turns))
    return placed_file(file, stamps, turns), sorted(file.map), collections.Counter(met)


# Broken files.


def broken_file(seed):
    """The file of a seed."""
    dice = random.Random(f"broken file {seed}")
    right, keys, met = right_placed(seed // OF_ONE)
    content = broken(dice, right)
    key = dice.choice(keys) if keys and dice.randrange(100) < 80 else dice.randbytes(dice.choice((1, 2, 3)))
    return Broken(content, key, met + collections.Counter(names_of(content)))
