"""How many bytes a commit of one put reads and writes, over files of many pages."""

import struct
import tempfile
from pathlib import Path
from typing import NamedTuple

from .in_place import PLACE
from .page_file import BLOCK, LIVE, NO_LINK, sealed
from .placed_file import DRAWN, EMPTY, OF_GROUP, SLOTS, Cell, header_of
from .store_program import Wrong
from .store_trials import asked, store_run

# The pages of a small file.
FEW = 1000
# A put of a new key changes its page, and the header, which has the stamps.
OF_A_PUT = 2
# It reads the header, at most 20 blocks of the walk to the key, and the page; the header and the log's more than once.
READ_OF_A_PUT = 32
# For how long a file of many pages may be opened.
OPENING = 600


class Leaf(NamedTuple):
    """A page of a tree: its low bound as a number, its length, and for each length the page at which it was split."""

    low: int
    length: int
    slots: dict


def leaves_of(count):
    """So many leaves, in order, of a tree that is as even as can be."""

    def below(low, length, first, count):
        if count == 1:
            leaves.append(Leaf(low, length, slots[first]))
            slots[first] = None
            return
        half = count - count // 2
        slots[first][length] = (1, first + half)
        below(low, length + 1, first, half)
        below(low | 1 << (63 - length), length + 1, first + half, count - half)

    leaves, slots = [], [{} for _ in range(count)]
    below(0, 0, 0, count)
    return leaves


def lay_many(file, count):
    """Writes a file of version 3 with so many pages, none of which has a record, born in order."""
    leaves = leaves_of(count)
    file.write(header_of((16, 0, 1), [count], DRAWN))
    for first in range(0, count, OF_GROUP):
        group = leaves[first : first + OF_GROUP]
        cells = (Cell(first + at, [leaf.slots.get(it, EMPTY) for it in range(SLOTS)]) for at, leaf in enumerate(group))
        file.write(sealed(b"".join(it.content() for it in cells)))
        for at, leaf in enumerate(group, first + 1):
            right = at if at < count else NO_LINK
            file.write(sealed(struct.pack(">BB2xIQ", LIVE, leaf.length, right, leaf.low)))


def written(told):
    """The bytes that a recording of calls tells to have been written to each file, by its name."""
    counts, at = {}, 0
    while at < len(told):
        fields = []
        for _ in range(5):
            end = told.index(b"\n", at)
            fields.append(told[at:end].decode())
            at = end + 1
        name, file, _, _, size = fields
        if name == "write":
            counts[Path(file).name] = counts.get(Path(file).name, 0) + int(size)
        at += int(size)
    return counts


def bytes_read(run):
    """The bytes that a run has read until now, as the system counts them."""
    counts = dict(line.split(": ") for line in Path(f"/proc/{run.run.pid}/io").read_text().splitlines())
    return int(counts["rchar"])


class Costs(NamedTuple):
    """The bytes that a commit read, and those that it wrote to each file."""

    read: int
    written: dict


def commit_of_a_put(program, library, pages, room):
    """What a commit of one put costs over a file of so many pages."""
    with tempfile.TemporaryDirectory(dir=room) as folder, tempfile.TemporaryFile() as tells:
        with Path(folder, PLACE).open("wb") as file:
            lay_many(file, pages)
        told = {"LD_PRELOAD": library, "RECORDED": str(Path(folder).resolve()), "RECORD_TO": str(tells.fileno())}
        with store_run(program, folder, [tells.fileno()], **told) as run:
            run.ask(f"open {PLACE} 0")
            if run.answer(OPENING) != "done":
                raise Wrong(f"a file of {pages} pages isn't opened")
            asked(run, {"put k v": "new"})
            before = bytes_read(run)
            run.ask("commit")
            if run.answer(OPENING) != "done":
                raise Wrong(f"a file of {pages} pages isn't committed")
            read = bytes_read(run) - before
            run.end()
        tells.seek(0)
        return Costs(read, written(tells.read()))


def wrong_counts(program, library, pages, room):
    """What is wrong of what a commit of one put costs over so many pages, beside a file of few; or None."""
    try:
        few, many = (commit_of_a_put(program, library, count, room) for count in (FEW, pages))
    except Wrong as what:
        return str(what)
    if few.written.get(PLACE) != OF_A_PUT * BLOCK:
        return f"of {FEW} pages it writes {few.written} bytes"
    if set(many.written) - set(few.written) or any(many.written[name] > few.written[name] for name in many.written):
        return f"of {pages} pages it writes {many.written} bytes, and of {FEW} pages {few.written}"
    if max(few.read, many.read) > READ_OF_A_PUT * BLOCK:
        return f"of {pages} pages it reads {many.read} bytes, and of {FEW} pages {few.read}"
    return None
