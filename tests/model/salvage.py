"""What `salvage` prints of the bytes of a file, whatever they are, and what it says of them.

Blocks stand at multiples of their length from the first byte on. A block is lost where its digest is wrong, the bytes
end amid it, or it can't be read; one of another kind than a live page has no pairs.
"""

from typing import NamedTuple

from .grammar import printed
from .page_file import BLOCK, KEYERS
from .page_reader import DIGEST, BlockReader, Fault, Live
from .version import CURRENT

# How many lost blocks are named.
SHOWN = 8


class Pair(NamedTuple):
    """A pair and the block in which it stands."""

    block: int
    key: bytes
    value: bytes


class Salvage(NamedTuple):
    """The pairs of the live pages in the order of the blocks, how many blocks and live pages there are, and the lost
    ones."""

    pairs: list
    blocks: int
    live: int
    lost: list

    @property
    def status(self):
        return 5 if self.lost else 0

    def said(self, path):
        """The lines on standard error."""
        met, lines = {}, []
        for one in self.pairs:
            if one.key in met:
                lines.append(repeat_line(path, one, met[one.key]))
            met[one.key] = one.block
        lines += [f"exhash: {path}: block {it} is lost" for it in self.lost[:SHOWN]]
        if len(self.lost) > SHOWN:
            lines.append(f"exhash: {path}: further lost blocks: {len(self.lost) - SHOWN}")
        return [*lines, f"exhash: {path}: {self.blocks} blocks, {self.live} live pages, {len(self.lost)} lost blocks"]

    @property
    def map(self):
        """What an import of the text leaves in a new file: of a key that is met twice the last value."""
        return {it.key: it.value for it in self.pairs}


def repeat_line(path, one, earlier):
    both = "both pairs are printed, that of block"
    where = f"is in block {earlier} and in block {one.block}"
    return f"exhash: {path}: key {printed(one.key)} {where}: {both} {one.block} behind the other"


def page_in(block):
    """The page of which a block is the image under a keyer, in the current version, which has those of the others; none
    where it is that of none."""
    for keyer in KEYERS:
        try:
            return BlockReader(block, CURRENT).page(keyer)
        except Fault as fault:
            if fault.number == DIGEST:
                return None
    return None


def is_lost(block):
    return len(block) < BLOCK or BlockReader(block, CURRENT).is_torn(block)


def salvage_of(content, unread=()):
    """What is saved of some bytes, of which the blocks at some places can't be read."""
    blocks = [content[at : at + BLOCK] for at in range(0, len(content), BLOCK)]
    lost = [at for at, it in enumerate(blocks) if at in unread or is_lost(it)]
    pages = [None if at in lost else page_in(it) for at, it in enumerate(blocks)]
    pairs = [Pair(at, *it) for at, page in enumerate(pages) if isinstance(page, Live) for it in page.records]
    live = sum(isinstance(it, Live) for it in pages)
    return Salvage(pairs, len(blocks), live, lost)
