"""Logs as a page file of version 3 has them, laid by their format: a header, and a frame for each block, signed."""

import struct

from .page_file import BLOCK

VERSION = 3007000
# The magic number of a log whose checksum reads words with the lowest byte first.
MAGIC = 0x377F0682
HEADER, FRAME_HEADER = 32, 24
# Of the bytes behind the header the last shuts a log that has no commit.
EMPTY = 41
# How many bytes of the header are alike in all logs of blocks.
FRONT = 12
# A log of fewer bytes has no change.
LEAST = 56


def checksum(content, start=(0, 0)):
    """The checksum behind some words, going on from another."""
    first, second = start
    for low, high in struct.iter_unpack("<II", content):
        first = (first + low + second) & 0xFFFFFFFF
        second = (second + high + first) & 0xFFFFFFFF
    return first, second


def header(salt=b"saltsalt", block=BLOCK, count=0):
    """The signed header of a log for blocks of a length."""
    front = struct.pack(">IIII", MAGIC, VERSION, block, count) + salt
    return front + struct.pack(">II", *checksum(front))


def shut(log, salt=b"saltsalt"):
    """A log that is shut behind its last frame: a frame's bytes up to the one that shuts it, as an opening leaves it."""
    return log + bytes(EMPTY - HEADER - 1) + bytes([salt[0] ^ 1])


def empty_log(salt=b"saltsalt"):
    """A log that was emptied: its header, and nothing behind it."""
    return shut(header(salt), salt)


def log_of(commits, count, salt=b"saltsalt"):
    """The log of some commits, each the blocks by their places that it writes, of a file that has so many behind each."""
    log = header(salt)
    total = struct.unpack(">II", log[24:])
    for blocks in commits:
        for number, (place, content) in enumerate(sorted(blocks.items(), reverse=True), 1):
            front = struct.pack(">II", place + 1, count if number == len(blocks) else 0)
            total = checksum(content, checksum(front, total))
            log += front + salt + struct.pack(">II", *total) + content
    return log


def changed_blocks(before, after):
    """The blocks of a file that differ from those before, by their places."""
    places = range(len(after) // BLOCK)
    blocks = {at: after[at * BLOCK : (at + 1) * BLOCK] for at in places}
    return {at: block for at, block in blocks.items() if block != before[at * BLOCK : (at + 1) * BLOCK]}


def has_other_front(log):
    """Whether a log begins otherwise than all logs of blocks, open or shut by its first byte, and isn't begun with zeros."""
    first, front = log[:1], log[1:FRONT]
    is_own = first in (b"", b"\0", header()[:1]) and front == header()[1:FRONT][: len(front)]
    return not is_own and (len(log) > LEAST or any(log))
