"""Prefixes and pseudokeys as text of the digits 0 and 1.

A pseudokey, and a low bound, has 64 digits. As text of one length they are in the order of the numbers that they spell,
and prefixes, whose length differs, are as text in their own order: by low bound, then by length.
"""

import functools
import hashlib

WORD_BITS = 64


def digits_of(number, length):
    """The number in so many binary digits."""
    return format(number, f"0{length}b") if length else ""


def low_bound(prefix):
    """The least pseudokey that the prefix begins."""
    return prefix.ljust(WORD_BITS, "0")


def lowest_cleared(low):
    """The low bound without the last of its digits that is 1."""
    return low_bound(low[: max(low.rfind("1"), 0)])


def parent_of(prefix):
    """The prefix without its last digit."""
    return prefix[:-1]


def prefix_text(prefix):
    """The prefix as it is printed."""
    return prefix or "-"


@functools.lru_cache(maxsize=1 << 16)
def pseudokey_of(keyer, key):
    """The pseudokey that the keyer makes of the key's bytes."""
    content = hashlib.sha256(key).digest() if keyer == "sha" else key
    return digits_of(int.from_bytes(content[:8].ljust(8, b"\0"), "big"), WORD_BITS)
