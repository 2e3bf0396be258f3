"""The two files of version 3 that docs/FORMATS.md writes out byte by byte, and the scripts that leave their pages."""

from pathlib import Path
from typing import NamedTuple

from .page_file import BLOCK, CONTENT, sealed

# What the documents leave open in them.
STAMPS = bytes.fromhex("0123456789abcdef"), bytes.fromhex("fedcba9876543210")
# What `check` prints of them with each byte turned.
TURNED = Path(__file__).with_name("turned_bytes")


def blocks(*contents):
    """Blocks, each told by the bytes from some places on."""
    return b"".join(sealed(filled(content)) for content in contents)


def filled(content):
    block = bytearray(CONTENT)
    for at, digits in content.items():
        told = bytes.fromhex(digits)
        block[at : at + len(told)] = told
    return bytes(block)


class Example(NamedTuple):
    """A file: its bytes, the script or the load that leaves its pages, and the wards of its births in turn."""

    name: str
    content: bytes
    words: list
    given: bytes
    turns: list


THREE_PAIRS = Example(
    "three pairs",
    blocks(
        {0: "45584841 53485046 00030200 02000000 00000000 00000002", 84: b"".join(STAMPS).hex()},
        {0: "00000000 00000001 00000001", 164: "00000001"},
        {0: "01010200 00000001 00000000 00000000 01010061 01014078"},
        {0: "01010100 ffffffff 80000000 00000000 01018062"},
    ),
    ["load", "made.exh"],
    b"file cap=2 wards=0 copies=1 keyer=plain\n#00 a\n#80 b\n#40 x\n",
    [0],
)

TWO_WARDS = Example(
    "two wards",
    blocks(
        {0: "45584841 53485046 00030201 02000000 00000000 00000002 00000002", 84: b"".join(STAMPS).hex()},
        {0: "00000000", 12: "00000002 00000003", 176: "00000001 00000002", 328: "00000001", 492: "00000001"},
        {0: "01010100 ffffffff 00000000 00000000 01010061"},
        {0: "01020100 00000001 80000000 00000000 01018062"},
        {0: "01020100 ffffffff c0000000 00000000 0101c063"},
        {0: "02000000 00000000 40000000 00000000"},
    ),
    ["serve", "--save", "made.exh"],
    b"""file cap=2 wards=1 copies=1 keyer=plain
begin r1 c1 1 put #80 b
hop r1
begin r2 c1 1 put #c0 c
hop r2
split 1 0
begin r3 c1 1 put #00 a
hop r3
begin r4 c1 1 put #40 x
hop r4
split 0 0
begin r5 c1 1 del #40
hop r5
hop r5
merge 0 0
""",
    [1, 0],
)

EXAMPLES = (THREE_PAIRS, TWO_WARDS)


# ---- each byte turned

DIGITS = {"highest": 0x80, "lowest": 0x01}
LEFT, RIGHT = "left", "right"


class Turning(NamedTuple):
    """A digit of a byte of an example turned, the digest of its block left or made right, and what `check` prints."""

    example: str
    digit: str
    digest: str
    at: int
    line: str

    def content(self):
        [content] = (it.content for it in EXAMPLES if it.name == self.example)
        turned = content[: self.at] + bytes([content[self.at] ^ DIGITS[self.digit]]) + content[self.at + 1 :]
        start = self.at - self.at % BLOCK
        if self.digest == RIGHT:
            turned = turned[:start] + sealed(turned[start : start + CONTENT]) + turned[start + BLOCK :]
        return turned


def turnings():
    """All of them. Each line of their file has an example, a digit, a digest, a block, ranges in it, and what is
    printed, with `|` between; a line that isn't so, or a byte that is told twice or not at all, is a mistake in it."""
    told = {}
    for line in TURNED.read_text(encoding="utf-8").splitlines():
        if not line.startswith("#"):
            example, digit, digest, block, ranges, text = line.split(" | ")
            for first, end in (it.split("..") for it in ranges.split(" ")):
                for at in range(int(block) * BLOCK + int(first), int(block) * BLOCK + int(end)):
                    told.setdefault((example, digit, digest), []).append(Turning(example, digit, digest, at, text))
    wanted = {(it.name, digit, digest) for it in EXAMPLES for digit in DIGITS for digest in (LEFT, RIGHT)}
    if set(told) != wanted or any(not are_all(*key, its) for key, its in told.items()):
        raise ValueError(f"{TURNED} doesn't tell each byte once")
    return [turning for its in told.values() for turning in its]


def are_all(example, _, digest, its):
    """Whether these are those of each byte of an example; of its digests only where they are left."""
    [content] = (it.content for it in EXAMPLES if it.name == example)
    places = [at for at in range(len(content)) if digest == LEFT or at % BLOCK < CONTENT]
    return sorted(it.at for it in its) == places
