"""Settings, keys, values and wrong lines by chance, so that rare things happen often."""

import collections
import functools
import re
from typing import NamedTuple

from .bits import pseudokey_of
from .command_line import ANY_FURTHER
from .grammar import hexadecimal, printed
from .request import is_taken
from .version import KEY_LIMIT, LIMIT, NUMBER_LIMIT, VALUE_LIMIT

# How many bytes the longest prefix takes.
FRONT = -(-LIMIT // 8)
WARD_BITS = (0, 0, 0, 1, 1, 2, 2, 3, 3, 4, 4)
CAPS = (1, 1, 1, 2, 2, 2, 2, 3, 3, 4, 5, 15, 16)
COPIES = (1, 2, 2, 3, 3, 4, 8)
KEYERS = ("plain", "plain", "plain", "sha")
# Right lines of each kind.
RIGHT_LINES = (
    ("begin r1 c1 1 get a", "begin r1 c1 1 del a", "begin r1 c1 1 put a b", "begin r1 c1 1 swap a b a"),
    ("hop r1",),
    ("split 0 0",),
    ("merge 0 0",),
    ("deliver 1 0 1",),
    ("send 1",),
    ("combine 1 1",),
    ("restart 1",),
    ("show 1",),
    ("page 0 0",),
    ("inflight",),
    ("inflight",),
    ("inflight",),
)
# What is in no number, name, key, value or line of the grammar.
WRONG_NUMBERS = ("", "01", "00", "-1", "+1", "1.", "1x", "x", "0x1", str(2**32), str(2**64), "\xb2")
WRONG_BYTES = ("#0", "#0g", "#AB", "#\xe9", "\xe9", "a\x7f", "a\tb", "\x00", "##")
WRONG_LINES = (" ", "#", "HOP r1", " hop r1", "stop", "take 1", "\xff\xfe", "\x00", "hop\tr1", "# hop r1")


class Taste(NamedTuple):
    """The settings of a story's file, and the keys that are asked for."""

    cap: int
    ward_bits: int
    keyer: str
    keys: list


@functools.cache
def keys_that_share():
    """Lists of keys whose pseudokeys under keyer sha share as many digits as a prefix may have."""
    keys = collections.defaultdict(list)
    for number in range(12_000):
        key = b"%d" % number
        keys[pseudokey_of("sha", key)[:LIMIT]].append(key)
    return [shared for shared in keys.values() if len(shared) > 1]


def plain_keys(dice):
    """Keys for keyer plain: their pseudokeys differ early or late, or share as many digits as a prefix may have."""
    firsts = [dice.randrange(256) for _ in range(dice.choice((1, 1, 2, 3, 8)))]
    front = bytes([firsts[0]]).ljust(FRONT, b"\0")
    turned = dice.sample(range(8 * FRONT), dice.randrange(6))
    spread = [bytes([dice.randrange(256)]) for _ in range(dice.randrange(8))]
    chain = [(int.from_bytes(front, "big") ^ 1 << digit).to_bytes(FRONT, "big") for digit in turned]
    near = [bytes([dice.choice(firsts), dice.randrange(4)]) for _ in range(dice.randrange(6))]
    crowd = [front + bytes([last]) for last in dice.sample(range(256), dice.choice((2, 3, 6)))]
    return [*spread, *chain, *near, *crowd]


def sha_keys(dice):
    """Keys for keyer sha, of which some share as many digits of their pseudokeys as a prefix may have."""
    spread = [b"%d" % dice.randrange(3000) for _ in range(dice.randrange(4, 16))]
    return [*spread, *dice.choice(keys_that_share()), *dice.choice(keys_that_share())]


def taste_of(dice):
    """The settings and keys of a story."""
    keyer = dice.choice(KEYERS)
    keys = plain_keys(dice) if keyer == "plain" else sha_keys(dice)
    if dice.random() < 0.1:
        keys += [bytes([dice.randrange(256)]) * KEY_LIMIT for _ in range(3)]
    if dice.random() < 0.3:
        keys += [b"#x", b"a b", b"plain", b"!", b"~\x7f"]
    return Taste(dice.choice(CAPS), dice.choice(WARD_BITS), keyer, sorted(set(keys)))


def value_by(dice):
    """A value; seldom a long one or one that isn't printed as a word."""
    rare = (b"", b"#", b"#61", b"a b", b"\x00\xff", b"v" * VALUE_LIMIT, bytes(VALUE_LIMIT), b"~", b"!\x7f")
    return dice.choice(rare) if dice.random() < 0.2 else b"%d" % dice.randrange(100)


def other_than(dice, value):
    """A value that a careless reader may take for this one: its front, more than it, or it with another last byte."""
    near = [value[:-1], value + b"x", value[:-1] + b"y", value_by(dice)]
    return dice.choice([it for it in near if it != value and len(it) <= VALUE_LIMIT])


def spelled(dice, content):
    """A key or a value as one of its words."""
    return hexadecimal(content) if dice.random() < 0.3 else printed(content)


def file_line(taste, copies, tells_moves):
    """A right first line."""
    settings = f"cap={taste.cap} wards={taste.ward_bits} copies={copies} keyer={taste.keyer}"
    return f"file {settings}" + (" moves=yes" if tells_moves else "")


def pairing_words(dice, name):
    """The words of `pairs` for the file of a name: options, seldom all, before the name and behind it."""
    options = (("--cap", dice.choice(CAPS)), ("--wards", dice.choice(WARD_BITS)), ("--keyer", dice.choice(KEYERS)))
    given = dice.sample(options, dice.choice((0, 1, 2, 3)))
    parts = [[f"{it}={value}"] if dice.random() < 0.5 else [it, str(value)] for it, value in given]
    parts.insert(dice.randint(0, len(parts)), [name])
    return [word for part in parts for word in part]


def calling_words(dice, command, name, contents):
    """The words of a call over the file of a name, of keys and values, one letter a byte: seldom as hexadecimal digits, and
    always where a byte can't be of a word; seldom with `--` among them, and always where a later one would be an option."""
    if any(b"\0" in it for it in contents) or dice.random() < 0.2:
        words = [name, *(it.hex() for it in contents)]
        words.insert(dice.randint(0, len(words)), "--hex")
        return [command, *words]
    words = [name, *(it.decode("latin-1") for it in contents)]
    first = next((at for at, it in enumerate(words) if is_taken(command, it.encode("latin-1"))), None)
    if first is None and dice.random() < 0.8:
        return [command, *words]
    at = dice.randint(0, len(words) if first is None else first)
    return [command, *words[:at], ANY_FURTHER, *words[at:]]


def wrong_file_line(dice, taste, is_opened):
    """A first line that is refused: outside the grammar, out of range, or another file's."""
    right = file_line(taste, 2, dice.random() < 0.5)
    cap, wards, other = f"cap={taste.cap} ", f"wards={taste.ward_bits} ", "sha" if taste.keyer == "plain" else "plain"
    outside = [
        right.replace("file", "File"),
        right.replace(cap, f"cap={dice.choice(WRONG_NUMBERS)} "),
        right.replace(wards, ""),
        right.replace("copies=2", "copies=02"),
        right.replace("keyer", "key"),
        f"{right} moves=no",
        f"{right} ",
        "hop r1",
        dice.choice(WRONG_LINES),
    ]
    out_of_range = [
        right.replace(cap, f"cap={dice.choice((0, 17, NUMBER_LIMIT))} "),
        right.replace(wards, f"wards={dice.choice((5, NUMBER_LIMIT))} "),
        right.replace("copies=2", f"copies={dice.choice((0, 9, NUMBER_LIMIT))}"),
    ]
    another = [
        right.replace(cap, f"cap={taste.cap % 16 + 1} "),
        right.replace(wards, f"wards={(taste.ward_bits + 1) % 5} "),
        right.replace(f"keyer={taste.keyer}", f"keyer={other}"),
    ]
    return dice.choice(dice.choice([outside, out_of_range, another] if is_opened else [outside, out_of_range]))


def broken(dice, line):
    """A line outside the grammar, made of a right one; seldom a right line again."""
    words = line.split(" ")
    at = dice.randrange(len(words))
    match dice.randrange(6):
        case 0:
            return " ".join(words[:at] + words[at + 1 :]) or " "
        case 1:
            return " ".join([*words, dice.choice(("1", "r1", "", "a"))])
        case 2:
            return " ".join([*words[: at + 1], "", *words[at + 1 :]])
        case 3:
            return line + dice.choice(("\r", "\t", "\x00", "\xa0"))
    wrong = WRONG_BYTES if words[at] in ("a", "b") else WRONG_NUMBERS
    words[at] = re.sub(r"\d+$|^[ab]$", lambda _: dice.choice(wrong), words[at])
    return " ".join(words)


def line_outside(dice, taste):
    """A line outside the grammar; seldom a right one."""
    kind = dice.randrange(len(RIGHT_LINES) + 2)
    if kind < len(RIGHT_LINES):
        return broken(dice, dice.choice(RIGHT_LINES[kind]))
    return dice.choice(WRONG_LINES) if kind == len(RIGHT_LINES) else file_line(taste, 1, False)


def line_out_of_range(dice):
    """A line in the grammar with a name, a client, a key or a value out of range."""
    call = dice.choice(("get a", "del a", "put a b", "swap a b a"))
    long_key, long_value = "#" + "00" * (KEY_LIMIT + 1), "v" * (VALUE_LIMIT + 1)
    lines = (
        f"begin r0 c1 1 {call}",
        f"begin r1 c0 1 {call}",
        f"begin r1 c1 0 get {dice.choice(('#', long_key))}",
        f"begin r1 c1 9 put a {long_value}",
        f"begin r1 c1 1 put {dice.choice(('#', long_key))} {dice.choice(('b', long_value))}",
        f"begin r1 c1 1 swap {dice.choice(('#', long_key))} {dice.choice(('b', long_value))} b",
        f"begin r1 c1 1 swap a {dice.choice((f'b {long_value}', f'{long_value} b'))}",
    )
    return dice.choice(lines) if dice.random() < 0.6 else "hop r0"
