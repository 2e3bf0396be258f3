"""The words of a script's lines, what is in range, and how values, keys and places are printed."""

import re
from typing import NamedTuple

from .bits import prefix_text
from .file import Call
from .version import (
    CAP_LIMIT,
    COPY_LIMIT,
    INDEX_LIMIT,
    KEY_LIMIT,
    NUMBER_LIMIT,
    VALUE_LIMIT,
    WARD_BITS_LIMIT,
)

NUMBER = re.compile(r"0|[1-9][0-9]*")
WORD = re.compile(r"[!\"$-~][!-~]*")
HEXADECIMAL = re.compile(r"#(?:[0-9a-f]{2})*")
MOVES = "moves=yes"


class WrongLine(Exception):
    """A line outside the grammar, 60, or one with something out of range, 61."""

    def __init__(self, number):
        super().__init__(number)
        self.number = number


class Settings(NamedTuple):
    """What a `file` line says."""

    cap: int
    ward_bits: int
    copies: int
    keyer: str
    tells_moves: bool


class Line(NamedTuple):
    """A line that isn't the first: its first word, its numbers in their order, and of a `begin` its call."""

    word: str
    numbers: tuple
    call: Call | None = None


# What stands before each number of a line, by its first word; the index of a notice is written `I`.
FORMS = {
    "hop": ("r",),
    "split": ("", ""),
    "merge": ("", ""),
    "deliver": ("", "", "I"),
    "send": ("",),
    "combine": ("", ""),
    "restart": ("",),
    "show": ("",),
    "page": ("", ""),
    "inflight": (),
}


def number_of(word, before="", limit=NUMBER_LIMIT):
    """The number that a word spells behind the letters before it."""
    digits = word.removeprefix(before)
    if not word.startswith(before) or not NUMBER.fullmatch(digits) or int(digits) > limit:
        raise WrongLine(60)
    return int(digits)


def bytes_of(word):
    """The bytes of a key or a value that a word spells."""
    if HEXADECIMAL.fullmatch(word):
        return bytes.fromhex(word[1:])
    if WORD.fullmatch(word):
        return word.encode()
    raise WrongLine(60)


def call_of(words):
    """The call that words spell."""
    match words:
        case [("get" | "del") as word, key]:
            return Call(word, bytes_of(key))
        case ["put", key, value]:
            return Call("put", bytes_of(key), bytes_of(value))
        case ["swap", key, old, new]:
            return Call("swap", bytes_of(key), bytes_of(new), bytes_of(old))
    raise WrongLine(60)


def words_of(line):
    """The words of a line of bytes. Bytes above 7f are in no word of the grammar, whatever they are read as."""
    return line.decode("latin-1").split(" ")


def line_of(line):
    """The line that bytes spell, with all in its range."""
    match words_of(line):
        case ["begin", name, client, copy, *call]:
            numbers = (number_of(name, "r"), number_of(client, "c"), number_of(copy))
            read = Line("begin", numbers, call_of(call))
            is_in_range = numbers[0] > 0 and numbers[1] > 0 and is_call_in_range(read.call)
        case [word, *rest] if word in FORMS and len(rest) == len(FORMS[word]):
            numbers = tuple(placed_number(it, form) for it, form in zip(rest, FORMS[word]))
            read = Line(word, numbers)
            is_in_range = word != "hop" or numbers[0] > 0
        case _:
            raise WrongLine(60)
    if not is_in_range:
        raise WrongLine(61)
    return read


def placed_number(word, form):
    """The number that a word spells at a place of a line."""
    return number_of(word, limit=INDEX_LIMIT) if form == "I" else number_of(word, form)


def is_call_in_range(call):
    return 1 <= len(call.key) <= KEY_LIMIT and max(len(call.value), len(call.old)) <= VALUE_LIMIT


def settings_of(line):
    """The settings of a `file` line, with all in its range."""
    match words_of(line):
        case ["file", cap, wards, copies, "keyer=sha" | "keyer=plain" as keyer, *rest] if rest in ([], [MOVES]):
            settings = Settings(
                number_of(cap, "cap="),
                number_of(wards, "wards="),
                number_of(copies, "copies="),
                keyer.removeprefix("keyer="),
                bool(rest),
            )
        case _:
            raise WrongLine(60)
    is_few = settings.ward_bits <= WARD_BITS_LIMIT and 1 <= settings.copies <= COPY_LIMIT
    if not is_few or not 1 <= settings.cap <= CAP_LIMIT:
        raise WrongLine(61)
    return settings


def printed(content):
    """A key or a value as it is printed."""
    text = content.decode("latin-1")
    return text if WORD.fullmatch(text) else hexadecimal(content)


def hexadecimal(content):
    return "#" + content.hex()


def entry_text(prefix, entry):
    """The line of an entry in `show` and `dump`."""
    return f"entry {prefix_text(prefix)} {entry.text()}"


def page_text(file, ward, number):
    """The line of a page in `page` and `dump`."""
    place, leaf = f"page {ward.number}/{number}", ward.leaf_of(number)
    if leaf is None:
        return f"{place} forward {ward.number}/{ward.target_of(number)}"
    right = ward.right_of(leaf)
    link = "none" if right is None else right
    return f"{place} live prefix {prefix_text(leaf)} right {link} records {file.count_under(leaf)}"
