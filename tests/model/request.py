"""An everyday command, as the words of a command line ask for it. Words are bytes."""

import re
from typing import NamedTuple

from .command_line import ANY_FURTHER, OPTIONS, USUAL, WrongWords
from .version import KEY_LIMIT, VALUE_LIMIT

EVERYDAY = ("create", "get", "put", "del", "swap", "backup")
# Those about all pairs, which tests/transfers runs.
TRANSFERS = ("import", "export", "compact", "stats", "salvage")
STANDARD_INPUT = b"-"
# The greatest number of seconds that a run may be asked to wait, and that without the option.
WAIT_LIMIT, USUAL_WAIT = 86400, 5
SECONDS = re.compile(rb"0|[1-9][0-9]*")
DIGITS = re.compile(rb"(?:[0-9A-Fa-f]{2})*")
# Of each command the options that stand alone, and those that are given a value.
ALONE = {"get": ("hex", "raw"), "put": ("new", "replace", "hex", "raw"), "del": ("hex",), "swap": ("hex",)}
VALUED = {"create": ("cap", "wards", "keyer", "wait"), "get": ("from", "wait"), "del": ("from", "wait")}
# How many words there are behind the path, at least and at most.
COUNTS = {"create": (0, 0), "get": (1, None), "put": (2, 2), "del": (1, None), "swap": (3, 3), "backup": (1, 1)}


class Request(NamedTuple):
    """What a command is asked: the words behind its path, but those that are options, and what these say."""

    command: str
    path: str
    # The keys of `get` and `del`, that of `put` and `swap`; none where they stand on standard input.
    keys: list
    # Of `put` the value, or none where it stands on standard input; of `swap` the old and the new one.
    values: list
    # Of `backup` the path of the copy.
    new: str
    # The options that stand alone, and the settings of a new file.
    flags: frozenset
    settings: dict
    wait: int

    @property
    def is_hex(self):
        return "hex" in self.flags

    @property
    def is_raw(self):
        return "raw" in self.flags

    @property
    def are_several(self):
        """Whether each answer tells its key."""
        return not self.keys or len(self.keys) > 1


class Words(NamedTuple):
    """The words behind a command: those that are no options, which of them stand behind `--`, and the options."""

    places: list
    further: list
    alone: list
    valued: dict


def parted(command, words):
    """Parts the words behind a command."""
    alone, valued = ALONE.get(command, ()), VALUED.get(command, ("wait",))
    found, rest = Words([], [], [], {}), list(words)
    while rest:
        word = rest.pop(0)
        if word == ANY_FURTHER.encode():
            return found._replace(further=rest)
        if word in (b"--help", b"-h"):
            raise WrongWords
        name, is_one, value = word.removeprefix(b"--").decode("latin-1").partition("=")
        if not word.startswith(b"--") or name not in (valued if is_one else (*alone, *valued)):
            found.places.append(word)
        elif name in alone:
            found.alone.append(name)
        elif name in found.valued or not (is_one or rest):
            raise WrongWords
        else:
            found.valued[name] = value.encode("latin-1") if is_one else rest.pop(0)
    return found


def is_taken(command, word):
    """Whether a word that stands before `--` isn't one of a path, a key or a value."""
    is_read = command == "put" and word == STANDARD_INPUT
    try:
        return is_read or parted(command, [word, b"0"]).places != [word, b"0"]
    except WrongWords:
        return True


def seconds_of(word):
    if not SECONDS.fullmatch(word) or int(word) > WAIT_LIMIT:
        raise WrongWords
    return int(word)


def path_of(word):
    try:
        return word.decode()
    except UnicodeDecodeError:
        raise WrongWords from None


def bytes_of(word, is_hex):
    """The bytes that a word is, or that its hexadecimal digits are."""
    if not is_hex:
        return word
    if not DIGITS.fullmatch(word):
        raise WrongWords
    return bytes.fromhex(word.decode())


def key_of(word, is_hex):
    key = bytes_of(word, is_hex)
    if not 1 <= len(key) <= KEY_LIMIT:
        raise WrongWords
    return key


def value_of(word, is_hex):
    value = bytes_of(word, is_hex)
    if len(value) > VALUE_LIMIT:
        raise WrongWords
    return value


def settings_of(valued):
    """The settings of a new file."""
    given = {name: OPTIONS[name](valued[name].decode("latin-1")) for name in OPTIONS if name in valued}
    return USUAL | given


def request_of(words):
    """The request that words ask for, the first of which is an everyday command. Raises where they are wrong, and where
    help is asked for."""
    command, found = words[0].decode(), parted(words[0].decode(), words[1:])
    flags, places = frozenset(found.alone), [*found.places, *found.further]
    is_input = "from" in found.valued
    if is_input and found.valued["from"] != STANDARD_INPUT or len(flags) != len(found.alone) or {"new", "replace"} <= flags:
        raise WrongWords
    least, most = (0, 0) if is_input else COUNTS[command]
    if not least <= len(places) - 1 <= (len(places) if most is None else most):
        raise WrongWords
    if "raw" in flags and command == "get" and (is_input or len(places) > 2):
        raise WrongWords
    return Request(
        command,
        path_of(places[0]),
        keys_among(command, places[1:], "hex" in flags),
        values_among(command, found, "hex" in flags),
        path_of(places[1]) if command == "backup" else None,
        flags,
        settings_of(found.valued) if command == "create" else None,
        seconds_of(found.valued.get("wait", b"%d" % USUAL_WAIT)),
    )


def keys_among(command, words, is_hex):
    """The keys among the words behind a path."""
    if command in ("create", "backup"):
        return []
    return [key_of(word, is_hex) for word in (words if command in ("get", "del") else words[:1])]


def values_among(command, found, is_hex):
    """The values among words; none of a `put` that reads it, where the word stands before `--`."""
    values = [*found.places, *found.further][2:]
    if command not in ("put", "swap"):
        return []
    if command == "put" and found.places[2:] == [STANDARD_INPUT]:
        return [None]
    return [value_of(word, is_hex) for word in values]
