"""The words behind a command: which stand at its places, and what its options are given."""

from .grammar import WrongLine, number_of
from .version import CAP_LIMIT, CURRENT, PLACED, WARD_BITS_LIMIT

ANY_FURTHER = "--"
KEYERS = ("sha", "plain")


class WrongWords(Exception):
    """A wrong command line, or a call for help."""


def is_option(word):
    return word.startswith("-") and word != "-"


def parted(words, names=()):
    """The words at places, and the values of the options of these names."""
    places, options, rest = [], {}, list(words)
    while rest:
        word = rest.pop(0)
        if word == ANY_FURTHER:
            return places + rest, options
        if not is_option(word):
            places.append(word)
            continue
        name, is_one, value = word.removeprefix("--").partition("=")
        if name not in names or name in options or not (is_one or rest):
            raise WrongWords
        options[name] = value if is_one else rest.pop(0)
    return places, options


def number_within(word, least, most):
    try:
        number = number_of(word)
    except WrongLine:
        raise WrongWords from None
    if not least <= number <= most:
        raise WrongWords
    return number


def keyer_of(word):
    if word not in KEYERS:
        raise WrongWords
    return word


# What each option of `pairs` may be given.
OPTIONS = {
    "cap": lambda word: number_within(word, 1, CAP_LIMIT),
    "wards": lambda word: number_within(word, 0, WARD_BITS_LIMIT),
    "keyer": keyer_of,
}


def pairing_of(words):
    """The path that the words of `pairs` name, and the settings that they give."""
    places, options = parted(words, OPTIONS)
    if len(places) != 1:
        raise WrongWords
    return places[0], {name: OPTIONS[name](value) for name, value in options.items()}


# The settings of a new file, where they aren't given.
USUAL = {"cap": CAP_LIMIT, "wards": 0, "keyer": "sha"}


def converting_of(words):
    """The two paths that the words of `convert` name, and the version."""
    places, options = parted(words, ["version"])
    version = options.get("version", str(PLACED.number))
    if len(places) != 2 or version not in (str(CURRENT.number), str(PLACED.number)):
        raise WrongWords
    return *places, int(version)
