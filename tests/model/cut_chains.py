"""Changes of a page file of version 3 of which each is cut off, one behind the other, with nothing read between."""

from typing import NamedTuple

from .cut_off import LOG
from .in_place import PLACE, calling, key_of

# The calls by which a file and its log become other ones.
DEEDS = ("pwrite", "fdatasync", "fsync", "ftruncate", "unlink")
WRITING = ("pwrite", PLACE)
# The calls to the log that end a copying, or begin a commit.
OF_LOG = {(name, LOG) for name in DEEDS}


class Change(NamedTuple):
    """A run that changes a file: its words, standard input, and what it gives keys: a value, or None."""

    words: list
    given: bytes
    pairs: dict

    def made(self, pairs):
        """The pairs behind it."""
        all_of = {**pairs, **self.pairs}
        return {key: value for key, value in all_of.items() if value is not None}


def changed(command, key, *words, value):
    return Change(calling(command, key, *words), b"", {key: value})


# Each change by its name and its turn, so that no two have a key in common.
KINDS = {
    "put": lambda turn: changed("put", key_of(10 + turn), f"p{turn}", value=f"p{turn}"),
    "put --new": lambda turn: put_new(f"#c1c1{turn:02x}", f"n{turn}"),
    "swap": lambda turn: changed("swap", key_of(20 + turn), f"v{20 + turn}", f"s{turn}", value=f"s{turn}"),
    "del": lambda turn: changed("del", key_of(30 + turn), value=None),
    "import": lambda turn: Change(["import", PLACE], f"i{turn} m\n".encode(), {f"i{turn}": "m"}),
}


def put_new(key, value):
    """A put of a key that isn't there, which says so."""
    put = changed("put", key, value, value=value)
    return put._replace(words=[*put.words[:2], "--new", *put.words[2:]])


def deeds_of(calls):
    """The numbers of the calls that make a file or its log another one."""
    return [nth for nth, (name, file) in enumerate(calls, 1) if name in DEEDS and file in (PLACE, LOG)]


def copyings_of(calls):
    """Of each copying of a log the numbers of the writes into the file, and of the call that synchronizes it behind them."""
    copyings, is_amid = [], False
    for nth, call in enumerate(calls, 1):
        if call == WRITING:
            copyings += [] if is_amid else [[]]
            copyings[-1].append(nth)
            is_amid = True
        elif call[0] in ("fdatasync", "fsync") and call[1] == PLACE and is_amid:
            copyings[-1].append(nth)
        elif call in OF_LOG:
            is_amid = False
    return copyings


def behind(allowed, change, is_done, is_saved):
    """The pairs that may be there behind a change, of those that may be there before it."""
    made = [change.made(pairs) for pairs in allowed]
    return made if is_done or is_saved else allowed + [pairs for pairs in made if pairs not in allowed]
