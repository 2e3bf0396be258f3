"""What must have come up in the runs of the usual number of scripts, and how often."""

from .grammar import FORMS

LEAST = 100
CALLS = ("get", "put", "del", "swap")
# The lines of a script, the first word and of a `begin` its call.
LINES = ("file", "file with moves=yes", *(f"begin {call}" for call in CALLS), *FORMS)
# The numbers with which each line is refused, but for 60, with which all are.
REFUSALS = {
    "begin": (20, 25, 61),
    "hop": (21, 61),
    "split": (1, 3, 4, 5, 24),
    "merge": (1, 3, 6, 7, 8, 9, 24),
    "deliver": (20, 22, 24),
    "send": (20,),
    "combine": (20, 23),
    "restart": (20,),
    "show": (20,),
    "page": (1, 24),
}
REPLIES = ("get answered is", "get answered none", "put answered new", "put answered was", "put answered full")
SWAPS = tuple(f"swap answered {reply}" for reply in ("swapped", "differs", "none"))
PLACES_OF_SWAPS = tuple(f"{swap} {place}" for swap in SWAPS for place in ("at a full page", "through a late copy"))
ANSWERS = (*REPLIES, "del answered was", "del answered none", *SWAPS, *PLACES_OF_SWAPS)
OUTCOMES = (*ANSWERS, "hop moved", "hop split")
PLACES = ("page live", "page forward", "several requests in flight", "longest prefix", "revived page")
ARRAYS = ("doubled array", "halved array", "array doubled eight times at once", "array halved eight times at once")
COPIES = (*ARRAYS, "late notice", "late table")
SETTINGS = ("keyer plain", "keyer sha", *(f"wards {2**bits}" for bits in range(5)))
REFUSED_SCRIPTS = tuple(f"script refused {number}" for number in (60, 61, 62, 63))
FAULTS = (*range(30, 40), *(f"40 reason {reason}" for reason in range(1, 7)))
DAMAGED_FILES = ("damaged file that is legal", *(f"damaged file refused {fault}" for fault in FAULTS))
OPENED = ("opened file", "opened file that no run saved", "opened file of the first version")
SAVED_AGAIN = ("file saved where it was opened", "file that a load goes into")
# What the commands of one key come to.
OF_ONE_KEY = {
    "get": ("found", "absent"),
    "put": ("new", "was", "full"),
    "del": ("was", "none"),
    "swap": ("swapped", "differs", "none"),
}
CALLS_OVER_FILES = tuple(f"{command} of a file: {it}" for command, ends in OF_ONE_KEY.items() for it in ends)
# Of which damaged files a call of one key comes up.
OF_WHICH = ("of which a get", "of version 3 of which a call")
# What must have come up too where the program has files of version 3.
OF_PLACED = (
    "opened file of version 3",
    "call over a file of version 3",
    "file converted there and back",
    *(name.replace("file", "file of version 3", 1) for name in SAVED_AGAIN),
)
OF_ONE_CALL = tuple(f"damaged file {of} is {it}" for of in OF_WHICH for it in ("refused", "answered"))
FILES = ("saved file", *OPENED, *SAVED_AGAIN, "loaded file", "file told by check")
LOADED_AGAIN = tuple(f"text of pairs loaded with {it}" for it in ("the same pairs", "a smaller cap or another keyer"))
PAIRS = ("text of pairs told by pairs", *LOADED_AGAIN)
TEXTS = ("file told by dump", "pair dumped", "full pair of a load", "refused line of a load", *PAIRS)


def wanted():
    """The names of all that must have come up."""
    lines = [f"line {line}" for line in LINES]
    words = ("file", "begin", *FORMS, "another word")
    refusals = [f"refused {number} of {word}" for word in words for number in (*REFUSALS.get(word, ()), 60)]
    of_scripts = [*lines, *refusals, *OUTCOMES, *PLACES, *COPIES, *SETTINGS, *REFUSED_SCRIPTS]
    of_files = [*FILES, *TEXTS, *CALLS_OVER_FILES, *DAMAGED_FILES, *OF_ONE_CALL]
    return [*of_scripts, *of_files, *OF_PLACED]


def printed_counts(met):
    """A line for each thing that came up or should have."""
    return [f"{met[name]:8} {name}" for name in sorted({*met, *wanted()})]


def lacking(met, more=()):
    """The names of what came up too seldom, of what is always wanted and of some more."""
    return [name for name in [*wanted(), *more] if met[name] < LEAST]
