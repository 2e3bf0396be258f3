"""Lines of which the grammar says what they are: every line that it has, and what stands next to it on all sides.

Of each line: a word too few and one too many at each place, a space before it, at its end and one more between two
words, other bytes there; each number at its limits, one beyond, with a further digit and with a leading zero; each key
and value at its limits and one beyond. What is to be answered is said by `script` and `page_file`, as of any line.
"""

import re

from .file import File
from .page_file import bytes_of_file
from .program import outcome_of
from .script import Script
from .stories import Run, Story
from .version import CAP_LIMIT, COPY_LIMIT, INDEX_LIMIT, KEY_LIMIT, NUMBER_LIMIT, VALUE_LIMIT, WARD_BITS_LIMIT

# The lines, with the names of their fields, and what stands in these in a right line.
CALLS = ("get <key>", "del <key>", "put <key> <value>", "swap <key> <old> <new>")
FIELDS = {
    "hop": "hop r<name>",
    "split": "split <ward> <page>",
    "merge": "merge <ward> <page>",
    "deliver": "deliver <copy> <ward> <index>",
    "send": "send <copy>",
    "combine": "combine <copy> <table>",
    "restart": "restart <copy>",
    "show": "show <copy>",
    "page": "page <ward> <page>",
    "inflight": "inflight",
}
BEGINS = tuple(f"begin r<name> c<client> <copy> {call}" for call in CALLS)
FIRST = "file cap=<cap> wards=<bits> copies=<copies> keyer=<keyer>"
FIRSTS = (FIRST, f"{FIRST} moves=<moves>")
PAIR = "<key> <value>"
RIGHT = {"cap": "2", "bits": "1", "copies": "2", "keyer": "plain", "moves": "yes", "key": "k", "value": "v"}
RIGHT |= {"old": "v", "new": "w"}
RIGHT |= {"name": "1", "client": "1", "copy": "1", "table": "1", "index": "1", "ward": "0", "page": "0"}
# The words of fields that are no numbers, at their limits and beyond.
KEYERS = ("", "sha", "Sha", "plain ", "plain2", "1")
MOVES = ("", "no", "Yes", "yes ", "yess")
# The least and the greatest value of a number that has others than a word has.
RANGES = {"cap": (1, CAP_LIMIT), "bits": (0, WARD_BITS_LIMIT), "copies": (1, COPY_LIMIT), "index": (0, INDEX_LIMIT)}
# What a script has before the lines, so that most of them do something: a split, a table, a request in flight.
BEFORE = (
    "begin r11 c1 1 put #00 a",
    "hop r11",
    "begin r12 c1 1 put #40 a",
    "hop r12",
    "split 0 0",
    "send 1",
    "begin r1 c1 1 get #00",
)
AFTER = ("show 1", "show 2", "page 0 0", "page 0 1", "page 1 0", "inflight")


def words_of_number(field):
    """What stands for a number, besides the right one."""
    right = RIGHT[field]
    least, greatest = RANGES.get(field, (0, NUMBER_LIMIT))
    beyond = INDEX_LIMIT if field == "index" else NUMBER_LIMIT
    near = (least, least - 1, least + 1, greatest, greatest + 1, beyond, beyond + 1)
    ends = (f"{right}0", f"0{right}", f"{greatest}0", f"0{greatest}", f"{beyond}0")
    return [*map(str, near), *ends, "", "00", f"+{right}", f"{right}x", f"{right}.0", f"x{right}"]


def words_of_bytes(least, greatest):
    """What stands for a key or a value: from the least length to the greatest, and one beyond each."""
    lengths = sorted({least, max(0, least - 1), greatest, greatest + 1})
    plain = ["k" * length for length in lengths]
    digits = ["#" + "6b" * length for length in lengths]
    odd = ["#6", "#6B", "#6g", "##", "#" + "6b" * greatest + "6"]
    return [*plain, *digits, *odd, "!", "~", "k#", "k\x7f", "k\xe9", "k\x00"]


def words_of_field(field):
    """What stands in a field, besides what a right line has there."""
    lengths = {"key": (1, KEY_LIMIT), **dict.fromkeys(("value", "old", "new"), (0, VALUE_LIMIT))}
    if field in lengths:
        return words_of_bytes(*lengths[field])
    return {"keyer": KEYERS, "moves": MOVES}.get(field) or words_of_number(field)


def filled(form, **others):
    """A line with what a right one has in its fields, but for some."""
    return re.sub("<([a-z]+)>", lambda field: (RIGHT | others)[field[1]], form)


def about_words(line):
    """A right line with a word too few or too many, and with other bytes around its words."""
    words = line.split(" ")
    places = range(len(words))
    fewer = [" ".join(words[:at] + words[at + 1 :]) for at in places]
    more = [" ".join([*words[:at], it, *words[at:]]) for at in range(len(words) + 1) for it in ("1", "k", "r1")]
    halves = [(" ".join(words[:at]), " ".join(words[at:])) for at in places[1:]]
    parted = [it.join(pair) for pair in halves for it in ("  ", "\t", "/", "")]
    ends = [f" {line}", f"{line} ", f"{line}  ", f"{line}\r", f"{line}\t", f"{line}\x00", f"\xef\xbb\xbf{line}"]
    return [*fewer, *more, *parted, *ends, line.upper(), line.capitalize(), line + line, f"{line} {line}"]


def lines_of(form):
    """A right line of a form, and all lines next to it."""
    fields = re.findall("<([a-z]+)>", form)
    others = [filled(form, **{field: word}) for field in fields for word in words_of_field(field)]
    return encoded(dict.fromkeys([filled(form), *others, *about_words(filled(form))]))


def encoded(lines):
    return [line.encode("latin-1") for line in lines]


def script_run(lines, words=("serve",), opened=None, files=None):
    """The run of a script of such lines, and what came up in it."""
    script = Script(opened)
    told = [(line, script.line(line)) for line in lines]
    told.append((b"", script.end()))
    run = Run([*words], b"\n".join(lines) + b"\n", told, int(script.is_refused), files or {}, files or {})
    return run, script.met


def story(runs):
    """The story of runs."""
    whole = Story()
    for run, met in runs:
        whole.runs.append(run)
        whole.met += met
    return whole


def step_story(form):
    """A script of all lines next to a form, in which most right ones do something."""
    settings = filled(FIRST, cap="2")
    return story([script_run([*encoded([settings, *BEFORE]), *lines_of(form), *encoded(AFTER)])])


def begin_story():
    """The same of requests, each of which takes a hop, over a page in which all keys have room."""
    settings = filled(FIRST, cap=str(CAP_LIMIT))
    asked = [it for form in BEGINS for line in lines_of(form) for it in (line, b"hop r1")]
    return story([script_run([*encoded([settings]), *asked, *encoded(AFTER)])])


def first_story():
    """A script for each first line next to a right one or of another form, over a new file and over an opened one; and
    one in which they come second."""
    opened = File.empty(int(RIGHT["cap"]), int(RIGHT["bits"]), RIGHT["keyer"])
    files, words = {"opened.exh": bytes_of_file(opened)}, ("serve", "--open", "opened.exh")
    firsts = [line for form in FIRSTS for line in lines_of(form)]
    others = encoded(map(filled, (*FIELDS.values(), *BEGINS, PAIR)))
    new = [script_run([line, b"inflight"]) for line in [*firsts, *others]]
    second = script_run([firsts[0], *firsts, b"inflight"])
    return story([*new, second, *(script_run([line, b"inflight"], words, opened.opened(), files) for line in firsts)])


def load_story():
    """A text of all pairs next to a right one, and one for each first line next to a right one."""
    whole, files = Story(), {}
    firsts = [line for form in FIRSTS for line in lines_of(form)]
    for lines in ([firsts[0], *lines_of(PAIR)], *([line, b"k v"] for line in firsts)):
        words, given = ["load", "loaded.exh"], b"\n".join(lines) + b"\n"
        outcome = outcome_of(words, given, files)
        whole.runs.append(Run(words, given, [(None, outcome.lines)], outcome.status, {}, outcome.files))
        files = outcome.files
    return whole


def listed_story(word):
    """The story of the lines that begin with a word; of pairs it is `load`."""
    others = {"file": first_story, "begin": begin_story, "load": load_story}
    return others[word]() if word in others else step_story(FIELDS[word])
