"""What standard error has of a run, as the documents say."""

import collections

from .command_line import WrongWords, converting_of, pairing_of
from .everyday import answer_of, content_at
from .file_reader import file_of
from .grammar import FORMS, MOVES, WrongLine, bytes_of, number_of, settings_of
from .page_file import Load, load_of
from .page_reader import Fault
from .request import EVERYDAY
from .said import ANY, TELLING, sentence_of
from .script import Script, text_of
from .version import (
    CAP_LIMIT,
    COPY_LIMIT,
    INDEX_LIMIT,
    KEY_LIMIT,
    NUMBER_LIMIT,
    SCRIPT_LIMIT,
    VALUE_LIMIT,
    WARD_BITS_LIMIT,
)

# Lines of a kind that are told one by one, and bytes of a word that are shown.
TOLD = 10
SHOWN = 32
KINDS = ("refused 60", "refused 61", "full")
TOO_LONG = f"exhash: standard input has more than {SCRIPT_LIMIT} bytes, or has no end"
SPREAD = {
    "plain": "exhash: keyer=plain parts keys by their first two and a half bytes alone",
    "sha": "exhash: keyer=sha parts keys by two and a half bytes of a digest of theirs",
}


# ---- what may stand at a place of a line: each says 60 or 61 of a word that is wrong there, else nothing


def one_of(*words):
    return lambda word: None if word in words else 60


def number(before="", least=0, greatest=NUMBER_LIMIT, limit=NUMBER_LIMIT):
    def fault(word):
        try:
            return None if least <= number_of(word, before, limit) <= greatest else 61
        except WrongLine:
            return 60

    return fault


def spelled(least, greatest):
    def fault(word):
        try:
            return None if least <= len(bytes_of(word)) <= greatest else 61
        except WrongLine:
            return 60

    return fault


KEY, VALUE = spelled(1, KEY_LIMIT), spelled(0, VALUE_LIMIT)
PAIR = (KEY, VALUE)
NAMES = {"r": number("r", least=1), "I": number(limit=INDEX_LIMIT, greatest=INDEX_LIMIT), "": number()}
FILE = (
    one_of("file"),
    number("cap=", 1, CAP_LIMIT),
    number("wards=", 0, WARD_BITS_LIMIT),
    number("copies=", 1, COPY_LIMIT),
    one_of("keyer=sha", "keyer=plain"),
    one_of(MOVES),
)


def line_places(words):
    """What may stand at the places of a later line of a script."""
    keyword = one_of("begin", *FORMS)
    if words[0] == "begin":
        rest = {"put": PAIR, "swap": (KEY, VALUE, VALUE)}.get("".join(words[4:5]), (KEY,))
        return (keyword, NAMES["r"], number("c", least=1), number(), one_of("get", "put", "del", "swap"), *rest)
    return (keyword, *(NAMES[form] for form in FORMS.get(words[0], ())))


def place_of_fault(words, places, fault):
    """The first word with this fault, or the end of the line."""
    for at, word in enumerate(words):
        if (places[at](word) if at < len(places) else 60) == fault:
            return f"'{shown(word)}'"
    return "its end"


def shown(word):
    visible = "".join(it if " " <= it <= "~" else "?" for it in word[:SHOWN])
    return visible + (".." if len(word) > SHOWN else "")


class Notes:
    """The lines of standard error so far."""

    def __init__(self):
        self.lines = []
        self.counts = collections.Counter()

    def line(self, at, kind, place):
        self.counts[kind] += 1
        if self.counts[kind] <= TOLD:
            self.lines.append(f"exhash: line {at}: {kind} at {place}")

    def end(self):
        more = ((kind, self.counts[kind] - TOLD) for kind in KINDS)
        self.lines += [f"exhash: further lines that are {kind}: {count}" for kind, count in more if count > 0]
        return self.lines

    def wrong(self, at, line, printed, is_first, later):
        """Tells of a line that is refused with 60 or 61."""
        if printed in (["refused 60"], ["refused 61"]):
            words = line.decode("latin-1").split(" ")
            places = FILE if is_first else later(words)
            self.line(at, printed[0], place_of_fault(words, places, int(printed[0][-2:])))


def numbered(content):
    """The lines that aren't empty, with their numbers."""
    return [(at, line) for at, line in enumerate(content.split(b"\n"), 1) if line]


def notes_of_script(content, opened):
    """Of a script over a file that is opened, or a new one."""
    notes, script = Notes(), Script(opened)
    if len(content) > SCRIPT_LIMIT:
        return [TOO_LONG]
    for at, line in numbered(content):
        is_first, was_refused = script.world is None, script.is_refused
        printed = script.line(line)
        if was_refused:
            break
        if printed == ["refused 63"]:
            notes.lines += differing(settings_of(line), opened)
        notes.wrong(at, line, printed, is_first, line_places)
    if script.world is not None and script.world.flights:
        notes.lines.append(f"exhash: requests begun and not answered: {len(script.world.flights)}")
    return notes.end()


def differing(settings, opened):
    """Which settings of a script aren't those of the opened file."""
    pairs = (
        (f"cap={settings.cap}", f"cap={opened.cap}"),
        (f"wards={settings.ward_bits}", f"wards={opened.ward_bits}"),
        (f"keyer={settings.keyer}", f"keyer={opened.keyer}"),
    )
    return [f"exhash: {one} in the script, {other} in the opened file" for one, other in pairs if one != other]


def notes_of_pairs(content, opened=None):
    """Of a load of pairs, into a file that is opened or a new one."""
    notes, load = Notes(), Load(opened)
    if opened is None and len(content) > SCRIPT_LIMIT:
        return [TOO_LONG]
    settings = None
    for at, line in numbered(content):
        printed = load.line(line)
        notes.wrong(at, line, printed, settings is None, lambda words: PAIR)
        if settings is None:
            if printed:
                break
            settings = settings_of(line)
        elif printed and printed[0].startswith("full "):
            notes.line(at, "full", f"'{shown(line.decode('latin-1').split(' ')[0])}'")
    if notes.counts["full"]:
        where = f"a page having room for cap={settings.cap}"
        notes.lines.append(f"exhash: pairs that aren't in the file, {where}: {notes.counts['full']}")
        notes.lines.append(SPREAD[settings.keyer])
    return notes.end()


def options_of(words):
    """The values of `--open` and `--save`."""
    options, rest = {}, list(words)
    while rest and rest[0] != "--":
        name, is_one, value = rest.pop(0).partition("=")
        options[name] = value if is_one else rest.pop(0)
    return options


def path_of(words):
    """The path that the words of a command name that prints why a page file is refused, of a load only that which is opened."""
    match words:
        case ["load", "--into", name] | [("check" | "dump"), name]:
            return name
        case ["pairs", *spelled]:
            return pairing_of(spelled)[0]
    return None


def notes_of_file(words, files):
    """Why the page file is refused that such a command reads, in a sentence; nothing where it isn't."""
    try:
        path = path_of(words) if words[0] in TELLING else None
        if path is not None:
            file_of(content_at(path, files))
    except WrongWords:
        return []
    except Fault as fault:
        return [sentence_of(path, fault.text(), files.get(path))]
    return []


def may_be_said(words, files):
    """The sentence that a script or a conversion may say of the file that it opens, where that is refused: what they print
    alone is fixed."""
    match words:
        case ["serve", *options]:
            path = options_of(options).get("--open")
        case ["convert", *spelled]:
            path = converting_of(spelled)[0]
        case _:
            return []
    try:
        if path is not None:
            file_of(content_at(path, files))
    except Fault as fault:
        return [sentence_of(path, fault.text(), files.get(path))]
    return []


def records_at(path, files):
    """The settings of the page file of a path that has records; nothing where there is none, or it has none."""
    try:
        file = file_of(content_at(path, files))
    except Fault:
        return None
    return (file.cap, file.ward_bits, file.keyer) if file.map else None


def notes_of_replacing(words, given, files):
    """That a page file with records was replaced by one that didn't come of it: of a load where that has none, or other
    settings."""
    path, left = None, None
    match words:
        case ["load", "--into", _]:
            return []
        case ["load", *_, path]:
            left = load_of(given)[1].left()
        case ["serve", *options]:
            named = options_of(options)
            path = named.get("--save") if named.get("--save") != named.get("--open") else None
            opened = file_of(content_at(named["--open"], files)) if "--open" in named else None
            left = text_of(given, opened)[1].left() if path is not None else None
    settings = records_at(path, files) if left is not None else None
    if settings is None:
        return []
    is_told = words[0] == "serve" or not left.map or settings != (left.cap, left.ward_bits, left.keyer)
    return [f"exhash: {path}: {ANY}"] if is_told else []


def notes_of(words, given, files):
    """The patterns of what standard error has of a run that the documents allow, with its files before."""
    if words[0] in EVERYDAY:
        return answer_of([word.encode("latin-1") for word in words], given, files).error
    if sentence := notes_of_file(words, files):
        return sentence
    try:
        return [*notes_of_text(words, given, files), *notes_of_replacing(words, given, files)]
    except Fault:
        return []


def notes_of_text(words, given, files):
    """Of the text that a run is given."""
    name = None
    match words:
        case ["load", "--into", name]:
            notes_of_given = notes_of_pairs
        case ["load", *_]:
            notes_of_given = notes_of_pairs
        case ["serve", *options]:
            notes_of_given, name = notes_of_script, options_of(options).get("--open")
        case _:
            return []
    opened = None if name is None else file_of(content_at(name, files))
    return notes_of_given(given, opened)
