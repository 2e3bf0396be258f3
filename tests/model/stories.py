"""Stories: runs of the program that belong together, each with what it must print, end with and leave."""

import collections
import random
from dataclasses import dataclass, field
from typing import NamedTuple

from .broken_ways import broken
from .dice import (
    COPIES,
    WRONG_BYTES,
    WRONG_LINES,
    calling_words,
    file_line,
    other_than,
    pairing_words,
    spelled,
    taste_of,
    value_by,
    wrong_file_line,
)
from .file_reader import file_of
from .other_files import damaged, strange
from .page_file import bytes_of_file, has_room
from .placed_file import is_placed, placed_file, shuffled
from .program import bytes_again, outcome_of
from .version import CURRENT, FIRST, KEY_LIMIT, LIMIT, SCRIPT_LIMIT, VALUE_LIMIT
from .writer import Writer

# Lines of a script, and pairs of a load.
LENGTHS = (20, 60, 100, 150, 250)
PAIRS = 40
# The most damaged files of a file that was saved, and the calls of one key.
DAMAGED = 6
CALLS = 3


class Run(NamedTuple):
    """One run of the program."""

    words: list
    given: bytes
    # Pairs of a line of what is given and the lines that it prints; where these aren't told apart, one without a line.
    told: list
    status: int
    # The bytes of each file that is laid into the folder before, and of all files there afterwards.
    laid: dict
    files: dict


@dataclass
class Story:
    """Runs one after the other, in one folder, and what came up in them."""

    runs: list = field(default_factory=list)
    met: collections.Counter = field(default_factory=collections.Counter)


class Teller:
    """Tells a story by dice."""

    def __init__(self, dice):
        self.dice = dice
        self.taste = taste_of(dice)
        self.story = Story()
        # The files in the folder, and those among them that are laid there before the next run.
        self.files = {}
        self.laid = {}

    def chance(self, of_hundred):
        return self.dice.randrange(100) < of_hundred

    def lay(self, name, content):
        self.files[name] = self.laid[name] = content
        return name

    def add(self, words, given, told, status, files):
        """Adds a run."""
        self.story.runs.append(Run(words, given, told, status, self.laid, files))
        self.files, self.laid = dict(files), {}

    def ask(self, words, given=b""):
        """Adds a run that comes to what the documents say. Gives the lines that it prints."""
        outcome = outcome_of(words, given, self.files)
        self.add(words, given, [(None, outcome.lines)], outcome.status, outcome.files)
        return outcome.lines

    def tell(self):
        """A new file or a loaded one, and then, mostly, what is opened."""
        name = self.load() if self.chance(20) else self.serve("first.exh")
        if self.chance(60):
            self.refuse()
        for following in ("second.exh", "third.exh"):
            if name is None or self.chance(25):
                break
            name = self.serve(following, name)
        return self.story

    def serve(self, name, source=None):
        """A script over a new file or an opened one. Gives the name of the file that is saved, if one is."""
        words, opened = ["serve"], None
        if source:
            source = self.source_of(source)
            words += ["--open", source]
            opened = file_of(self.files[source])
            if self.chance(80):
                self.refuse(source)
        writer = Writer(self.dice, self.taste, opened)
        writer.say(file_line(self.taste, self.dice.choice(COPIES), self.chance(50)))
        writer.write(self.dice.choice(LENGTHS))
        self.story.met += writer.script.met
        given = self.joined([line for line, _ in writer.told])
        if self.chance(15):
            self.add(words, given, writer.told, 0, self.files)
            return None
        left = writer.script.left()
        if source and self.chance(80 if is_placed(self.files[source]) else 25):
            name, saved = source, bytes_again(left, self.files[source])
            self.story.met["file saved where it was opened"] += 1
            self.story.met["file of version 3 saved where it was opened"] += is_placed(saved)
        else:
            saved = bytes_of_file(left)
        self.add([*words, "--save", name], given, writer.told, 0, self.files | {name: saved})
        self.story.met["saved file"] += 1
        self.report(name)
        return name

    def source_of(self, name):
        """The file to be opened: the one that was saved, or a strange one."""
        self.story.met["opened file"] += 1
        if self.chance(40):
            return name
        self.story.met["opened file that no run saved"] += 1
        content = self.in_a_version(strange(self.dice, file_of(self.files[name])))
        for _ in range(self.dice.randrange(3)):
            self.call_over(self.lay("changed.exh", content))
        if self.chance(60):
            self.load_into(self.lay("changed.exh", content))
        return self.lay(f"strange-{len(self.story.runs)}.exh", content)

    def in_a_version(self, file):
        """The bytes of a file in a version that may have it; of version 3 its pages are born in any order."""
        if self.chance(40):
            self.story.met["opened file of version 3"] += 1
            stamps = self.dice.randbytes(8), self.dice.randbytes(8)
            return placed_file(file, stamps, shuffled(self.dice, file))
        version = FIRST if has_room(file, FIRST) and self.chance(90) else CURRENT
        self.story.met["opened file of the first version"] += version is FIRST
        return bytes_of_file(file, version)

    def load_into(self, name):
        """A load of pairs into a file that is there."""
        file = file_of(self.files[name])
        settings = f"file cap={file.cap} wards={file.ward_bits} copies=1 keyer={file.keyer}"
        pairs = [self.pair().encode("latin-1") for _ in range(self.dice.randrange(PAIRS))]
        self.ask(["load", "--into", name], self.joined([settings.encode(), *pairs]))
        self.story.met["file that a load goes into"] += 1
        self.story.met["file of version 3 that a load goes into"] += is_placed(self.files[name])

    def joined(self, lines):
        """The bytes of a text: an empty line among the others, and maybe no newline at the end."""
        at = self.dice.randrange(len(lines))
        end = b"" if self.chance(20) else b"\n"
        return b"\n".join([*lines[:at], b"", *lines[at:]]) + end

    def report(self, name):
        """`check`, `dump`, `pairs` and calls of one key of a file that was saved, and runs over damaged ones."""
        for command in ("check", "dump"):
            if self.chance(60):
                lines = self.ask([command, name])
                self.story.met[f"file told by {command}"] += 1
                self.story.met["pair dumped"] += sum(line.startswith("pair") for line in lines)
        if self.chance(50):
            self.pair_again(name)
        if self.chance(40):
            self.convert(name)
        for _ in range(self.dice.randint(0, CALLS)):
            self.call_over(name)
        for _ in range(self.dice.randint(0, DAMAGED)):
            self.damage(self.files[name])

    def pair_again(self, name):
        """`pairs` of a file that was saved, and a load of that text."""
        lines = self.ask(["pairs", *pairing_words(self.dice, name)])
        self.story.met["text of pairs told by pairs"] += 1
        told = self.ask(["load", "again.exh"], "".join(f"{line}\n" for line in lines).encode())
        before, after = file_of(self.files[name]), file_of(self.files["again.exh"])
        if after.keyer != before.keyer or after.cap < before.cap:
            self.story.met["text of pairs loaded with a smaller cap or another keyer"] += 1
            return
        # What the documents say of such a load, whatever the reader comes to.
        if told != [f"loaded {len(before.map)}"] or after.map != before.map:
            raise ValueError(f"other pairs after `pairs` and `load` of {name}")
        self.story.met["text of pairs loaded with the same pairs"] += 1

    def convert(self, name):
        """A file that was saved, converted to version 3, told there, changed, and converted to version 2."""
        placed, again = (f"{it}-{len(self.story.runs)}.exh" for it in ("placed", "again"))
        self.ask(["convert", name, placed, *self.dice.choice(([], ["--version", "3"]))])
        self.ask([self.dice.choice(("check", "dump", "pairs")), placed])
        self.call_over(placed)
        self.ask(["convert", placed, again, "--version", "2"])
        self.story.met["file converted there and back"] += 1

    def call_over(self, name):
        """A call of one key of a file, by the command of its name."""
        command = self.dice.choice(("get", "put", "put", "del", "swap"))
        self.story.met["call over a file of version 3"] += is_placed(self.files[name])
        lines = self.ask(self.call_words(command, name, file_of(self.files[name])))
        of_get = "absent" if self.story.runs[-1].status else "found"
        self.story.met[f"{command} of a file: {of_get if command == 'get' else lines[0].split(' ')[0]}"] += 1

    def call_words(self, command, name, file):
        """The words of a call over the file of a name."""
        key = self.key_of(command, file)
        stands = file.map.get(key, b"")
        old = stands if self.chance(50) else other_than(self.dice, stands)
        values = {"put": [value_by(self.dice)], "swap": [old, value_by(self.dice)]}.get(command, [])
        return calling_words(self.dice, command, name, [key, *values])

    def key_of(self, command, file):
        """A key that a file has, or one that it lacks; for a put also one for which it has no room."""
        has, lacks = sorted(file.map), [key for key in self.taste.keys if key not in file.map]
        full = [key for key in lacks if file.count_under(file.pseudokey(key)[:LIMIT]) >= file.cap]
        groups = {"put": (has, lacks, full), "swap": (has, has, has, lacks)}.get(command, (has, lacks))
        return self.dice.choice(self.dice.choice([keys for keys in groups if keys]))

    def damage(self, content):
        """Runs over a damaged file, which is refused, or is another one."""
        name = self.lay("damaged.exh", (broken if is_placed(content) else damaged)(self.dice, content))
        file = file_of(content)
        if self.chance(40):
            self.ask(self.call_words("get", name, file))
            what = "refused" if self.story.runs[-1].status == 1 else "answered"
            self.story.met[f"damaged file of which a get is {what}"] += 1
        if is_placed(content):
            for _ in range(self.dice.randrange(CALLS)):
                self.call_over_damaged(name, file)
        opened = ["serve", "--open", name, "--save", name]
        call = self.call_words(self.dice.choice(("put", "del", "swap")), name, file)
        words = self.dice.choice([["check", name], ["dump", name], ["pairs", name], opened, call])
        lines = self.ask(words, b"inflight")
        self.story.met[f"damaged file {self.what_came(words == call, lines)}"] += 1

    def call_over_damaged(self, name, file):
        """A call over a damaged file of version 3, of which only what the call needs is asked."""
        self.ask(self.call_words(self.dice.choice(("put", "put", "del", "swap")), name, file))
        what = "refused" if self.story.runs[-1].status == 1 else "answered"
        self.story.met[f"damaged file of version 3 of which a call is {what}"] += 1

    def what_came(self, is_call, lines):
        """What came of a run over a damaged file: it is refused, or is answered."""
        if is_call:
            return f"of which a call is {'refused' if self.story.runs[-1].status == 1 else 'answered'}"
        fault = lines[0].partition(" at ")[0]
        return fault if fault.startswith(("refused 3", "refused 40")) else "that is legal"

    def refuse(self, source=None):
        """A script that is refused as a whole, over a new file or an opened one: nothing is saved."""
        lines = [wrong_file_line(self.dice, self.taste, source is not None), "inflight"]
        given = "\n".join(lines).encode("latin-1")
        if self.chance(15):
            given = self.dice.choice((b"", b"\n\n"))
        elif self.chance(15):
            given = file_line(self.taste, 1, False).encode().ljust(SCRIPT_LIMIT + 1, b"\n")
        [line] = self.ask(["serve", *(["--open", source] if source else []), "--save", "refused.exh"], given)
        self.story.met[f"script {line}"] += 1

    def load(self):
        """A load of pairs. Gives the name of the file that it makes."""
        pairs = [self.pair() for _ in range(self.dice.randrange(PAIRS))]
        lines = [file_line(self.taste, 1, self.chance(50)), *pairs]
        told = self.ask(["load", "loaded.exh"], self.joined([line.encode("latin-1") for line in lines]))
        self.story.met["loaded file"] += 1
        self.story.met["full pair of a load"] += sum(line.startswith("full") for line in told)
        self.story.met["refused line of a load"] += sum(line.startswith("refused") for line in told)
        self.report("loaded.exh")
        return "loaded.exh"

    def pair(self):
        """A line of a pair, seldom a wrong one."""
        key, value = spelled(self.dice, self.dice.choice(self.taste.keys)), spelled(self.dice, value_by(self.dice))
        if self.chance(90):
            return f"{key} {value}"
        long_key, long_value = "#" + "61" * (KEY_LIMIT + 1), "#" + "62" * (VALUE_LIMIT + 1)
        wrong = (key, f"{key}  {value}", f"{key} {value} ", f"{self.dice.choice(WRONG_BYTES)} {value}", "# a")
        return self.dice.choice((*wrong, f"{long_key} a", f"a {long_value}", self.dice.choice(WRONG_LINES)))


def story_of(seed):
    """The story of a seed."""
    return Teller(random.Random(seed)).tell()
