"""Commands by chance over a page file, each with what it must come to by the file's one map."""

import copy
import random
from typing import NamedTuple

from .command_line import ANY_FURTHER
from .dice import KEYERS, Taste, other_than, plain_keys, sha_keys, value_by
from .everyday import COMMANDS, Mapped
from .file import Call, File
from .grammar import hexadecimal, printed
from .notes import notes_of_pairs
from .page_file import load_of
from .request import EVERYDAY, is_taken, request_of
from .said import ANY
from .version import CAP_LIMIT, KEY_LIMIT, LIMIT, VALUE_LIMIT, WARD_BITS_LIMIT

# How often of a hundred a command comes up.
OFTEN = {"put": 34, "get": 20, "del": 12, "swap": 10, "load": 5, "pairs": 5, "check": 5, "convert": 3, "backup": 3, "create": 3}
# The pairs of a load, and the keys of a command that takes several, at most.
PAIRS, SEVERAL = 25, 6
HYPHEN = b"-"


class Due(NamedTuple):
    """A command, what it reads, what it must print and say and end with, and what else must hold of what it prints: nothing
    where that must be these bytes."""

    words: list
    given: bytes
    text: bytes | None
    error: list
    status: int
    holds: object = None


def taste_by(dice):
    """Settings and keys: caps of all sizes, and as many wards as a file may have."""
    keyer = dice.choice(KEYERS)
    keys = plain_keys(dice) if keyer == "plain" else sha_keys(dice)
    keys += [dice.randbytes(dice.choice((1, 2, 3, 8, KEY_LIMIT))) for _ in range(8)]
    keys += [b"-", b"--", b"-5", b"--hex", b"#", b"a b", b"\n", "é".encode()]
    return Taste(dice.randint(1, CAP_LIMIT), dice.randint(0, WARD_BITS_LIMIT), keyer, sorted(set(keys)))


def value_of(dice):
    rare = (b"-", b"--", b"--new", b"-5", b"two\nlines\n", b"\n", dice.randbytes(dice.randint(0, VALUE_LIMIT)))
    return dice.choice(rare) if dice.random() < 0.3 else value_by(dice)


class Teller:
    """Tells commands over one file after the other, of which each has the pairs of the one before."""

    def __init__(self, seed):
        self.dice = random.Random(seed)
        self.taste = taste_by(self.dice)
        self.mapped = Mapped(File.empty(self.taste.cap, self.taste.ward_bits, self.taste.keyer))
        self.number = 0
        self.name = self.next_name()

    def next_name(self):
        self.number += 1
        return f"file-{self.number}.exh"

    def chance(self, of_hundred):
        return self.dice.randrange(100) < of_hundred

    def first(self):
        """The command that makes the file."""
        settings = (("cap", self.taste.cap), ("wards", self.taste.ward_bits), ("keyer", self.taste.keyer))
        options = [self.option(f"--{name}", str(value)) for name, value in settings]
        return Due(self.spelled("create", [self.name.encode()], options), b"", b"", [], 0)

    def next(self):
        """The next command."""
        command = self.dice.choices(list(OFTEN), OFTEN.values())[0]
        return getattr(self, f"{command}_next")()

    # ---- words

    def option(self, name, value):
        return [f"{name}={value}".encode()] if self.chance(50) else [name.encode(), value.encode()]

    def spelled(self, command, places, options, is_read=False):
        """The words of a command: its options at any places, and `--` where a place would be one, and seldom elsewhere, but not
        where the last one says that a value is to be read."""
        first = next((at for at, it in enumerate(places) if not is_read and is_taken(command, it)), None)
        end = self.dice.randint(0, len(places)) if first is None and not is_read and self.chance(20) else first
        parts = [[it] for it in places[:end]]
        for option in options:
            parts.insert(self.dice.randint(0, len(parts)), option)
        further = [] if end is None else [ANY_FURTHER.encode(), *places[end:]]
        return [command.encode(), *(word for part in parts for word in part), *further]

    def contents(self, command, contents):
        """Keys and values as words, and the option by which they are read."""
        if any(b"\0" in it for it in contents) or self.chance(25):
            digits = [it.hex() for it in contents]
            return [(it.upper() if self.chance(20) else it).encode() for it in digits], [[b"--hex"]]
        return list(contents), []

    def wait(self):
        return [self.option("--wait", str(self.dice.choice((0, 5, 60, 86400))))] if self.chance(10) else []

    def asked(self, words, given=b""):
        """A command whose answer follows from the map."""
        request = request_of(words)
        text, error, status = COMMANDS[request.command](request, given, self.mapped)
        return Due(words, given, text, error, status)

    # ---- commands

    def key(self, *groups):
        """A key that the file has or lacks, or has no room for."""
        has, file = sorted(self.mapped.file.map), self.mapped.file
        lacks = [key for key in self.taste.keys if key not in file.map]
        full = [key for key in lacks if file.count_under(file.pseudokey(key)[:LIMIT]) >= file.cap]
        named = {"has": has, "lacks": lacks, "full": full}
        return self.dice.choice(self.dice.choice([named[it] for it in groups if named[it]] or [self.taste.keys]))

    def put_next(self):
        key, value = self.key("has", "lacks", "lacks", "full"), value_of(self.dice)
        options = [*self.wait(), *self.dice.choice(([], [], [[b"--new"]], [[b"--replace"]]))]
        if self.chance(25):
            return self.put_that_reads(key, value, options)
        words, hexadecimal_too = self.contents("put", [key, value])
        places = [self.name.encode(), *words]
        return self.asked(self.spelled("put", places, [*options, *hexadecimal_too]))

    def put_that_reads(self, key, value, options):
        """A put whose value stands on standard input."""
        digits = [[b"--hex"]] if b"\0" in key or is_taken("put", key) or self.chance(20) else []
        given = value.hex().encode() if digits else value
        raw = [[b"--raw"]] if self.chance(40) else []
        # A newline at the end of the value needs another one behind it, or to be kept.
        given += b"" if raw or self.chance(30) and not given.endswith(b"\n") else b"\n"
        places = [self.name.encode(), key.hex().encode() if digits else key, HYPHEN]
        return self.asked(self.spelled("put", places, [*options, *digits, *raw], True), given)

    def keys(self):
        return [self.key("has", "has", "lacks") for _ in range(self.dice.randint(1, SEVERAL))]

    def lines_of(self, keys, is_hex):
        """Keys as lines."""
        if is_hex:
            lines = [key.hex() for key in keys]
        else:
            lines = [hexadecimal(key) if self.chance(30) else printed(key) for key in keys]
        end = "" if self.chance(20) else "\n"
        return ("\n".join(lines) + (end if lines else "")).encode()

    def of_keys(self, command):
        """A get or a del."""
        options = self.wait()
        if self.chance(20):
            is_hex, keys = self.chance(30), self.keys()
            options += [self.option("--from", "-"), *([[b"--hex"]] if is_hex else [])]
            return self.asked(self.spelled(command, [self.name.encode()], options), self.lines_of(keys, is_hex))
        keys = self.keys() if self.chance(25) else [self.key("has", "lacks")]
        if command == "get" and len(keys) == 1 and self.chance(30):
            options.append([b"--raw"])
        words, hexadecimal_too = self.contents(command, keys)
        return self.asked(self.spelled(command, [self.name.encode(), *words], [*options, *hexadecimal_too]))

    def get_next(self):
        return self.of_keys("get")

    def del_next(self):
        return self.of_keys("del")

    def swap_next(self):
        key = self.key("has", "has", "has", "lacks")
        stands = self.mapped.file.map.get(key, b"")
        old = stands if self.chance(60) else other_than(self.dice, stands)
        words, options = self.contents("swap", [key, old, value_of(self.dice)])
        return self.asked(self.spelled("swap", [self.name.encode(), *words], [*options, *self.wait()]))

    def first_line(self, **given):
        file = self.mapped.file
        settings = {"cap": file.cap, "wards": file.ward_bits, "copies": 1, "keyer": file.keyer} | given
        return " ".join(["file", *(f"{name}={value}" for name, value in settings.items())])

    def load_next(self):
        """A load of pairs into the file."""
        pairs = [(self.key("has", "lacks", "full"), value_of(self.dice)) for _ in range(self.dice.randrange(PAIRS))]
        lines = [self.first_line(), *(f"{printed(key)} {printed(value)}" for key, value in pairs)]
        given = "".join(f"{line}\n" for line in lines).encode()
        error = notes_of_pairs(given, copy.deepcopy(self.mapped.file))
        printed_lines, _ = load_of(given, self.mapped.file)
        text = "".join(f"{line}\n" for line in printed_lines).encode()
        return Due([b"load", b"--into", self.name.encode()], given, text, error, 0)

    def pairs_next(self, name=None):
        """The text of the pairs, whose lines may stand in another order."""
        head = self.first_line()
        lines = sorted(f"{printed(key)} {printed(value)}" for key, value in self.mapped.file.map.items())

        def holds(text):
            first, *rest = text.decode().splitlines() or [""]
            return first == head and sorted(rest) == lines

        return Due([b"pairs", (name or self.name).encode()], b"", None, [], 0, holds)

    def check_next(self):
        """Whether the file is legal, and has as many records."""
        wards, records = 2**self.mapped.file.ward_bits, len(self.mapped.file.map)

        def holds(text):
            words = text.decode().split()
            counts = dict(zip(words[1::2], map(int, words[2::2]))) if words[:1] == ["legal"] and len(words) == 13 else {}
            is_right = (counts.get("wards"), counts.get("records")) == (wards, records)
            return is_right and counts["pages"] == counts["live"] + counts["forward"]

        return Due([b"check", self.name.encode()], b"", None, [], 0, holds)

    def convert_next(self):
        """The file in another version, which is the next one."""
        old, self.name = self.name, self.next_name()
        return Due([b"convert", old.encode(), self.name.encode(), *self.option("--version", self.dice.choice("233"))], b"", b"", [], 0)

    def backup_next(self):
        """A copy, which is mostly the next one; or none, where something is."""
        if self.chance(20):
            return self.refused("backup", [self.name.encode(), self.name.encode()])
        old, new = self.name, self.next_name()
        self.name = new if self.chance(70) else old
        return Due(self.spelled("backup", [old.encode(), new.encode()], self.wait()), b"", b"", [], 0)

    def create_next(self):
        """What makes no file, since one is there."""
        return self.refused("create", [self.name.encode()])

    def refused(self, command, places):
        return Due(self.spelled(command, places, self.wait()), b"", b"", [f"exhash: {self.name}: {ANY}"], 3)
