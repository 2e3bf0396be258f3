"""Runs that save at a path, and what else may come to a path meanwhile."""

import os
from pathlib import Path
from typing import NamedTuple

from .page_file import bytes_of_file, load_of
from .program import Outcome, outcome_of

FIRST_LINE = b"file cap=4 wards=0 copies=1 keyer=plain\n"
# The key that each file has.
OLD_KEY, OLD = "a0", b"#a0 old\n"
# What else a file has, that is known by it.
OTHER = b"".join(b"#%02x%02x %d\n" % (high, low, high + low) for high in range(0, 256, 32) for low in (0, 64, 128))


class Link(str):
    """Where a link leads, from its folder."""


class User(NamedTuple):
    """For whom a run is made."""

    number: int
    group: int


def led_to(path, files):
    """The name of the file to which a path leads, over these files and links."""
    for name, content in files.items():
        if isinstance(content, Link) and (path == name or path.startswith(name + "/")):
            return led_to(str(Path(name).parent / content) + path[len(name) :], files)
    return path


class Saver(NamedTuple):
    """A run that saves at a path: its words, standard input, and the user, where that isn't the runner."""

    words: list
    path: str
    given: bytes = b""
    user: User | None = None

    @property
    def opens(self):
        """Whether what it saves comes of the file that it opened there."""
        return self.words[0] != "load" or "--into" in self.words

    @property
    def changes(self):
        """Whether it is a change by itself, which prints nothing unless it saved."""
        return self.words[0] in ("put", "del", "swap")

    def over(self, files):
        """What it comes to over files, where nothing fails and nobody else is there."""
        name = led_to(self.path, files)
        words = [name if word == self.path else word for word in self.words]
        return outcome_of(words, self.given, files)


class Writer(NamedTuple):
    """What others do who ask for no lock: files that they write to, and links that they lead elsewhere."""

    files: dict

    def over(self, files):
        return Outcome([], 0, files | self.files)

    def write_in(self, folder):
        for name, content in self.files.items():
            if isinstance(content, Link):
                (folder / "led").symlink_to(content)
                os.replace(folder / "led", folder / name)
            else:
                (folder / name).write_bytes(content)


def file_of(pairs):
    """The bytes of a file of pairs."""
    return bytes_of_file(load_of(FIRST_LINE + pairs)[1].left())


def put(path, key, value, user=None):
    """A put of a key in hexadecimal digits."""
    return Saver(["put", "--hex", path, key, value.encode().hex()], path, user=user)


def take(path, user=None):
    """A del of the old key."""
    return Saver(["del", "--hex", path, OLD_KEY], path, user=user)


def swap(path, user=None):
    """A swap of its value."""
    return Saver(["swap", path, "--hex", OLD_KEY, b"old".hex(), b"new".hex()], path, user=user)


def load(path, pairs, user=None):
    return Saver(["load", path], path, FIRST_LINE + pairs, user)


def load_into(path, pairs, user=None):
    return Saver(["load", "--into", path], path, FIRST_LINE + pairs, user)


def serve(path, call, user=None):
    script = FIRST_LINE + b"begin r1 c1 1 %s\nhop r1\n" % call
    return Saver(["serve", "--open", path, "--save", path], path, script, user)


def changing(path, user=None):
    """The runs that change the file of a path, over one that has the old key, by their names."""
    return {
        "put": put(path, "20", "y", user),
        "del": take(path, user),
        "swap": swap(path, user),
        "load --into": load_into(path, b"#00 a\n#80 b\n#40 x\n", user),
        "serve": serve(path, b"put #20 y", user),
    }
