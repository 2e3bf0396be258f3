"""Runs that change a page file of version 3 in place, the pairs before and after, and what must hold of the file."""

import os
import subprocess
import tempfile
from pathlib import Path
from typing import NamedTuple

from .bench import ENVIRONMENT

SECONDS = 60
PLACE = "place.exh"
FIRST_LINE = b"file cap=2 wards=1 copies=1 keyer=plain\n"
KEYS = 40
# The key that is put once more in the end.
MORE = "zz"
# Where a file is written that only one run reads, so that nobody waits for a disk.
MEMORY = "/dev/shm"


def key_of(number):
    """A key whose first byte spreads the keys over both wards and their pages."""
    return f"#{number * 6 % 256:02x}{number:02x}"


PAIRS = {key_of(number): f"v{number}" for number in range(KEYS)}


class Errand(NamedTuple):
    """A run: its words, standard input, and the pairs that it leaves."""

    words: list
    given: bytes
    left: dict


def script_of(lines):
    return FIRST_LINE + "".join(line + "\n" for line in lines).encode()


def without(*keys):
    return {other: value for other, value in PAIRS.items() if other not in keys}


def calling(command, *words, path=PLACE):
    """The words of a call over a file, of keys and values that are spelled as in a script."""
    return [command, path, "--hex", *(bytes_of(word).hex() for word in words)]


def bytes_of(word):
    return bytes.fromhex(word[1:]) if word.startswith("#") else word.encode()


# The keys that are taken out together.
MANY = (7, 8, 27)
ADDED = [f"#c1{number:02x}" for number in range(3)]
ERRANDS = {
    "a put of a value": Errand(calling("put", key_of(3), "other"), b"", {**PAIRS, key_of(3): "other"}),
    "a put of a new key": Errand(calling("put", "#c1c1c1", "new"), b"", {**PAIRS, "#c1c1c1": "new"}),
    "a del": Errand(calling("del", key_of(7)), b"", without(key_of(7))),
    "a del of three keys": Errand(calling("del", *map(key_of, MANY)), b"", without(*map(key_of, MANY))),
    "a swap": Errand(calling("swap", key_of(5), "v5", "w5"), b"", {**PAIRS, key_of(5): "w5"}),
    "a load into the file": Errand(
        ["load", "--into", PLACE], script_of(f"{key} n" for key in ADDED), {**PAIRS, **{key: "n" for key in ADDED}}
    ),
    "a script that is saved over it": Errand(
        ["serve", "--open", PLACE, "--save", PLACE],
        script_of([f"begin r1 c1 1 put {key_of(9)} z", "hop r1"]),
        {**PAIRS, key_of(9): "z"},
    ),
}


def run(program, words, given, room, descriptors=(), **environment):
    """What a run in a folder comes to."""
    return subprocess.run(
        [program, *words],
        input=given,
        cwd=room,
        env={**ENVIRONMENT, **environment},
        capture_output=True,
        pass_fds=descriptors,
        timeout=SECONDS,
        check=False,
    )


def lay(program, room):
    """Lays a file of version 3 with the pairs in a folder."""
    text = FIRST_LINE + "".join(f"{key} {value}\n" for key, value in PAIRS.items()).encode()
    for words, given in ((["load", "plain.exh"], text), (["convert", "plain.exh", PLACE], b"")):
        done = run(program, words, given, room)
        if done.returncode:
            raise RuntimeError(f"{words}: {done.stdout} {done.stderr}")
    os.remove(f"{room}/plain.exh")


def files_in(room):
    """The files of a folder, by their names."""
    return {name: Path(room, name).read_bytes() for name in os.listdir(room)}


def by_bytes(pairs):
    return {bytes_of(key): value for key, value in pairs.items()}


def pairs_in(text):
    """The pairs that `pairs` prints, each key as bytes."""
    return {bytes_of(key): value for key, value in (line.split(" ") for line in text.decode().splitlines()[1:])}


def wrong_over(program, files, allowed):
    """What is wrong over files of a folder, where `pairs` may print these lists of pairs; or None."""
    with tempfile.TemporaryDirectory(dir=MEMORY) as room:
        for name, content in files.items():
            Path(room, name).write_bytes(content)
        told = run(program, ["pairs", PLACE], b"", room)
        if told.returncode:
            return f"pairs: status {told.returncode}: {told.stdout[:80]} {told.stderr[:200]}"
        if pairs_in(told.stdout) not in [by_bytes(pairs) for pairs in allowed]:
            return "pairs of neither"
        checked = run(program, ["check", PLACE], b"", room)
        if checked.returncode or not checked.stdout.startswith(b"legal "):
            return f"check: {checked.stdout[:80]}"
        put = run(program, ["put", PLACE, MORE, "1"], b"", room)
        if (put.returncode, put.stdout) != (0, b"new\n"):
            return f"put: {put.stdout[:80]} {put.stderr[:200]}"
        beside = sorted(set(os.listdir(room)) - {PLACE})
    return f"left beside it: {beside}" if beside else None
