"""A program that does what another does, but for one wrong answer.

    wrong_answers.py PROGRAM KIND WORDS ..

Of what PROGRAM prints the last line of the kind is altered; or it is another kind of wrong end.
"""

import hashlib
import re
import subprocess
import sys
from pathlib import Path

# Of each kind of line what it looks like, and what is printed in its place; nothing where that is empty.
KINDS = {
    "request at another page": (r"(r\d+ at \d+/)(\d+)", r"\g<1>9\2"),
    "request in another ward": (r"(r\d+ at )(\d+/\d+)", r"\g<1>9\2"),
    "another value": (r"(r\d+ is )(\S+.*)", r"\g<1>x\2"),
    "another value before": (r"(r\d+ was )(\S+.*)", r"\g<1>x\2"),
    "new for none": (r"(r\d+) none(.*)", r"\1 new\2"),
    "none for new": (r"(r\d+) new(.*)", r"\1 none\2"),
    "new for full": (r"(r\d+) full(.*)", r"\1 new\2"),
    "another value that differs": (r"(r\d+ differs )(\S+.*)", r"\g<1>x\2"),
    "none for differs": (r"(r\d+) differs \S+(.*)", r"\1 none\2"),
    "none for swapped": (r"(r\d+) swapped(.*)", r"\1 none\2"),
    "moved to another page": (r"(r\d+ moved \d+/)(\d+)", r"\g<1>9\2"),
    "new for split": (r"(r\d+) split", r"\1 new"),
    "more moves": (r"(r\d+ .*) moves (\d+) of (\d+)", r"\1 moves 9\2 of \3"),
    "a greater bound": (r"(r\d+ .*) moves (\d+) of (\d+)", r"\1 moves \2 of 9\3"),
    "split to another page": (r"(notice .* split right )(\d+)", r"\g<1>9\2"),
    "split at another prefix": (r"(notice .* prefix )(\S+)( .* split .*)", r"\g<1>\g<2>0\3"),
    "split of another number": (r"(notice .* number )(\d+)( split .*)", r"\g<1>9\2\3"),
    "split with another index": (r"(notice \d+/)(\d+ .* split .*)", r"\g<1>9\2"),
    "merge of another number": (r"(notice .* number )(\d+)( merge)", r"\g<1>9\2\3"),
    "merge at another prefix": (r"(notice .* prefix )(\S+)( .* merge)", r"\g<1>\g<2>0\3"),
    "another notice taken": (r"(copy \d+ took \d+/)(\d+)", r"\g<1>9\2"),
    "another table joined": (r"(copy \d+ joined )(\d+)", r"\g<1>9\2"),
    "another copy restarted": (r"copy (\d+) restarted", r"copy 9\1 restarted"),
    "another table sent": (r"table (\d+)", r"table 9\1"),
    "another depth": (r"(copy \d+ depth )(\d+)", r"\g<1>9\2"),
    "entry of another split": (r"(entry .* split right )(\d+)", r"\g<1>9\2"),
    "entry of another number": (r"(entry \S+ number )(\d+ .*)", r"\g<1>9\2"),
    "entry of a merge at another prefix": (r"(entry \S+)( .* merge)", r"\g<1>0\2"),
    "leaf of another prefix": (r"(leaf \S+)( .*)", r"\g<1>0\2"),
    "leaf on another page": (r"(leaf \S+ \d+/)(\d+)", r"\g<1>9\2"),
    "live page of another prefix": (r"(page \S+ live prefix \S+)( .*)", r"\g<1>0\2"),
    "live page with another link": (r"(page \S+ live .* right )(\d+ .*)", r"\g<1>9\2"),
    "live page without its link": (r"(page \S+ live .* right )\d+( .*)", r"\1none\2"),
    "live page of more records": (r"(page \S+ live .* records )(\d+)", r"\g<1>9\2"),
    "forwarding page to another page": (r"(page \S+ forward \d+/)(\d+)", r"\g<1>9\2"),
    "more requests in flight": (r"(inflight )(\d+)", r"\g<1>9\2"),
    "another refusal of a step": (r"refused ([1-9]|2\d)", r"refused 3\1"),
    "range for syntax": (r"refused 60", r"refused 61"),
    "syntax for range": (r"refused 61", r"refused 60"),
    "range for another file": (r"refused 63", r"refused 61"),
    "range for a script that is too long": (r"refused 62", r"refused 61"),
    "more pairs loaded": (r"(loaded )(\d+)", r"\g<1>9\2"),
    "another key that is full": (r"(full )(\S+)", r"\g<1>x\2"),
    "legal file of more pages": (r"(legal .* pages )(\d+ .*)", r"\g<1>9\2"),
    "legal file of more records": (r"(legal .* records )(\d+ .*)", r"\g<1>9\2"),
    "file of another cap": (r"(file cap=)(\d+ .*)", r"\g<1>9\2"),
    "ward of more pages": (r"(ward \d+ pages )(\d+)", r"\g<1>9\2"),
    "pair of another key": (r"(pair )(\S+ \S+)", r"\g<1>x\2"),
    "pair of another value": (r"(pair \S+ )(\S+)", r"\g<1>x\2"),
    "fault at another place": (r"(refused 3\d at )(\d+)", r"\g<1>9\2"),
    "another fault of a block": (r"refused 3(\d at \d+)", r"refused 2\1"),
    "another fault of a file": (r"refused 3([6-9])", r"refused 2\1"),
    "illegal for another reason": (r"(refused 40 reason )(\d)", r"\g<1>9\2"),
    "a line twice": (r"(r\d+ .*)", r"\1\n\1"),
    "a line left out": (r"(r\d+ .*)", ""),
}
# The same of what one command prints, whose lines might be another's of another kind.
KINDS_OF_COMMANDS = {
    "pairs": {
        "another cap told by pairs": (r"(file cap=)(\d+ .*)", r"\g<1>9\2"),
        "another key told by pairs": (r"(?!refused )(\S+ \S+)", r"x\1"),
        "another value told by pairs": (r"(?!refused )(\S+) (\S+)", r"\1 x\2"),
        "a pair left out": (r"(?!refused )\S+ \S+", ""),
    },
    "get": {
        "another value got": (r"(\S+)", r"x\1"),
        "nothing for a value got": (r"\S+", ""),
    },
    "put": {
        "another value before a put": (r"(was )(\S+)", r"\g<1>x\2"),
        "new for a full put": (r"full", "new"),
    },
    "del": {"none for a del": (r"was \S+", "none")},
    "swap": {"another value that differs from a swap's": (r"(differs )(\S+)", r"\g<1>x\2")},
}
NAMES = (*KINDS, *(name for kinds in KINDS_OF_COMMANDS.values() for name in kinds))
BYTE_TURNED, NOTHING_SAVED = "a byte turned in a saved file", "nothing saved"
TURNED_BY_PUT = "a byte turned in the file of a put"
STAMPS_KEPT = "a file of version 3 whose stamps aren't drawn"
ANOTHER_STATUS, STANDARD_ERROR = "another status", "a word on standard error"
# The byte of the file that is turned: one of a page block, behind its records and before its digest.
TURNED = 4096 + 4000
# Where the version and the stamps of a file of version 3 stand in its header, and where that ends.
VERSION, STAMPS, CONTENT = slice(8, 10), slice(84, 100), 4064


def altered(lines, kind, command="serve"):
    """The lines that a command prints, of which the last of the kind is altered."""
    pattern, instead = (KINDS | KINDS_OF_COMMANDS.get(command, {})).get(kind, ("", ""))
    places = [at for at, line in enumerate(lines) if line and re.fullmatch(pattern, line)]
    if not places:
        return lines
    wrong = re.sub(pattern, instead, lines[places[-1]])
    return [*lines[: places[-1]], *(wrong.split("\n") if wrong else []), *lines[places[-1] + 1 :]]


def saved_by(words):
    """The file that a run with these words saves, if it is a script that is saved or a put."""
    if words[0] == "put":
        return next(word for word in words[1:] if word not in ("--", "--hex"))
    return words[-1] if "--save" in words else None


def with_stamps_of(before, after):
    """The file with the stamps that it had before, where it is and was one of version 3."""
    if not before[VERSION] == after[VERSION] == b"\0\3":
        return after
    header = bytearray(after[:CONTENT])
    header[STAMPS] = before[STAMPS]
    return bytes(header) + hashlib.sha256(header).digest() + after[CONTENT + 32 :]


def content_before(words):
    """The bytes of the file that a run with these words saves, as they are before it."""
    place = saved_by(words)
    return Path(place).read_bytes() if place is not None and Path(place).exists() else b""


def spoil(words, kind, before):
    """Alters the file that was saved."""
    place = saved_by(words)
    if place is not None and kind == STAMPS_KEPT:
        Path(place).write_bytes(with_stamps_of(before, Path(place).read_bytes()))
    if place is not None and kind == (TURNED_BY_PUT if words[0] == "put" else BYTE_TURNED):
        content = bytearray(Path(place).read_bytes())
        content[TURNED] ^= 1
        Path(place).write_bytes(content)
    elif "--save" in words and kind == NOTHING_SAVED:
        Path(place).unlink()


def main():
    program, kind, *words = sys.argv[1:]
    before = content_before(words)
    ended = subprocess.run([program, *words], stdout=subprocess.PIPE, check=False)
    lines = altered(ended.stdout.decode("latin-1").split("\n"), kind, words[0])
    sys.stdout.buffer.write("\n".join(lines).encode("latin-1"))
    if not ended.returncode:
        spoil(words, kind, before)
    if kind == STANDARD_ERROR:
        print("exhash:", file=sys.stderr)
    return ended.returncode + (kind == ANOTHER_STATUS)


if __name__ == "__main__":
    sys.exit(main())
