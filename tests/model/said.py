"""The sentences of standard error, as far as the documents tell them: a pattern has `ANY` where a sentence has words of its
own."""

import re

from .page_file import MAGIC

ANY = "\0"
# The commands that print a refusal of a page file, and say it in a sentence too.
TELLING = ("check", "dump", "pairs", "load")


def is_like(pattern, line):
    """Whether a line is what a pattern says."""
    return re.fullmatch(".*".join(map(re.escape, pattern.split(ANY))), line) is not None


def are_like(patterns, lines):
    """Whether lines are, one by one, what patterns say."""
    return len(patterns) == len(lines) and all(map(is_like, patterns, lines))


def sentence_of(path, refusal, content):
    """The sentence of a refusal of the file of a path, of these bytes, or of none: what it must have, and its number."""
    has = "exhash create" if content is None else "" if content.startswith(MAGIC) else "no page file"
    return f"exhash: {path}: {ANY}{has}{ANY} ({refusal})"
