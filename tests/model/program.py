"""What the program does with its words, as the documents say: what it prints, its status, and the files it leaves."""

from typing import NamedTuple

from .command_line import WrongWords, converting_of, pairing_of
from .everyday import answer_of, bytes_again, content_at
from .file_reader import file_of
from .page_file import bytes_of_file, check_text, dump_text, load_of, pairs_text
from .page_reader import Fault
from .placed_file import DRAWN, placed_file
from .request import EVERYDAY
from .saving import is_savable, saved_over
from .script import text_of
from .version import PLACED


class Outcome(NamedTuple):
    """The lines that are printed, the exit status, and the files afterwards by their names."""

    lines: list
    status: int
    files: dict

    @property
    def text(self):
        """What is on standard output."""
        return "".join(f"{line}\n" for line in self.lines).encode("latin-1")


def outcome_of(words, given, files):
    """What the program comes to over what it is given and the files that are there. A word is bytes, or one letter a byte."""
    if words[0] in EVERYDAY:
        return everyday_outcome(words, given, files)
    try:
        return outcome_of_right(words, given, files)
    except WrongWords:
        return Outcome([], 2, files)
    except Fault as fault:
        return Outcome([fault.text()], 1, files)


def everyday_outcome(words, given, files):
    """What an everyday command comes to, which prints whole lines."""
    answer = answer_of([it if isinstance(it, bytes) else it.encode("latin-1") for it in words], given, files)
    *lines, end = answer.text.decode("latin-1").split("\n")
    if end:
        raise ValueError(f"{words} print no whole lines")
    return Outcome(lines, answer.status, answer.files)


def outcome_of_right(words, given, files):
    """What another command comes to, where neither the words nor the files that are read are wrong."""
    match words:
        case [("check" | "dump") as command, name]:
            text_of_file = check_text if command == "check" else dump_text
            return Outcome(text_of_file(file_of(content_at(name, files))), 0, files)
        case ["pairs", *spelled]:
            name, settings = pairing_of(spelled)
            return Outcome(pairs_text(file_of(content_at(name, files)), **settings), 0, files)
        case ["load", name]:
            lines, load = load_of(given)
            return ended(lines, load, files, name)
        case ["load", "--into", name]:
            lines, load = load_of(given, file_of(content_at(name, files)))
            return ended(lines, load, files, name, name)
        case ["convert", *spelled]:
            return converted(*converting_of(spelled), files)
        case ["serve", *options]:
            return served(dict(zip(options[::2], options[1::2])), given, files)
    raise ValueError(words)


def converted(name, new, version, files):
    """The file of a name, of any version, as one of a version at a place where nothing is."""
    file = file_of(content_at(name, files))
    if files.get(new):
        return Outcome([], 1, files)
    return saved([], placed_file(file, DRAWN) if version == PLACED.number else bytes_of_file(file), files, new)


def served(options, given, files):
    """A script over the file that is opened, or a new one."""
    opened = file_of(content_at(options["--open"], files)) if "--open" in options else None
    lines, script = text_of(given, opened)
    return ended(lines, script, files, options.get("--save"), options.get("--open"))


def ended(lines, run, files, name, opened=None):
    """The end of a script or a load, whose file is saved where there is a name for it, maybe that which was opened."""
    if run.is_refused or not name:
        return Outcome(lines, int(run.is_refused), files)
    content = bytes_again(run.left(), files[name]) if name == opened else bytes_of_file(run.left())
    return saved(lines, content, files, name)


def saved(lines, content, files, name):
    """A save, which replaces an empty file or one that begins as a page file."""
    if not is_savable(name, files):
        return Outcome(lines, 1, files)
    return Outcome(lines, 0, saved_over(name, content, files))
