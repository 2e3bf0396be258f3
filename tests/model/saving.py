"""Where a file may be saved, and what a save leaves beside it."""

from pathlib import Path

from .page_file import MAGIC

# What stands behind a place's name in that of the file beside it, and for where that is another's, in those of others.
BESIDE = ".exhash-saving"
BESIDES = (BESIDE, *(f"{BESIDE}-{number}" for number in (2, 3, 4)))
# What a file beside begins with until it is whole.
UNFINISHED = b"EXHASHUF"


def names_beside(name, files):
    """The names that the file beside a place may have: what stands there is empty, or a killed save's that isn't whole."""
    return [name + it for it in BESIDES if is_unfinished(files.get(name + it, b""))]


def is_unfinished(content):
    return not content or content.startswith(UNFINISHED)


def others_beside(folder, name):
    """The files of a folder but that of a name, and whole ones that saves left which were killed as these got their place."""
    files = {it.name: it.read_bytes() for it in Path(folder).iterdir() if it.name != name}
    return sorted(it for it, content in files.items() if it.removeprefix(name) not in BESIDES or not content.startswith(MAGIC))


def cleared(name, files):
    """The files without second names beside a place of what is there, which a killed save left."""
    return {it: content for it, content in files.items() if it not in own_names(name, files)}


def own_names(name, files):
    return [name + it for it in BESIDES if files.get(name) and files.get(name + it) == files[name]]


def is_savable(name, files):
    """Whether a save replaces what is at a name: an empty file or one that begins as a page file, or nothing; and whether a
    name beside it is left."""
    old = files.get(name, b"")
    return bool(names_beside(name, cleared(name, files))) and (not old or old.startswith(MAGIC))


def saved_over(name, content, files):
    """The files where a content is saved at a name."""
    left = cleared(name, files)
    beside = names_beside(name, left)[0]
    return {it: old for it, old in left.items() if it != beside} | {name: content}
