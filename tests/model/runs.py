"""Runs the program over a story, and names the first line that differs."""

import itertools
import subprocess
import tempfile
from pathlib import Path

from .notes import may_be_said, notes_of
from .page_file import BLOCK, CONTENT, sealed
from .placed_file import is_placed, stamps_of, with_stamps
from .said import is_like

SECONDS = 60
ENVIRONMENT = {"PATH": "/usr/local/bin:/usr/bin:/bin", "LANG": "C.UTF-8"}


def difference_in(program, story):
    """What is told of the first run that differs; nothing where none does."""
    was = {}
    with tempfile.TemporaryDirectory(prefix="exhash-story-") as folder:
        for number, run in enumerate(story.runs, 1):
            for name, content in run.laid.items():
                (Path(folder) / name).write_bytes(content)
            kept = {name for name, content in run.files.items() if (was | run.laid).get(name) == content}
            found, was = difference_in_run(program, run, Path(folder), kept=kept), run.files
            if found:
                return [f"run {number}, `{' '.join(run.words)}`: {found[0]}", *found[1:]]
    return []


def is_over_a_new_file(run):
    """Whether a run is a script that opens no file."""
    return run.words[0] == "serve" and "--open" not in run.words


def difference_in_images(program, story, sizes):
    """The same over pages as images: of each run that is a script over a new file, behind caches of these sizes by turns."""
    runs = filter(is_over_a_new_file, story.runs)
    for number, (run, size) in enumerate(zip(runs, itertools.cycle(sizes)), 1):
        with tempfile.TemporaryDirectory(prefix="exhash-story-") as folder:
            run = run._replace(words=["serve"], files={})
            found = difference_in_run(program, run, Path(folder), ["images", str(size)])
        if found:
            return [f"script {number} over images, a cache of {size}: {found[0]}", *found[1:]]
    return []


def difference_in_run(program, run, folder, words=None, kept=()):
    """In what a run differs from what it must come to, where it is asked by its own words or by others.

    The files of the names that are kept must be as they were.
    """
    before = {file.name: file.read_bytes() for file in folder.iterdir()}
    error, more = notes_of(run.words, run.given, before), may_be_said(run.words, before)
    how = {"cwd": folder, "env": ENVIRONMENT, "input": run.given, "capture_output": True, "timeout": SECONDS}
    try:
        asked = [word.encode("latin-1") for word in (run.words if words is None else words)]
        ended = subprocess.run([program, *asked], check=False, **how)
    except subprocess.TimeoutExpired:
        return ["it had not ended in time"]
    found = difference_in_text(run, ended.stdout.decode("latin-1"))
    if not found and ended.returncode != run.status:
        found = [f"status: wanted {run.status}, got {ended.returncode}"]
    found = found or difference_in_error(more if ended.stderr and not error else error, ended.stderr)
    return found or difference_in_files(run.files, before, kept, folder)


def difference_in_error(wanted, got):
    """The first line of standard error that isn't what its pattern says."""
    lines = itertools.zip_longest(wanted, got.decode("latin-1").splitlines())
    differing = (pair for pair in lines if None in pair or not is_like(*pair))
    return [f"standard error: wanted {shown(one)}, got {shown(other)}" for one, other in itertools.islice(differing, 1)]


def difference_in_text(run, text):
    """The first line that differs, and the script up to the line that prints it."""
    wanted = [(at, line) for at, (_, lines) in enumerate(run.told) for line in lines]
    *got, end = text.split("\n")
    got += [f"{end} without a newline"] if end else []
    for number, (want, one) in enumerate(itertools.zip_longest(wanted, got), 1):
        at, line = want or (len(run.told) - 1, None)
        if line != one:
            return [f"line {number}: wanted {shown(line)}, got {shown(one)}", *script_up_to(run.told[: at + 1])]
    return []


def shown(line):
    return "nothing" if line is None else repr(line)


def script_up_to(told):
    """The lines of a script, bytes that aren't printed as Python writes them; the last prints what differs."""
    return [f"    {repr(line)[2:-1]}" for line, _ in told if line]


def with_stamps_wanted(wanted, before, got):
    """A file of version 3 with the stamps that are wanted, where its own is another than before, and the old one stands
    before it, or, where no file was there, both are drawn; else as it is."""
    own, one_before = stamps_of(got)
    old = one_before if before is None else stamps_of(before)[0]
    is_drawn = own != old == one_before and sealed(got[:CONTENT]) == got[:BLOCK]
    return with_stamps(got, stamps_of(wanted)) if is_drawn else got


def difference_in_files(wanted, before, kept, folder):
    """The first file that differs, and from which byte on; of those before, some must be as they were.

    Where one of version 3 was saved its stamps are those that were drawn.
    """
    got = {file.name: file.read_bytes() for file in folder.iterdir()}
    for name in sorted({*wanted, *got}):
        if name not in got or name not in wanted:
            return [f"file {name}: " + ("it isn't there" if name in wanted else "it should not be there")]
        want, content = before[name] if name in kept else wanted[name], got[name]
        if name not in kept and is_placed(want) and is_placed(content):
            content = with_stamps_wanted(want, before.get(name), content)
        if content != want:
            at = next(at for at, (one, other) in enumerate(itertools.zip_longest(want, content)) if one != other)
            return [f"file {name}: block {at // BLOCK} differs from byte {at % BLOCK} on"]
    return []
