"""The repository's crates, and trees of files in which `rt` works on several of them side by side.

`rt` locks a crate and all crates below it while it works there, so two checks in one tree would wait for each other.
Each crate is therefore proved in a tree of its own: its files and those of the crates below are linked there, with what
was built of these, and what is built of it is moved back."""
import collections
import contextlib
import fcntl
import os
import shutil
import signal
import subprocess
import tempfile
from concurrent.futures import FIRST_COMPLETED, ThreadPoolExecutor, wait

ROOT = os.path.dirname(os.path.dirname(os.path.realpath(__file__)))
PROGRAM = "exh_cli"
SOURCES = ("src", "specs", "proofs")
# What `rt` makes of a crate and reads again.
BUILT = ("rlib", "incremental")


def listed(root):
    """Returns the line of each crate in crates.txt, and the crates of the repository that each stands on."""
    lines, below = {}, {}
    with open(f"{root}/crates.txt", encoding="utf-8") as file:
        for line in file:
            name, colon, libraries = line.partition("#")[0].partition(":")
            if colon:
                lines[name.split()[0]] = line
                below[name.split()[0]] = libraries.split()
    return lines, {name: [it for it in names if it in lines] for name, names in below.items()}


def all_below(name, below, known=None):
    """Returns the crates below one, each behind those that it stands on. Each crate is looked at once."""
    known = {} if known is None else known
    if name not in known:
        found = {}
        for it in below[name]:
            found |= dict.fromkeys([*all_below(it, below, known), it])
        known[name] = list(found)
    return known[name]


def size_of(folder):
    """Returns the bytes of the crate's code: a proof's time follows these, and hardly those of definitions and laws."""
    return sum(os.path.getsize(f"{at}/{name}") for at, _, names in os.walk(f"{folder}/src") for name in names)


def link(file, to):
    try:
        os.link(file, to)
    except OSError:
        shutil.copy2(file, to)


def link_parts(folder, to, parts):
    for part in parts:
        if os.path.isdir(f"{folder}/{part}"):
            shutil.copytree(f"{folder}/{part}", f"{to}/{part}", copy_function=link)


def move_built(folder, to):
    for part in BUILT:
        if os.path.isdir(f"{folder}/out/{part}"):
            os.makedirs(f"{to}/out", exist_ok=True)
            shutil.rmtree(f"{to}/out/{part}", ignore_errors=True)
            shutil.move(f"{folder}/out/{part}", f"{to}/out/{part}")


def room_in(root, name):
    """Returns an empty folder of that name for trees, where links to the crates' files can be had if possible."""
    if not os.path.isdir(f"{root}/.git"):
        return tempfile.mkdtemp(prefix=f"{name}-")
    # (what a run that was killed left there goes)
    shutil.rmtree(f"{root}/.git/{name}", ignore_errors=True)
    os.mkdir(f"{root}/.git/{name}")
    return f"{root}/.git/{name}"


def break_off(*_):
    raise KeyboardInterrupt


class Trees:
    """Some crates of the repository, with all below them, and the room for their trees."""

    def __init__(self, names):
        self.lines, self.below = listed(ROOT)
        needed = {it for name in names for it in [*all_below(name, self.below), name]}
        self.crates = [it for it in self.lines if it in needed]
        self.room, self.running = None, set()

    @contextlib.contextmanager
    def held(self, name):
        """Has the room, under this name, while other runs and rt stay out of the crates; it can be broken off."""
        signal.signal(signal.SIGTERM, break_off)
        locks = [os.open(self.folder(it), os.O_RDONLY) for it in sorted(self.crates)]
        for it in locks:
            fcntl.flock(it, fcntl.LOCK_EX)
        self.room = room_in(ROOT, name)
        try:
            yield
        finally:
            shutil.rmtree(self.room, ignore_errors=True)
            for it in locks:
                os.close(it)

    @staticmethod
    def folder(name):
        return f"{ROOT}/crates/{name}"

    def lay_out(self, name):
        """Makes the tree in which the crate is built, and returns the crate's folder there."""
        tree, names = f"{self.room}/{name}", [*all_below(name, self.below), name]
        for it in names:
            os.makedirs(f"{tree}/crates/{it}")
            link_parts(self.folder(it), f"{tree}/crates/{it}", SOURCES)
            if it != name:
                link_parts(f"{self.folder(it)}/out", f"{tree}/crates/{it}/out", ["rlib"])
        with open(f"{tree}/crates.txt", "w", encoding="utf-8") as file:
            file.writelines(self.lines[it] for it in names)
        return f"{tree}/crates/{name}"

    def clear(self, name):
        """Moves back what was built of the crate, and removes its tree."""
        move_built(f"{self.room}/{name}/crates/{name}", self.folder(name))
        shutil.rmtree(f"{self.room}/{name}", ignore_errors=True)

    @contextlib.contextmanager
    def started(self, words, folder, **how):
        """Has a command at work there, whose two outputs are one, until the block ends or `stop` is called."""
        how = {"stdout": subprocess.PIPE, "stderr": subprocess.STDOUT, "text": True, "errors": "replace", **how}
        with subprocess.Popen(words, cwd=folder, start_new_session=True, **how) as ran:
            self.running.add(ran)
            try:
                yield ran
            finally:
                self.running.discard(ran)

    def stop(self):
        """Ends what is still at work, so that what it kept is moved back."""
        for it in [*self.running]:
            os.killpg(it.pid, signal.SIGTERM)

    def behind(self):
        """Returns the size of the longest chain of crates that begins at each and ends at one on which none stands."""
        found = collections.Counter()
        for name in reversed(self.crates):
            found[name] += size_of(self.folder(name))
            for it in self.below[name]:
                found[it] = max(found[it], found[name])
        return found

    def bottom_up(self, work, show):
        """Yields each crate with what `work` returns for it and a number of jobs, once it has for those below.

        As many are at work as there are processors, those first for which the longest chains wait, and `show` is called
        with their names each second. A crate that begins gets its share of the processors: one where as many crates can
        be at work, all where it is alone. More jobs than that end no crate sooner, and each job costs more."""
        lanes, behind = len(os.sched_getaffinity(0)), self.behind()
        left, done, working = sorted(self.crates, key=lambda it: -behind[it]), set(), {}
        with ThreadPoolExecutor(lanes) as pool:
            try:
                while left or working:
                    ready = [it for it in left if done.issuperset(self.below[it])]
                    jobs = max(1, lanes // max(1, len(working) + len(ready)))
                    for name in ready[: lanes - len(working)]:
                        left.remove(name)
                        working[pool.submit(work, name, jobs)] = name
                    show(working.values())
                    for it in wait(working, timeout=1, return_when=FIRST_COMPLETED).done:
                        name = working.pop(it)
                        yield name, it.result()
                        done.add(name)
            finally:
                self.stop()
