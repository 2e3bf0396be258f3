"""Parts of a runner: many runs of one kind, made by workers at once, of which the first that differs is told."""

import collections
import concurrent.futures
import multiprocessing
import os

from .spawned import Bench, folder_for

# How many runs a worker makes at a time.
SLICE = 200
# What is asked of the workers, which get it as they are made.
PARTS = []


def examine(program, number, places):
    """Makes a part's runs at some places: how often each thing came up, and the first difference."""
    part, seen = PARTS[number], collections.Counter()
    with folder_for("runs") as folder:
        bench = Bench(program, folder)
        try:
            for at in places:
                met, found = part.outcome(bench, at)
                if found:
                    return seen, f"at {at}: {found}"
                seen.update(met)
        finally:
            bench.close()
    return seen, None


def tell(part, answers):
    """Tells what became of a part; whether it passed."""
    seen, found = collections.Counter(), None
    for answer in answers:
        met, differing = answer.result()
        seen += met
        found = found or differing
    for name, least in part.wanted.items():
        if not found and seen[name] < least:
            found = f"{name!r} came up {seen[name]} times"
    print(f"{part.name}: {len(part.places)} files: {', '.join(f'{count} {it}' for it, count in sorted(seen.items()))}")
    if found:
        print(f"FAILED {part.name}: {found}", flush=True)
    return not found


def run_parts(program, parts):
    """Runs parts over a program, each of which has a name, places, an outcome at each, and what is wanted how often.

    The last line is 'N passed, M failed'. Gives the status: 0 where none failed.
    """
    PARTS[:] = parts
    fork = multiprocessing.get_context("fork")
    with concurrent.futures.ProcessPoolExecutor(len(os.sched_getaffinity(0)), fork) as workers:
        tasks = []
        for number, part in enumerate(parts):
            slices = [part.places[at : at + SLICE] for at in range(0, len(part.places), SLICE)]
            tasks.append((part, [workers.submit(examine, str(program), number, it) for it in slices]))
        passed = sum(tell(part, answers) for part, answers in tasks)
    print(f"{passed} passed, {len(tasks) - passed} failed")
    return 0 if passed == len(tasks) else 1
