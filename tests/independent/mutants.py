"""Tells every mutant of the independent program apart by the fixed files, the planners' files, the files to write again, the
vectors or the vectors of calls on lists, or fails.

    mutants.py [--jobs 2] [NAME...]     only mutants whose name holds NAME
"""

import argparse
import importlib
import multiprocessing
import pathlib
import sys
import tempfile
import time
from itertools import zip_longest

import calls
import files
import list_vectors
import planners
import program
import rounds
import sheets
import vectors
import writer
from list_mutants import LIST_MUTANTS
from mutant_list import MUTANTS

HERE = pathlib.Path(__file__).resolve().parent
SOURCES = ("state.py", "grid.py", "qhs.py", "program.py", "planners.py", "writer.py", "calls.py")
# A mutant is first tried on this many; on all the fixed ones if none tells it apart.
SOME_FILES, ALL_FILES = 300, 2_000
SOME_SHEETS, ALL_SHEETS = 100, 600
SOME_ROUNDS, ALL_ROUNDS = 100, 600
SOME_VECTORS, ALL_VECTORS = 2_000, 20_000
SOME_LISTS, ALL_LISTS = 200, 2_000

sys.dont_write_bytecode = True


def mutated(mutant, module):
    """A module of a fresh copy of the program, with the mutant's edits made."""
    with tempfile.TemporaryDirectory(prefix="mutant-") as folder:
        for name in SOURCES:
            text = (HERE / name).read_text()
            for file, old, new in mutant.edits:
                if file == name:
                    if text.count(old) != 1:
                        raise SystemExit(f"{mutant.name}: {name} holds {text.count(old)} times {old!r}")
                    text = text.replace(old, new)
            (pathlib.Path(folder) / name).write_text(text)
        return loaded(folder, module)


def loaded(folder, module):
    """Import from a folder without touching the modules already there."""
    names = [name.removesuffix(".py") for name in SOURCES]
    before = {name: sys.modules.pop(name) for name in names if name in sys.modules}
    sys.path.insert(0, folder)
    importlib.invalidate_caches()
    try:
        return importlib.import_module(module)
    finally:
        sys.path.remove(folder)
        for name in names:
            sys.modules.pop(name, None)
        sys.modules.update(before)


def told_by_file(theirs, data, expected):
    """Does the mutant print another line, or break?"""
    try:
        return any(one != other for one, other in zip_longest(theirs.lines(data), expected))
    except Exception:
        return True


def told_by_output(theirs, data, expected):
    try:
        return theirs.output(data) != expected
    except Exception:
        return True


def told_by_vector(theirs, data, expected):
    try:
        return theirs.printed(theirs.unpack(data, 0)[0]) != expected
    except Exception:
        return True


# How a mutant is tried: the test, the module, and on how many first.
TRIALS = {"files": (told_by_file, "program", SOME_FILES), "planners": (told_by_output, "planners", SOME_SHEETS),
          "rewrite": (told_by_output, "writer", SOME_ROUNDS), "calls": (told_by_vector, "calls", SOME_VECTORS),
          "lists": (told_by_vector, "calls", SOME_LISTS)}
INPUTS = {}  # filled before the workers start


def prepare():
    made = [files.file_bytes(files.FIXED_SEED, index) for index in range(ALL_FILES)]
    INPUTS["files"] = [(data, list(program.lines(data))) for data in made]
    made = [sheets.file_bytes(files.FIXED_SEED, index) for index in range(ALL_SHEETS)]
    INPUTS["planners"] = [(data, planners.output(data)) for data in made]
    made = [rounds.file_bytes(files.FIXED_SEED, index) for index in range(ALL_ROUNDS)]
    INPUTS["rewrite"] = [(data, writer.output(data)) for data in made]
    for name, count, made in (("calls", ALL_VECTORS, vectors.block), ("lists", ALL_LISTS, list_vectors.block)):
        packed = vectors.stream(vectors.FIXED_SEED, count, made)
        INPUTS[name] = [(data, calls.printed(calls.unpack(data, 0)[0])) for data in packed]


def tried(task):
    """How many inputs tell a mutant apart, of how many."""
    mutant, by = task
    told, module, some = TRIALS[by]
    theirs = mutated(mutant, module)
    for inputs in (INPUTS[by][:some], INPUTS[by]):
        found = sum(told(theirs, data, expected) for data, expected in inputs)
        if found:
            break
    return mutant.name, by, found, len(inputs)


def main():
    parser = argparse.ArgumentParser(description=__doc__.splitlines()[0])
    parser.add_argument("--jobs", type=int, default=2)
    parser.add_argument("names", nargs="*")
    options = parser.parse_args()
    start = time.monotonic()
    chosen = [mutant for mutant in MUTANTS + LIST_MUTANTS
              if not options.names or any(name in mutant.name for name in options.names)]
    prepare()
    print(f"{ALL_FILES} files, {ALL_SHEETS} planners' files, {ALL_ROUNDS} to write again, {ALL_VECTORS} vectors and {ALL_LISTS} of calls "
          f"on lists made, {time.monotonic() - start:.0f} s")
    tasks = [(mutant, by) for by in TRIALS for mutant in chosen if by in mutant.by]
    survivors = 0
    with multiprocessing.get_context("fork").Pool(options.jobs) as pool:
        for name, by, found, of in pool.imap(tried, tasks):
            print(f"{found:6} of {of:6} {by}: {name}{'' if found else '   SURVIVES'}", flush=True)
            survivors += not found
    print(f"{len(tasks)} trials of {len(chosen)} mutants, {survivors} survive, "
          f"{time.monotonic() - start:.0f} s")
    sys.exit(bool(survivors))


if __name__ == "__main__":
    main()
