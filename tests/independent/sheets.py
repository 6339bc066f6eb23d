"""Files for the planners' program: cases by hand, then the schedule files, every second one brought to rest.

`sheets.py [COUNT]` counts what the fixed ones reach, and fails if a kind of text is missing.
"""

import random
import sys
from collections import Counter

import files
import planners
import program
import qhs
from coverage import shown
from files import ONES, header, record

FULL = 2**32 - 1
FIRST = 7  # f(i) of every cell of a file made here


def at_rest(data, player=program.SCHEDULES):
    """The file with the steps that end its operations, cut where it would grow too long; unchanged if it is refused."""
    try:
        state, mem, records = program.opened(data, player)
    except qhs.FileRefused:
        return data
    for made in records:
        _, state = program.play(state, mem, made, player)
    for process in range(state.p):
        while state.lanes[process].op is not None:
            data += bytes((0, process)) + bytes(player.form.size - 2)
            _, state = player.array.step(state, process, mem)
    return data[:qhs.LONGEST - (qhs.LONGEST - qhs.HEADER) % player.form.size]


def written(m, cells, value, fill=ONES, make=files.Schedule, kind="write"):
    """A file in which process 0 writes the cells one after the other."""
    run = make(random.Random(m), 1, m, FIRST, 0, fill)
    for cell in cells:
        run.put(kind, 0, cell, value(cell))
        while run.stage(0):
            run.put("step", 0)
    return run.bytes()


def cases():
    for m in (1, 2, 9, 11, 2_040):
        yield header(m=m)                                       # no cell written
        yield written(m, (0,), lambda cell: 0)                  # one cell, 0
        yield written(m, (m - 1,), lambda cell: FULL)           # one cell, the greatest reading
        yield written(m, (m - 1,), lambda cell: FIRST)          # one cell, its f(i)
    for m in (1, 2, 10, 12, 101):
        for fill in (0, ONES):
            yield written(m, range(m), lambda cell: 10**(cell % 10), fill)        # all cells
            yield written(m, reversed(range(m)), lambda cell: FULL - cell, fill)  # written from the last on
    yield written(1_000, range(1_000), lambda cell: FULL)
    yield written(2_040, range(1_030, 2_040), lambda cell: FULL)
    yield header() + record(2, 0, 1, 5) + record(0) * 3         # an operation under way
    yield at_rest(header() + record(2, 0, 1, 5)) + record(1, 1, 1)


CASES = list(cases())


def file_bytes(seed, index):
    """File number index of a seed."""
    if index < len(CASES):
        return CASES[index]
    data = files.file_bytes(seed, index - len(CASES))
    return at_rest(data) if index % 2 else data


def kinds(data, player=program.SCHEDULES):
    """What the output of a file shows."""
    out = planners.output(data, player=player)
    if not out.startswith("quarter"):
        return [out.strip()]
    lines = out.split("\r\n")[1:-1]
    head = qhs.read_file(data, player.form)[0]
    m, rows = head.m, [map(int, line.split(",")) for line in lines]
    found = ["empty" if not lines else "one cell" if len(lines) == 1 else "cells"]
    if len(lines) == m and m > 1:
        found.append("all cells")
    if any(line.endswith(f",{FULL}") for line in lines):
        found.append("the greatest reading")
    if any(line.endswith(",0") for line in lines):
        found.append("a written 0")
    if any(load == (head.first + head.step * quarter) % 2**32 for quarter, load in rows):
        found.append("a written f(i)")
    return found


EXPECTED = (["empty", "one cell", "cells", "all cells", "the greatest reading", "a written 0", "a written f(i)",
             "refused 10"]
            + [f"file refused {n}" for n in (1, 2, 11, 12, 13, 14, 15, 16)])


def main():
    count = int(sys.argv[1]) if len(sys.argv) > 1 else 600
    seen = Counter()
    for index in range(count):
        seen.update(kinds(file_bytes(files.FIXED_SEED, index)))
    sys.exit(shown(seen, EXPECTED, f"{count} files for the planners' text"))


if __name__ == "__main__":
    main()
