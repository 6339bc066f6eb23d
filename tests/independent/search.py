"""Searches small grids exhaustively: every interleaving of a few operations is put in one order, or shown.

    search.py            the grid must hold: no violation
    search.py --teeth    each known mistake must be found

Checked at every step: some order of the operations gives every answer (demand
2); no refusal; the step bounds 5, 4 and 11; the bound on words handed out.
An operation begins just before its first step. Beginning earlier only
leaves more orders.
"""

import argparse
import itertools
import sys
import time
from collections import namedtuple

import grid
from mutant_list import DRAW_AGAIN, FLAG_MISTAKES, NO_TOMBSTONE, SWAP_FIRST
from mutants import mutated
from state import TOMBSTONE, Memories, lengths, link_to

FIRST = 70  # f(i) of every cell
MOST_STEPS = {"read": 5, "asked": 4, "written": 11}
ONES = 2**64 - 1

# What each process does, one operation after the other: (kind, cell, value).
R0, R1, A0, A1 = (("read", 0, 0), ("read", 1, 0), ("asked", 0, 0), ("asked", 1, 0))


def w(cell, value):
    return "write", cell, value


Trial = namedtuple("Trial", "p m scripts links directory pool")


class Violation(Exception):
    """What went wrong, and the schedule that shows it."""


# --- The array of demand 2 -------------------------------------------------------
# A guess is (cells, pending): cells (value, written) each; pending holds for each
# process None, ("open", op), or ("placed", answer) once it has its place in the order.

def placed(guess, q):
    """The guess with process q's operation put next in the order."""
    cells, pending = guess
    kind, cell, value = pending[q][1]
    held, written = cells[cell]
    if kind == "write":
        cells = cells[:cell] + ((value, 1),) + cells[cell + 1:]
        answer = ("written",)
    else:
        # W5: the array answers a read with value and flag of this one point.
        answer = ("read", held, written) if kind == "read" else ("asked", written)
    return cells, with_pending(pending, q, ("placed", answer))


def with_pending(pending, q, what):
    return pending[:q] + (what,) + pending[q + 1:]


def closed(guesses):
    """All guesses reachable by placing operations under way."""
    found = set(guesses)
    todo = list(found)
    while todo:
        guess = todo.pop()
        for q, what in enumerate(guess[1]):
            if what and what[0] == "open":
                more = placed(guess, q)
                if more not in found:
                    found.add(more)
                    todo.append(more)
    return frozenset(found)


def after_end(guesses, q, answer):
    """The guesses that agree with an answer given now."""
    return frozenset((cells, with_pending(pending, q, None)) for cells, pending in guesses
                     if pending[q] == ("placed", answer))


# --- The search --------------------------------------------------------------------

def search(trial, machine=grid):
    """Number of different situations of a trial; raises Violation."""
    p, m = trial.p, trial.m
    fills = [(0,) * m, trial.links, (trial.directory,) * lengths(p, m)[2], trial.pool]
    _, opened = machine.open_grid(p, m, FIRST, 0, Memories(*fills))
    cells = tuple((FIRST, 0) for _ in range(m))
    start = (opened, Memories(*fills), (0,) * p, frozenset([(cells, (None,) * p)]), frozenset())
    seen, todo = {start}, [(start, ())]
    while todo:
        node, path = todo.pop()
        for q in range(p):
            after = advance(trial, machine, node, q, path)
            if after and after not in seen:
                seen.add(after)
                todo.append((after, (q, path)))
    return len(seen)


def advance(trial, machine, node, q, path):
    """Process q's next step, with the beginning of its next operation if idle."""
    state, fixed, done, guesses, begun = node
    if state.lanes[q].op is None:
        if done[q] == len(trial.scripts[q]):
            return None
        op = trial.scripts[q][done[q]]
        answer, state = machine.begin(state, q, *op)
        if answer != ("begun",):
            shown(trial, path, q, f"begin gave {answer}")
        guesses = closed((c, with_pending(pending, q, ("open", op))) for c, pending in guesses)
        if op[0] == "write":
            begun = begun | {("cell", op[1]), ("loader", q)}
    mem = Memories(*map(list, fixed))
    answer, state = machine.step(state, q, mem)
    if answer[0] == "refused":
        shown(trial, path, q, f"step gave {answer}")
    if state.top > sum(4 if what == "cell" else 2 for what, _ in begun):
        shown(trial, path, q, f"{state.top} words handed out")
    if answer[0] != "going":
        *said, count = answer
        if count > MOST_STEPS[said[0]]:
            shown(trial, path, q, f"{said[0]} took {count} steps")
        guesses = after_end(guesses, q, tuple(said))
        if not guesses:
            shown(trial, path, q, f"no order gives {answer}")
        done = done[:q] + (done[q] + 1,) + done[q + 1:]
    return state, Memories(*map(tuple, mem)), done, guesses, begun


def shown(trial, path, q, what):
    turns = [q]
    while path:
        turns.append(path[0])
        path = path[1]
    schedule = "".join(str(turn) for turn in reversed(turns))
    raise Violation(f"process {q}: {what}\n    turns {schedule}\n    {trial}")


# --- The trials --------------------------------------------------------------------

SCRIPTS = (  # p 2, m 1 or 2: two or three operations
    (1, ((w(0, 1),), (w(0, 2),))),
    (1, ((w(0, 1),), (w(0, 2), R0))),
    (1, ((w(0, 1),), (w(0, 2), A0))),
    (1, ((w(0, 1),), (R0, R0))),
    (1, ((w(0, 1),), (A0, R0))),
    (1, ((w(0, 0),), (R0, R0))),      # a written 0
    (1, ((w(0, FIRST),), (R0, R0))),  # a written f(i)
    (1, ((w(0, 1), w(0, 3)), (w(0, 2),))),
    (2, ((w(0, 1), w(1, 3)), (w(0, 2),))),
    (2, ((w(0, 1), w(1, 3)), (R0, A1))),
    (2, ((w(0, 1), R1), (w(1, 2), R0))),
    (2, ((w(0, 1),), (w(1, 2), A0))),
)
DEEP = (  # four or five operations
    (2, ((w(0, 1), w(1, 3)), (w(1, 2), R1))),
    (2, ((w(0, 1), w(1, 3)), (w(0, 2), A0))),
    (2, ((w(0, 1), w(1, 3)), (w(1, 4), w(0, 2)))),
    (2, ((w(1, 1), w(0, 3)), (w(1, 2), w(0, 4), R0))),  # a mark put, not yet in force
    (2, ((w(1, 1), w(0, 3)), (w(1, 2), A0, A0))),       # a question over a take-back
)
THREE = (  # p 3: the race of 004, section 4.1, and two loaders beside a question
    (2, ((w(0, 1), w(1, 3)), (w(0, 2),), (R0, R0))),
    (2, ((w(0, 1),), (w(1, 3),), (A0, R1))),
    (1, ((w(0, 1),), (w(0, 2),), (A0, A0))),
)


def trials():
    """Every script from every choice of old links; directory 0; old pool words all alike."""
    old = (link_to(0, 0), link_to(0, 1), link_to(1, 0), link_to(1, 1), ONES)
    for m, scripts in SCRIPTS:
        for links in itertools.product(old, repeat=m):
            for pool_word in (0, 1, TOMBSTONE):
                yield Trial(2, m, scripts, links, 0, (pool_word,) * (4 * m + 4))
    for m, scripts in DEEP:
        for links in itertools.product((old[0], old[2], ONES), repeat=m):
            for pool_word in (0, 1):
                yield Trial(2, m, scripts, links, 0, (pool_word,) * (4 * m + 4))
    for m, scripts in THREE:
        for link in (old[0], old[2]):
            yield Trial(3, m, scripts, (link,) * m, 0, (0,) * (4 * m + 6))


def whole(machine=grid):
    count = situations = 0
    for trial in trials():
        situations += search(trial, machine)
        count += 1
    return count, situations


def main():
    parser = argparse.ArgumentParser(description=__doc__.splitlines()[0])
    parser.add_argument("--teeth", action="store_true")
    options = parser.parse_args()
    start = time.monotonic()
    if not options.teeth:
        count, situations = whole()
        print(f"{count} trials, {situations} situations, 0 violations, "
              f"{time.monotonic() - start:.0f} s")
        return
    missed = 0
    for mutant in (NO_TOMBSTONE, SWAP_FIRST, DRAW_AGAIN) + FLAG_MISTAKES:
        try:
            whole(mutated(mutant, "grid"))
            missed += 1
            print(f"{mutant.name}: NOT FOUND")
        except Violation as violation:
            print(f"{mutant.name}: {violation}")
    print(f"{missed} mistakes missed, {time.monotonic() - start:.0f} s")
    sys.exit(bool(missed))


if __name__ == "__main__":
    main()
