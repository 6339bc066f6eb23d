"""01's examples 1 to 10 on the independent machine, with state and memory after each step where 01 tells them; and what
02's W5 makes of a read's answer."""

import grid
import planners
from state import (TOMBSTONE, IDLE, LANES, Memories, State, filled, lengths, link_to, offset,
                   place_of, process_of, segment)


def opened(p, m, fill, first=7, step=0):
    low = fill % 2**32
    mem = Memories(*([word] * n for word, n in zip((low, fill, low, low), lengths(p, m))))
    answer, state = grid.open_grid(p, m, first, step, mem)
    assert answer == ("open", "ok")
    return state, mem


def run(state, mem, q, count, stages=()):
    """Steps of a process; the stage each step finds is compared if told."""
    answer = None
    for at in range(count):
        if stages:
            assert state.lanes[q].op.stage == stages[at], (at, state.lanes[q].op)
        answer, state = grid.step(state, q, mem)
    return answer, state


def begun(state, *call):
    answer, state = grid.begin(state, *call)
    assert answer == ("begun",)
    return state


def numbers():
    assert [(segment(n), offset(n)) for n in (0, 1, 2, 5, 6)] == [(0, 0), (0, 1), (1, 0), (1, 3), (2, 0)]
    assert (segment(131_072), offset(131_072)) == (16, 2)
    assert (process_of(0), place_of(0)) == (0, 0)
    assert (process_of(2**64 - 1), place_of(2**64 - 1)) == (16_383, 2**50 - 1)
    rule = State(1, 2, 4_294_967_295, 2, 0, (IDLE,) * LANES)
    assert (filled(rule, 0), filled(rule, 1)) == (4_294_967_295, 1)


def examples_5_6():
    state, mem = opened(1, 2, 0)
    state = begun(state, 0, "write", 0, 5)
    answer, state = run(state, mem, 0, 9, (
        "store", "link", "marks", "take", "note", "tomb", "put", "force", "swap"))
    assert answer == ("written", 9) and mem.links == [link_to(0, 1), 0]
    assert state.lanes[0] == (2, 1, 0, None) and state.top == 2
    assert mem.pool[:2] == [TOMBSTONE, 0]
    state = begun(state, 0, "write", 1, 6)
    answer, state = run(state, mem, 0, 10, (
        "store", "link", "marks", "dir", "mark", "take", "note", "put", "force", "swap"))
    assert answer == ("written", 10) and mem.links == [link_to(0, 1), link_to(0, 2)]
    assert state.lanes[0] == (3, 2, 0, None) and state.top == 6 and mem.directory[1] == 2


def example_9():
    state, mem = opened(2, 2, 0)
    state = begun(state, 0, "write", 0, 5)
    _, state = run(state, mem, 0, 9)
    state = begun(state, 0, "write", 1, 6)
    _, state = run(state, mem, 0, 9)
    assert state.lanes[0].marks == 3 and state.top == 6
    state = begun(state, 1, "write", 1, 8)
    answer, state = run(state, mem, 1, 10, (
        "store", "link", "marks", "dir", "mark", "take", "note", "put", "force", "swap"))
    assert answer == ("written", 10)
    answer, state = run(state, mem, 0, 2, ("swap", "back"))
    assert answer == ("written", 11)
    assert [lane[:3] for lane in state.lanes[:2]] == [(2, 2, 0), (1, 1, 0)] and state.top == 8
    assert mem.links == [link_to(0, 1), link_to(1, 0)] and mem.readings == [5, 8]
    assert mem.pool[:3] == [TOMBSTONE, 0, 1] and mem.pool[6] == 1 and mem.directory[17] == 6


def listing():
    """01's listing as W5 changes it: `read 7 0 1` and `read 9 1 5`."""
    state, mem = opened(1, 2, 2**64 - 1)
    answer, state = run(begun(state, 0, "read", 0, 0), mem, 0, 1, ("link",))
    assert answer == ("read", 7, 0, 1)
    answer, state = run(begun(state, 0, "write", 0, 9), mem, 0, 7)
    assert answer == ("written", 7)
    answer, _ = run(begun(state, 0, "read", 0, 0), mem, 0, 5, ("link", "marks", "dir", "mark", "reading"))
    assert answer == ("read", 9, 1, 5)


def zero_or_none():
    """A written 0 and an untouched cell, in a read, the summary and the text."""
    state, mem = opened(1, 4, 0, first=0)
    _, state = run(begun(state, 0, "write", 1, 0), mem, 0, 9)
    answer, state = run(begun(state, 0, "read", 1, 0), mem, 0, 5)
    assert answer == ("read", 0, 1, 5)
    answer, state = run(begun(state, 0, "read", 2, 0), mem, 0, 4)  # the old link's place holds the tombstone
    assert answer == ("read", 0, 0, 4)
    assert grid.hour_summary(state, 0, mem) == (("hour", 0, 0, 1), state)
    assert planners.text(state, mem, 100) == "quarter,load\r\n1,0\r\n"


def one_point():
    """Not written: value and flag are those of (a). Written: those of the reading step."""
    state, mem = opened(2, 1, 0)
    _, state = run(begun(state, 1, "read", 0, 0), mem, 1, 1, ("link",))
    answer, state = run(begun(state, 0, "write", 0, 9), mem, 0, 9)
    assert answer == ("written", 9)
    answer, state = run(state, mem, 1, 3, ("marks", "dir", "mark"))
    assert answer == ("read", 7, 0, 4)
    _, state = run(begun(state, 1, "read", 0, 0), mem, 1, 4)
    _, state = run(begun(state, 0, "write", 0, 0), mem, 0, 1, ("store",))
    answer, state = run(state, mem, 1, 1, ("reading",))
    assert answer == ("read", 0, 1, 5)


def refusals():
    none = Memories([], [], [], [])
    assert grid.open_grid(17, 0, 0, 0, none)[0] == ("refused", 1)
    assert grid.open_grid(1, 65_537, 0, 0, none)[0] == ("refused", 2)
    assert grid.open_grid(1, 1, 0, 0, none)[0] == ("refused", 3)
    state, mem = opened(2, 2, 0)
    short = mem._replace(pool=mem.pool[:-1])
    assert grid.step(state, 16, short) == (("refused", 8), state)
    assert grid.step(state, 16, mem) == (("refused", 4), state)
    state, mem = opened(1, 1, 0)
    assert grid.hour_summary(state, 0, mem) == (("refused", 5), state)
    state, mem = opened(1, 4, 0, first=5, step=1)
    assert grid.hour_summary(state, 0, mem) == (("refused", 18), state)
    _, one = run(begun(state, 0, "write", 2, 400), mem, 0, 9)
    assert grid.hour_summary(one, 0, mem) == (("hour", 400, 400, 1), one)
    state = begun(state, 0, "read", 0, 0)
    assert grid.hour_summary(state, 9, mem) == (("refused", 10), state)


if __name__ == "__main__":
    numbers()
    examples_5_6()
    example_9()
    refusals()
    listing()
    zero_or_none()
    one_point()
    print("01's examples 1 to 10 hold, and W5's reads")
