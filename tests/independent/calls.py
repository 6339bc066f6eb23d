"""Call vectors: reads them on standard input and prints answer, state, memories and what else was written to after each.

The format is described in tests/CALLS.md.
"""

import struct
import sys
from collections import namedtuple

import grid
import planners
import qhs
import writer
from state import IDLE, LANES, Lane, Memories, Op, State

CALLS = ("open", "begin", "step", "hour", "text", "batch", "file")
# The lists that come after the memories; the last of them is written to.
LISTS = {"batch": ("kinds", "processes", "cells", "values", "answers"),
         "file": ("kinds", "processes", "cells", "values", "buffer")}
BEGIN_KINDS = {1: "read", 2: "write", 3: "asked"}
STAGES = (
    None,
    ("read", "link"), ("read", "marks"), ("read", "dir"), ("read", "mark"),
    ("read", "reading"),
    ("asked", "link"), ("asked", "marks"), ("asked", "dir"), ("asked", "mark"),
    ("write", "store"), ("write", "link"), ("write", "marks"), ("write", "dir"),
    ("write", "mark"), ("write", "take"), ("write", "note"), ("write", "tomb"),
    ("write", "put"), ("write", "force"), ("write", "swap"), ("write", "back"),
)
ANSWERS = ("begun", "going", "read", "written", "asked", "refused")  # as a batch numbers them
STAGE_NUMBER = {name: number for number, name in enumerate(STAGES)}
HEAD = struct.Struct("<10Q")     # call, a, b, c, d, then p, m, first, step, top
LANE = struct.Struct("<9Q")
MEMORY = struct.Struct("<3Q")    # length, fill, exceptions
PAIR = struct.Struct("<2Q")
IDLE_WORDS = bytes(LANE.size)

Vector = namedtuple("Vector", "call args state mem lists", defaults=((),))


class Lent:
    """A lent memory: a fill word, and the words that differ from it."""

    def __init__(self, length, fill, words=()):
        self.length, self.fill, self.words = length, fill, dict(words)

    def __len__(self):
        return self.length

    def __getitem__(self, index):
        return self.words.get(index, self.fill)

    def __setitem__(self, index, word):
        self.words[index] = word

    def exceptions(self):
        return sorted((i, w) for i, w in self.words.items() if w != self.fill)


# --- Words of a lane ---------------------------------------------------------

def lane_words(lane):
    op = lane.op
    if op is None:
        return lane.marks, lane.drawn, lane.steps, 0, 0, 0, 0, 0, 0
    return (lane.marks, lane.drawn, lane.steps, STAGE_NUMBER[op.kind, op.stage],
            op.cell, op.value, op.link, op.place, op.start + op.stored * 2**32)


def lane_of(marks, drawn, steps, stage, cell, value, link, place, start):
    if stage == 0:
        return Lane(marks, drawn, steps, None)
    kind, name = STAGES[stage]
    stored, start = divmod(start, 2**32)
    return Lane(marks, drawn, steps,
                Op(kind, name, cell, value, link, place, start, bool(stored)))


# --- A vector as bytes ---------------------------------------------------------

def pack(vector):
    state = vector.state
    parts = [HEAD.pack(CALLS.index(vector.call), *vector.args, *state[:5])]
    for lane in state.lanes:
        parts.append(IDLE_WORDS if lane == IDLE else LANE.pack(*lane_words(lane)))
    for memory in vector.mem + tuple(vector.lists):
        pairs = memory.exceptions()
        parts.append(MEMORY.pack(len(memory), memory.fill, len(pairs)))
        parts.extend(PAIR.pack(*pair) for pair in pairs)
    return b"".join(parts)


def unpack(data, at):
    """The vector that begins at a byte, and where the next one begins."""
    call, a, b, c, d, *numbers = HEAD.unpack_from(data, at)
    at += HEAD.size
    lanes = []
    for _ in range(LANES):
        chunk = data[at:at + LANE.size]
        lanes.append(IDLE if chunk == IDLE_WORDS else lane_of(*LANE.unpack(chunk)))
        at += LANE.size
    memories, name = [], CALLS[call]
    for _ in Memories._fields + LISTS.get(name, ()):
        length, fill, count = MEMORY.unpack_from(data, at)
        at += MEMORY.size
        end = at + PAIR.size * count
        memories.append(Lent(length, fill, PAIR.iter_unpack(data[at:end])))
        at = end
    state = State(*numbers, tuple(lanes))
    return Vector(name, (a, b, c, d), state, Memories(*memories[:4]), tuple(memories[4:])), at


def vectors_in(data):
    at = 0
    while at < len(data):
        vector, at = unpack(data, at)
        yield vector


# --- The call and what is printed ---------------------------------------------

def page_of(vector):
    """What a call is lent to write to besides its memories: a buffer, a batch's answers; most are lent none."""
    if vector.lists:
        return vector.lists[-1]
    room, fill = vector.args[:2] if vector.call == "text" else (0, 0)
    return Lent(room, fill)


def call(vector, page):
    """The answer and the state after. Memories and buffer are changed in place."""
    a, b, c, d = vector.args
    if vector.call == "batch":
        return batch(vector)
    if vector.call == "file":
        return write_file(vector, page), vector.state
    if vector.call == "text":
        return write_text(vector, page)
    if vector.call == "open":
        return grid.open_grid(a, b, c, d, vector.mem)
    if vector.call == "begin":
        return grid.begin(vector.state, a, BEGIN_KINDS[b], c, d)
    if vector.call == "step":
        return grid.step(vector.state, a, vector.mem)
    return grid.hour_summary(vector.state, a, vector.mem)


def entries(lists):
    """As many entries as the shortest list has, a tuple for each."""
    return [tuple(column[i] for column in lists) for i in range(min(map(len, lists)))]


def batch(vector):
    """A begin for each entry of the kinds 1 to 3, a step for each other one; an answer for each."""
    state, answers = vector.state, vector.lists[-1]
    for i, (kind, process, cell, value, _) in enumerate(entries(vector.lists)):
        if kind in BEGIN_KINDS:
            answer, state = grid.begin(state, process, BEGIN_KINDS[kind], cell, value)
        else:
            answer, state = grid.step(state, process, vector.mem)
        answers[i] = answer_word(*answer)
    return ("batch",), state


def answer_word(name, *numbers):
    """What was answered, the operation's steps or the refusal, a read's flag, the value."""
    steps, flag, value = {"begun": lambda: (0, 0, 0), "going": lambda: (0, 0, 0), "read": lambda v, b, n: (n, b, v),
                          "written": lambda n: (n, 0, 0), "asked": lambda b, n: (n, 0, b),
                          "refused": lambda r: (r, 0, 0)}[name](*numbers)
    return ANSWERS.index(name) + steps * 2**8 + flag * 2**16 + value * 2**32


def write_file(vector, page):
    """The header is the arguments and the links' fill."""
    header = qhs.Header(*vector.args, vector.mem.links.fill)
    records = [qhs.Record(qhs.KINDS[kind] if kind < len(qhs.KINDS) else None, *fields)
               for kind, *fields in entries(vector.lists[:4])]
    try:
        written = writer.write_file(header, records, len(page))
    except qhs.FileRefused as refusal:
        return "refused", refusal.args[0]
    for index, byte in enumerate(written):
        page[index] = byte
    return "file", len(written)


def write_text(vector, page):
    found = planners.text(vector.state, vector.mem, len(page))
    if isinstance(found, int):
        return ("refused", found), vector.state
    for index, byte in enumerate(found.encode()):
        page[index] = byte
    return ("text", len(found)), vector.state


def printed(vector):
    """The seven lines of one vector: answer, state, four memories, buffer or answers."""
    page = page_of(vector)
    answer, after = call(vector, page)
    numbers = list(after[:5])
    for lane in after.lanes:
        numbers.extend(lane_words(lane))
    lines = [" ".join(map(str, answer)), " ".join(map(str, numbers))]
    last = LISTS.get(vector.call, ("buffer",))[-1]
    for name, memory in zip(Memories._fields + (last,), vector.mem + (page,)):
        pairs = "".join(f" {i}:{w}" for i, w in memory.exceptions())
        lines.append(f"{name} {len(memory)}{pairs}")
    return "\n".join(lines) + "\n"


if __name__ == "__main__":
    for each in vectors_in(sys.stdin.buffer.read()):
        sys.stdout.write(printed(each))
