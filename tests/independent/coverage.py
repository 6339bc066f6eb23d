"""What the fixed files reach: stages, step counts, swaps, tombstones, draws, refusals. Fails if one is missing."""

import sys
from collections import Counter

import files
import grid
import program
import qhs
from state import filled, segment

# All that 01 lets happen in a file. Refusals 3, 8, 9 and 10 cannot.
EXPECTED = (
    [f"read, not written, {n}" for n in (1, 2, 4)] + ["read, written, 5"]
    + [f"read: {what}" for what in ("a written 0", "a written f(i)", "f(i) = 0, not written",
                                    "not written, and written at its end")]
    + [f"asked {n}" for n in (1, 2, 4)]
    + ["asked: not written", "asked: written"] + [f"written {n}" for n in range(5, 12)]
    + [f"refused {n}" for n in (4, 5, 6, 7)]
    + [f"file refused {n}" for n in (1, 2, 11, 12, 13, 14, 15, 16)]
    + [f"{kind} at {stage}" for kind in ("read", "asked")
       for stage in ("link", "marks", "dir", "mark")] + ["read at reading"]
    + [f"write at {stage}" for stage in files.PAUSES if stage != "reading"]
    + [f"drawn {n}" for n in range(1, 10)]
    + ["swap won", "swap lost", "tombstone below a mark taken back",
       "draw before a tombstone", "draw after a tombstone",
       "mark put again where one was taken back", "no records", "longest file"]
)


def look(data, seen):
    """Play one file and count what it reaches."""
    try:
        state, mem, records = program.opened(data)
    except qhs.FileRefused as refusal:
        seen[f"file refused {refusal.args[0]}"] += 1
        return
    seen["no records"] += not records
    seen["longest file"] += len(data) == qhs.LONGEST
    tombed, drew, taken_back = {}, {}, set()
    for record in records:
        q = record.process
        op = state.lanes[q].op if q < state.p else None
        answer, state = program.play(state, mem, record)
        name, *numbers = answer
        if name in ("asked", "written"):
            seen[f"{name} {numbers[-1]}"] += 1
        if name == "read":
            look_read(op.cell, numbers, state, mem, seen)
        if name == "asked":
            seen["asked: written" if numbers[0] else "asked: not written"] += 1
        if name == "refused":
            seen[f"refused {numbers[0]}"] += 1
        if record.kind == "step" and op is not None:
            seen[f"{op.kind} at {op.stage}"] += 1
            note(op, q, answer, state, tombed, drew, taken_back, seen)


def look_read(cell, numbers, state, mem, seen):
    """What a read's answer shows: zero load or no load, and the point it was decided at."""
    value, written, count = numbers
    seen[f"read, {'written' if written else 'not written'}, {count}"] += 1
    seen["read: a written 0"] += written and value == 0
    seen["read: a written f(i)"] += written and value == filled(state, cell)
    seen["read: f(i) = 0, not written"] += not written and value == 0
    seen["read: not written, and written at its end"] += not written and grid.read_whole(state, cell, mem)[1]


def note(op, q, answer, state, tombed, drew, taken_back, seen):
    if op.stage == "store":
        tombed[q] = drew[q] = False
    if op.stage == "take":
        drew[q] = True
        seen["draw after a tombstone"] += op.stored
        seen[f"drawn {segment(op.place) + 1}"] += 1
    if op.stage == "tomb":
        tombed[q] = True
        seen["draw before a tombstone"] += drew[q]
    if op.stage == "put":
        seen["mark put again where one was taken back"] += (q, op.place) in taken_back
    if op.stage == "swap":
        seen["swap won" if answer[0] == "written" else "swap lost"] += 1
    if op.stage == "back":
        taken_back.add((q, op.place))
        seen["tombstone below a mark taken back"] += tombed[q]


def main():
    count = int(sys.argv[1]) if len(sys.argv) > 1 else 2_000
    seen = Counter()
    for index in range(count):
        look(files.file_bytes(files.FIXED_SEED, index), seen)
    for name in EXPECTED:
        print(f"{seen[name]:9} {name}")
    missing = [name for name in EXPECTED if not seen[name]]
    # A read ends by 1, 2 or 4 steps if not written, by 5 if written, and never otherwise.
    strange = [name for name in seen if name.startswith("read,") and name not in EXPECTED]
    print(f"{count} files, {len(EXPECTED)} kinds of event, {len(missing)} missing {missing or ''}{strange or ''}")
    sys.exit(bool(missing or strange))


if __name__ == "__main__":
    main()
