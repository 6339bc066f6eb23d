"""What the fixed vectors of calls on lists reach: each answer of an entry, each refusal of the writer. Fails if one is missing.

It also looks whether each vector keeps what tests/CALLS.md promises of it.
"""

import sys
from collections import Counter

import calls
import list_vectors
import qhs
import vectors
from coverage_calls import promised
from state import state_fits

COUNT = 2_000
ENTRIES = ("begun", "going", "read", "written", "asked")
REFUSED = (4, 5, 6, 7, 8, 9)
BATCHES = ("a kind above 3 steps", "an empty list", "each list the shortest", "more answers than entries", "a state out of its ranges",
           "two operations end", "a word lies outside, and the next entry goes on", "others at work")
FILES = ("no record", "as many records as a file has", "exactly long enough", "bytes after the file", "17, one byte short",
         "16 before 13 and 15", "13 before 15 and 1", "15 before 1 and 2", "1 before 2 and 17", "an unknown kind after the last record",
         "each list the shortest", "a step with a cell and a value")
EXPECTED = ([f"entry: {name}" for name in ENTRIES] + [f"entry: refused {r}" for r in REFUSED]
            + [f"batch: {what}" for what in BATCHES]
            + [f"file: refused {r}" for r in (16, 13, 15, 1, 2, 17)] + [f"file: {what}" for what in FILES])


def kept(vector):
    """Do the lists keep their limits?"""
    most = [list_vectors.MOST_ENTRIES] * 4 + [list_vectors.MOST_ROOM if vector.call == "file" else list_vectors.MOST_ENTRIES]
    return all(len(x) <= n and x.fill < limit and all(i < len(x) and w < limit for i, w in x.exceptions())
               for x, n, limit in zip(vector.lists, most, list_vectors.LIMITS[vector.call]))


def shortest(lists):
    """The one list that is shorter than all others, if there is one."""
    order = sorted(range(len(lists)), key=lambda k: len(lists[k]))
    return order[0] if len(lists[order[0]]) < len(lists[order[1]]) else None


def look_batch(vector, seen, short):
    found = [entry[:4] for entry in calls.entries(vector.lists)]
    fits = state_fits(vector.state)
    before = sum(lane.op is not None for lane in vector.state.lanes)
    calls.call(vector, calls.page_of(vector))
    words = [vector.lists[-1][i] for i in range(len(found))]
    answers = [(calls.ANSWERS[w % 2**8], w // 2**8 % 2**8) for w in words]
    for name, count in answers:
        seen[f"entry: refused {count}" if name == "refused" else f"entry: {name}"] += 1
    short["batch", shortest(vector.lists)] += 1
    going = [name == "going" for name, _ in answers]
    shows = {"a kind above 3 steps": any(kind > 3 and goes for (kind, *_), goes in zip(found, going)),
             "an empty list": not found and max(map(len, vector.lists)) > 0,
             "more answers than entries": len(vector.lists[-1]) > len(found) > 0,
             "a state out of its ranges": not fits and found and set(answers) == {("refused", 9)},
             "two operations end": sum(name in ("read", "written", "asked") for name, _ in answers) >= 2,
             "a word lies outside, and the next entry goes on":
                 fits and any(one == ("refused", 9) and other[0] != "refused" for one, other in zip(answers, answers[1:])),
             "others at work": before > 1 and fits}
    for what, holds in shows.items():
        seen[f"batch: {what}"] += bool(holds)


def look_file(vector, seen, short):
    p, m = vector.args[:2]
    found = calls.entries(vector.lists[:4])
    page = vector.lists[-1]
    answer, _ = calls.call(vector, page)
    size = qhs.HEADER + qhs.RECORD * len(found)
    unknown = any(kind > 3 for kind, *_ in found)
    kinds = vector.lists[0]
    if answer[0] == "refused":
        seen[f"file: refused {answer[1]}"] += 1
    short["file", shortest(vector.lists[:4])] += 1
    shows = {"no record": answer == ("file", qhs.HEADER), "as many records as a file has": answer == ("file", qhs.LONGEST),
             "exactly long enough": answer == ("file", len(page)), "bytes after the file": answer[0] == "file" and size < len(page),
             "17, one byte short": answer == ("refused", 17) and len(page) == size - 1,
             "16 before 13 and 15": answer == ("refused", 16) and m > qhs.MOST_CELLS and unknown,
             "13 before 15 and 1": answer == ("refused", 13) and unknown and p > 16,
             "15 before 1 and 2": answer == ("refused", 15) and p == 0 and m == 0,
             "1 before 2 and 17": answer == ("refused", 1) and m == 0 and len(page) < size,
             "an unknown kind after the last record":
                 answer[0] == "file" and any(kinds[i] > 3 for i in range(len(found), len(kinds))),
             "a step with a cell and a value": answer[0] == "file" and any(x[0] == 0 and x[2] and x[3] for x in found)}
    for what, holds in shows.items():
        seen[f"file: {what}"] += bool(holds)


def main():
    seen, short = Counter(), Counter()
    for data in vectors.stream(vectors.FIXED_SEED, COUNT, list_vectors.block):
        vector, _ = calls.unpack(data, 0)
        if not promised(vector) or not kept(vector) or calls.pack(vector) != data:
            sys.exit(f"a vector that breaks a promise of tests/CALLS.md: {vector}")
        (look_batch if vector.call == "batch" else look_file)(vector, seen, short)
    seen["batch: each list the shortest"] = min(short["batch", k] for k in range(5))
    seen["file: each list the shortest"] = min(short["file", k] for k in range(4))
    for name in EXPECTED:
        print(f"{seen[name]:9} {name}")
    missing = [name for name in EXPECTED if not seen[name]]
    print(f"{COUNT} vectors of calls on lists, {len(EXPECTED)} kinds of event, {len(missing)} missing {missing or ''}")
    sys.exit(bool(missing))


if __name__ == "__main__":
    main()
