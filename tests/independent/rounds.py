"""Both round trips of the writer, over the examples' files and the schedule files, with the converter of examples/ held
to it; and refusals that no file reaches.

`rounds.py [COUNT]` tries the fixed ones.
"""

import sys

import files
import qhs
import text
import writer

IGNORED_FROM = (2, 4, 8, 4)  # the first byte of a record that its kind ignores

HEADER = qhs.Header(16, 2_040, 7, 0, 2**64 - 1)
STEP = qhs.Record("step", 0, 0, 0)
MANY = [STEP] * 8_190
# Header, records and room, and the refusal that is given: each with all that come after it.
REFUSALS = (
    (HEADER._replace(p=0, m=2_041), MANY + [STEP._replace(kind="other")], 0, 16),
    (HEADER._replace(p=0, m=2_041), [STEP._replace(kind="other")], 0, 13),
    (HEADER._replace(p=0, m=0), [STEP, STEP._replace(kind="other")], 0, 15),
    (HEADER._replace(p=0, m=0), [STEP], 0, 1), (HEADER._replace(p=17, m=0), [], 23, 1),
    (HEADER._replace(m=0), [STEP], 31, 2), (HEADER, [], 23, 17), (HEADER, [STEP], 31, 17),
    (HEADER, MANY[1:], 65_535, 17),
)
FITTING = ((HEADER, [], 24), (HEADER, [STEP], 32), (HEADER, MANY[1:], 65_536))


SCRIPT = text.converter()
# The files of examples/, as its converter makes them.
EXAMPLES = [SCRIPT.to_bytes(path.read_text()) for path in sorted(text.EXAMPLES.glob("*.txt"))]


def file_bytes(seed, index):
    """File number index of a seed: the examples' first."""
    if index < len(EXAMPLES):
        return EXAMPLES[index]
    return files.file_bytes(seed, index - len(EXAMPLES))


def zeroed(data):
    """The same bytes with the ignored fields put to zero."""
    data = bytearray(data)
    for at in range(qhs.HEADER, len(data), qhs.RECORD):
        start, end = at + IGNORED_FROM[data[at]], at + qhs.RECORD
        data[start:end] = bytes(end - start)
    return bytes(data)


def fault(data):
    """What is wrong with a file's round trips; None if nothing is."""
    made = writer.output(data)
    if made.startswith(b"file refused"):
        return None
    header, records = qhs.read_file(data)
    if made != zeroed(data):
        return "it is not written as the same bytes, ignored fields put to zero"
    if qhs.read_file(made) != (header, [writer.plain(record) for record in records]):
        return "what is written is not read as it was, ignored fields as zero"
    lines = SCRIPT.to_text(made)
    if "bytes" in lines or "pad" in lines or SCRIPT.to_bytes(lines) != made:
        return "the converter of examples/ makes other bytes of its text"
    return None


def refusal(header, records, room):
    try:
        writer.write_file(header, records, room)
    except qhs.FileRefused as given:
        return given.args[0]
    return None


def main():
    count = int(sys.argv[1]) if len(sys.argv) > 1 else 2_000
    accepted = changed = unchanged = 0
    for index in range(count):
        data = file_bytes(files.FIXED_SEED, index)
        wrong = fault(data)
        if wrong:
            sys.exit(f"file {index}: {wrong}")
        made = writer.output(data)
        if made.startswith(b"file refused"):
            continue
        accepted += 1
        changed += made != data
        if index < len(EXAMPLES):
            unchanged += 1
            if made != data:
                sys.exit(f"file {index}, an example's, has an ignored field that is not zero")
    for *given, expected in REFUSALS + tuple((*given, None) for given in FITTING):
        if refusal(*given) != expected:
            sys.exit(f"{given[0]}, {len(given[1])} records, {given[2]} bytes: not {expected}")
    print(f"{count} files, {accepted} accepted, {changed} of them with ignored fields: both round trips as expected; "
          f"{unchanged} accepted examples unchanged, {len(REFUSALS)} refusals and {len(FITTING)} that fit")


if __name__ == "__main__":
    main()
