"""The writer of schedule files, QHS version 1, of document 02, W2. As a program: one schedule file on standard input, the
file written again on standard output."""

import sys

import qhs

ROOM = qhs.LONGEST  # bytes that the program lends
# The fields that a kind needs besides its process.
NEEDED = {"step": (), "read": ("cell",), "write": ("cell", "value"), "asked": ("cell",)}


def plain(record):
    """The record with the fields that its kind ignores as zero."""
    ignored = [name for name in ("cell", "value") if name not in NEEDED[record.kind]]
    return record._replace(**dict.fromkeys(ignored, 0))


def write_file(header, records, room):
    """16, 13, 15, 1, 2, 17. The file's bytes, or FileRefused."""
    size = qhs.HEADER + qhs.RECORD * len(records)
    if size > qhs.LONGEST:
        raise qhs.FileRefused(16)
    if header.m > qhs.MOST_CELLS:
        raise qhs.FileRefused(13)
    if any(record.kind not in NEEDED for record in records):
        raise qhs.FileRefused(15)
    if not 1 <= header.p <= 16:
        raise qhs.FileRefused(1)
    if header.m == 0:
        raise qhs.FileRefused(2)
    if size > room:
        raise qhs.FileRefused(17)
    return head_bytes(header) + b"".join(record_bytes(plain(record)) for record in records)


def number(value, width):
    return value.to_bytes(width, "little")


def head_bytes(header):
    parts = ((1, 2), (header.p, 1), (header.m, 2), (header.first, 4), (header.step, 4), (header.fill, 8))
    return b"QHS" + b"".join(number(value, width) for value, width in parts)


def record_bytes(record):
    parts = ((qhs.KINDS.index(record.kind), 1), (record.process, 1), (record.cell, 2), (record.value, 4))
    return b"".join(number(value, width) for value, width in parts)


def output(data, room=ROOM):
    """What the program prints for a file. Open's 1, 2 are the writer's too."""
    try:
        return write_file(*qhs.read_file(data), room)
    except qhs.FileRefused as refusal:
        return f"file refused {refusal.args[0]}\n".encode()


if __name__ == "__main__":
    sys.stdout.buffer.write(output(sys.stdin.buffer.read(qhs.LONGEST + 1)))
