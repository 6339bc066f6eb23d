"""The reader of schedule files, QHS version 1: bytes to header and records, or the refusal."""

from collections import namedtuple

LONGEST = 65_536   # bytes of a file
HEADER = 24        # bytes before the records
RECORD = 8         # bytes of a record
MOST_CELLS = 2_040
KINDS = ("step", "read", "write", "asked")

Header = namedtuple("Header", "p m first step fill")
Record = namedtuple("Record", "kind process cell value")


class FileRefused(Exception):
    """Carries the refusal number."""


def number(data, start, end):
    return int.from_bytes(data[start:end], "little")


def read_file(data):
    """File: 16, 11, 12, 13, 14, 15. Open's 1, 2 are left to the opening."""
    if len(data) > LONGEST:
        raise FileRefused(16)
    if len(data) < HEADER or data[0:3] != b"QHS":
        raise FileRefused(11)
    if number(data, 3, 5) != 1:
        raise FileRefused(12)
    header = Header(data[5], number(data, 6, 8), number(data, 8, 12),
                    number(data, 12, 16), number(data, 16, 24))
    if header.m > MOST_CELLS:
        raise FileRefused(13)
    if (len(data) - HEADER) % RECORD != 0:
        raise FileRefused(14)
    starts = range(HEADER, len(data), RECORD)
    if any(data[at] >= len(KINDS) for at in starts):
        raise FileRefused(15)
    return header, [read_record(data, at) for at in starts]


def read_record(data, at):
    return Record(KINDS[data[at]], data[at + 1],
                  number(data, at + 2, at + 4), number(data, at + 4, at + 8))
