"""Turns a schedule written as text into a .qhs file, and back.

    python3 examples/qhs.py to FILE.txt [FILE.qhs]    FILE.qhs beside the text if not named
    python3 examples/qhs.py from FILE.qhs             prints the text

The text, one thing a line, # begins a comment, numbers decimal or 0x…:

    processes 2          p
    cells 2              m
    first 7              f(i) = first + step × i
    step 0
    fill 0               the old bytes: a number, `fill link Q N`, or `fill ones`

The fill line ends the header. After it a line is a record:

    read P C             process P begins to read cell C
    write P C V          process P begins to write V to cell C
    asked P C            process P begins to ask whether cell C is written
    step P               one step of process P
    steps P N            N steps of process P

For damaged files the header may also have `mark XYZ` and `version N`, and
after it `bytes HEX` puts bytes as they are and `pad N` puts N zero bytes.
A text of `bytes` and `pad` lines alone has no header.
"""

import pathlib
import struct
import sys

HEADER = struct.Struct("<3sHBHIIQ")
RECORD = struct.Struct("<BBHI")
KINDS = ("step", "read", "write", "asked")
# Header lines that are one number: the number's limit.
NUMBERS = {"processes": 2**8, "cells": 2**16, "first": 2**32, "step": 2**32, "version": 2**16}
NEEDED = ("processes", "cells", "first", "step")
MOST_BYTES = 2**24  # of a file made here
ROW = 32            # bytes shown on one line


class TextError(Exception):
    """Something is wrong on the line being read."""


# --- Text to bytes -----------------------------------------------------------------

def number(word, what, limit):
    try:
        value = int(word, 0)
    except ValueError:
        raise TextError(f"{what} must be a number, not {word!r}") from None
    if not 0 <= value < limit:
        raise TextError(f"{what} {value} is not from 0 to {limit - 1}")
    return value


def expect(words, *names):
    if len(words) != len(names):
        raise TextError(f"{words[0]!r} is written `{' '.join(names)}`")


def fill_of(words):
    if words[1:2] == ["link"]:
        expect(words, "fill", "link", "Q", "N")
        return number(words[2], "process", 2**14) << 50 | number(words[3], "place", 2**50)
    expect(words, "fill", "NUMBER | link Q N | ones")
    return 2**64 - 1 if words[1] == "ones" else number(words[1], "fill", 2**64)


def header_line(words, header):
    """Takes one line of the header in. The fill line makes it whole."""
    name = words[0]
    if name in header:
        raise TextError(f"a second {name!r} line")
    if name == "mark":
        expect(words, "mark", "XYZ")
        header["mark"] = words[1].encode()
        if len(header["mark"]) != 3:
            raise TextError("a mark has three letters")
    elif name in NUMBERS:
        expect(words, name, "NUMBER")
        header[name] = number(words[1], name, NUMBERS[name])
    elif name == "fill":
        header["fill"] = fill_of(words)
        missing = [needed for needed in NEEDED if needed not in header]
        if missing:
            raise TextError(f"fill ends the header, but {' and '.join(missing)} is missing")
    else:
        raise TextError(f"{name!r} is no line of the header (which ends with `fill`)")


def header_bytes(header):
    return HEADER.pack(header.get("mark", b"QHS"), header.get("version", 1),
                       *(header[name] for name in NEEDED), header["fill"])


def raw_line(words):
    if words[0] == "pad":
        expect(words, "pad", "N")
        return bytes(number(words[1], "pad", MOST_BYTES))
    try:
        return bytes.fromhex("".join(words[1:]))
    except ValueError:
        raise TextError("bytes are written as pairs of hexadecimal digits") from None


def record_line(words):
    """The bytes of one line after the header."""
    name = words[0]
    if name in ("bytes", "pad"):
        return raw_line(words)
    shape = {"step": ("P",), "steps": ("P", "N"), "read": ("P", "C"), "asked": ("P", "C"),
             "write": ("P", "C", "V")}.get(name)
    if shape is None:
        raise TextError(f"{name!r} is no record: read, write, asked, step, steps, bytes or pad")
    expect(words, name, *shape)
    process = number(words[1], "process", 2**8)
    if name == "step":
        return RECORD.pack(0, process, 0, 0)
    if name == "steps":
        return RECORD.pack(0, process, 0, 0) * number(words[2], "number of steps", 2**16)
    cell = number(words[2], "cell", 2**16)
    value = number(words[3], "value", 2**32) if name == "write" else 0
    return RECORD.pack(KINDS.index(name), process, cell, value)


def to_bytes(text):
    """The file of a text. A TextError names its line."""
    header, parts, raw, at = {}, [], False, 0
    for at, line in enumerate(text.splitlines(), 1):
        words = line.split("#")[0].split()
        try:
            if not words:
                continue
            if not header and words[0] in ("bytes", "pad"):
                raw = True
                parts.append(raw_line(words))
            elif raw:
                raise TextError("a text that begins with bytes or pad has nothing else")
            elif "fill" in header:
                parts.append(record_line(words))
            else:
                header_line(words, header)
                if "fill" in header:
                    parts.append(header_bytes(header))
        except TextError as error:
            raise TextError(f"line {at}: {error}") from None
    if not raw and "fill" not in header:
        raise TextError(f"line {at + 1}: the text ends before its fill line")
    return b"".join(parts)


# --- Bytes to text -----------------------------------------------------------------

def raw_text(data):
    lines = []
    while data:
        zeros = len(data) - len(data.lstrip(b"\0"))
        if zeros >= ROW:
            lines.append(f"pad {zeros}")
            data = data[zeros:]
        else:
            lines.append(f"bytes {data[:ROW].hex()}")
            data = data[ROW:]
    return lines


def header_text(data):
    """The header's lines, or None if it can only be told as bytes."""
    if len(data) < HEADER.size:
        return None
    mark, version, p, m, first, step, fill = HEADER.unpack_from(data)
    if not all(33 <= letter < 127 and letter != ord("#") for letter in mark):
        return None
    lines = [f"mark {mark.decode()}"] if mark != b"QHS" else []
    lines += [f"version {version}"] if version != 1 else []
    process, place = fill >> 50, fill % 2**50
    told = "ones" if fill == 2**64 - 1 else f"link {process} {place}" if process else str(fill)
    return lines + [f"processes {p}", f"cells {m}", f"first {first}", f"step {step}",
                    f"fill {told}"]


def record_text(kind, process, cell, value):
    """One record's line, or None if it holds what the text cannot say."""
    if kind == 0 and cell == value == 0:
        return f"step {process}"
    if kind in (1, 3) and value == 0:
        return f"{KINDS[kind]} {process} {cell}"
    if kind == 2:
        return f"write {process} {cell} {value}"
    return None


def to_text(data):
    """The text of any bytes; to_bytes of it gives them back."""
    lines = header_text(data)
    if lines is None:
        return "\n".join(raw_text(data) or ["bytes"]) + "\n"
    whole = (len(data) - HEADER.size) // RECORD.size
    end = HEADER.size + whole * RECORD.size
    steps, last = 0, None
    for record in RECORD.iter_unpack(data[HEADER.size:end]):
        line = record_text(*record) or f"bytes {RECORD.pack(*record).hex()}"
        if line.startswith("step ") and line == last:
            steps += 1
            lines[-1] = f"steps {record[1]} {steps}"
        else:
            steps, last = 1, line
            lines.append(line)
    return "\n".join(lines + raw_text(data[end:])) + "\n"


def main(words):
    if len(words) in (2, 3) and words[0] == "to":
        source = pathlib.Path(words[1])
        target = pathlib.Path(words[2]) if len(words) == 3 else source.with_suffix(".qhs")
        try:
            target.write_bytes(to_bytes(source.read_text()))
        except TextError as error:
            sys.exit(f"{source}, {error}")
    elif len(words) == 2 and words[0] == "from":
        sys.stdout.write(to_text(pathlib.Path(words[1]).read_bytes()))
    else:
        sys.exit(__doc__.split("\n\n")[1])


if __name__ == "__main__":
    try:
        main(sys.argv[1:])
    except OSError as error:
        sys.exit(f"{error.filename}: {error.strerror}")
