"""Tries examples/qhs.py: every fixed file to text and back, faulty texts, and each example's file."""

import importlib.util
import pathlib
import sys

import files
import program

EXAMPLES = pathlib.Path(__file__).resolve().parents[2] / "examples"
COUNT = 700
HEAD = "processes 1\ncells 1\nfirst 0\nstep 0\nfill 0\n"

# A faulty text, and the line its error must name.
FAULTY = (
    ("", 1), ("processes 2\n", 2), ("processes 2\ncells 2\nfirst 7\nfill 0\n", 4),
    ("processes 300", 1), ("processes -1", 1), ("processes x", 1), ("processes", 1),
    ("processes 2\nprocesses 2", 2), ("cells 1\nread 0 0", 2), ("mark ABCD", 1),
    ("cells 65536", 1), ("first 4294967296", 1), ("version 65536", 1),
    (HEAD.replace("fill 0", "fill link 0"), 5), (HEAD.replace("fill 0", "fill link 16384 0"), 5),
    (HEAD.replace("fill 0", "fill 18446744073709551616"), 5), ("bytes 0g", 1), ("bytes 0", 1),
    ("bytes 00\nstep 0", 2), (HEAD + "# a comment\n\nwrite 0 0\n", 8), (HEAD + "jump 3", 6),
    (HEAD + "steps 256 1", 6), (HEAD + "step", 6), (HEAD + "fill 0", 6), (HEAD + "read 0 65536", 6),
    (HEAD + "write 0 0 4294967296", 6), (HEAD + "pad x", 6),
)


def converter():
    """examples/qhs.py under a name of its own."""
    spec = importlib.util.spec_from_file_location("schedule_text", EXAMPLES / "qhs.py")
    module = importlib.util.module_from_spec(spec)
    spec.loader.exec_module(module)
    return module


def main():
    text = converter()
    for index in range(COUNT):
        data = files.file_bytes(files.FIXED_SEED, index)
        if text.to_bytes(text.to_text(data)) != data:
            sys.exit(f"file {index} does not come back from its text")
    for faulty, line in FAULTY:
        try:
            text.to_bytes(faulty)
        except text.TextError as error:
            if str(error).startswith(f"line {line}: "):
                continue
            sys.exit(f"{faulty!r}: the error should name line {line}: {error}")
        sys.exit(f"{faulty!r} was taken")
    shown = 0
    for path in sorted(EXAMPLES.glob("*.txt")):
        # An example may say what must be printed: comment lines `#> LINE`, in order.
        source = path.read_text()
        wanted = [line[2:].strip() for line in source.splitlines() if line.startswith("#>")]
        lines = list(program.lines(text.to_bytes(source)))
        rest = iter(lines)
        for line in wanted:
            if line not in rest:
                sys.exit(f"{path.name}: {line!r} is not printed, or not in this order")
        if not wanted:
            sys.exit(f"{path.name} does not say what to look for")
        shown += 1
    print(f"{COUNT} files to text and back, {len(FAULTY)} faulty texts, {shown} examples: as expected")


if __name__ == "__main__":
    main()
