#!/usr/bin/env python3
"""Brings the repository's own definitions and lemmas to the spelling of today's Rattle: words in snake case.

usage: python3 tools/respell.py, once, at the top, right after the toolchain's own script for older repositories.

`fillAt` becomes `fill_at`, `never-nine` becomes `never_nine`. Types and modules keep their capitals, and so does a name that
begins with one. Where a lemma would get the name of a definition it gets `_lem` after it. Functions of src/ keep their names.
It turns specs/, proofs/, the clauses of src/, and the code spans of README and docs/; `respelled` serves other text.
"""

import collections
import glob
import re

WORD = re.compile(r"[^\s(){}.;,@\"«»`]+")
DECLARED = re.compile(
    r"^\s*(?:pub\s+)?(?:(?:abbrev|unfoldable)\s+)?(?:pub\s+)?(?:(?:record|data|ruleset)\s+)?"
    r"([^\s(){}.;,@\"«»:]+)\s*(?:\([^)]*\)|\{[^}]*\}|\s)*:\s"
)
# Names bound in a lemma, and steps that are named after a function, which no declaration shows.
BOUND = """after-mark answer-of cell-of d-is directory-words enum-told2 first-is in-grid kind-of lane-of2 lanes-below
most-marks n-is not-comma not-nil not-quote op-of p-in p-is m-in pool-words put-answer put-wide record-at segment-of
state-after turn-of v-is verdict-of""".split()
# Lemmas that had their new spelling already, and share it with a definition that is turned, in the same files.
LEMMAS = {"qhs_writer": ["all_known"], "bridge": ["note_step", "numbers_fit", "op_fits"]}
# Books of what was measured and of what older landings were called: their words stay.
KEPT = ("docs/PORT.md",)


def code_of(line):
    """A line of antt without its comment."""
    if line.lstrip().startswith("--"):
        return ""
    at = line.find(" -- ")
    return line if at < 0 else line[:at]


def snake(name):
    if name[0].isupper():
        return name
    return re.sub(r"(?<=[a-z0-9])([A-Z])", lambda m: "_" + m.group(1).lower(), name.replace("-", "_"))


def antt_files():
    return sorted(glob.glob("crates/*/specs/**/*.antt", recursive=True) + glob.glob("crates/*/proofs/**/*.antt", recursive=True))


def table():
    """The new spelling of each own name."""
    names = set(BOUND)
    for path in antt_files():
        with open(path, encoding="utf-8") as f:
            for line in f:
                m = DECLARED.match(code_of(line.rstrip("\n")))
                if m and m.group(1) not in ("λ", "let", "in", "use", "module", "where", "→"):
                    names.add(m.group(1))
    groups = collections.defaultdict(set)
    for n in names:
        groups[snake(n)].add(n)
    new = {}
    for n in names:
        s = snake(n)
        clash = "-" in n and len(groups[s]) > 1 and n not in BOUND
        if s != n:
            new[n] = s + "_lem" if clash else s
    return new


def respelled(text, new):
    return WORD.sub(lambda m: new.get(m.group(0), m.group(0)), text)


def turn_antt(text, new, of_function):
    out = []
    for line in text.split("\n"):
        code = code_of(line)
        rest = line[len(code):]
        if of_function:
            code = re.sub(r"\bc\.([\w-]+)", lambda m: "c." + (snake(m.group(1)) if m.group(1) in new else m.group(1)), code)
        camel = {k: v for k, v in new.items() if "-" not in k}
        out.append(respelled(code, new) + respelled(turn_spans(rest, new), camel))
    return "\n".join(out)


def turn_spans(text, new):
    return re.sub(r"`[^`\n]+`", lambda m: respelled(m.group(0), new), text)


def main():
    new = table()
    camel = {k: v for k, v in new.items() if "-" not in k}
    for path in antt_files():
        crate = path.split("/")[1]
        of_function = "/proofs/" in path and path.endswith("/Proof.antt")
        here = dict(new, **{n: n + "_lem" for n in LEMMAS.get(crate, [])})
        rewrite(path, lambda t: turn_antt(t, here, of_function))
    for path in sorted(glob.glob("crates/*/src/**/*.rt", recursive=True)):
        rewrite(path, lambda t: respelled(turn_spans(t, new), camel))
    for path in ["README.md"] + sorted(glob.glob("docs/**/*.md", recursive=True)):
        if path not in KEPT:
            rewrite(path, lambda t: turn_spans(t, new))


def rewrite(path, turn):
    with open(path, encoding="utf-8") as f:
        old = f.read()
    new = turn(old)
    if new != old:
        with open(path, "w", encoding="utf-8") as f:
            f.write(new)


if __name__ == "__main__":
    main()
