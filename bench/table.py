#!/usr/bin/env python3
"""Makes the tables, the plot and the line of figures out of what the benchmark's program and its counter wrote."""
import datetime
import math
import os
import platform
import subprocess
import sys

DOC, PLOT = "docs/BENCHMARK.md", "docs/opening.svg"
BEGIN, END = "<!-- figures: begin -->", "<!-- figures: end -->"
ROWS = [
    ("read of a written cell", "read-written", 1024),
    ("read of an unwritten cell", "read-unwritten", 1024),
    ("first write", "first-write", 65536),
    ("later write", "later-write", 1024),
]
PROCESSES, CELLS = (1, 4, 16), (1, 1024, 65536)
# Where the stack lay at each count.
PLACES = (1, 2, 3, 4)


class Measured:
    """What one run measured: a number for each stretch, by its words."""

    def __init__(self, lines, values=None):
        self.stretch, self.steps, self.units, self.copies = {}, {}, {}, {}
        stretches = [line.split() for line in lines if line.split()[0] in ("open", "ops", "handed")]
        if values is not None and len(values) != len(stretches):
            sys.exit(f"bench: {len(stretches)} stretches and {len(values)} counts")
        if lines[-1].strip() != "same":
            sys.exit("bench: the run did not end")
        for k, words in enumerate(stretches):
            # Words after the nanoseconds are copies, LENGTH:COUNT.
            copies = [w for w in words if ":" in w]
            words = words[: len(words) - len(copies)]
            length = {"ops": 7, "handed": 5, "open": 4}[words[0]]
            key, units = tuple(words[:length]), int(words[length])
            if words[0] == "ops":
                self.steps[key] = int(words[8])
            self.units[key] = units
            self.stretch[key] = float(values[k] if values is not None else words[-1])
            self.copies[key] = {int(c.split(":")[0]): int(c.split(":")[1]) for c in copies}

    def each(self, key, of=None):
        """What one operation adds to what comes before them all."""
        of = of or self.stretch
        return (of[key + ("whole",)] - of[key + ("setup",)]) / self.units[key + ("whole",)]

    def operation(self, name, p, m, side, busy=0):
        return self.each(("ops", name, str(p), str(m), str(busy), side))

    def steps_of(self, name, p, m):
        key = ("ops", name, str(p), str(m), "0", "grid", "whole")
        return self.steps[key] / self.units[key]

    def step(self, side, p):
        """One step in a loop: a read of five steps less a read of one."""
        return (self.operation("read-written", p, 1024, side) - self.operation("read-unwritten", p, 1024, side)) / 4

    def handed(self, p, steps):
        return self.each(("handed", str(p), "1024", str(steps)))

    def step_alone(self, p):
        """One step whose state is handed on to the next."""
        return (self.handed(p, 5) - self.handed(p, 1)) / 4

    def opening(self, m, what):
        key = ("open", "4", str(m), what)
        return self.stretch[key] / self.units[key]

    def opens(self, m):
        return self.opening(m, "opens") - self.opening(m, "begins")


def read(path):
    with open(path, encoding="utf-8") as f:
        return f.read().splitlines()


def first_line(*command):
    return subprocess.run(command, capture_output=True, text=True, check=True).stdout.splitlines()[0]


def processor():
    for line in subprocess.run(["lscpu"], capture_output=True, text=True, check=True).stdout.splitlines():
        if line.startswith("Model name:"):
            return line.split(":", 1)[1].strip()
    return platform.machine()


def table(head, rows):
    cells = [head] + rows
    widths = [max(len(r[k]) for r in cells) for k in range(len(head))]
    line = lambda r: "| " + " | ".join(c.ljust(w) for c, w in zip(r, widths)) + " |"
    return [line(head), "|" + "|".join("-" * (w + 2) for w in widths) + "|"] + [line(r) for r in rows]


def ratio(a, b):
    r = a / b
    return f"{r:,.0f}" if r >= 100 else f"{r:.1f}" if r >= 20 else f"{r:.2f}"


def plot(count):
    """Opening against clearing over m, both axes by powers: plain SVG."""
    ms = sorted({int(k[2]) for k in count.stretch if k[0] == "open"})
    lines = [("clearing the four memories", "#b03a2e", [count.opening(m, "clears") for m in ms]),
             ("open", "#1f618d", [count.opens(m) for m in ms])]
    width, height, left, right, top, bottom = 720, 430, 80, 190, 50, 60
    highest = math.ceil(math.log10(max(max(v) for _, _, v in lines)))
    x = lambda m: left + (width - left - right) * math.log2(m) / math.log2(ms[-1])
    y = lambda v: height - bottom - (height - top - bottom) * (math.log10(v) - 1) / (highest - 1)
    s = [f'<svg xmlns="http://www.w3.org/2000/svg" width="{width}" height="{height}" viewBox="0 0 {width} {height}" '
         'font-family="sans-serif" font-size="13">',
         "<title>Opening a grid against clearing its memories</title>",
         f'<rect width="{width}" height="{height}" fill="white"/>',
         f'<text x="{left}" y="26" font-size="16">Opening against clearing: instructions, by the number of cells</text>']
    for e in range(1, highest + 1):
        s.append(f'<line x1="{left}" y1="{y(10 ** e):.1f}" x2="{width - right}" y2="{y(10 ** e):.1f}" stroke="#dddddd"/>')
        s.append(f'<text x="{left - 8}" y="{y(10 ** e) + 4:.1f}" text-anchor="end">{10 ** e:,}</text>')
    for m in ms:
        s.append(f'<text x="{x(m):.1f}" y="{height - bottom + 20}" text-anchor="middle">{m:,}</text>')
    s.append(f'<text x="{(left + width - right) / 2:.1f}" y="{height - 14}" text-anchor="middle">cells, m (p = 4)</text>')
    for name, colour, values in lines:
        points = " ".join(f"{x(m):.1f},{y(v):.1f}" for m, v in zip(ms, values))
        s.append(f'<polyline points="{points}" fill="none" stroke="{colour}" stroke-width="2"/>')
        s += [f'<circle cx="{x(m):.1f}" cy="{y(v):.1f}" r="3" fill="{colour}"/>' for m, v in zip(ms, values)]
        s.append(f'<text x="{width - right + 10}" y="{y(values[-1]) + 4:.1f}" fill="{colour}">{name}</text>')
    return "\n".join(s + ["</svg>", ""])


def main():
    words = sys.argv[1:]
    write = "--write" in words
    out, compiler = [w for w in words if w != "--write"]
    path = lambda name: os.path.join(out, name)
    places = [[int(v) for v in read(path(f"counts.{k}"))] for k in PLACES]
    count = Measured(read(path("counted")), [sum(at) / len(at) for at in zip(*places)])
    clock, copied = Measured(read(path("timed"))), Measured(read(path("copied")))
    c_bytes = int(read(path("counted"))[0].split()[2])

    # The state's length is that of the copies that are made most.
    lengths = {}
    for of in copied.copies.values():
        for length, n in of.items():
            lengths[length] = lengths.get(length, 0) + n
    state = max(lengths, key=lengths.get)
    of_state = {key: of.get(state, 0) for key, of in copied.copies.items()}
    made = lambda *key: copied.each(key, of_state)
    alone = (made("handed", "1", "1024", "5") - made("handed", "1", "1024", "1")) / 4
    looped = (made("ops", "read-written", "1", "1024", "0", "grid") - made("ops", "read-unwritten", "1", "1024", "0", "grid")) / 4

    emulated = platform.machine() != "x86_64"
    emulator = first_line("qemu-x86_64", "--version")
    text = [
        f"{datetime.date.today().isoformat()}, {processor()} ({platform.machine()}). Counted by {emulator}.",
        f"The C sides: {first_line(compiler, '--version')}, -O3.",
        "TIME: all sides ran under that emulator, so only ratios say something." if emulated else "TIME: without an emulator.",
        "Every number is a ratio unless its head says instructions (of x86-64). The sides gave equal answers and left equal memories.",
        "", "(a) Opening against clearing, p = 4", ""]
    text += table(["m", "open, instructions", "clearing ÷ open, instructions", "clearing ÷ open, time"],
                  [[f"{m:,}", f"{count.opens(m):.0f}", ratio(count.opening(m, "clears"), count.opens(m)),
                    ratio(clock.opening(m, "clears"), clock.opens(m))] for m in CELLS])

    text += ["", "(b) Against the machine in C, which looks at all the lanes at each call; (c) against a plain array in C; (d) the batch, against the",
             "machine in C and against the batch in C, which looks at the lanes once, as the batch does", ""]
    head = ["", "p", "steps", "grid, instructions", "grid ÷ C", "time", "grid ÷ array", "time", "batch ÷ C", "time", "batch ÷ C batch", "time"]
    rows = []
    for p in PROCESSES:
        for name, a, b in (("one step, its state handed on", count.step_alone, clock.step_alone),
                           ("one step, its state stored back", lambda p: count.step("grid", p), lambda p: clock.step("grid", p))):
            rows.append([name, str(p), "1", f"{a(p):.0f}", ratio(a(p), count.step("c", p)), ratio(b(p), clock.step("c", p))] + [""] * 6)
        rows.append(["one step of the batch", str(p), "1"] + [""] * 5 + [
            ratio(of.step("batch", p), of.step(side, p)) for side in ("c", "c-batch") for of in (count, clock)])
    for title, name, m in ROWS:
        for p in PROCESSES:
            cost = lambda of, side: of.operation(name, p, m, side)
            pairs = [("grid", "c"), ("grid", "array"), ("batch", "c"), ("batch", "c-batch")]
            rows.append([title, str(p), f"{count.steps_of(name, p, m):.2f}", f"{cost(count, 'grid'):.0f}"] + [
                ratio(cost(of, x), cost(of, y)) for x, y in pairs for of in (count, clock)])
    text += table(head, rows)

    text += ["", "(e) How a step grows: a read of five steps, against the first row of its group; instructions", ""]
    cost = lambda p, m, busy=0, side="grid": count.operation("read-written", p, m, side, busy)
    rows = [[f"p = {p}, m = 1,024", ratio(cost(p, 1024), cost(1, 1024)), ratio(cost(p, 1024, 0, "c"), cost(1, 1024, 0, "c"))]
            for p in PROCESSES]
    rows += [[f"p = {p}, the others at work", ratio(cost(p, 1024, p - 1), cost(1, 1024)),
              ratio(cost(p, 1024, p - 1, "c"), cost(1, 1024, 0, "c"))] for p in (4, 16)]
    rows += [[f"m = {m:,}, p = 4", ratio(cost(4, m), cost(4, 1)), ratio(cost(4, m, 0, "c"), cost(4, 1, 0, "c"))] for m in CELLS]
    text += table(["", "grid", "C"], rows)

    text += ["", "State and copies", ""]
    text += table(["", "grid", "C"], [["a state, bytes", str(state), str(c_bytes)],
                                      ["copies of a state in a step", f"{alone:.2f}", "0"],
                                      ["the same, with the caller's that stores it back", f"{looped:.2f}", "0"]])

    step = {p: count.step_alone(p) / count.step("c", p) for p in PROCESSES}
    batch = {p: count.step("batch", p) / count.step("c", p) for p in PROCESSES}
    fair = {p: count.step("batch", p) / count.step("c-batch", p) for p in PROCESSES}
    least = count.opening(65536, "clears") / count.opens(65536)
    all_m = {round(count.opens(int(k[2])), 2) for k in count.stretch if k[0] == "open"}
    targets = [
        ("a state of at most 672 bytes", state <= 672, f"{state}"),
        ("at most two copies of the state in a step", alone <= 2, f"{alone:.2f}"),
        ("a step at most 5 times the machine in C at p = 1", step[1] <= 5, f"{step[1]:.2f}"),
        ("a step at most 3 times the machine in C at p = 16", step[16] <= 3, f"{step[16]:.2f}"),
        ("a step of the batch at most 4 times the batch in C at p = 1", fair[1] <= 4, f"{fair[1]:.2f}"),
        ("a step of the batch at most 4 times the batch in C at p = 16", fair[16] <= 4, f"{fair[16]:.2f}"),
        ("a step of the batch at most 2 times the machine in C at p = 1", batch[1] <= 2, f"{batch[1]:.2f}"),
        ("a step of the batch at most 1 time the machine in C at p = 16", batch[16] <= 1, f"{batch[16]:.2f}"),
        ("open at least 1,000 times cheaper than clearing at m = 65,536", least >= 1000, f"{least:,.0f}"),
        ("open the same at every m", len(all_m) == 1, f"{', '.join(f'{v:.0f}' for v in sorted(all_m))} instructions"),
    ]
    text += ["", "Targets, in instructions", ""]
    text += table(["target", "met", "measured"], [[name, "yes" if met else "NO", value] for name, met, value in targets])
    print("\n".join(text))

    if write:
        with open(PLOT, "w", encoding="utf-8") as f:
            f.write(plot(count))
        with open(DOC, encoding="utf-8") as f:
            old = f.read()
        before, rest = old.split(BEGIN)
        after = rest.split(END)[1]
        with open(DOC, "w", encoding="utf-8") as f:
            f.write(before + BEGIN + "\n" + "\n".join(text) + "\n" + END + after)
        print(f"\nwritten: {DOC}, {PLOT}")
    print()
    print(f"figures: state {state} bytes; copies in a step {alone:.2f}; step ÷ C {step[1]:.2f} (p 1), {step[4]:.2f} (p 4), "
          f"{step[16]:.2f} (p 16); batch ÷ C {batch[1]:.2f} (p 1), {batch[4]:.2f} (p 4), {batch[16]:.2f} (p 16); "
          f"batch ÷ C batch {fair[1]:.2f} (p 1), {fair[4]:.2f} (p 4), {fair[16]:.2f} (p 16); "
          f"open {count.opens(65536):.0f} instructions; clearing ÷ open {least:,.0f} (m 65,536)")


main()
