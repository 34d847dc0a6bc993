#!/usr/bin/env python3
"""Draws the pictures of docs/figures from the tables of bench/results, with Python's standard library alone.

Usage: bench/draw.py                    draws all pictures anew
       bench/draw.py --check            draws nothing, and ends with status 1 where a picture isn't that of its table
       bench/draw.py --gate TABLE       takes a table of bench/gate_seconds.py over into bench/results, then draws
The tables are what scripts of bench/ told: `workers` of measure_rounds.py, `size` of dump.py and measure.py, `parts` of
`valgrind --tool=callgrind`, `gate` of gate_seconds.py. The picture of the layers is made of crates.txt; `layers` tells
which crates have one colour.
"""
import csv
import os
import sys
from xml.sax.saxutils import escape

TOP = os.path.dirname(os.path.dirname(os.path.abspath(__file__)))
RESULTS = os.path.join(TOP, "bench", "results")
PICTURES = os.path.join(TOP, "docs", "figures")
LINES = 65536  # lines of each script of measure_rounds.py
OURS, OTHER, INK, GRID = "#1b5e9e", "#c06a1b", "#222222", "#dddddd"
SHADES = ("#1b5e9e", "#6fa3d0", "#c06a1b", "#e3b587", "#b9b9b9")
PALE = ("#f3d9bd", "#cfe0f1", "#a9c8e6", "#bfe3cf", "#e6d3ec", "#f6ecb8", "#f2c4c4")
SHOWN = 30  # crates in the picture of the gate


def rows_of(name):
    """The rows of a table, each as a dictionary of words."""
    with open(os.path.join(RESULTS, f"{name}.csv"), encoding="utf-8", newline="") as it:
        return list(csv.DictReader(it))


def text(x, y, words, size=12, anchor="start", ink=INK, bold=False):
    """A line of text; `anchor` is start, middle or end."""
    weight = ' font-weight="bold"' if bold else ""
    return (f'<text x="{x:.1f}" y="{y:.1f}" font-size="{size}" text-anchor="{anchor}"{weight} '
            f'fill="{ink}">{escape(words)}</text>')


def line(x1, y1, x2, y2, ink=GRID, width=1.0):
    """A straight line."""
    return f'<line x1="{x1:.1f}" y1="{y1:.1f}" x2="{x2:.1f}" y2="{y2:.1f}" stroke="{ink}" stroke-width="{width}"/>'


def bar(x, y, width, height, ink, words=""):
    """A filled rectangle, with words that are shown where a pointer rests on it."""
    title = f"<title>{escape(words)}</title>" if words else ""
    return f'<rect x="{x:.1f}" y="{y:.1f}" width="{width:.1f}" height="{height:.1f}" fill="{ink}">{title}</rect>'


def curve(points, ink):
    """Points joined by lines, with a dot at each."""
    joined = " ".join(f"{x:.1f},{y:.1f}" for x, y in points)
    dots = [f'<circle cx="{x:.1f}" cy="{y:.1f}" r="3" fill="{ink}"/>' for x, y in points]
    return [f'<polyline points="{joined}" fill="none" stroke="{ink}" stroke-width="2"/>'] + dots


def picture(width, height, parts):
    """A whole picture on white, with its parts one a line."""
    head = (f'<svg xmlns="http://www.w3.org/2000/svg" width="{width}" height="{height}" '
            f'viewBox="0 0 {width} {height}" font-family="sans-serif">')
    return "\n".join([head, bar(0, 0, width, height, "#ffffff"), *parts, "</svg>", ""])


def legend(x, y, names, below=0):
    """Coloured squares with their names: in a row, or one `below` another."""
    parts = []
    for name, ink in names:
        parts += [bar(x, y - 9, 10, 10, ink), text(x + 14, y, name)]
        x, y = x + (0 if below else 34 + 6.6 * len(name)), y + below
    return parts


def panel(place, title, ticks, sizes, curves, to_scale=False):
    """Axes with their numbers and some curves: `place` is x, y, width and height, `ticks` the heights that are named,
    `sizes` the names along the bottom, which stand to scale or at even steps; each curve has a value for each size."""
    x, y, width, height = place
    high = ticks[-1]
    parts = [text(x, y - 8, title, bold=True)]
    for tick in ticks:
        at = y + height - height * tick / high
        parts += [line(x, at, x + width, at), text(x - 5, at + 4, f"{tick:g}", 10, "end")]
    steps = [x + width * (place + 0.5) / len(sizes) for place in range(len(sizes))]
    if to_scale:
        steps = [x + width * int(size) / (1.05 * int(sizes[-1])) for size in sizes]
    parts += [text(at, y + height + 14, size, 10, "middle") for at, size in zip(steps, sizes)]
    for values, ink in curves:
        parts += curve([(at, y + height - height * value / high) for at, value in zip(steps, values)], ink)
    return parts


def workers():
    """Lines a second in memory by 1, 2, 4 and 8 workers, beside plain C++."""
    rows = [row for row in rows_of("workers") if row["where"] == "memory"]
    mixes = list(dict.fromkeys(row["mix"] for row in rows))
    parts = [text(20, 24, "Million lines a second by workers, in memory: each has its outcome printed", 14, bold=True)]
    parts += legend(20, 46, [("foedus", OURS), ("plain C++, without pages", OTHER)])
    for index, mix in enumerate(mixes):
        of_mix = [row for row in rows if row["mix"] == mix]
        place = (50 + index % 3 * 240, 90 + index // 3 * 190, 190, 120)
        speeds = [([LINES / float(row[name]) / 1e6 for row in of_mix], ink)
                  for name, ink in (("plain", OTHER), ("foedus", OURS))]
        parts += panel(place, mix, (0, 0.5, 1, 1.5, 2), [row["workers"] for row in of_mix], speeds)
    return picture(740, 440, parts)


def size():
    """Seconds by size: dumps beside SQLite, and long scripts."""
    rows = rows_of("size")
    parts = [text(20, 24, "Seconds by size", 14, bold=True)]
    for index, (name, title, ticks) in enumerate((("dump", "a dump, by million log lines", (0, 1, 2, 3)),
                                                  ("script", "a long script, by MiB", (0, 1, 2, 3, 4)))):
        of_panel = [row for row in rows if row["panel"] == name]
        names = list(dict.fromkeys(row["series"] for row in of_panel))
        sizes = list(dict.fromkeys(row["size"] for row in of_panel))
        inks = (OURS, OTHER) if name == "dump" else SHADES[:3]
        curves = [([float(row["seconds"]) for row in of_panel if row["series"] == series], ink)
                  for series, ink in zip(names, inks)]
        x = 50 + index * 350
        parts += panel((x, 70, 290, 140), title, ticks, sizes, curves, to_scale=True)
        parts += legend(x + 12, 88, list(zip(names, inks)), 16)
    return picture(740, 240, parts)


def parts_of_a_run():
    """The instructions of a run of sixteen reads, by what they are for, beside those of plain C++."""
    rows = rows_of("parts")
    names = list(dict.fromkeys(row["program"] for row in rows))
    parts = [text(20, 24, "Sixteen reads of 1,024 values by one worker: million instructions", 14, bold=True)]
    for index, name in enumerate(names):
        x, y = 100, 44 + index * 62
        parts.append(text(90, y + 20, name, anchor="end"))
        for place, row in enumerate(row for row in rows if row["program"] == name):
            width = int(row["instructions"]) * 1.55
            ink = SHADES[place] if name == names[0] else "#888888"
            middle = x + width / 2
            parts += [bar(x, y, width - 1, 30, ink, f'{row["part"]}: {row["instructions"]}'),
                      text(middle, y + 20, row["instructions"], 12, "middle", "#ffffff" if place in (0, 2) else INK)]
            if name == names[0]:
                parts.append(text(x, y + 44, row["part"], 10))
            x += width
    return picture(740, 152, parts)


def gate():
    """Seconds of processor time that the gate takes for each crate: proof, tests, planted bugs."""
    kinds = (("proof", "proof", OURS), ("tests", "tests", "#b9b9b9"), ("bugs", "planted bugs", OTHER))
    rows = sorted(rows_of("gate"), key=lambda row: -sum(int(row[kind]) for kind, _, _ in kinds))[:SHOWN]
    parts = [text(20, 24, f"Seconds of processor time in the gate: the {len(rows)} dearest crates", 14, bold=True)]
    parts += legend(20, 46, [(name, ink) for _, name, ink in kinds])
    scale = 540 / max(sum(int(row[kind]) for kind, _, _ in kinds) for row in rows)
    for index, row in enumerate(rows):
        x, y = 130, 60 + index * 17
        parts.append(text(124, y + 11, row["crate"], 11, "end"))
        for kind, name, ink in kinds:
            width = int(row[kind]) * scale
            parts += [bar(x, y, width, 13, ink, f"{name}: {row[kind]}")] if width else []
            x += width
        parts.append(text(x + 5, y + 11, str(sum(int(row[kind]) for kind, _, _ in kinds)), 10))
    return picture(740, 74 + 17 * len(rows), parts)


def crates_below():
    """Of each crate of crates.txt those that it stands on, and what is said of it."""
    below, said = {}, {}
    with open(os.path.join(TOP, "crates.txt"), encoding="utf-8") as it:
        for row in it:
            words, _, about = row.partition("#")
            if ":" in words:
                name, _, listed = words.partition(":")
                below[name.strip()], said[name.strip()] = listed.split(), about.strip()
    return {name: [word for word in words if word in below] for name, words in below.items()}, said


def levels_of(below):
    """The level of each crate: one above the highest of those that it stands on."""
    levels = {}

    def level(name):
        if name not in levels:
            levels[name] = 1 + max((level(word) for word in below[name]), default=0)
        return levels[name]

    for name in below:
        level(name)
    return levels


def layers():
    """All crates but those of tests: each stands only on crates of rows below its own."""
    below, said = crates_below()
    levels, kinds = levels_of(below), rows_of("layers")
    kind_of = {name: index for index, row in enumerate(kinds) for name in row["crates"].split()}
    names = [name for name in below if not name.endswith("_tests") and name != "call_fixtures"]
    lost = [name for name in names if name not in kind_of]
    if lost:
        sys.exit(f"draw.py: bench/results/layers.csv has no part for {', '.join(lost)}")
    high, wide, step = max(levels[name] for name in names), 100, 27
    parts = [text(20, 24, "The crates: each stands only on crates of rows below its own", 14, bold=True)]
    for index, row in enumerate(kinds):
        parts += legend(20 + index % 4 * 230, 46 + index // 4 * 18, [(row["part"], PALE[index])])
    for level in range(1, high + 1):
        of_row = sorted((name for name in names if levels[name] == level), key=lambda name: kind_of[name])
        x, y = 480 - len(of_row) * wide / 2, 82 + (high - level) * step
        for name in of_row:
            parts += [bar(x + 2, y, wide - 4, step - 6, PALE[kind_of[name]], said[name]),
                      text(x + wide / 2, y + 14, name, 11, "middle")]
            x += wide
    return picture(960, 94 + high * step, parts)


def take_gate(table):
    """Takes over a table of gate_seconds.py: of each crate proof, tests, and planted bugs with what they begin with."""
    with open(table, encoding="utf-8") as it:
        rows = [[cell.strip() for cell in row.strip("|\n").split("|")] for row in it if row.startswith("| ")]
    rows = [row for row in rows if row[0] not in ("crate", "all")]
    with open(os.path.join(RESULTS, "gate.csv"), "w", encoding="utf-8", newline="") as it:
        out = csv.writer(it, lineterminator="\n")
        out.writerow(("crate", "proof", "tests", "bugs", "edits"))
        for row in rows:
            seconds, edits = row[4].split()
            out.writerow((row[0], row[1], row[2], int(row[3]) + int(seconds), edits.strip("()")))


DRAWN = {"workers": workers, "size": size, "parts": parts_of_a_run, "gate": gate, "layers": layers}


def main(words):
    """Draws all pictures, or compares them."""
    if words[:1] == ["--gate"] and len(words) == 2:
        take_gate(words[1])
    elif words not in ([], ["--check"]):
        sys.exit(__doc__.strip())
    others = 0
    for name, draw in DRAWN.items():
        path, drawn = os.path.join(PICTURES, f"{name}.svg"), draw()
        if words != ["--check"]:
            with open(path, "w", encoding="utf-8") as it:
                it.write(drawn)
            continue
        with open(path, encoding="utf-8") as it:
            same = it.read() == drawn
        others += not same
        if not same:
            print(f"draw.py: docs/figures/{name}.svg isn't the picture of its table")
    return 1 if others else 0


if __name__ == "__main__":
    sys.exit(main(sys.argv[1:]))
