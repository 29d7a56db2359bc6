#!/usr/bin/env python3
"""Draws the pictures of docs/img from the data in bench/figures:

    bench/draw.py [--check]

Each file there is drawn as the picture of its name. `layers`, `session-machine`, `session-life`, `message` and `round`
are diagrams. `proofs` has one stacked bar per crate. Any other file is a table of figures and is drawn as bars, so a
new one needs no code. With `--check` nothing is written, and the status is 1 if a picture is not the one of its figures,
or has none. Lines that begin with `#` contain the picture's title and the source of its figures. The same data give the same
bytes. The pictures follow the reader's light or dark colour scheme.
"""

import argparse
import csv
import pathlib
import sys
import textwrap
from xml.sax.saxutils import escape

HERE = pathlib.Path(__file__).resolve().parent
WIDTH = 800

# The most characters of a line below the title: 12 pixels high in any common font, they fit the width.
LINE = 118

# Every shape and text has one of these classes. The second column is for light pages, the third for dark ones.
COLOURS = [
    (".page{fill:%s}", "#ffffff", "#0d1117"),
    (".ink{fill:%s}", "#1f2328", "#e6edf3"),
    (".faint{fill:%s}", "#59636e", "#9198a1"),
    (".axis{stroke:%s;fill:none}", "#8c959f", "#6e7681"),
    (".tip{fill:%s}", "#8c959f", "#6e7681"),
    (".proved{fill:%s;stroke:#1a7f37}", "#dafbe1", "#12361f"),
    (".tested{fill:%s;stroke:#9a6700}", "#fff8c5", "#3d2e00"),
    (".trusted{fill:%s;stroke:#8c959f}", "#f0f2f5", "#21262d"),
    (".first{fill:%s}", "#0969da", "#58a6ff"),
    (".second{fill:%s}", "#8c959f", "#8b949e"),
    (".third{fill:%s}", "#bc6c25", "#d29922"),
    (".fourth{fill:%s}", "#8250df", "#bc8cff"),
]
SERIES = ("first", "second", "third", "fourth")


class Picture:
    """The parts of one SVG file, from the title at the top downwards."""

    def __init__(self, notes):
        self.parts, self.height = [], 0
        self.title = notes["title"]
        self.text(20, 32, self.title, size=18, weight="bold")
        lines = [line for key in ("text", "measured", "how") for line in textwrap.wrap(notes.get(key, ""), LINE)]
        for place, line in enumerate(lines):
            self.text(20, 54 + 17 * place, line, "faint", 12)
        self.top = 54 + 17 * len(lines) + 8

    def reach(self, y):
        """Extends the picture's height to include this y."""
        self.height = max(self.height, y)

    def text(self, x, y, words, kind="ink", size=13, **more):
        """Adds a line of text. `anchor`, `weight` and `family` give SVG its `text-anchor` and so on."""
        names = {"anchor": "text-anchor", "weight": "font-weight", "family": "font-family"}
        given = "".join(f' {names[key]}="{value}"' for key, value in more.items())
        self.parts.append(f'<text class="{kind}" x="{x:g}" y="{y:g}" font-size="{size}"{given}>{escape(words)}</text>')
        self.reach(y + 8)

    def box(self, x, y, width, height, kind):
        """Adds a box with round corners."""
        self.parts.append(
            f'<rect class="{kind}" x="{x:g}" y="{y:g}" width="{width:g}" height="{height:g}" rx="5"/>')
        self.reach(y + height + 8)

    def bar(self, x, y, width, height, kind):
        """Adds a bar of a plot."""
        self.parts.append(f'<rect class="{kind}" x="{x:g}" y="{y:g}" width="{width:.1f}" height="{height:g}"/>')
        self.reach(y + height + 8)

    def arrow(self, *points):
        """Adds a line through these points, with an arrowhead at its end."""
        path = " ".join(f"{x:g},{y:g}" for x, y in points)
        self.parts.append(f'<polyline class="axis" points="{path}" stroke-width="1.5" marker-end="url(#tip)"/>')
        self.reach(max(y for _, y in points) + 8)

    def whole(self):
        """Returns the text of the file."""
        light = "".join(rule % first for rule, first, _ in COLOURS)
        dark = "".join(rule % second for rule, _, second in COLOURS)
        height = round(self.height + 12)
        return "\n".join([
            f'<svg xmlns="http://www.w3.org/2000/svg" viewBox="0 0 {WIDTH} {height}" width="{WIDTH}" height="{height}"'
            ' role="img" font-family="system-ui, -apple-system, \'Segoe UI\', sans-serif">',
            f"<title>{escape(self.title)}</title>",
            f"<style>{light}@media (prefers-color-scheme: dark){{{dark}}}</style>",
            '<defs><marker id="tip" viewBox="0 0 10 10" refX="9" refY="5" markerWidth="7" markerHeight="7"'
            ' orient="auto"><path class="tip" d="M0,0 L10,5 L0,10 z"/></marker></defs>',
            f'<rect class="page" width="{WIDTH}" height="{height}" rx="6"/>',
            *self.parts, "</svg>", ""])


def read(path):
    """Returns the notes of a file by their names, its columns, and its rows."""
    lines = path.read_text(encoding="utf-8").splitlines()
    notes = dict(line[2:].split(": ", 1) for line in lines if line.startswith("#"))
    columns, *rows = csv.reader(line for line in lines if not line.startswith("#"))
    return notes, columns, rows


def bars(notes, columns, rows):
    """Draws a group of bars for each row, with a bar for each column after the first."""
    picture = Picture(notes)
    names, y = columns[1:], picture.top + 8
    longest = max(float(figure) for row in rows for figure in row[1:])
    are_groups, has_gateway = len(names) > 1, any("gateway" in row[0] for row in rows)
    left = 140 if are_groups else 260
    for row in rows:
        if are_groups:
            picture.text(20, y + 12, row[0], weight="bold")
            y += 20
        for place, figure in enumerate(row[1:]):
            label = names[place] if are_groups else row[0]
            kind = SERIES[place if are_groups else int(has_gateway and "gateway" not in label)]
            width = max(1.5, float(figure) / longest * (WIDTH - left - 110))
            picture.text(left - 8, y + 13, label, anchor="end")
            picture.bar(left, y, width, 18, kind)
            picture.text(left + width + 6, y + 13, figure, "faint")
            y += 22
        y += 8 if are_groups else 0
    picture.text(WIDTH - 20, y + 10, f"in {notes['unit']}", "faint", 12, anchor="end")
    return picture


def proofs(notes, columns, rows):
    """Draws a stacked bar for each crate, with the sum of its parts. An empty part counts as 0."""
    picture = Picture(notes)
    parts = [(row[0], [float(figure or 0) for figure in row[1:]]) for row in rows]
    longest = max(sum(figures) for _, figures in parts)
    left, x, y = 190, 190, picture.top + 4
    for name, kind in zip(columns[1:], SERIES):
        picture.bar(x, y, 12, 12, kind)
        picture.text(x + 18, y + 11, name, "faint", 12)
        x += 40 + 7 * len(name)
    y += 26
    for crate, figures in parts:
        picture.text(left - 8, y + 13, crate, anchor="end", family="monospace", size=12)
        x = left
        for figure, kind in zip(figures, SERIES):
            if figure:
                picture.bar(x, y, figure / longest * (WIDTH - left - 70), 17, kind)
                x += figure / longest * (WIDTH - left - 70)
        picture.text(x + 6, y + 13, f"{sum(figures):,.0f}", "faint", 12)
        y += 21
    whole = sum(sum(figures) for _, figures in parts)
    picture.text(WIDTH - 20, y + 12, f"in {notes['unit']}; {whole:,.0f} in all, {whole / 60:,.0f} minutes", "faint", 12,
                 anchor="end")
    return picture


def layers(notes, _columns, rows):
    """Draws the crates in rows, each above the crates that it uses, and the trusted parts below them."""
    uses = {}
    for line in (HERE.parent / "crates.txt").read_text(encoding="utf-8").splitlines():
        if line and not line.startswith("#"):
            name, used = line.split(":")
            uses[name] = used.split()

    def row_of(name):
        """Returns the number of rows below a crate's row."""
        return 1 + max((row_of(used) for used in uses[name] if used in uses), default=-1)

    listed = [name for name, _, _ in rows] + notes["left out"].split()
    if sorted(listed) != sorted(uses):
        sys.exit(f"layers.csv and crates.txt differ: {' '.join(sorted(set(listed) ^ set(uses)))}")
    outside = sorted({name for crate, _, _ in rows for name in uses[crate] if name not in uses})
    picture = Picture(notes)
    rows_up = {}
    for name, kind, what in rows:
        rows_up.setdefault(row_of(name), []).append((name, kind, what))
    y = picture.top + 6
    for row in sorted(rows_up, reverse=True):
        step = min(190, (WIDTH - 26) / len(rows_up[row]))
        left = (WIDTH - step * len(rows_up[row]) + 14) / 2
        for place, (name, kind, what) in enumerate(rows_up[row]):
            middle = left + step * place + (step - 14) / 2
            picture.box(left + step * place, y, step - 14, 40, kind)
            picture.text(middle, y + 17, name, anchor="middle", weight="bold", family="monospace")
            picture.text(middle, y + 33, what, "faint", 12, anchor="middle")
        y += 50
    picture.box(40, y, WIDTH - 80, 44, "trusted")
    picture.text(WIDTH / 2, y + 18, "the toolchain, LLVM, the C library, the operating system", anchor="middle")
    picture.text(WIDTH / 2, y + 35, f"contracts of {', '.join(outside)}", "faint", 12, anchor="middle")
    legend(picture, y + 62)
    return picture


def legend(picture, y):
    """Draws the legend for the fills of the layers."""
    fills = [("proved", 40, "proved: what each call does"), ("tested", 270, "proved in part, the rest by tests"),
             ("trusted", 530, "trusted")]
    for kind, x, words in fills:
        picture.box(x, y, 16, 16, kind)
        picture.text(x + 24, y + 13, words, "faint", 12)


def session_machine(notes, _columns, rows):
    """Draws the phases from left to right, and the last phase below them."""
    picture = Picture(notes)
    top, places = picture.top + 44, {"WaitIm": 110, "WaitRm": 400, "Open": 690}
    below = top + 150
    for phase, x in {**places, "Over": 400}.items():
        y = below if phase == "Over" else top
        picture.box(x - 60, y, 120, 40, "trusted" if phase == "Over" else "proved")
        picture.text(x, y + 25, phase, size=15, anchor="middle", weight="bold", family="monospace")
    ends = {}
    for start, end, what in rows:
        if end == "Over":
            ends.setdefault(what, []).append(start)
        elif start == end:
            x = places[start]
            picture.arrow((x - 30, top), (x - 30, top - 22), (x + 30, top - 22), (x + 30, top - 2))
            picture.text(x + 90, top - 30, what, size=12, anchor="end")
        else:
            picture.arrow((places[start] + 60, top + 20), (places[end] - 62, top + 20))
            picture.text((places[start] + places[end]) / 2, top + 12, what, size=12, anchor="middle")
    arrive = {"WaitIm": (338, below + 14), "WaitRm": (400, below - 2), "Open": (462, below + 14)}
    for phase, x in places.items():
        picture.arrow((x, top + 40), arrive[phase])
    for place, (what, starts) in enumerate(sorted(ends.items(), key=lambda item: -len(item[1]))):
        whose = "from each phase" if len(starts) == len(places) else f"from {', '.join(starts)} alone"
        picture.text(400, below + 66 + 18 * place, f"{whose}: {what}", size=12, anchor="middle")
    return picture


def session_life(notes, _columns, rows):
    """Draws the phases from left to right, and below them a bar for each time, with what happens when it is over."""
    picture = Picture(notes)
    events, y = notes["events"].split(", "), picture.top + 34
    places = {event: 40 + place * (WIDTH - 80) / (len(events) - 1) for place, event in enumerate(events)}
    for event, x in places.items():
        picture.text(x, y - 10, event, size=12, anchor="middle")
    for place, phase in enumerate(notes["phases"].split(", ")):
        start, end = (places[event] for event in events[place : place + 2])
        picture.box(start + 2, y, end - start - 4, 34, "proved" if phase[0].isupper() else "trusted")
        picture.text((start + end) / 2, y + 22, phase, anchor="middle", family="monospace")
    y += 62
    for start, end, time, then in rows:
        left, right = places[start], places[end]
        is_late = left > WIDTH / 2
        x, anchor = (right, "end") if is_late else (left, "start")
        picture.text(x, y, time, weight="bold", anchor=anchor)
        picture.text(x, y + 16, f"then: {then}", "faint", 12, anchor=anchor)
        picture.bar(left + 2, y + 23, right - left - 4, 7, "third" if is_late else "first")
        y += 52
    return picture


def message(notes, _columns, rows):
    """Draws the stages from top to bottom, each with its example."""
    picture = Picture(notes)
    y = picture.top + 6
    for place, (crate, what, example) in enumerate(rows):
        picture.box(20, y, 410, 40, "proved" if crate else "trusted")
        picture.text(32, y + 17 if crate else y + 25, crate or what, weight="bold",
                     family="monospace" if crate else "inherit")
        if crate:
            picture.text(32, y + 33, what, "faint", 12)
        picture.text(446, y + 25, example, size=13, family="monospace")
        if place + 1 < len(rows):
            picture.arrow((225, y + 40), (225, y + 56))
        y += 58
    return picture


def one_round(notes, columns, rows):
    """Draws the calls from top to bottom, each with what it gives and does, and the queue that it leaves."""
    picture = Picture(notes)
    y = picture.top + 22
    for x, name in zip((20, 330, 604, 700), (columns[0], *columns[2:])):
        picture.text(x, y, name, "faint", 12)
    y += 14
    for place, (call, gives, what, *queue) in enumerate(rows):
        is_call = place > 0
        picture.box(20, y, 290, 40, "trusted" if place < 2 else "proved")
        picture.text(32, y + 25, call, "ink" if is_call else "faint", family="monospace" if is_call else "inherit")
        picture.text(300, y + 25, gives, "faint", 12, anchor="end", family="monospace")
        lines = what.split(" / ")
        for line, words in enumerate(lines):
            picture.text(330, y + (25 if len(lines) == 1 else 17 + 16 * line), words, size=12)
        for x, places in zip((604, 700), queue):
            picture.box(x, y + 8, 76, 24, "axis")
            picture.text(x + 38, y + 25, places, anchor="middle", weight="bold", family="monospace")
        if place + 1 < len(rows):
            picture.arrow((165, y + 40), (165, y + 46))
        y += 48
    picture.text(20, y + 12, notes["below"], "faint", 12)
    return picture


def main():
    """Draws every file of figures. With --check writes nothing, and fails if a picture is not the one of its figures."""
    arguments = argparse.ArgumentParser(description=main.__doc__)
    arguments.add_argument("--check", action="store_true", help="compare docs/img with the figures, and write nothing")
    is_check = arguments.parse_args().check
    diagrams = {"layers": layers, "session-machine": session_machine, "session-life": session_life, "message": message,
                "proofs": proofs, "round": one_round}
    stale = []
    for path in sorted((HERE / "figures").glob("*.csv")):
        text = diagrams.get(path.stem, bars)(*read(path)).whole()
        target = HERE.parent / "docs/img" / f"{path.stem}.svg"
        if not is_check:
            target.parent.mkdir(exist_ok=True)
            target.write_text(text, encoding="utf-8")
            print(f"docs/img/{path.stem}.svg")
        elif not target.exists() or target.read_text(encoding="utf-8") != text:
            stale.append(f"docs/img/{path.stem}.svg is not what bench/draw.py draws of bench/figures/{path.name}")
    figures = {path.stem for path in (HERE / "figures").glob("*.csv")}
    pictures = sorted((HERE.parent / "docs/img").glob("*.svg"))
    stale += [f"docs/img/{path.name} has no figures in bench/figures" for path in pictures if path.stem not in figures]
    if is_check and stale:
        sys.exit("\n".join(stale))


if __name__ == "__main__":
    main()
