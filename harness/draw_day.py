#!/usr/bin/env python3
"""Draws docs/how-we-know.svg: log D of document 01 as a tree, its cut after record 2,
the hill of each side, and how the two merge.

Every number in the picture is worked out here from the bytes of samples/d.log, by
document 01's sentences, and document 02's for mode 5: closes and holders are found by
search, the figures by the recursion on the tree, the merge by levels. Where the merge
and the recursion differ in any mode, nothing is drawn.

    python3 harness/draw_day.py            writes the picture
    python3 harness/draw_day.py --check    says whether the committed picture is this one
"""

import pathlib
import struct
import sys

ROOT = pathlib.Path(__file__).resolve().parent.parent
LOG = ROOT / "samples" / "d.log"
PICTURE = ROOT / "docs" / "how-we-know.svg"
CUT_AFTER = 2

# ---- records


class Record:
    """An open or a close, with its place in the log (from 0) and, if open, its name."""

    def __init__(self, place, fields):
        self.place = place
        self.length, kind, self.depth = fields[:3]
        self.opens = kind == 1
        self.value, self.floor, self.ceiling = fields[3:] or (0, 0, 0)
        self.start = self.depth if self.opens else self.depth + 1
        self.end = self.depth + 1 if self.opens else self.depth
        self.name = ""


def read(log):
    """The records of a log of full open records and closes."""
    records, at = [], 0
    while at < len(log):
        length, kind = struct.unpack_from("<HH", log, at)
        layout = {(18, 1): "<HHHiii", (6, 2): "<HHH"}[length, kind]
        records.append(Record(len(records), struct.unpack_from(layout, log, at)))
        at += length
    for number, record in enumerate(r for r in records if r.opens):
        record.name = chr(ord("A") + number)
    for record in records:
        if record.opens:
            closer(records, record).name = record.name
    return records


def closer(records, record):
    """The first close at a record's depth after it, if it is among these records."""
    later = (r for r in records if r.place > record.place)
    return next((r for r in later if not r.opens and r.depth == record.depth), None)


def held_by(records, record):
    """The records opened one depth deeper before the record is closed."""
    close = closer(records, record)
    last = close.place if close else records[-1].place + 1
    return [
        r for r in records
        if r.opens and r.depth == record.depth + 1 and record.place < r.place < last
    ]


# ---- the four modes: how figures combine, what a record makes of what it holds

NOTHING = None


def add(a, b):
    return (a or 0) + (b or 0)


def greatest(a, b):
    return a if b is NOTHING else b if a is NOTHING else max(a, b)


def at_its_value_or_bound(record, held):
    """Floor and ceiling bind only a record that holds others."""
    if held is NOTHING:
        return record.value
    return min(max(record.value + held, record.floor), record.ceiling)


MODES = {
    "net": (add, lambda r, x: r.value + (x or 0)),
    "heaviest": (greatest, lambda r, x: r.value + (x or 0)),
    "eaten": (add, at_its_value_or_bound),
    "stamp": (lambda a, b: add(a, b) % 2**32, lambda r, x: (r.value + 31 * (x or 0)) % 2**32),
}
MODE_NUMBERS = {"net": 1, "heaviest": 2, "eaten": 5, "stamp": 4}


def combined(mode, figures):
    total = NOTHING
    for figure in figures:
        total = figure if total is NOTHING else MODES[mode][0](total, figure)
    return total


def figure(mode, records, record):
    """The recursion."""
    held = [figure(mode, records, r) for r in held_by(records, record)]
    return MODES[mode][1](record, combined(mode, held))


# ---- hills


class Hill:
    """Of a chunk: its levels, the values of levels that it leaves on its way to the
    peak, the middle value, and each unclosed record with what it holds so far."""

    def __init__(self, mode, chunk):
        self.start, self.end = chunk[0].start, chunk[-1].end
        self.peak = min(min(r.start, r.end) for r in chunk)
        self.opened = sum(r.opens for r in chunk)
        opened = [r for r in chunk if r.opens]
        done = [r for r in opened if closer(chunk, r)]
        inside = [h for r in opened for h in held_by(chunk, r)]
        free = [r for r in done if r not in inside]

        def value(level):
            return combined(mode, [figure(mode, chunk, r) for r in free if r.depth == level])

        self.left = {level: value(level) for level in range(self.start, self.peak, -1)}
        self.middle = value(self.peak)
        self.right = {}
        for record in opened:
            if record not in done:
                held = [figure(mode, chunk, r) for r in held_by(chunk, record) if r in done]
                self.right[record.depth + 1] = (record, combined(mode, held))

    def length(self):
        return 24 + 8 * (self.start - self.peak) + 20 * (self.end - self.peak)


class Step:
    """One record closed by a merge: what it holds in the end, and its figure."""

    def __init__(self, mode, level, record, parts):
        self.level, self.record, self.parts = level, record, parts
        self.held = combined(mode, [p for p in parts if p is not NOTHING])
        self.figure = MODES[mode][1](record, self.held)


def merge(mode, left, right):
    """The steps of a merge, deepest first, and the middle value that they lead to.
    Only for a right side that closes all that the left has open."""
    steps, deeper = [], NOTHING
    for level in range(left.end, left.peak, -1):
        record, so_far = left.right[level]
        steps.append(Step(mode, level, record, [so_far, deeper, right.left[level]]))
        deeper = steps[-1].figure
    parts = [p for p in (left.middle, deeper, right.middle) if p is not NOTHING]
    return steps, combined(mode, parts)


# ---- drawing

WIDTH, HEIGHT = 1200, 1310
INK, SOFT, FAINT, PAPER, CARD = "#20333d", "#5b6f78", "#d5dcdd", "#f7f5ef", "#ffffff"
LEFT, RIGHT, BOTH = "#17788a", "#c06a1c", "#4b5aa5"
LEFT_PALE, RIGHT_PALE, BOTH_PALE = "#e1f1f3", "#fbeddd", "#e8eaf6"


class Drawing:
    def __init__(self):
        self.parts = []

    def raw(self, text):
        self.parts.append(text)

    def rect(self, x, y, w, h, fill=CARD, edge=FAINT, round_=8, thick=1.5):
        self.raw(f'<rect x="{x}" y="{y}" width="{w}" height="{h}" rx="{round_}" '
                 f'fill="{fill}" stroke="{edge}" stroke-width="{thick}"/>')

    def line(self, x1, y1, x2, y2, colour=SOFT, thick=2, dash=""):
        dashes = f' stroke-dasharray="{dash}"' if dash else ""
        self.raw(f'<line x1="{x1}" y1="{y1}" x2="{x2}" y2="{y2}" stroke="{colour}" '
                 f'stroke-width="{thick}" stroke-linecap="round"{dashes}/>')

    def path(self, points, colour, thick=4, fill="none", closed=False):
        d = "M" + " L".join(f"{x} {y}" for x, y in points) + (" Z" if closed else "")
        self.raw(f'<path d="{d}" fill="{fill}" stroke="{colour}" stroke-width="{thick}" '
                 f'stroke-linejoin="round" stroke-linecap="round"/>')

    def dot(self, x, y, colour, size=6):
        self.raw(f'<circle cx="{x}" cy="{y}" r="{size}" fill="{colour}"/>')

    def text(self, x, y, words, size=16, colour=INK, anchor="start", bold=False, mono=False):
        words = str(words).replace("&", "&amp;").replace("<", "&lt;")
        family = ' font-family="DejaVu Sans Mono, Menlo, Consolas, monospace"' if mono else ""
        weight = ' font-weight="bold"' if bold else ""
        self.raw(f'<text x="{x}" y="{y}" font-size="{size}" fill="{colour}" '
                 f'text-anchor="{anchor}"{weight}{family}>{words}</text>')

    def title(self, x, y, number, words):
        self.raw(f'<circle cx="{x + 15}" cy="{y - 6}" r="15" fill="{INK}"/>')
        self.text(x + 15, y, number, 17, "#ffffff", "middle", True)
        self.text(x + 40, y, words, 20, INK, bold=True)

    def svg(self, words):
        head = (f'<svg xmlns="http://www.w3.org/2000/svg" viewBox="0 0 {WIDTH} {HEIGHT}" '
                f'width="{WIDTH}" height="{HEIGHT}" role="img" '
                f'font-family="DejaVu Sans, Verdana, Helvetica, sans-serif">')
        title = f"<title>{words}</title>"
        back = f'<rect width="{WIDTH}" height="{HEIGHT}" fill="{PAPER}"/>'
        return "\n".join([head, title, back, *self.parts, "</svg>"]) + "\n"


def number(n):
    """A number as it is printed: a proper minus, thousands apart."""
    if n is NOTHING:
        return "nothing"
    return f"{n:,}".replace("-", "\u2212").replace(",", "\u2009")


def limits(record):
    return f"{number(record.floor)} to {number(record.ceiling)}"


def colour_of(place):
    return LEFT if place < CUT_AFTER else RIGHT


def pale_of(place):
    return LEFT_PALE if place < CUT_AFTER else RIGHT_PALE


def draw_tree(d, records, x, y):
    d.title(x, y, 1, "The day: who holds whom")
    opened = [r for r in records if r.opens]
    root = opened[0]
    held = held_by(records, root)
    places = {root.name: (x + 205, y + 80)}
    for k, record in enumerate(held):
        places[record.name] = (x + 95 + 220 * k, y + 230)
        d.line(*places[root.name], *places[record.name], colour=SOFT)
    for record in opened:
        cx, cy = places[record.name]
        d.rect(cx - 95, cy - 46, 190, 92, pale_of(record.place), colour_of(record.place))
        d.text(cx - 80, cy - 14, record.name, 24, colour_of(record.place), bold=True)
        d.text(cx + 82, cy - 14, f"{number(record.value)} g", 22, INK, "end", True)
        d.text(cx - 80, cy + 12, f"floor {number(record.floor)} g", 14, SOFT)
        d.text(cx - 80, cy + 32, f"ceiling {number(record.ceiling)} g", 14, SOFT)


def draw_log(d, records, x, y):
    d.title(x, y, 2, f"The log: {len(records)} records, cut after record {CUT_AFTER}")
    step, top, rise = 92, y + 50, 56
    deepest = max(r.end for r in records)
    left = x + 62
    for level in range(deepest + 1):
        d.line(left, top + rise * level, left + step * len(records), top + rise * level, FAINT, 1.5)
        d.text(x, top + rise * level + 5, f"level {level}", 14, SOFT)
    for record in records:
        x1, y1 = left + step * record.place, top + rise * record.start
        x2, y2 = x1 + step, top + rise * record.end
        d.path([(x1, y1), (x2, y2)], colour_of(record.place), 5)
        d.dot(x1, y1, colour_of(record.place))
        d.dot(x2, y2, colour_of(record.place))
    row = top + rise * deepest + 42
    for record in records:
        x1 = left + step * record.place
        d.rect(x1 + 4, row, step - 8, 56, pale_of(record.place), colour_of(record.place), 6)
        word = "open" if record.opens else "close"
        d.text(x1 + step / 2, row + 24, f"{word} {record.name}", 15, INK, "middle", True)
        d.text(x1 + step / 2, row + 44, f"{record.length} bytes", 13, SOFT, "middle")
    cut = left + step * CUT_AFTER
    d.line(cut, top - 24, cut, row + 92, INK, 2, "7 6")
    sides = (records[:CUT_AFTER], LEFT, "station 1"), (records[CUT_AFTER:], RIGHT, "station 2")
    for chunk, colour, words in sides:
        middle = left + step * (chunk[0].place + chunk[-1].place + 1) / 2
        size = sum(r.length for r in chunk)
        d.text(middle, row + 82, f"{words}: {size} bytes", 15, colour, "middle", True)


def draw_levels(d, top, rise, deepest, x1, x2):
    for level in range(deepest + 1):
        d.line(x1, top + rise * level, x2, top + rise * level, FAINT, 1.5)
        d.text(x1, top + rise * level - 8, f"level {level}", 14, SOFT)


def head(hill):
    return (f"start {hill.start} · peak {hill.peak} · end {hill.end} · opened {hill.opened}"
            f" · {hill.length()} bytes")


def stored(n):
    return "0 (nothing)" if n is NOTHING else number(n)


def draw_hills(d, left, right, x, y):
    d.title(x, y, 3, "What each station sends: its hill (here in mode 1, net)")
    top, rise, deepest = y + 84, 84, max(left.end, right.start)
    base = top + rise * deepest + 34
    draw_levels(d, top, rise, deepest, x, x + 1120)
    # Two slopes that face each other over one valley.
    outer_a, a, foot_a = x + 75, x + 255, x + 543
    outer_b, b, foot_b = x + 1045, x + 865, x + 577
    run = (foot_a - a) / deepest
    for outer, top_x, foot, colour, pale in ((outer_a, a, foot_a, LEFT, LEFT_PALE),
                                             (outer_b, b, foot_b, RIGHT, RIGHT_PALE)):
        d.path([(outer, base), (outer, top), (top_x, top), (foot, top + rise * deepest),
                (foot, base)], colour, 4, pale, True)
    for middle, hill, colour, words in (((outer_a + a) / 2, left, LEFT, "station 1"),
                                        ((outer_b + b) / 2, right, RIGHT, "station 2")):
        d.text(middle, top - 14, words, 18, colour, "middle", True)
        d.text(middle, top + 24, f"middle: {stored(hill.middle)}", 15, INK, "middle")
    for level, (record, so_far) in left.right.items():
        cx, cy = a + run * level, top + rise * level
        d.dot(cx, cy, LEFT, 8)
        d.text(cx - 44, cy - 2, f"{record.name} is open: {number(record.value)} g, {limits(record)}",
               15, INK, "end", True)
        d.text(cx - 44, cy + 20, f"holds so far: {stored(so_far)}", 15, SOFT, "end")
    for level, value in right.left.items():
        cx, cy = b - run * level, top + rise * level
        d.dot(cx, cy, RIGHT, 8)
        d.text(cx + 44, cy - 2, f"value at level {level}: {stored(value)}", 15, INK, bold=True)
        d.text(cx + 44, cy + 20, f"then closes the one at depth {level - 1}", 15, SOFT)
    d.text((foot_a + foot_b) / 2, top + 30, "the valley", 15, SOFT, "middle")
    d.text(outer_a, base + 28, head(left), 15, LEFT)
    d.text(outer_b, base + 28, head(right), 15, RIGHT, "end")


def sum_words(mode, step):
    """What a record holds, as it is combined."""
    parts = [number(p) for p in step.parts if p is not NOTHING]
    if not parts:
        return "nothing"
    if len(parts) == 1:
        return parts[0]
    if mode == "heaviest":
        return f"greater of {' and '.join(parts)}: {number(step.held)}"
    total = " + ".join(parts).replace("+ \u2212", "\u2212 ")
    return f"{total} {'wraps to' if mode == 'stamp' else '='} {number(step.held)}"


def through_words(mode, step):
    record, held = step.record, step.held or 0
    value = number(record.value)
    if mode == "stamp":
        return f"{value} + 31 × {number(held)} = {number(step.figure)}"
    plain = record.value + held
    return f"{value} + {number(held)} = {number(plain)}" if step.held is not NOTHING else value


def limit_words(step):
    """What floor and ceiling do in mode 5."""
    if step.held is NOTHING:
        return "taken at its value"
    plain = step.record.value + step.held
    if plain == step.figure:
        return f"within {limits(step.record)}"
    return f"held at the {'ceiling' if plain > step.figure else 'floor'}: {number(step.figure)}"


def draw_merge(d, merges, x, y):
    d.title(x, y, 4, "The merge fills the valley, deepest first")
    wide, first = 235, 190
    top = y + 26
    steps = len(merges["net"][0])
    tall = 92
    d.rect(x, top, first + wide * len(merges), 44 + tall * steps + 62, CARD)
    for k, mode in enumerate(merges):
        words = f"{mode} (mode {MODE_NUMBERS[mode]})"
        d.text(x + first + wide * (k + 0.5), top + 29, words, 17, INK, "middle", True)
    for n in range(steps):
        row = top + 44 + tall * n
        d.line(x + 1, row, x + first + wide * len(merges) - 1, row, FAINT, 1.5)
        step = merges["net"][0][n]
        d.text(x + 18, row + 36, f"level {step.level}: {step.record.name} closes", 16, INK, bold=True)
        d.text(x + 18, row + 60, "holds, then gives", 14, SOFT)
        for k, (mode, (mode_steps, _)) in enumerate(merges.items()):
            cx = x + first + wide * (k + 0.5)
            d.text(cx, row + 36, sum_words(mode, mode_steps[n]), 14, SOFT, "middle")
            d.text(cx, row + 62, through_words(mode, mode_steps[n]), 15, INK, "middle", True)
            if mode == "eaten":
                d.text(cx, row + 81, limit_words(mode_steps[n]), 13, SOFT, "middle")
    row = top + 44 + tall * steps
    d.rect(x, row, first + wide * len(merges), 62, BOTH_PALE, BOTH)
    d.text(x + 18, row + 28, "level 0: the figure", 16, BOTH, bold=True)
    d.text(x + 18, row + 48, "the new middle", 14, SOFT)
    for k, (_, outcome) in enumerate(merges.values()):
        d.text(x + first + wide * (k + 0.5), row + 41, number(outcome), 27, BOTH, "middle", True)


def draw_end(d, whole, line, x, y):
    d.title(x, y, 5, "The same as from the uncut log")
    d.text(x + 40, y + 36, f"The merged hill: {head(whole)}.", 16, INK)
    d.text(x + 40, y + 62, "Byte for byte what one station would send that saw the whole day.", 16, INK)
    d.text(x + 40, y + 88, "The recursion on the tree gives the same figures; the day program prints", 16, INK)
    d.text(x + 40, y + 120, line, 22, BOTH, bold=True, mono=True)
    d.line(x + 720, y + 36, x + 1120, y + 36, FAINT, 1.5)
    d.text(x + 720, y + 28, f"level {whole.peak}", 14, SOFT)
    d.path([(x + 830, y + 116), (x + 830, y + 36), (x + 1045, y + 36), (x + 1045, y + 116)],
           BOTH, 4, BOTH_PALE, True)
    d.text(x + 937, y + 72, "both stations", 18, BOTH, "middle", True)
    d.text(x + 937, y + 98, f"middle: {number(whole.middle)}", 15, INK, "middle")


def picture():
    records = read(LOG.read_bytes())
    left, right = records[:CUT_AFTER], records[CUT_AFTER:]
    merges = {mode: merge(mode, Hill(mode, left), Hill(mode, right)) for mode in MODES}
    figures = {mode: figure(mode, records, records[0]) for mode in MODES}
    assert {mode: outcome for mode, (_, outcome) in merges.items()} == figures
    assert {mode: Hill(mode, records).middle for mode in MODES} == figures
    d = Drawing()
    draw_tree(d, records, 40, 50)
    draw_log(d, records, 530, 50)
    draw_hills(d, Hill("net", left), Hill("net", right), 40, 408)
    draw_merge(d, merges, 40, 782)
    draw_end(d, Hill("net", records), " ".join(str(f) for f in figures.values()), 40, 1154)
    return d.svg("Log D of document 01: its tree, its cut after record 2, the two hills and their merge")


def main(words):
    made = picture()
    if words == ["--check"]:
        same = PICTURE.exists() and PICTURE.read_text(encoding="utf-8") == made
        print(f"{PICTURE.relative_to(ROOT)}: {'as drawn' if same else 'NOT what harness/draw_day.py draws'}")
        return 0 if same else 1
    if words:
        print(__doc__)
        return 2
    PICTURE.write_text(made, encoding="utf-8")
    return 0


if __name__ == "__main__":
    sys.exit(main(sys.argv[1:]))
