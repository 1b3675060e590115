#!/usr/bin/env python3
"""Draws a peak list as a picture: a stick for each peak, its labels over it, and below it each refused row and why.

    tools/draw.py LIST > picture.svg                        asks the program `peaks`, which must be built (`rt run` in crates/peaks)
    tools/draw.py LIST --answers FILE > picture.svg         FILE holds what `peaks` printed for LIST
    tools/draw.py LIST --with COMMAND.. > picture.svg       asks another program; all words behind --with are the command

LIST has a row for each peak: m/z, tab, intensity, and perhaps a tab and an annotation line. The answer to a row, a line of its own,
is the row in preferred spelling, or `!`, a number, a space and a place (docs/REFUSALS.md). All that is drawn comes from the answers;
a refused row's two numbers and its bytes come from LIST.

Every annotation is a label, in the colour of its kind of ion; lighter with `&`. The first annotation without `&` colours the stick.
No label covers another, or a stick: labels move up and aside until none does, and a line leads from the stick to a label that moved.
Deviation and confidence stand behind a label in small type, where there is room. The picture is 1200 pixels wide and some 700 high;
it becomes wider where there are more than 75 labels, and higher where they do not fit. A viewer that tells what is under the mouse
shows the row of a stick.

A refused row's peak is bare, with a ring on top and the row's number (rows count from 1). A row with a bad m/z or intensity has no
peak. Bytes that are not printable ASCII are shown as \\xNN, a tab as \\t and a carriage return as \\r, as in docs/REFUSALS.md.

The picture is ASCII, needs no other file, and is the same for the same input. The exit status is 0, or 1 with a message.
"""
import argparse
import bisect
import collections
import html
import itertools
import math
import os
import re
import subprocess
import sys

# Lengths are in pixels. Heights of peaks and labels are counted upwards from the baseline, and turned round where they are printed.
WIDTH, WIDEST = 1200, 12000
LABEL_ROOM = 16     # the picture is wider where it does not have so much for each label
LEFT, MARGIN = 72, 16
TALLEST = 480       # the highest stick
NEAR = 2.5          # peaks so near to a higher one share its labels' place: the eye takes them for one
BAND = 5            # labels are moved up by this much at a time
LINE = 15           # the height of a line of a label: three bands
TYPE, SMALL = 13, 10.5
ADVANCE = 0.605     # width of a letter by the size of the type; usual types of fixed width have 0.6 or a little more or less
WRAP = 40           # letters of a label in one line: a text may have 255 bytes
ROW_LETTERS = 136   # letters of a refused row that are shown

# The places of labels have a cost in pixels. In each round a label is placed if some place costs less than so much; 15 is just over the
# stick. The second number: so many candidates a peak has at least whose deviations and confidences are placed with their labels.
ROUNDS = (15, 2), (40, 2), (100, 2), (350, 2), (math.inf, 99)
# What a line from a stick to its label costs: for each band in which it runs through another label, for each pixel of a stick or of
# another line that it crosses, and at most.
LABEL_CROSSED, PIXEL_CROSSED, HOPELESS = 200, 12, 3000

FIXED = "DejaVu Sans Mono, Liberation Mono, Menlo, Consolas, monospace"
PLAIN = "DejaVu Sans, Helvetica, Arial, sans-serif"
BLANK = "&#160;"
DARK, GREY, FAINT, WRONG = "#222222", "#6e6e6e", "#b4b4b4", "#c00000"

# Kinds of ion by the letter with which they begin, in the order of the legend.
KINDS = {
    "a": ("a", "#0b7a66"), "b": ("b", "#1d5fb8"), "c": ("c", "#4d7600"), "d": ("d", "#007a99"), "v": ("v", "#9c3d67"), "w": ("w", "#7d5f00"),
    "x": ("x", "#5d45c4"), "y": ("y", "#c2211d"), "z": ("z", "#bb5a00"), "m": ("internal", "#8a3fa3"), "I": ("immonium", "#2c7a33"),
    "p": ("precursor", "#222222"), "r": ("reference", "#b0006f"), "_": ("named", "#6b5a3a"), "f": ("formula", "#45606e"),
    "s": ("SMILES", "#5a6b1e"), "?": ("unknown", "#6e6e6e"),
}

# The refusals in the words of docs/REFUSALS.md.
DECIMAL_RULE = "is bad. A decimal belongs there: no sign, no exponent, at most 12 digits and at most 9 behind the point"
WORDS = {
    1: "The line is too long: it has more than 4,096 bytes",
    2: "A byte that does not belong there. No line begins as this one does up to and with that byte",
    3: "The line stops too early. All of it is fine as a beginning, and something is missing behind it",
    4: "A number is too large, or a decimal has too many digits",
    5: "There are too many of something: annotations, losses, isotopes, adduct items, units of a formula, bytes of a text",
    6: "An annotation is well formed and breaks a rule",
    7: "The confidences of the line sum to more than 1",
    8: "The output buffer is too small",
    11: "The sequence in the braces of an annotation is not of the plain form",
    12: "The m/z column " + DECIMAL_RULE,
    13: "The intensity column " + DECIMAL_RULE,
}
LONGEST_ROW = 4160
PEAKS = [os.path.join(os.path.dirname(os.path.abspath(__file__)), "run"), "peaks"]

DECIMAL = re.compile(rb"(?:0|[1-9][0-9]*)(?:\.[0-9]{1,9})?")
REFUSAL = re.compile(rb"!([0-9]+) ([0-9]+)")
OPENING = re.compile(r"&?(?:[0-9]+@)?(.?)")

# `labels` are the annotations of a row that was read; `refusal` is (number, place) of one that was not, else None.
# `mz` and `intensity` are None where there is no peak to draw.
Row = collections.namedtuple("Row", "number bytes mz intensity labels refusal")
# A block of lines over a stick: each line is its indent, its text, its small text and its colour.
Block = collections.namedtuple("Block", "x height lines width bands refused")
# Where a block was put: its left end, its lowest band, and the line to it: from x and height of the stick's top to a foot on that band.
Placed = collections.namedtuple("Placed", "block left bottom leader")


class Fault(Exception):
    """What is told on standard error."""


# Rows and their answers


def rows_of(data):
    """The rows of a list or of answers: they end at line feeds, and a last one may lack it."""
    if data and not data.endswith(b"\n"):
        data += b"\n"
    return data.split(b"\n")[:-1]


def shown(data):
    """Bytes as text to print."""
    names = {9: "\\t", 13: "\\r"}
    return "".join(chr(b) if 0x20 <= b <= 0x7E else names.get(b, "\\x%02X" % b) for b in data)


def number_of(column):
    """The value of a column, or None where it is no decimal."""
    good = DECIMAL.fullmatch(column) and len(column.replace(b".", b"")) <= 12
    return float(column) if good else None


def stops(line):
    """The commas, `/` and `*` of a line that are no part of a name or text, with their places. Brackets are paired; braces have none inside."""
    depth, braces = 0, False
    for at, letter in enumerate(line):
        if braces:
            braces = letter != "}"
        elif letter in "[]":
            depth += 1 if letter == "[" else -1
        elif depth == 0:
            braces = letter == "{"
            if letter in ",/*":
                yield at, letter


def annotations_of(line):
    """The annotations of a line, each as (label, tail): the tail is its deviation and confidence, with their signs."""
    found, start, tail = [], 0, None
    for at, letter in stops(line + "," if line else ""):
        tail = at if tail is None else tail
        if letter == ",":
            found.append((line[start:tail], line[tail:at]))
            start, tail = at + 1, None
    return found


def row_of(number, data, answer):
    """What is to be drawn of a row, by its answer."""
    columns = data.split(b"\t", 2)
    mz, intensity = number_of(columns[0]), number_of(columns[1]) if len(columns) > 1 else None
    if mz is None or intensity is None:
        mz = intensity = None
    refused = REFUSAL.fullmatch(answer)
    if refused:
        return Row(number, data, mz, intensity, [], (int(refused[1]), int(refused[2])))
    answered = answer.split(b"\t", 2)
    if mz is None or answered[:2] != columns[:2]:
        raise Fault("row %d: the answer '%s' does not belong to '%s'" % (number, shown(answer[:60]), shown(data[:60])))
    return Row(number, data, mz, intensity, annotations_of(shown(answered[2])) if len(answered) > 2 else [], None)


def rows_with_answers(data, answers):
    rows, answers = rows_of(data), rows_of(answers)
    if len(rows) != len(answers):
        raise Fault("%d rows and %d answers" % (len(rows), len(answers)))
    return [row_of(n, *pair) for n, pair in enumerate(zip(rows, answers), 1)]


def content(name):
    with open(name, "rb") as f:
        return f.read()


def answers_by(command, data):
    """What a program answers to a list."""
    try:
        run = subprocess.run(command, input=data, stdout=subprocess.PIPE)
    except OSError as fault:
        raise Fault("%s: %s" % (command[0], fault.strerror)) from None
    if run.returncode != 0:
        raise Fault("%s ended with status %d" % (" ".join(command), run.returncode))
    return run.stdout


# Colours


def lighter(colour):
    """A colour a third of the way to white: more, and type in it would be hard to read."""
    return "#" + "".join("%02x" % ((int(colour[i:i + 2], 16) * 66 + 255 * 34) // 100) for i in (1, 3, 5))


def kind_of(label):
    """The letter in KINDS of a label. `da` and `db` are of d, `wa` and `wb` of w; a letter that is not there counts as unknown."""
    letter = OPENING.match(label)[1]
    return letter if letter in KINDS else "?"


def colour_of(label):
    colour = KINDS[kind_of(label)][1]
    return lighter(colour) if label.startswith("&") else colour


def stick_colour(row):
    if not row.labels:
        return GREY if row.refusal else FAINT
    return colour_of(next((label for label, _ in row.labels if not label.startswith("&")), row.labels[0][0]))


# Scales and blocks of labels


class Scale:
    """Where an m/z stands across, and an intensity up. The range of m/z is a little wider than that of the peaks."""

    def __init__(self, peaks, width=WIDTH):
        self.width, self.right = width, width - MARGIN
        low, high = min(p.mz for p in peaks), max(p.mz for p in peaks)
        margin = (high - low) * 0.03 or max(low * 0.01, 1)
        self.low, self.high = low - margin, high + margin
        self.highest = max(p.intensity for p in peaks)

    def across(self, mz):
        return LEFT + (mz - self.low) / (self.high - self.low) * (self.right - LEFT)

    def up(self, intensity):
        """A peak has one pixel at least, to be seen at all."""
        return max(1, intensity / self.highest * TALLEST) if self.highest else 1

    def ticks(self):
        """Round values of m/z, a hundred pixels apart or more, and how many decimals they are printed with."""
        rough = (self.high - self.low) / (self.right - LEFT) * 100
        power = math.floor(math.log10(rough))
        step = next(s * 10 ** power for s in (1, 2, 5, 10) if s * 10 ** power >= rough * (1 - 1e-9))
        first, last = math.ceil(max(0, self.low) / step), math.floor(self.high / step)
        return [k * step for k in range(first, last + 1)], max(0, -math.floor(math.log10(step * 1.0001)))


def lines_of(row, least):
    """The lines of a row's block, from the top, with tails where there are so many candidates at least. A long label goes on, set in a
    little, in the next line."""
    if row.refusal:
        return [(0, "row %d" % row.number, "", DARK)]
    lines = []
    for label, tail in row.labels:
        parts = [label[i:i + WRAP] for i in range(0, len(label), WRAP)] or [""]
        for n, part in enumerate(parts):
            last = n == len(parts) - 1
            lines.append((12 if n else 0, part, tail if last and len(row.labels) >= least else "", colour_of(label)))
    return lines


def line_width(indent, label, small, _):
    return indent + ADVANCE * (len(label) * TYPE + len(small) * SMALL)


def groups_of(peaks, scale):
    """The peaks with labels, those of one label together with a higher one beside them; the highest peak of a group first. A peak with
    several candidates is by itself, so that it is seen which are its own, and so is a refused one."""
    groups, taken = [[p] for p in peaks if p.refusal or len(p.labels) > 1], set()
    order = sorted((p for p in peaks if len(p.labels) == 1), key=lambda p: (-p.intensity, p.number))
    by_place = sorted(order, key=lambda p: p.mz)
    places = [scale.across(p.mz) for p in by_place]
    for top in order:
        if top.number not in taken:
            x = scale.across(top.mz)
            near = by_place[bisect.bisect_left(places, x - NEAR):bisect.bisect_right(places, x + NEAR)]
            group = [top] + [p for p in near if p.number not in taken and p != top]
            taken.update(p.number for p in group)
            groups.append(group)
    return groups


def block_of(group, scale, least):
    """The block of a group, its lines in order of m/z; with tails for rows of so many candidates at least."""
    lines = [part for row in sorted(group, key=lambda p: (p.mz, p.number)) for part in lines_of(row, least)]
    refused = group[0].refusal is not None
    width = min(math.ceil(max(line_width(*part) for part in lines)) + (12 if refused else 8), WIDTH - 200)
    return Block(scale.across(group[0].mz), scale.up(group[0].intensity), lines, width, len(lines) * LINE // BAND + 1, refused)


# The layout


def scale_for(peaks):
    """A scale that is wider where there are many labels, so that they find room near their sticks."""
    marks = sum(len(p.labels) or (p.refusal is not None) for p in peaks)
    return Scale(peaks, min(WIDEST, max(WIDTH, marks * LABEL_ROOM)))


def bits(left, right):
    """A number with the bits from left to right set, both included."""
    return (1 << (right + 1)) - (1 << left)


def band_over(height, refused):
    """The first band over a stick of that height, and over the ring of a refused one, on which a label may stand."""
    return math.ceil((height + (8 if refused else 2)) / BAND)


class Room:
    """What is taken of the picture: for each band above the baseline a number, whose bit x says whether pixel x is taken. So a band is
    searched for a free place by a few operations on numbers."""

    def __init__(self, width):
        self.width = width
        self.boxes = collections.defaultdict(int)    # under labels
        self.thin = collections.defaultdict(int)     # under sticks, and lines to labels
        self.top = 0                                 # the band from which on all is free

    def add_stick(self, x, height, refused):
        for band in range(band_over(height, refused)):
            self.thin[band] |= bits(int(x) - 2, int(x) + 2)

    def add_leader(self, leader):
        for band, left, right in path_of(*leader):
            self.thin[band] |= bits(left, right)

    def turn_box(self, left, bottom, block):
        """Takes the place of a block, or gives it free: boxes share no bit, so that both are one operation."""
        for band in range(bottom, bottom + block.bands):
            self.boxes[band] ^= bits(left, left + block.width - 1)
        self.top = max(self.top, bottom + block.bands)

    def starts(self, bottom, block):
        """The bits at which a block on the band `bottom` may begin so that it covers nothing and stays in the picture."""
        taken = 0
        for band in range(bottom, bottom + block.bands):
            taken |= self.boxes[band] | self.thin[band]
        reach = 1
        while reach < block.width:
            step = min(reach, block.width - reach)
            taken |= taken >> step
            reach += step
        return bits(LEFT + 3, self.width - 6 - block.width) & ~taken

    def leader_cost(self, leader, limit):
        """What a line costs by what it crosses: little for sticks and lines, much for labels. Past the limit it does not matter how much."""
        cost = 0
        for band, left, right in path_of(*leader):
            span = bits(0, right - left)
            if self.boxes[band] >> left & span:
                cost += LABEL_CROSSED
            crossed = self.thin[band] >> left & span
            if crossed:
                cost += PIXEL_CROSSED * bin(crossed).count("1")
            if cost > limit or cost > HOPELESS:
                break
        return min(cost, HOPELESS)


def path_of(x, height, foot, bottom):
    """The bands that a straight line from a stick's top to the foot of a label on the band `bottom` runs through, with its first and last pixel
    in each; without those of its own stick and the ring on it."""
    slope, here = (foot - x) / (bottom * BAND - height), x
    for band in range(int(height // BAND), bottom):
        there = x + slope * ((band + 1) * BAND - height)
        left, right = int(min(here, there)) - 1, int(max(here, there)) + 1
        if band * BAND < height + 8:
            left, right = (max(left, int(x) + 3), right) if slope > 0 else (left, min(right, int(x) - 3))
        if left <= right:
            yield band, left, right
        here = there


def nearest(starts, x):
    """The set bits nearest to x, one on each side of it at most."""
    before, behind = starts & bits(0, x), starts >> x
    found = [before.bit_length() - 1] if before else []
    if behind:
        found.append(x + (behind & -behind).bit_length() - 1)
    return found


def wish(block):
    """Where a block would begin: with its middle over the stick."""
    return max(0, int(block.x - block.width / 2))


def placed(room, block, limit):
    """A block at the place that costs least, or None where none costs less than the limit. The cost is in pixels: those that the block is above
    the stick's top, thrice those that it is beside it, some for being off its middle, and what the line to it costs. The line goes to the
    nearest point below the block, or to one of its ends. The search goes up until height alone costs too much, or nothing is in the way."""
    lowest = bottom = band_over(block.height, block.refused)
    best = None
    while (bottom - lowest) * BAND < limit and (bottom <= max(room.top, lowest) or not best):
        for left in nearest(room.starts(bottom, block), wish(block)):
            ends = left + 4, left + block.width - 5
            below = min(max(block.x, ends[0]), ends[1])
            for foot in (below, *ends):
                leader = block.x, block.height, foot, bottom
                cost = (bottom - lowest) * BAND + 2 * abs(below - block.x) + abs(foot - block.x) + abs(left - wish(block)) / 4
                crossing = room.leader_cost(leader, limit - cost) if cost < limit else 0
                if cost + crossing < limit:
                    best, limit = Placed(block, left, bottom, leader), cost + crossing
                if not crossing:
                    break
        bottom += 1 if bottom < lowest + 8 else LINE // BAND    # far from the stick small steps gain nothing
    if best:
        room.turn_box(best.left, best.bottom, block)
        room.add_leader(best.leader)
    return best


def with_tails(room, place, wide):
    """A placed block with its deviations and confidences, where there is room for them without moving it up or off its line."""
    _, left, bottom, leader = place
    room.turn_box(left, bottom, place.block)
    allowed = bits(max(0, math.ceil(leader[2]) + 5 - wide.width), max(0, int(leader[2]) - 4))
    found = nearest(room.starts(bottom, wide) & allowed, wish(wide))
    if found:
        place = Placed(wide, min(found, key=lambda left: abs(left - wish(wide))), bottom, leader)
    room.turn_box(place.left, bottom, place.block)
    return place


def layout(peaks, scale):
    """All blocks, placed. First come those that find a place just over their stick, so that none that has to move takes it; then those that
    must move little, and so on. In each round the lowest peaks come first: a label over a high peak beside them would shut them in. Of peaks
    about as high the narrowest block does, as a wide one can stand over it. Tails come last, since every label matters more; but of several
    candidates at once, as one chooses by them, save where such a block would have to go far."""
    room = Room(scale.width)
    for p in peaks:
        room.add_stick(scale.across(p.mz), scale.up(p.intensity), p.refusal is not None)
    groups = sorted(groups_of(peaks, scale), key=lambda g: (scale.up(g[0].intensity) // (2 * LINE), block_of(g, scale, 2).width, g[0].number))
    places = [None] * len(groups)
    for limit, least in ROUNDS:
        for n, group in enumerate(groups):
            places[n] = places[n] or placed(room, block_of(group, scale, least), limit)
    return [with_tails(room, place, block_of(group, scale, 1)) for place, group in zip(places, groups)]


# The picture


def short(value):
    """A length with one decimal at most."""
    return ("%.1f" % value).rstrip("0").rstrip(".")


def escaped(text):
    return html.escape(text, quote=False)


def text(x, y, inner, **more):
    """A text element around what is escaped already. Names of attributes are given with _ for -."""
    extra = "".join(' %s="%s"' % (name.replace("_", "-"), value) for name, value in more.items())
    return '<text x="%s" y="%s"%s>%s</text>' % (short(x), short(y), extra, inner)


def line(x1, y1, x2, y2):
    return '<line x1="%s" y1="%s" x2="%s" y2="%s"/>' % (short(x1), short(y1), short(x2), short(y2))


def axes(scale, base):
    """The axes with their ticks and numbers, for a baseline at `base` from the top."""
    values, decimals = scale.ticks()
    out = ['<g stroke="%s">' % GREY, line(LEFT, base, scale.right, base), line(LEFT, base, LEFT, base - TALLEST)]
    out += [line(scale.across(v), base, scale.across(v), base + 5) for v in values]
    out += [line(LEFT - 5, base - TALLEST * k / 5, LEFT, base - TALLEST * k / 5) for k in range(6)]
    out += ["</g>", '<g fill="%s" font-size="12" text-anchor="middle">' % DARK]
    for v in values:
        digits = "%.*f" % (decimals, v)
        out.append(text(min(scale.across(v), scale.width - 4 * len(digits)), base + 19, digits))
    out.append(text((LEFT + scale.right) / 2, base + 40, "m/z", font_size=13, font_style="italic"))
    out += ["</g>", '<g fill="%s" font-size="12" text-anchor="end">' % DARK]
    out += [text(LEFT - 9, base - TALLEST * k / 5 + 4, "%d" % (20 * k)) for k in range(6)]
    return out + ["</g>", text(18, base - TALLEST / 2, "intensity, % of the highest", font_size=13, text_anchor="middle", fill=DARK,
                               transform="rotate(-90 18 %s)" % short(base - TALLEST / 2))]


def sticks(peaks, scale, base):
    """The sticks, the lowest last, so that of two at one place both are seen."""
    out = ['<g stroke-width="1.8">']
    for p in sorted(peaks, key=lambda p: (-p.intensity, p.number)):
        x, top = scale.across(p.mz), base - scale.up(p.intensity)
        ring = '<circle cx="%s" cy="%s" r="4" fill="#ffffff" stroke-width="1.4"/>' % (short(x), short(top)) if p.refusal else ""
        title = "<title>row %d: %s</title>" % (p.number, escaped(shown(p.bytes[:LONGEST_ROW])))
        out.append('<g stroke="%s">%s%s%s</g>' % (stick_colour(p), title, line(x, base, x, top), ring))
    return out + ["</g>"]


def leaders(blocks, base):
    """The lines to labels that moved."""
    out = ['<g stroke="%s" stroke-width="0.8">' % GREY]
    for x, top, foot, bottom in (b.leader for b in blocks):
        if bottom * BAND - top > 12 or abs(foot - x) > 8:
            out.append(line(x, base - top - 2, foot, base - bottom * BAND))
    return out + ["</g>"]


def row_mark(x, y, words):
    """The number of a refused row, in a frame, so that it is not taken for a label."""
    frame = '<rect x="%s" y="%s" width="%s" height="16" rx="3" fill="#fff3c9" stroke="#c99a00" stroke-width="1"/>'
    frame %= short(x - 4), short(y - 12), short(len(words) * ADVANCE * TYPE + 8)
    return frame + text(x, y, words, fill=DARK, stroke="none", font_family=FIXED, font_size=TYPE)


def block_texts(block, base):
    """The lines of a placed block."""
    lines, out = block.block.lines, []
    if block.block.refused:
        return [row_mark(block.left + 6, base - block.bottom * BAND - 3.5, lines[0][1])]
    for n, (indent, label, small, colour) in enumerate(lines):
        tail = '<tspan font-size="%s" fill="%s">%s</tspan>' % (SMALL, GREY, escaped(small)) if small else ""
        out.append(text(block.left + 4 + indent, base - block.bottom * BAND - (len(lines) - 1 - n) * LINE - 3.5, escaped(label) + tail, fill=colour))
    return out


def labels(blocks, base):
    """The labels. Their white rim keeps them readable where a line must pass behind one."""
    out = ['<g font-family="%s" font-size="%d" stroke="#ffffff" stroke-width="3" stroke-linejoin="round" paint-order="stroke">' % (FIXED, TYPE)]
    for b in sorted(blocks, key=lambda b: b.block.x):
        out += block_texts(b, base)
    return out + ["</g>"]


def legend_items(peaks):
    """(colour, words, mark) of what is in the picture; the mark is a bar or a ring."""
    named = [label for p in peaks for label, _ in p.labels]
    present = {kind_of(label) for label in named}
    items = [(colour, words, "bar") for kind, (words, colour) in KINDS.items() if kind in present]
    if any(label.startswith("&") for label in named):
        items.append((lighter(DARK), "lighter: &", "bar"))
    if any(not p.labels and not p.refusal for p in peaks):
        items.append((FAINT, "no annotation", "bar"))
    if any(p.refusal for p in peaks):
        items.append((GREY, "refused row", "ring"))
    return items


def legend(peaks, top):
    """The legend in lines as wide as the picture, and where it ends."""
    out, x, y = ['<g font-size="12" fill="%s">' % DARK], LEFT, top
    for colour, words, mark in legend_items(peaks):
        width = 18 + 7.2 * len(words) + 14
        if x + width > WIDTH - MARGIN:
            x, y = LEFT, y + 20
        if mark == "bar":
            out.append('<rect x="%s" y="%s" width="12" height="12" rx="2" fill="%s"/>' % (short(x), short(y - 10), colour))
        else:
            out.append('<circle cx="%s" cy="%s" r="4" fill="#ffffff" stroke="%s" stroke-width="1.4"/>' % (short(x + 6), short(y - 4), colour))
        out.append(text(x + 18, y, escaped(words)))
        x += width
    return out + ["</g>"], y


def window(data, place):
    """A refused row as (cut, before, bad, behind, cut): the byte at the place, and so much on both sides as fits in a line."""
    before, bad, behind = data[max(0, place - ROW_LETTERS):place], data[place:place + 1], data[place + 1:place + 1 + ROW_LETTERS]
    while len(shown(before)) + len(shown(behind)) > ROW_LETTERS - 8:
        # the longer side gives way, so that the byte stands near the middle of a long row
        if len(before) > len(behind):
            before = before[1:]
        else:
            behind = behind[:-1]
    return place > len(before), before, bad, behind, place + 1 + len(behind) < len(data)


def byte_texts(data):
    """Bytes as text, those that are not printable in grey."""
    runs = itertools.groupby(data, lambda b: 0x20 <= b <= 0x7E)
    return "".join(escaped(shown(run)) if printable else '<tspan fill="%s">%s</tspan>' % (GREY, shown(run)) for printable, run in runs)


def row_text(data, place):
    """A refused row with the byte at its place underlined; behind the last byte a blank is. Without a place nothing is."""
    cut, before, bad, behind, more = window(data, len(data) if place is None else place)
    letters = escaped(shown(bad)).replace(" ", BLANK) or BLANK
    mark = '<tspan fill="%s" font-weight="bold" text-decoration="underline" style="text-decoration-thickness:2px">%s</tspan>' % (WRONG, letters)
    dots = '<tspan fill="%s">...</tspan>' % GREY
    return (dots if cut else "") + byte_texts(before) + ("" if place is None else mark) + byte_texts(behind) + (dots if more else "")


def words_of(row):
    number, place = row.refusal
    if number == 1 and place == LONGEST_ROW:
        return "The row is too long: it has more than 4,160 bytes"
    if number == 13 and b"\t" not in row.bytes:
        return "There is no intensity, nor a tab before it"
    return WORDS.get(number, "Refused by a number that docs/REFUSALS.md explains")


def refusals(rows, top):
    """The refused rows as text, and where that ends. The place of 8 is a number of bytes, and not one in the row."""
    refused = [r for r in rows if r.refusal]
    if not refused:
        return [], top
    out, y = [text(LEFT, top + 22, "Refused rows", font_size=14, font_weight="bold", fill=DARK)], top + 22
    for r in refused:
        number, place = r.refusal
        said = "!%d %d: %s%s" % (number, place, words_of(r), "" if r.mz is not None else " (not drawn)")
        out.append(row_mark(LEFT + 4, y + 26, "row %d" % r.number))
        out.append(text(LEFT + 96, y + 26, row_text(r.bytes, None if number == 8 else place), font_family=FIXED, font_size=12, fill=DARK))
        out.append(text(LEFT + 96, y + 43, escaped(said), font_size=12, fill=GREY))
        y += 46
    return out, y


def summary(rows):
    refused = sum(1 for r in rows if r.refusal)
    said = "%d %s: %d read, %d refused." % (len(rows), "row" if len(rows) == 1 else "rows", len(rows) - refused, refused)
    highest = max((r for r in rows if r.mz is not None), key=lambda r: r.intensity, default=None)
    if highest:
        said += " 100 % is " + shown(highest.bytes.split(b"\t")[1]) + "."
    if any(tail for r in rows for _, tail in r.labels):
        said += " In small type, where there is room: deviation and confidence."
    return said


def plot(peaks, top):
    """The peaks with their labels and axes, below `top`; where that ends, and how wide it is."""
    scale = scale_for(peaks)
    blocks = layout(peaks, scale)
    base = top + max([TALLEST + 20] + [(b.bottom + b.block.bands) * BAND for b in blocks])
    return axes(scale, base) + leaders(blocks, base) + sticks(peaks, scale, base) + labels(blocks, base), base + 40, scale.width


def picture(rows):
    """The whole picture, from the top: legend, labels and peaks, axis, refused rows."""
    peaks = [r for r in rows if r.mz is not None]
    key, y = legend(peaks, 26)
    if peaks:
        body, y, width = plot(peaks, y + 18)
    else:
        words = "No row of the list has a peak to draw" if rows else "The list has no rows"
        body, y, width = [text(WIDTH / 2, y + 50, words, font_size=16, text_anchor="middle", fill=GREY)], y + 80, WIDTH
    body.append(text(LEFT, y + 24, escaped(summary(rows)), font_size=12, fill=GREY))
    told, y = refusals(rows, y + 34)
    height = math.ceil(y + 20)
    head = '<svg xmlns="http://www.w3.org/2000/svg" width="%d" height="%d" viewBox="0 0 %d %d" font-family="%s" xml:space="preserve" role="img">'
    paper = '<rect width="%d" height="%d" fill="#ffffff"/>' % (width, height)
    return "\n".join([head % (width, height, width, height, PLAIN), paper] + key + body + told + ["</svg>", ""])


def main():
    parser = argparse.ArgumentParser(description="Draws a peak list as SVG, from what the program `peaks` answers.")
    parser.add_argument("list", metavar="LIST", help="the peak list")
    source = parser.add_mutually_exclusive_group()
    source.add_argument("--answers", metavar="FILE", help="a file with the answers")
    source.add_argument("--with", metavar="COMMAND", dest="command", nargs=argparse.REMAINDER, help="the program to ask, with its arguments")
    given = parser.parse_args()
    if given.command == []:
        parser.error("--with needs a command")
    try:
        data = content(given.list)
        answers = content(given.answers) if given.answers else answers_by(given.command or PEAKS, data)
        drawn = picture(rows_with_answers(data, answers))
        with open(sys.stdout.fileno(), "wb", closefd=False) as out:
            out.write(drawn.encode("ascii"))
    except Fault as fault:
        print("draw.py: %s" % fault, file=sys.stderr)
        return 1
    except OSError as fault:
        print("draw.py: %s: %s" % (fault.filename if isinstance(fault.filename, str) else "standard output", fault.strerror), file=sys.stderr)
        return 1
    return 0


if __name__ == "__main__":
    sys.exit(main())
