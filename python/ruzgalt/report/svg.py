"""Draws pictures as SVG, which a browser shows. Each bar shows its record if the pointer rests on it."""
import textwrap
from collections import Counter
from dataclasses import dataclass, replace
from html import escape
from itertools import groupby
from operator import itemgetter
from typing import Any, Dict, Iterable, Iterator, List, NamedTuple, Optional, Sequence, Tuple

from ruzgalt.report.figures import (
    NOTHING, Bar, Bars, Picture, Span, Step, Steps, counted, front_of, shortened, ticks, width_of,
)
from ruzgalt.script.forms import at_second, print_point, seconds

# An element: its name, its attributes, and its texts and elements.
Tree = List[Any]

# Pixels: of a letter, the edge, a line of the title or of a note, and the areas above and below the frame.
LETTER, EDGE, LINE, ABOVE, BELOW = 7.0, 12, 16, 66, 30
# The least width of a picture, and its greatest width and height without options.
NARROW, WIDE, TALL = 760, 1_600, 4_000
# The length of a bar's point, and the lines that are kept for notes.
TIP, KEPT = 6, 8
GREY, RED = "#555", "#c00"


@dataclass(frozen=True)
class Frame:
    """The area of the time that is shown: from `left` on, `across` pixels wide, between top and bottom."""

    span: Span
    left: int
    across: int
    top: int
    bottom: int

    @property
    def right(self) -> int:
        return self.left + self.across

    def place(self, second: int) -> int:
        """Returns the pixel of a second; the edge for one that isn't shown."""
        return self.left + self.span.place(second, self.across)


def across_for(width: Optional[int], margin: int, wanted: int) -> int:
    """How wide the frame is: as it is given, or as wanted, within bounds."""
    return max(width - margin - EDGE, 100) if width else min(max(wanted, NARROW), WIDE - margin - EDGE)


def margin_for(names: Iterable[str]) -> int:
    """The room for names at the left, of 28 letters at most."""
    return max(int(min(max(map(width_of, names), default=0), 28) * LETTER) + 2 * EDGE, 44)


def letters_in(width: float) -> int:
    return max(int(width / LETTER), 0)


def wrapped(words: str, width: int) -> List[str]:
    """The text in lines that have room."""
    wide = max(width_of(words) / max(len(words), 1), 1)
    return textwrap.wrap(words, max(int(letters_in(width - 2 * EDGE) / wide), 8), break_on_hyphens=False) or [""]


def top_of(title: str, width: int) -> int:
    """Where the frame begins below the title."""
    return ABOVE + (len(wrapped(title, width)) - 1) * LINE


def axis(frame: Frame) -> Iterator[Tree]:
    """Ticks through the whole frame, with their texts above and below, since a drawing may be long."""
    taken = 0.0
    for second, label in ticks(frame.span, max(frame.across // 90, 1)):
        place = frame.place(second)
        yield line(place, frame.top - 4, place, frame.bottom + 4, "#ccc")
        is_long = len(label) > 10
        left = place if is_long else place - 40
        if left >= taken and place + (len(label) * LETTER if is_long else 40) <= frame.right + EDGE:
            taken = left + len(label) * LETTER
            for top in (frame.bottom + 18, frame.top - 26):
                yield text(place, top, label, "start" if is_long else "middle", GREY)
    yield line(frame.left, frame.bottom, frame.right, frame.bottom, GREY)


def line(left: float, top: float, right: float, bottom: float, colour: str, width: int = 1) -> Tree:
    return ["line", {"x1": left, "y1": top, "x2": right, "y2": bottom, "stroke": colour, "stroke-width": width}]


def text(left: float, top: float, words: str, anchor: str = "start", colour: str = "#000") -> Tree:
    return ["text", {"x": left, "y": top, "text-anchor": anchor, "fill": colour}, clean(words)]


def box(left: float, top: float, width: float, height: float, colour: str, title: str, edge: str = "none") -> Tree:
    size = {"x": left, "y": top, "width": width, "height": height, "fill": colour, "stroke": edge}
    return ["rect", size, ["title", {}, clean(title)]]


def shape(points: Sequence[Sequence[float]], colour: str, title: str, edge: str = "none") -> Tree:
    """A box of other corners."""
    corners = " ".join(f"{left},{top}" for left, top in points)
    return ["polygon", {"points": corners, "fill": colour, "stroke": edge}, ["title", {}, clean(title)]]


def clean(words: str) -> str:
    """The words without characters that XML can't have."""
    return "".join(one if one.isprintable() else "\ufffd" for one in words)


def document(width: int, bottom: int, title: str, parts: Iterable[Tree], notes: Sequence[str] = ()) -> Tree:
    """Returns the document: the title, the drawing down to `bottom`, and the notes below."""
    lines = [one for note in notes for one in wrapped(note, width)]
    height = bottom + len(lines) * LINE
    root = {
        "xmlns": "http://www.w3.org/2000/svg", "width": width, "height": height, "viewBox": f"0 0 {width} {height}",
        "style": "max-width: 100%", "role": "img", "aria-label": clean(title),
        "font-family": "Helvetica, Arial, sans-serif", "font-size": 12,
    }
    back = ["rect", {"width": width, "height": height, "fill": "#fff"}]
    heads = [text(EDGE, 18 + place * LINE, one) for place, one in enumerate(wrapped(title, width))]
    feet = [text(EDGE, bottom + 8 + place * LINE, one, "start", GREY) for place, one in enumerate(lines)]
    return ["svg", root, back, *heads, *parts, *feet]


def printed(tree: Tree, between: str = "") -> str:
    """Returns the element as SVG, with a text between its parts."""
    name, attributes, *inner = tree
    words = "".join(f' {key}="{escape(str(value))}"' for key, value in attributes.items())
    parts = [escape(one) if isinstance(one, str) else printed(one) for one in inner]
    return f"<{name}{words}/>" if not inner else between.join([f"<{name}{words}>", *parts, f"</{name}>"])


# Light enough for black letters, and seen apart by readers who see few colours.
COLOURS = ["#9ecae1", "#fdd0a2", "#c7e9c0", "#dadaeb", "#fee391", "#d9d9d9", "#fcbba1", "#ccece6"]
# The angles of stripes, by which bars of one colour differ, also on paper without colours.
TURNS = [45, -45]
MOST = len(COLOURS) * (1 + len(TURNS))


def fill_of(shade: int, count: int) -> str:
    """Returns the fill of a shade, out of `count`."""
    if count > MOST:
        return "#fff"
    return COLOURS[shade] if shade < len(COLOURS) else f"url(#stripes{shade})"


def stripes(count: int) -> Iterator[Tree]:
    """Yields the definitions of stripes for `count` shades."""
    for shade in range(len(COLOURS), count if count <= MOST else 0):
        turn, colour = divmod(shade - len(COLOURS), len(COLOURS))
        form = {"patternUnits": "userSpaceOnUse", "patternTransform": f"rotate({TURNS[turn]})"}
        wide, narrow = (["rect", {"width": width, "height": 9, "fill": fill}] for width, fill in (
            (9, COLOURS[colour]), (3, "#fff"),
        ))
        yield ["defs", {}, ["pattern", {"id": f"stripes{shade}", "width": 9, "height": 9, **form}, wide, narrow]]


# Pixels between an edge and a letter, twice.
ROOM = 6
# So many lines the list has at most.
LISTED = 40


# A label that has no room: its lane, its words with the period, for a note.
Unplaced = Tuple[str, str]


def unplaced(lane: str, words: str, start: int, end: int) -> Unplaced:
    return lane, f"{words} {print_point(at_second(start))} to {print_point(at_second(end))}"


class Box(NamedTuple):
    """A bar, and where it is drawn."""

    bar: Bar
    left: int
    right: int
    top: int
    height: int

    @property
    def lanes(self) -> range:
        return range(self.bar.lane, self.bar.lane + self.bar.lanes)


def put(boxes: Sequence[Box], frame: Frame) -> Tuple[List[Tree], List[Box]]:
    """Returns the labels' texts, and the boxes whose labels don't fit."""
    boxes = sorted(boxes, key=lambda box: (box.left, box.right))
    taken: Dict[int, float] = {}
    texts, without = [], []
    for box, until in zip(boxes, next_starts(boxes, frame)):
        before = max(taken.get(lane, frame.left) for lane in box.lanes)
        words, left, right = place_of(box, before, until)
        taken.update({lane: max(right, box.right) for lane in box.lanes})
        if words:
            texts.append(text(left, box.top + box.height // 2 + 4, words))
        elif box.bar.label:
            without.append(box)
    return texts, without


def next_starts(boxes: Sequence[Box], frame: Frame) -> List[int]:
    """Returns for each box where the next one of its lanes begins, or the frame ends."""
    next_in: Dict[int, int] = {}
    found = []
    for box in reversed(boxes):
        found.append(min(next_in.get(lane, frame.right) for lane in box.lanes))
        next_in.update({lane: box.left for lane in box.lanes})
    return found[::-1]


def place_of(box: Box, before: float, until: int) -> Tuple[str, float, float]:
    """Returns the label, or its beginning, with its left and right end, between its neighbours."""
    label, width = box.bar.label, width_of(box.bar.label) * LETTER
    if width <= box.right - box.left - ROOM:
        return label, box.left + ROOM // 2 + 1, box.right
    if width <= until - box.right - ROOM:
        return label, box.right + ROOM // 2, box.right + ROOM // 2 + width
    if width <= box.left - before - ROOM:
        return label, box.left - ROOM // 2 - width, box.right
    return front_of(label, letters_in(box.right - box.left - ROOM)), box.left + ROOM // 2 + 1, box.right


def listed(labels: Sequence[Unplaced], width: int, room: int) -> Iterator[str]:
    """Yields the labels that don't fit, lane by lane, in a limited number of lines."""
    left, noted = min(room, LISTED) - 2, 0
    for name, of_lane in groupby(labels, key=itemgetter(0)):
        within = [words for _, words in of_lane]
        note = (f"{name}: " if name else "") + "; ".join(within)
        note = note if noted else f"Labels that don't fit: {note}"
        left -= len(wrapped(note, width))
        if left < 0:
            rest = counted(len(labels) - noted, "label")
            yield f"{f'And {rest} more' if noted else rest} without room: --from and --to, or --width PIXELS, give it."
            return
        noted += len(within)
        yield note


class Scale:
    """Round levels at equal distances, from the foot on and at most `most` above it; the base of steps, and the top.

    Zero is the foot, or if a value is below it, another level. It isn't if all values are so near each other that
    their steps would be lost; the foot is then no more than the least value.
    """

    def __init__(self, values: Sequence[int], most: int) -> None:
        low, high = min(values, default=0), max(values, default=1)
        if low == high or (high - low) * most >= max(high, -low):
            low, high = min(low, 0), max(high, 0)
        distance = 1
        while (high - low) // distance >= most:
            distance = distance * 5 // 2 if str(distance)[0] == "2" else distance * 2
        foot = low // distance * distance
        self.levels: List[int] = [foot, *range(foot + distance, high + 1, distance)]
        self.levels += [foot + distance] * (len(self.levels) == 1)
        self.base = 0 if 0 in self.levels else foot
        self.top = max([*values, self.levels[-1]])


FILL, EDGED = "#9ecae1", "#08519c"
# Pixels of the height of steps, of each group's steps, and above a group.
DEPTH, OF_GROUP, NAME = 240, 72, 34
LEVELS, LEVELS_OF_GROUP, FOR_STEP = 12, 4, 6


def draw_steps(picture: Steps, width: Optional[int], height: int) -> Tree:
    """The steps; of several groups below each other, each with its name above."""
    depth, above, most = (OF_GROUP, NAME, LEVELS_OF_GROUP) if picture.has_groups else (DEPTH, 0, LEVELS)
    scale = Scale([value for _, steps in picture.groups for *_, value in steps], most)
    margin = margin_for(picture.scaled(scale.levels))
    across = across_for(width, margin, max(len(steps) for _, steps in picture.groups) * FOR_STEP)
    # Heights aren't in proportion to values if the scale doesn't begin at zero.
    begun = f"; the scale begins at {picture.printed(scale.base)}" if scale.base else ""
    title, whole = picture.title + begun, margin + across + EDGE
    top, each = top_of(title, whole), depth + above
    groups = picture.groups[:max((height - top - BELOW - KEPT * LINE) // each, 1)]
    frame = Frame(picture.span, margin, across, top, top + each * len(groups))
    parts, notes, without = [*axis(frame)], [], []
    for (name, steps), high in zip(groups, range(top, frame.bottom, each)):
        if picture.has_groups:
            parts.append(text(EDGE, high + NAME - 12, shortened(name, letters_in(whole - 2 * EDGE))))
        own = Frame(picture.span, margin, across, high + above, high + each)
        shown = [step for step in steps if frame.span.shows(*step[:2])]
        parts.extend(band(picture, shown, scale, own))
        for start, end, value in shown:
            words, left, right = picture.printed(value), frame.place(start), frame.place(end)
            if width_of(words) * LETTER + 4 <= right - left:
                # Below the line if it hangs, and otherwise above it.
                below = 13 if value < scale.base else -4
                parts.append(text((left + right) / 2, height_of(value, scale, own) + below, words, "middle"))
            else:
                without.append(unplaced(name, words, start, end))
    if len(groups) < len(picture.groups):
        rest = f"{len(groups):,} of {len(picture.groups):,} groups"
        notes.append(f"These are the first {rest}: --height PIXELS has room for more, --where shows one.")
    room = (height - frame.bottom - BELOW) // LINE - len(notes)
    return document(whole, frame.bottom + BELOW, title, parts, [*notes, *listed(without, whole, room)])


def band(picture: Steps, steps: Sequence[Step], scale: Scale, frame: Frame) -> Iterator[Tree]:
    """Yields the levels and the steps in the frame."""
    for level, name in zip(scale.levels, picture.scaled(scale.levels)):
        top = height_of(level, scale, frame)
        yield line(frame.left, top, frame.right, top, "#ddd")
        yield text(frame.left - 6, top + 4, name, "end")
    for step in steps:
        yield from area(step, picture, scale, frame)
    ground = height_of(scale.base, scale, frame)
    yield line(frame.left, ground, frame.right, ground, "#555")


def height_of(value: int, scale: Scale, frame: Frame) -> float:
    """Returns the pixel of a value, down from the top of the scale."""
    foot = scale.levels[0]
    return round(frame.bottom - (value - foot) * (frame.bottom - frame.top) / (scale.top - foot), 1)


def area(step: Step, picture: Steps, scale: Scale, frame: Frame) -> Iterator[Tree]:
    """Yields the area between a step's value and the base, and an arrow if it goes on past an edge."""
    start, end, value = step
    left, top, ground = frame.place(start), height_of(value, scale, frame), height_of(scale.base, scale, frame)
    right = max(frame.place(end), left + 1)
    title = picture.record(step)
    yield box(left, min(top, ground), right - left, round(abs(ground - top), 1), FILL, title)
    yield line(left, top, right, top, EDGED, 2)
    if end > frame.span.end:
        yield shape([(right - TIP, top - TIP), (right, top), (right - TIP, top + TIP)], EDGED, title)
    if start < frame.span.start:
        yield shape([(left + TIP, top - TIP), (left, top), (left + TIP, top + TIP)], EDGED, title)


# Pixels of a lane's height, and of a bar at least.
HEIGHT, FOR_BAR = 20, 26
POINTED = "A bar with a point goes on: without a known end, or start, or past what is shown."


def draw(picture: Picture, width: Optional[int] = None, height: Optional[int] = None) -> str:
    """Returns the picture as SVG."""
    return printed(tree_of(picture, width, height or TALL), "\n") + "\n"


def tree_of(picture: Picture, width: Optional[int] = None, height: int = TALL) -> Tree:
    """The picture, as wide and at most as tall as is given, or else as it needs within 1,600 and 4,000 pixels."""
    if isinstance(picture, Bars) and picture.bars:
        return draw_bars(picture, width, height)
    if isinstance(picture, Steps) and picture.groups:
        return draw_steps(picture, width, height)
    top = top_of(picture.title, width or NARROW)
    return document(width or NARROW, top, picture.title, [text(EDGE, top - ABOVE + 44, NOTHING)])


def draw_bars(picture: Bars, width: Optional[int], height: int) -> Tree:
    """The lanes below each other, in a drawing as wide as the fullest lane needs."""
    margin = margin_for(picture.lanes)
    whole = margin + across_for(width, margin, max(wanted(picture).values(), default=0)) + EDGE
    top = top_of(picture.title, whole)
    lanes = picture.lanes[:max((height - top - BELOW - KEPT * LINE) // HEIGHT, 1)]
    frame = Frame(picture.span, margin, whole - margin - EDGE, top, top + len(lanes) * HEIGHT)
    boxes = [box_of(replace(bar, lanes=min(bar.lanes, len(lanes) - bar.lane)), frame)
             for bar in picture.shown if bar.lane < len(lanes)]
    labels, without = put(boxes, frame)
    many = 1 + max((bar.shade for bar in picture.bars), default=0)
    parts = [*stripes(many), *axis(frame), *lanes_of(lanes, frame), *(drawn(one, frame, many) for one in boxes)]
    # No line runs over a label.
    parts.extend([*instant_of(picture, frame), *labels])
    notes = list(notes_of(picture, frame, many, lanes))
    room = (height - frame.bottom - BELOW) // LINE - len(notes) - 1
    bars = sorted((one.bar for one in without), key=lambda bar: (bar.lane, bar.start))
    rest = [unplaced(picture.name_of(bar.lane), bar.label, bar.start, bar.end) for bar in bars]
    return document(whole, frame.bottom + BELOW, picture.title, parts, [*notes, *listed(rest, whole, room)])


def wanted(picture: Bars) -> Dict[int, int]:
    """How many pixels each lane would have, were its bars as long as their labels."""
    pixels: Dict[int, int] = Counter()
    for bar in picture.shown:
        pixels[bar.lane] += max(FOR_BAR, int(width_of(bar.label) * LETTER) + ROOM)
    return pixels


def box_of(bar: Bar, frame: Frame) -> Box:
    left, right = frame.place(bar.start), frame.place(bar.end)
    top, height = frame.top + bar.lane * HEIGHT + 2, bar.lanes * HEIGHT - 4
    return Box(bar, left, max(right, left + 1), top, height)


def drawn(one: Box, frame: Frame, many: int) -> Tree:
    """The bar's box, with a point at an end past which it goes on."""
    bar, fill = one.bar, fill_of(one.bar.shade, many)
    before, behind = goes_on(bar, frame)
    if not (before or behind):
        return box(one.left, one.top, one.right - one.left, one.height, fill, bar.record, "#666")
    tip = min(TIP, (one.right - one.left) // 2)
    left, right = one.left + tip * before, one.right - tip * behind
    bottom, middle = one.top + one.height, one.top + one.height // 2
    upper, lower = [(left, one.top), (right, one.top)], [(right, bottom), (left, bottom)]
    return shape([*upper, (one.right, middle), *lower, (one.left, middle)], fill, bar.record, "#666")


def goes_on(bar: Bar, frame: Frame) -> Tuple[bool, bool]:
    """Whether it goes on past the left edge, and past the right one."""
    return bar.start < frame.span.start, bar.end > frame.span.end


def lanes_of(lanes: List[str], frame: Frame) -> Iterator[Tree]:
    for place, name in enumerate(lanes):
        if name:
            top = frame.top + place * HEIGHT
            yield text(frame.left - 6, top + 14, shortened(name, letters_in(frame.left - 8)), "end")
            yield line(frame.left, top, frame.right, top, "#eee")


def instant_of(picture: Bars, frame: Frame) -> Iterator[Tree]:
    """Yields a line through the instant of a division, if the instant is shown. Its text stays inside."""
    if picture.instant and picture.span.start <= seconds(picture.instant) < picture.span.end:
        place = frame.place(seconds(picture.instant))
        yield line(place, frame.top - 6, place, frame.bottom + 6, RED, 2)
        anchor = "start" if place < frame.left + frame.across // 2 else "end"
        yield text(place, frame.top - 10, picture.instant, anchor, RED)


def notes_of(picture: Bars, frame: Frame, many: int, lanes: List[str]) -> Iterator[str]:
    if any(any(goes_on(bar, frame)) for bar in picture.shown):
        yield POINTED
    if many > MOST:
        yield f"No colours: more than {MOST} labels differ."
    if len(lanes) < len(picture.lanes):
        rest = f"{len(lanes):,} of {len(picture.lanes):,} lanes"
        yield f"These are the first {rest}: --height PIXELS has room for more, --where and --from show fewer."
