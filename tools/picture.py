"""The picture of a run: the datagrams between the two ends, and below them the sender's numbers on the same time axis."""
from collections import Counter
from typing import NamedTuple

from shown import FATES, NAMES, SECOND, in_unit, kind_of, seconds, usual_delays
from svg import FONT, LARGE, PLAIN, SMALL, Label, Spots, Svg, attributes, clean, places, row_labels, text_width, wrapped

TIME_UNITS = (("s", SECOND), ("ms", 1_000_000), ("us", 1_000), ("ns", 1))

# Colours that stay apart for colour-blind eyes (after Okabe and Ito); dashes and end marks say the same in grey.
PAPER, FRAME, INK, SOFT, GRID = "#fbfbf8", "#c9c9c4", "#222222", "#5a5a5a", "#e4e4df"
BLUE, ORANGE, GREEN, RED, PURPLE, AMBER = "#0072b2", "#c84e00", "#2f7d63", "#b3001b", "#7b2d8b", "#a66a00"

LEFT, RIGHT, PAD, EDGE = 92, 22, 10, 24  # margins of the plot, the room it keeps free inside them, the margin of the head
ROW, FLIGHT, WINDOW, RTO, GAP = 17, 190, 130, 70, 46  # heights: a row of labels, a datagram's way, two panels, what is above a panel
SECOND_SENDER = "5 3"  # dashes of the gateway's numbers where both ends send
SHORTEST = 1_000  # nanoseconds of a picture, at least
MANY = 1500  # lines past which none has a hint, to keep the file small


class Look(NamedTuple):
    """How the line of a datagram is drawn."""

    colour: str
    width: float
    dash: str
    said: str
    row: str  # the heading of its numbers


LOOKS = {
    "first": Look(BLUE, 1.1, "", "data packet, first sent", "packets"),
    "again": Look(ORANGE, 1.7, "6 3", "data packet, sent again", "again"),
    "state": Look(GREEN, 0.9, "1.5 2.5", "state packet", "ack"),
}


def line_style(kind, fate):
    look = LOOKS[kind]
    mark = f"{fate}-{kind}" if fate in ("came", "repeat") else fate
    return {
        "class": f"{kind} {fate}",
        "stroke": look.colour,
        "stroke_width": look.width * (0.7 if fate == "repeat" else 1),
        "stroke_dasharray": look.dash,
        "marker_start": "url(#again-start)" if kind == "again" else None,
        "marker_end": f"url(#{mark})",
    }


def marker(name, size, content, orient="auto"):
    """A mark around the end of a line, turned with it or by a fixed angle."""
    box = f'viewBox="{-size} {-size} {2 * size} {2 * size}" markerWidth="{2 * size}" markerHeight="{2 * size}"'
    return f'<marker id="{name}" {box} markerUnits="userSpaceOnUse" orient="{orient}">{content}</marker>'


def markers():
    """The ends of lines: by kind where a datagram came, by fate where it did not or was refused."""
    arrow, dot = "M-8 -3.4L0 0L-8 3.4Z", "M-5 0a2.5 2.5 0 1 0 5 0a2.5 2.5 0 1 0 -5 0Z"
    for kind, look in LOOKS.items():
        shape = dot if kind == "state" else arrow
        yield marker(f"came-{kind}", 9, f'<path d="{shape}" fill="{look.colour}"/>')
        yield marker(f"repeat-{kind}", 9, f'<path d="{shape}" fill="{PAPER}" stroke="{look.colour}"/>')
    yield marker("again-start", 6, f'<path d="M-4.5 0L0 -4.5L4.5 0L0 4.5Z" fill="{ORANGE}"/>')
    yield marker("lost", 7, f'<path d="M-5 -5L5 5M-5 5L5 -5" stroke="{RED}" stroke-width="2.6"/>', 0)
    yield marker("refused", 7, f'<path d="M-4 -4h8v8h-8z" fill="{PAPER}" stroke="{PURPLE}" stroke-width="1.8"/>', 0)
    yield marker("under-way", 6, f'<circle r="3.5" fill="{PAPER}" stroke="{SOFT}" stroke-width="1.3"/>')


def round_step(span, most):
    """The least of 1, 2, 5, 10, 20, .. that cuts the span into `most` parts or fewer."""
    size = 1
    while True:
        for step in (size, 2 * size, 5 * size):
            if step * most >= span:
                return step
        size *= 10


def is_crowded(part, width):
    """So many lines that one cannot be told from another."""
    return len(part.flights) > 4 * width


class Canvas:
    """The SVG so far, where the next thing goes, and the time axis."""

    def __init__(self, part, width):
        self.part, self.width, self.right = part, width, width - RIGHT
        self.svg = Svg()
        self.y = 0  # all above it is drawn
        self.faint = 0.5 if is_crowded(part, width) else None  # the opacity of lines
        self.stop = max(part.stop, part.start + SHORTEST)
        if part.whole and any(f.fate == "under-way" for f in part.flights):
            self.stop += max(usual_delays(part.run)) * 6 // 10  # they get as far past the last event

    def x(self, time):
        return LEFT + PAD + (time - self.part.start) / (self.stop - self.part.start) * (self.right - LEFT - 2 * PAD)

    def beside(self, y, text, colour, size=SMALL, **names):
        """A heading left of the plot."""
        self.svg.text(LEFT - 10, y, text, size, fill=colour, text_anchor="end", **names)

    def ticks(self):
        """The unit of the time axis, its nanoseconds, and the times that have a tick, as many as have room."""
        span = self.stop - self.part.start
        unit, size = next((u for u in TIME_UNITS if span >= 2 * u[1]), TIME_UNITS[-1])
        for most in range(int(self.right - LEFT) // 80, 0, -1):
            step = round_step(span, most)
            times = range(-(-self.part.start // step) * step, self.stop + 1, step)
            widest = max((text_width(in_unit(t, size), SMALL) for t in times), default=0)
            if widest + 14 < self.x(self.part.start + step) - self.x(self.part.start):
                break
        return unit, size, times


# Title and legend.


def draw_head(canvas, title):
    canvas.y = 12
    if title:
        head_line(canvas, title, LARGE, INK, bold=True)
        head_line(canvas, canvas.part.summary(), PLAIN + 1, SOFT, bold=False)
    else:
        head_line(canvas, canvas.part.summary(), LARGE - 1, INK, bold=True)
    draw_legend(canvas)


def head_line(canvas, text, size, fill, bold):
    for line in wrapped(text, canvas.width - 2 * EDGE, size, bold):
        canvas.y += size + 6
        canvas.svg.text(EDGE, canvas.y, line, size, fill=fill, font_weight="bold" if bold else None)


def draw_legend(canvas):
    x, canvas.y = EDGE, canvas.y + 27
    for draw, said in legend_items(canvas):
        width = 38 + text_width(said, PLAIN)
        if x > EDGE and x + width > canvas.width - EDGE:
            x, canvas.y = EDGE, canvas.y + 22
        draw(canvas.svg, x, canvas.y - 4)
        canvas.svg.text(x + 38, canvas.y, said, fill=INK)
        x += width + 18
    canvas.y += 18


def legend_items(canvas):
    """What is in the picture: a sample to draw at a place, and what it is, with its count."""
    part = canvas.part
    kinds = Counter(kind_of(d) for d in part.datagrams)
    fates = Counter(f.fate for f in part.flights)
    items = [(line_sample(k, "came"), f"{look.said} ({kinds[k]:,})") for k, look in LOOKS.items() if kinds[k]]
    items += [(line_sample("first", f), f"{said} ({fates[f]:,})") for f, said in FATES.items() if fates[f] and f != "came"]
    if part.timeouts:
        items.append((lambda svg, x, y: timeout_line(svg, x + 16, y - 8, y + 9), f"timer due ({len(part.timeouts):,})"))
    if part.failures:
        items.append((lambda svg, x, y: failure_line(svg, x + 16, y - 8, y + 9), f"stream failed ({len(part.failures):,})"))
    return items


def line_sample(kind, fate):
    def draw(svg, x, y):
        svg.open(**{**line_style(kind, fate), "class": "sample"})
        svg.line(x, y, x + (24 if fate in ("lost", "refused", "under-way") else 30), y)
        svg.close()

    return draw


# Due timers and failed streams, through everything.


def timeout_line(svg, x, top, bottom, hint=None):
    svg.line(x, top, x, bottom, hint, stroke=AMBER, stroke_width=1.4, stroke_dasharray="7 3 2 3")
    svg.add("path", d=f"M{places(x - 5)} {places(top)}h10l-5 8z", fill=AMBER)


def failure_line(svg, x, top, bottom, hint=None):
    """Two lines, close to each other."""
    for side in (-2, 2):
        svg.line(x + side, top, x + side, bottom, hint, stroke=RED, stroke_width=1.8)


def draw_marks(canvas, top, bottom):
    canvas.svg.open(opacity=canvas.faint)
    for m in canvas.part.timeouts:
        timeout_line(canvas.svg, canvas.x(m.time), top, bottom, f"the timer of the {NAMES[m.end]} is due at {seconds(m.time)} s")
    for m in canvas.part.failures:
        failure_line(canvas.svg, canvas.x(m.time), top, bottom, f"the stream of the {NAMES[m.end]} fails at {seconds(m.time)} s")
    canvas.svg.close()
    if canvas.part.timeouts:
        canvas.beside(top + 10, "timer due", AMBER)


# The datagrams.


class Sequence:
    """Two lines for the ends, time to the right, and a slanted line for each datagram."""

    def __init__(self, canvas):
        self.canvas, self.part, self.svg = canvas, canvas.part, canvas.svg
        self.delays = usual_delays(canvas.part.run)
        self.ends = (0, 0)  # where the lines of the ends are
        self.shares = {}  # how far each lost datagram goes
        self.shifts = self.burst_shifts()

    def draw(self):
        if self.part.timeouts or self.part.failures:
            self.canvas.y += ROW  # the heads of the marks
        for kind in ("missing", "state", "again", "first"):
            self.row(0, kind)
        self.ends = (self.canvas.y + 8, self.canvas.y + 8 + FLIGHT)
        self.canvas.y = self.ends[1] + 8
        for kind in ("first", "again", "state", "missing"):
            self.row(1, kind)
        self.draw_ends()
        self.place_crosses()
        self.svg.open(clip_path="url(#plot)", opacity=self.canvas.faint)
        for kind in ("state", "first", "again"):
            for fate in ("came", "repeat", "under-way", "refused", "lost"):
                self.flights(kind, fate)
        self.svg.close()
        if not self.canvas.faint:
            self.end_labels()

    def draw_ends(self):
        for name, y in zip(NAMES, self.ends):
            self.svg.line(LEFT, y, self.canvas.right, y, stroke=INK, stroke_width=1.6)
            self.canvas.beside(y + 4, name, INK, PLAIN + 1, font_weight="bold")

    # Rows of numbers, outside of the lines of the ends.

    def row(self, end, kind):
        """The packets that an end sends, their acks, or those that it misses; no row where there is nothing."""
        if kind == "missing":
            self.missing_row(end)
            return
        if kind == "state" and 1 - end not in self.part.senders:
            return  # it acknowledges nothing
        sent = [d for d in self.part.datagrams if d.end == end and kind_of(d) == kind and d.sent >= self.part.start]
        points = [(self.canvas.x(d.sent), d.number) for d in sent]
        if points:
            self.canvas.y += ROW
            self.canvas.beside(self.canvas.y - 4, LOOKS[kind].row, LOOKS[kind].colour)
            for label in row_labels(points, LEFT, self.canvas.right):
                self.on_paper(label, label.centre(LEFT, self.canvas.right), self.canvas.y - 4, LOOKS[kind].colour)

    def missing_row(self, end):
        gaps = self.part.gaps(1 - end)
        if not gaps:
            return
        self.canvas.y += ROW
        y = self.canvas.y - 8
        self.canvas.beside(y + 4, "missing", RED)
        for gap in gaps:
            x1, x2 = max(self.canvas.x(gap.start), LEFT), min(self.canvas.x(gap.stop), self.canvas.right)
            self.svg.line(x1, y, x2, y, stroke=RED, stroke_width=3)
            for x in (self.canvas.x(gap.start), self.canvas.x(gap.stop)):
                if x1 <= x <= x2:
                    self.svg.line(x, y - 4, x, y + 4, stroke=RED, stroke_width=1.5)
            label = Label(x1, x2, [(n, n) for n in gap.numbers])
            if 2 * label.half + 16 < x2 - x1:
                self.on_paper(label, (x1 + x2) / 2, y + 4, RED, font_weight="bold")

    def on_paper(self, label, x, y, colour, **names):
        """A label around x, with no line through it."""
        half = label.half + 1
        self.svg.add("rect", x=places(x - half), y=places(y - 10), width=places(2 * half), height=13, fill=PAPER)
        self.svg.text(x, y, label.text, SMALL, fill=colour, text_anchor="middle", **names)

    # Lines from end to end.

    def flights(self, kind, fate):
        """All lines of one kind and fate, in one group."""
        chosen = [f for f in self.part.flights if kind_of(f.datagram) == kind and f.fate == fate]
        if not chosen:
            return
        self.svg.open(**line_style(kind, fate))
        for flight in chosen:
            start, stop = self.way(flight)
            self.svg.line(*start, *stop, hint=flight.told() if len(self.part.flights) <= MANY else None)
        self.svg.close()

    def way(self, flight):
        """Where a line starts and ends. One that never came goes a share of the usual way."""
        d = flight.datagram
        if flight.arrival:
            return self.point(d, d.sent, 0), self.point(d, flight.arrival.time, 1)
        return self.point(d, d.sent, 0), self.on_the_way(d, self.shares.get(id(d), 0.5))

    def on_the_way(self, d, share):
        return self.point(d, d.sent + int(share * self.delays[d.end]), share)

    def point(self, d, time, share):
        """Where a datagram is that has gone a share of its way."""
        y1, y2 = self.ends[d.end], self.ends[1 - d.end]
        return self.canvas.x(time) + self.shifts[id(d)], y1 + share * (y2 - y1)

    def burst_shifts(self):
        """Datagrams sent at one time stand side by side, by less than the width of their way: on top of each other they look like one."""
        bursts = {}
        for d in self.part.datagrams:
            bursts.setdefault((d.end, d.sent), []).append(d)
        shifts = {}
        for (end, sent), burst in bursts.items():
            room = min(30, (self.canvas.x(sent + self.delays[end]) - self.canvas.x(sent)) / 2)
            step = min(2.4, room / max(1, len(burst) - 1))
            shifts.update((id(d), i * step) for i, d in enumerate(burst))
        return shifts

    def place_crosses(self):
        """Crosses of one burst stand apart as long as there is room."""
        spots = Spots()
        for d in self.part.datagrams:
            if d.lost:
                shares = (0.45, 0.58, 0.32, 0.71, 0.2)
                self.shares[id(d)] = next((s for s in shares if spots.claim(around(self.on_the_way(d, s), 6))), shares[0])

    def end_labels(self):
        """The numbers of lost packets beside their crosses, and of refusals, where there is room."""
        spots = Spots()
        marked = [(f, self.way(f)[1]) for f in self.part.flights if f.fate in ("lost", "refused")]
        spots.boxes = [around(place, 5) for _, place in marked]
        for flight, place in marked:
            if flight.fate == "refused":
                inwards = 13 if flight.datagram.end == 1 else -13  # not on the line of the end
                self.end_label(spots, (place[0], place[1] + inwards), f"refusal {flight.arrival.refusal}", PURPLE)
            elif flight.datagram.kind == "data":
                self.end_label(spots, place, str(flight.datagram.number), RED)

    def end_label(self, spots, place, text, colour):
        x, y = place
        width = text_width(text, SMALL, bold=True)
        for left in (x + 8, x - 8 - width):
            if LEFT < left < self.canvas.right - width and spots.claim((left, y - 5, left + width, y + 5)):
                self.svg.haloed(left, y + 4, text, PAPER, fill=colour, font_weight="bold")
                return


def around(place, reach):
    x, y = place
    return x - reach, y - reach, x + reach, y + reach


# The sender's numbers.


def draw_window(canvas):
    panel_heading(canvas, "bytes", series(canvas, "window", "window") + [("inflight", BLUE, 7, None)])
    top = max([1] + [max(n.window, n.inflight) for n in canvas.part.numbers()])
    scale = panel(canvas, WINDOW, top, 6, 1)
    steps(canvas, lambda n: n.inflight, scale, stroke=BLUE, stroke_width=0.9, fill=BLUE, fill_opacity=0.2)
    steps(canvas, lambda n: n.window, scale, stroke=INK, stroke_width=2)


def draw_rto(canvas):
    panel_heading(canvas, "ms", series(canvas, "rto, the retransmission timeout", "rto"))
    top = max([1] + [n.rto for n in canvas.part.numbers()])
    scale = panel(canvas, RTO, top, 4, 1_000_000)
    steps(canvas, lambda n: n.rto, scale, stroke=INK, stroke_width=2)


def series(canvas, name, short):
    """What a panel's heading says of its bold lines: name, colour, width and dashes, for each sender."""
    if len(canvas.part.senders) == 1:
        return [(name, INK, 2, None)]
    return [(f"{short}: {NAMES[0]}", INK, 2, None), (NAMES[1], INK, 2, SECOND_SENDER)]


def panel_heading(canvas, unit, entries):
    """The unit and the lines of a panel, over its top edge."""
    canvas.y += GAP
    x, y = LEFT, canvas.y - 12
    canvas.beside(y, unit, SOFT)
    width = sum(46 + text_width(name, PLAIN) for name, *_ in entries)
    canvas.svg.add("rect", x=x, y=places(y - 13), width=places(width), height=18, fill=PAPER)
    for name, colour, thick, dash in entries:
        pale = 0.35 if thick > 3 else None
        canvas.svg.line(x, y - 4, x + 22, y - 4, stroke=colour, stroke_width=thick, stroke_opacity=pale, stroke_dasharray=dash)
        canvas.svg.text(x + 28, y, name, fill=INK)
        x += 46 + text_width(name, PLAIN)


def panel(canvas, height, top, parts, size):
    """An axis from 0 to a little more than it needs, with round ticks in units of `size`; answers the scale."""
    bottom, most = canvas.y + height, top * 1.1
    step = round_step(max(top // size, 1), parts) * size
    for value in range(0, int(most) + 1, step):
        y = bottom - value / most * height
        canvas.svg.line(LEFT, y, canvas.right, y, stroke=GRID if value else SOFT)
        canvas.beside(y + 4, in_unit(value, size), SOFT)
    canvas.y = bottom
    return lambda value: bottom - value / most * height


def steps(canvas, value, scale, **names):
    """A quantity of each sender as steps; where there are two, the gateway's are dashed. Filled down to 0 where a fill is given."""
    canvas.svg.open(clip_path="url(#plot)", **names)
    for end in canvas.part.senders:
        dash = SECOND_SENDER if end == 1 and len(canvas.part.senders) == 2 else None
        for stream in filter(None, canvas.part.run.numbers[end]):
            last = {n.time: value(n) for n in stream}  # of several at one time only the last one lasts
            points = [(canvas.x(time), scale(number)) for time, number in last.items()]
            d = step_path(points) + (f"V{places(scale(0))}H{places(points[0][0])}Z" if "fill" in names else "")
            canvas.svg.add("path", d=d, stroke_dasharray=dash)
    canvas.svg.close()


def step_path(points):
    d = f"M{places(points[0][0])} {places(points[0][1])}"
    for (_, before), (x, y) in zip(points, points[1:]):
        d += f"H{places(x)}" + (f"V{places(y)}" if y != before else "")
    return d


# The time axis, and the whole.


def draw_time(canvas):
    unit, size, times = canvas.ticks()
    for time in times:
        x = canvas.x(time)
        canvas.svg.line(x, canvas.y, x, canvas.y + 5, stroke=SOFT)
        half = text_width(in_unit(time, size), SMALL) / 2
        x = min(max(x, LEFT - 5 + half), canvas.width - 4 - half)  # beside the heading, and on the paper
        canvas.svg.text(x, canvas.y + 19, in_unit(time, size), SMALL, fill=SOFT, text_anchor="middle")
    canvas.beside(canvas.y + 19, f"time, {unit}", SOFT)
    canvas.y += 34


def draw_grid(canvas, top, bottom):
    for time in canvas.ticks()[2]:
        canvas.svg.line(canvas.x(time), top, canvas.x(time), bottom, stroke=GRID)


def opening(canvas, title, description):
    width, height = canvas.width, places(canvas.y)
    clip = attributes(dict(x=LEFT, y=0, width=canvas.right - LEFT, height=height))
    return [
        f'<svg xmlns="http://www.w3.org/2000/svg" width="{width}" height="{height}" viewBox="0 0 {width} {height}" '
        f'font-family="{FONT}" fill="none" role="img">',
        f"<title>{clean(title or canvas.part.summary())}</title>",
        f"<desc>{clean(description)}</desc>",
        f'<defs>{"".join(markers())}<clipPath id="plot"><rect{clip}/></clipPath></defs>',
        f'<rect x=".5" y=".5" width="{width - 1}" height="{places(canvas.y - 1)}" rx="6" fill="{PAPER}" stroke="{FRAME}"/>',
    ]


def draw(part, width, title, description):
    """The SVG of a part of a run."""
    canvas = Canvas(part, width)
    draw_head(canvas, title)
    top = canvas.y
    Sequence(canvas).draw()
    draw_window(canvas)
    draw_rto(canvas)
    bottom = canvas.y
    draw_time(canvas)
    front, canvas.svg = canvas.svg, Svg()  # what lies behind needs to know how high the panels are
    draw_grid(canvas, top, bottom)
    draw_marks(canvas, top, bottom)
    return "\n".join(opening(canvas, title, description) + canvas.svg.parts + front.parts + ["</svg>", ""])
