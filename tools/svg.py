"""SVG elements as text, the width that text takes, and labels that do not run into each other."""
import textwrap
from xml.sax.saxutils import escape

FONT = "Helvetica, Arial, 'Liberation Sans', 'DejaVu Sans', sans-serif"
SMALL, PLAIN, LARGE = 11, 12.5, 17  # sizes of text
NARROW = frozenset(" .,:;!'|()[]/-ijlftrI")


def places(number):
    """A coordinate, short."""
    return f"{number:.1f}".rstrip("0").rstrip(".")


def text_width(text, size, bold=False):
    """An upper guess, since nobody knows the reader's font: that of the widest one in FONT."""
    units = sum(0.4 if c in NARROW else 0.9 if c in "mwMW" else 0.64 for c in text)
    return units * size * (1.1 if bold else 1)


def wrapped(text, width, size, bold):
    """Lines that fit; a word that is too long for one is broken."""
    return textwrap.wrap(text, max(1, int(width / text_width("0", size, bold))))


def clean(text):
    """Text that may stand in XML: no control characters, and < & > escaped."""
    return escape("".join(c if c.isprintable() else " " for c in text))


def attributes(names):
    return "".join(f' {k.replace("_", "-")}="{v}"' for k, v in names.items() if v not in (None, ""))


class Svg:
    """Elements, one after another; later ones lie on top."""

    def __init__(self):
        self.parts = []

    def add(self, tag, content=None, **names):
        end = "/>" if content is None else f">{content}</{tag}>"
        self.parts.append(f"<{tag}{attributes(names)}{end}")

    def text(self, x, y, text, size=PLAIN, **names):
        self.add("text", clean(text), x=places(x), y=places(y), font_size=size, **names)

    def haloed(self, x, y, text, paper, **names):
        """Small text that stays readable on top of lines."""
        self.text(x, y, text, SMALL, stroke=paper, stroke_width=3, stroke_linejoin="round", paint_order="stroke", **names)

    def line(self, x1, y1, x2, y2, hint=None, **names):
        content = f"<title>{clean(hint)}</title>" if hint else None
        self.add("path", content, d=f"M{places(x1)} {places(y1)}L{places(x2)} {places(y2)}", **names)

    def open(self, **names):
        self.parts.append(f"<g{attributes(names)}>")

    def close(self):
        self.parts.append("</g>")


def joined_runs(runs):
    """Runs of numbers, first and last, in order, those that touch as one."""
    joined = []
    for first, last in sorted(runs):
        if joined and first <= joined[-1][1] + 1:
            joined[-1] = joined[-1][0], max(joined[-1][1], last)
        else:
            joined.append((first, last))
    return tuple(joined)


class Label:
    """Small text for a stretch of a row, and the numbers it stands for: `3, 5–7`, or the first and the last where that gets long."""

    def __init__(self, left, right, runs):
        self.left, self.right, self.runs = left, right, joined_runs(runs)
        if len(self.runs) > 3:
            self.text = f"{self.runs[0][0]}…{self.runs[-1][1]}"
        else:
            self.text = ", ".join(str(a) if a == b else f"{a}–{b}" for a, b in self.runs)
        self.half = text_width(self.text, SMALL) / 2

    def centre(self, least, most):
        """In the middle of the stretch, but inside the row."""
        return min(max((self.left + self.right) / 2, least + self.half), most - self.half)

    def joined(self, other):
        return Label(min(self.left, other.left), max(self.right, other.right), self.runs + other.runs)


def row_labels(points, least, most):
    """Labels for (x, number), x rising, in a row from least to most: neighbours that have no room for two labels share one."""
    row = []
    for x, number in points:
        label = Label(x, x, ((number, number),))
        while row and label.centre(least, most) - row[-1].centre(least, most) < label.half + row[-1].half + 6:
            label = row.pop().joined(label)
        row.append(label)
    return row


class Spots:
    """Places that are taken, as boxes: left, top, right, bottom."""

    NEIGHBOURS = 80  # as many boxes back can be near: they come in the order of time

    def __init__(self):
        self.boxes = []

    def claim(self, box):
        """Whether the box was free; it is taken from now on."""
        x1, y1, x2, y2 = box
        free = all(x2 < a or c < x1 or y2 < b or d < y1 for a, b, c, d in self.boxes[-self.NEIGHBOURS :])
        if free:
            self.boxes.append(box)
        return free
