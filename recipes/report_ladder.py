"""A ladder as SVG: the messages of a call between those that took part, and beside them the windows that the evidence tells of one element."""
import math
from typing import NamedTuple, Optional

from report_page import shown, tag

# The lengths of a ladder, in pixels: its left edge, a window's width, its top, and the breadth of a lane and of a row.
LEFT, WINDOW, TOP, LANE, ROW = 84, 17, 46, 250, 34
# How many windows and lanes a ladder has at most.
MOST_WINDOWS, MOST_LANES = 6, 5
# The letters by which the windows of a ladder are named.
LETTERS = "abcdef"
CHARACTER = 6.6  # about how wide a character is


class Arrow(NamedTuple):
    """A message between two lanes."""
    moment: int  # of the element's log, in milliseconds
    source: str
    target: str
    text: str
    link: str  # where the text of the message stands on the page
    kind: str  # how the arrow is drawn: own, other or bad
    is_refused: bool = False


class Window(NamedTuple):
    """A time in which something was allowed or due."""
    text: str
    first: int
    last: Optional[int]
    is_due: bool


class Axis:
    """Heights of moments: each arrow has a row of its own, a gap is drawn by its logarithm, and the edges of windows stand between the rows."""

    def __init__(self, arrows, edges):
        self.at, self.rows, y, before = {}, [0.0] * len(arrows), float(TOP), None
        floor = 0.0
        for moment in sorted({one.moment for one in arrows} | set(edges)):
            # A gap takes from 14 to 90 units, and each doubling of a long one takes 8 more.
            if before is not None:
                y += min(90, 14 + 8 * math.log2(1 + max(0, moment - before) / 4))
            # The arrows of one moment have rows below each other, none closer than ROW to the one above.
            own = [n for n, one in enumerate(arrows) if one.moment == moment]
            for place, n in enumerate(own):
                y = max(y, floor)
                self.rows[n], floor = y, y + ROW
                if not place:
                    self.at[moment] = y
            self.at.setdefault(moment, y)
            before = moment
        self.bottom = y + 30


class Ladder:
    """The picture of one trouble. `missed` tells a moment by which something was missing, and what; the ids on the page begin with `name`."""

    def __init__(self, name, lanes, element, arrows, windows, missed, about):
        self.name, self.lanes, self.element, self.arrows = name, lanes[:MOST_LANES], element, sorted(arrows, key=lambda one: one.moment)
        self.windows, self.missed, self.about, self.out = windows[:MOST_WINDOWS], missed, about, []
        edges = [moment for one in self.windows for moment in (one.first, one.last) if moment is not None]
        self.axis = Axis(self.arrows, edges + ([missed[0]] if missed else []))
        # The lanes stand to the right of all windows.
        begin = LEFT + WINDOW * len(self.windows) + 16
        self.x = {lane: begin + LANE * n for n, lane in enumerate(self.lanes)}
        self.width = begin + LANE * (len(self.lanes) - 1) + 150

    def draw(self, name, content="", **attributes):
        """Draws an element of SVG."""
        self.out.append(tag(name, content, **{key: "%.1f" % value if isinstance(value, float) else value for key, value in attributes.items()}))

    def text(self, x, y, content, most=0, **attributes):
        """Draws a text at this place, shortened where it is too long."""
        self.draw("text", shown(content, most), x=x, y=y, **attributes)

    def arrow(self, one, y):
        """Draws a message as an arrow from one lane to the other."""
        if one.source not in self.x or one.target not in self.x:
            return
        start, end = self.x[one.source], self.x[one.target]
        # The head of the arrow has this width, to the side from which the line comes. A refused message ends halfway.
        side = 9 if start < end else -9
        if one.is_refused:
            end = (start + end) / 2
            self.text(end + 6, y + 14, "refused", class_="badtext")
        # The classes of the style: of a line own, other or badline, and of a head ownhead, otherhead or badhead.
        head = "%sline" % one.kind if one.kind == "bad" else one.kind
        self.draw("line", x1=start, x2=end - side, y1=y, y2=y, class_=head)
        self.draw("polygon", points="%.1f,%.1f %.1f,%.1f %.1f,%.1f" % (end, y, end - side, y - 4.5, end - side, y + 4.5), class_=one.kind + "head")
        # The text stands above the line, and is cut to the length of the line.
        room = int((abs(end - start) - 16) / CHARACTER)
        label = tag("text", shown(one.text, max(12, room)), x="%.1f" % (min(start, end) + 8), y="%.1f" % (y - 5),
                    class_={"bad": "badtext", "other": "soft"}.get(one.kind, "plain"))
        self.out.append(tag("a", label, href="#" + one.link) if one.link else label)
        self.text(4, y + 4, "%d" % one.moment, class_="soft")

    def window(self, n, one):
        """Draws a window beside the axis: from when until when a message may or must be sent."""
        # A bar from the first moment to the last one; where it has none, to the bottom, with an arrow down.
        x, top = LEFT + WINDOW * n, self.axis.at[one.first]
        bottom = self.axis.at[one.last] if one.last is not None else self.axis.bottom - 4
        self.draw("rect", tag("title", shown(one.text)), x=x, y=top, width=WINDOW - 6, height=max(4.0, bottom - top), rx=2, class_="must" if one.is_due else "may")
        self.text(x + 1.5, top - 4, LETTERS[n], font_weight="700")
        if one.last is None:
            self.out.append(tag("text", "&#8595;", x=x + 1, y="%.1f" % (self.axis.bottom + 6), class_="soft"))
        # A moment of the window that no arrow has is written at the left, with a dotted line to the bar.
        shown_moments = {each.moment for each in self.arrows}
        for moment in (one.first, one.last):
            if moment is not None and moment not in shown_moments:
                self.text(4, self.axis.at[moment] + 4, "%d" % moment, class_="soft")
                self.draw("line", x1=44, x2=x, y1=self.axis.at[moment], y2=self.axis.at[moment], class_="dots")

    def cross(self):
        """The cross where something is missing that was due."""
        moment, text = self.missed
        x, y = self.x[self.element], self.axis.at[moment]
        for one, other in ((-6, 6), (6, -6)):
            self.draw("line", x1=x + one, x2=x + other, y1=y - 6, y2=y + 6, class_="cross")
        # Beside the last lane the words stand to its left, and else to the right.
        is_last = self.lanes[-1] == self.element and len(self.lanes) > 1
        for n, words in enumerate(("by %d never came:" % moment, text)):
            self.text(x - 12 if is_last else x + 12, y + 4 + 15 * n, words, 46, class_="badtext", text_anchor="end" if is_last else "start")

    def svg(self):
        """Draws the whole ladder."""
        # Each lane has its name and a line down; then come the windows, the arrows, and the cross for what is missing.
        for lane, x in self.x.items():
            self.text(x, 14, lane, 34, text_anchor="middle" if len(self.lanes) > 1 and x > self.x[self.lanes[0]] else "start", font_weight="700")
            if lane == self.element:
                self.text(x, 27, "the element", class_="soft", text_anchor="middle" if x > self.x[self.lanes[0]] else "start")
            self.draw("line", x1=x, x2=x, y1=32, y2=self.axis.bottom, class_="life")
        self.text(4, 14, "ms", class_="soft")
        for n, one in enumerate(self.windows):
            self.window(n, one)
        for one, y in zip(self.arrows, self.axis.rows):
            self.arrow(one, y)
        if self.missed:
            self.cross()
        title = tag("title", "Ladder", id=self.name + "-title") + tag("desc", shown(self.about), id=self.name + "-about")
        return tag("svg", title + "".join(self.out), viewBox="0 0 %.0f %.0f" % (self.width, self.axis.bottom + 12), width="%.0f" % self.width, role="group",
                   aria_labelledby="%s-title %s-about" % (self.name, self.name))
