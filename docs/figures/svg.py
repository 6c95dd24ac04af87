"""Drawings as SVG, with what the figures share: colours, boxes, arrows and axes. A drawing is the same text each time it is made."""
import math
from xml.sax.saxutils import escape

# the colours by what they say
INK, FAINT, RULE, PAPER = "#222222", "#666666", "#c8c8c8", "#ffffff"
PROVED, TESTED, TRUSTED, PANEL = "#cfe6d4", "#fbe9c0", "#f1f1f1", "#eff7f1"
EDGE, TESTED_EDGE, STRIPE = "#3f7d52", "#a57c1b", "#ecd28c"
OURS, OTHER, CEILING, ON_COLOUR = "#1f6f8b", "#d98e32", "#8a8a8a", "#fffffe"
OF_PROOF, OF_DEFINITIONS, MUCH, WRONG, GOOD = "#b9cfd6", "#e9a6ae", "#d1495b", "#c0392b", "#3d8c40"
# what a colour is on a dark page; the others are the same on both
DARK = {INK: "#e6e6e6", FAINT: "#a6a6a6", RULE: "#4a4a4a", PROVED: "#234a2f", TESTED: "#54431a", TRUSTED: "#2b2b2b", OURS: "#2f8fb0", OTHER: "#c98a3a",
        CEILING: "#9a9a9a", PAPER: "#15181c", EDGE: "#6fbf88", TESTED_EDGE: "#d8b24a", STRIPE: "#6e5a26", PANEL: "#1a2a20", OF_PROOF: "#37505a",
        OF_DEFINITIONS: "#7a3c46", MUCH: "#e0697a", WRONG: "#e8705f", GOOD: "#6bbf6e"}
FONT = "Helvetica, Arial, 'DejaVu Sans', sans-serif"


def number(value):
    """A coordinate in as few figures as it needs."""
    return f"{value:.1f}".rstrip("0").rstrip(".") or "0"


def attributes(**given):
    """Attributes of an element; a name's underscores are hyphens, and what is None is left out."""
    words = ((name.rstrip("_").replace("_", "-"), number(value) if isinstance(value, (int, float)) else value)
             for name, value in given.items() if value is not None)
    return "".join(f' {name}="{escape(value, {chr(34): "&quot;"})}"' for name, value in words)


class Drawing:
    """A picture of a width and a height, with a title and a description for those who cannot see it."""

    def __init__(self, width, height, title, description):
        self.width, self.height, self.parts = width, height, []
        self.head = f"<title>{escape(title)}</title>\n<desc>{escape(description)}</desc>\n"

    def add(self, name, text=None, **given):
        end = "/>" if text is None else f">{escape(text)}</{name}>"
        self.parts.append(f"<{name}{attributes(**given)}{end}")

    def rect(self, x, y, width, height, fill="none", stroke=None, dash=None, radius=0, **more):
        self.add("rect", x=x, y=y, width=width, height=height, fill=fill, stroke=stroke, stroke_dasharray=dash, rx=radius or None, **more)

    def line(self, x1, y1, x2, y2, stroke=INK, width=1, dash=None, arrow=False):
        self.add("line", x1=x1, y1=y1, x2=x2, y2=y2, stroke=stroke, stroke_width=width, stroke_dasharray=dash)
        if arrow:
            self.head_of_arrow(x1, y1, x2, y2, stroke)

    def head_of_arrow(self, x1, y1, x2, y2, fill):
        angle = math.atan2(y2 - y1, x2 - x1)
        corners = [(x2, y2)] + [(x2 - 9 * math.cos(angle + turn), y2 - 9 * math.sin(angle + turn)) for turn in (-0.4, 0.4)]
        self.add("polygon", points=" ".join(f"{number(x)},{number(y)}" for x, y in corners), fill=fill)

    def path(self, points, stroke=INK, width=1, dash=None, arrow=False):
        """Straight lines from point to point."""
        self.add("polyline", points=" ".join(f"{number(x)},{number(y)}" for x, y in points), fill="none", stroke=stroke, stroke_width=width,
                 stroke_dasharray=dash, stroke_linejoin="round")
        if arrow:
            self.head_of_arrow(*points[-2], *points[-1], stroke)

    def dot(self, x, y, radius=3, fill=INK):
        self.add("circle", cx=x, cy=y, r=radius, fill=fill)

    def text(self, x, y, text, size=13, anchor="start", fill=INK, weight=None, style=None, turn=None):
        self.add("text", text, x=x, y=y, font_size=size, text_anchor=None if anchor == "start" else anchor, fill=fill, font_weight=weight,
                 font_style=style, transform=f"rotate({turn} {number(x)} {number(y)})" if turn else None)

    def box(self, x, y, width, height, lines, kind, size=12):
        """A box of one of the kinds of trust, with its first line in bold and all in the middle."""
        styles = {"proved": (PROVED, EDGE, None), "tested": ("url(#hatch)", TESTED_EDGE, None), "trusted": (TRUSTED, CEILING, "5 4"),
                  "outside": (PAPER, INK, None)}
        fill, stroke, dash = styles[kind]
        self.rect(x, y, width, height, fill, stroke, dash, radius=5)
        top = y + height / 2 - (len(lines) - 1) * (size + 4) / 2 + size * 0.35
        for i, line in enumerate(lines):
            self.text(x + width / 2, top + i * (size + 4), line, size, "middle", weight=None if i else "bold")

    def notes(self, y, *lines, apart=17):
        """Small lines below a figure."""
        for i, line in enumerate(lines):
            self.text(20, y + apart * i, line, 11, fill=FAINT)

    def svg(self):
        """The text of the file."""
        hatch = ('<defs><pattern id="hatch" width="8" height="8" patternUnits="userSpaceOnUse" patternTransform="rotate(45)">'
                 f'<rect width="8" height="8" fill="{TESTED}"/><line x1="0" y1="0" x2="0" y2="8" stroke="{STRIPE}" stroke-width="3"/></pattern></defs>\n')
        begun = (f'<svg xmlns="http://www.w3.org/2000/svg" width="{self.width}" height="{self.height}" viewBox="0 0 {self.width} {self.height}" '
                 f'font-family="{FONT}" role="img">\n')
        return begun + self.head + self.style() + hatch + "\n".join(self.parts) + "\n</svg>\n"

    def style(self):
        """The style sheet: on a dark page each colour that the drawing uses has its other one."""
        used = [it for it in DARK if any(f'"{it}"' in part for part in self.parts) or it in (TESTED, STRIPE)]
        rules = "".join(f'[fill="{it}"]{{fill:{DARK[it]}}}[stroke="{it}"]{{stroke:{DARK[it]}}}' for it in used)
        return f"<style>@media (prefers-color-scheme: dark){{{rules}}}</style>\n"


def wide(text, size):
    """About how many units a line of text is wide, rather more than less."""
    return len(text) * size * 0.62


def short(value):
    """A number with k or M for thousands and millions."""
    for size, letter in ((1e6, " M"), (1e3, " k")):
        if value >= size:
            return f"{value / size:g}{letter}"
    return f"{value:g}"


def scale(least, most, begin, end, is_log=False):
    """The function from values to places between two ends."""
    turn = math.log10 if is_log else float
    low, high = turn(least), turn(most)
    return lambda value: begin + (turn(value) - low) / (high - low) * (end - begin)
