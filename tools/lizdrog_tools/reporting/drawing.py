"""Writes pictures (SVG) part by part; colours are classes, so that a page or a style of the picture says them."""
import html

# The classes of all pictures, for light and for dark, by the names of the page's colours.
STYLE = """
svg text { paint-order: stroke; stroke: var(--paper, #ffffff); stroke-width: 2.5px; stroke-linejoin: round; }
.paper { fill: var(--paper, #ffffff); }
.ink { fill: var(--ink, #1c2330); }
.soft { fill: var(--soft, #5b6675); }
.grid { stroke: var(--grid, #d9dee6); }
.axis { stroke: var(--soft, #5b6675); }
.zero { stroke: var(--ink, #1c2330); stroke-dasharray: 4 3; }
.met { fill: var(--met, #2f6db3); }
.failing { fill: var(--failing, #c0392b); }
.cell { fill: var(--cell, #2f6db3); }
.wire { fill: var(--wire, #d98a17); }
.early { fill: var(--early, #7a8798); }
.margin { fill: var(--margin, #8e5ea2); }
.credit { fill: var(--credit, #2e8b57); }
.network { opacity: 0.5; }
.mark { stroke: var(--ink, #1c2330); stroke-width: 1.5; }
.broken { stroke: var(--failing, #c0392b); stroke-width: 1.5; }
"""
DARK = """
svg { --paper: #12161d; --ink: #e8edf4; --soft: #9aa6b5; --grid: #2b3440; --met: #6aa9ec; --failing: #ff7b6b;
 --cell: #6aa9ec; --wire: #f0b04e; --early: #8b98a9; --margin: #c49bd8; --credit: #66c493; }
"""


def number(value: float) -> str:
    """A coordinate with one decimal at most."""
    return f"{value:.1f}".removesuffix(".0")


class Picture:
    """A picture of a width and a height, to which parts are added."""

    def __init__(self, width: float, height: float, label: str):
        self.width, self.height, self.label, self.parts = width, height, label, []

    def box(self, x: float, y: float, width: float, height: float, classes: str, title: str = "") -> None:
        """A filled box; the title shows where a pointer rests on it."""
        told = f"<title>{html.escape(title)}</title>" if title else ""
        shape = f'x="{number(x)}" y="{number(y)}" width="{number(max(width, 0))}" height="{number(max(height, 0))}"'
        self.parts.append(f'<rect class="{classes}" {shape}>{told}</rect>')

    def line(self, x1: float, y1: float, x2: float, y2: float, classes: str) -> None:
        """A straight line."""
        ends = f'x1="{number(x1)}" y1="{number(y1)}" x2="{number(x2)}" y2="{number(y2)}"'
        self.parts.append(f'<line class="{classes}" {ends}/>')

    def text(
        self, x: float, y: float, words: str, classes: str = "ink", anchor: str = "start", size: float = 11
    ) -> None:
        """A line of text that begins, ends or has its middle at a place."""
        place = f'x="{number(x)}" y="{number(y)}" text-anchor="{anchor}" font-size="{number(size)}"'
        self.parts.append(f'<text class="{classes}" {place}>{html.escape(words)}</text>')

    def view(self) -> str:
        """The attributes of a picture that tell its scale and what it is of."""
        scale = f"0 0 {number(self.width)} {number(self.height)}"
        return f'viewBox="{scale}" role="img" aria-label="{html.escape(self.label)}"'

    def inline(self) -> str:
        """The picture as a part of a page, which has the style."""
        return f'<svg xmlns="http://www.w3.org/2000/svg" {self.view()}>\n' + "\n".join(self.parts) + "\n</svg>"

    def file(self) -> str:
        """The picture as a file of its own."""
        size = f'width="{number(self.width)}" height="{number(self.height)}"'
        style = f"<style>{STYLE}@media (prefers-color-scheme: dark) {{{DARK}}}</style>"
        paper = f'<rect class="paper" width="{number(self.width)}" height="{number(self.height)}"/>'
        head = f'<svg xmlns="http://www.w3.org/2000/svg" {size} {self.view()} font-family="sans-serif">'
        return "\n".join([head, style, paper, *self.parts, "</svg>"]) + "\n"


def round_step(span: float, most: int) -> float:
    """A step of one, two or five times a power of ten that cuts a span into so many parts at most."""
    step = 1.0
    while span / step > most:
        step *= 10
    while span / step < most / 10:
        step /= 10
    for factor in (5, 2):
        if span / (step / factor) <= most:
            return step / factor
    return step
