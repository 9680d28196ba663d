"""Histograms of slacks: how many endpoints have which slack."""
import dataclasses

from lizdrog_tools.reporting.drawing import Picture, round_step

WIDTH, HEIGHT, LEFT, RIGHT, TOP, BOTTOM = 620, 270, 52, 20, 62, 40
MOST_BINS = 12
LEAST_BAR = 2.0


def picoseconds(value: int) -> str:
    """A number of femtoseconds in picoseconds, with three decimals."""
    sign, value = "-" if value < 0 else "", abs(value)
    return f"{sign}{value // 1000}.{value % 1000:03d}"


def endpoints_text(values: list[int]) -> str:
    """How many endpoints these slacks are of, and whether all of them fail."""
    failing = "failing " if values and max(values) < 0 else ""
    return f"{len(values)} {failing}endpoint{'' if len(values) == 1 else 's'}"


def bins_of(values: list[int]) -> list[tuple[int, int, int]]:
    """Bins of one, two or five times a power of ten, some ten of them, with their counts; 0 is a border."""
    low, high = min(values), max(values)
    width = 1
    while (high - low) // width > MOST_BINS:
        width = width * 5 // 2 if str(width)[0] == "2" else width * 2
    first = low // width
    counts = [0] * (high // width - first + 1)
    for value in values:
        counts[value // width - first] += 1
    return [((first + i) * width, (first + i + 1) * width, count) for i, count in enumerate(counts)]


@dataclasses.dataclass(frozen=True)
class Axes:
    """Where slacks and counts are in a picture."""

    low: int
    high: int
    most: float
    top: float

    def x(self, slack: float) -> float:
        """The place of a slack."""
        return LEFT + (WIDTH - LEFT - RIGHT) * (slack - self.low) / (self.high - self.low)

    def y(self, count: float) -> float:
        """The place of a count."""
        return self.top + HEIGHT - BOTTOM - (HEIGHT - TOP - BOTTOM) * count / self.most


def edge_text(slack: int) -> str:
    """The label of an edge of a bin, in picoseconds, as short as it is exact."""
    return f"{slack / 1000:g}"


def draw_axes(picture: Picture, axes: Axes, edges: list[int]) -> None:
    """Draws the scale of counts, the edges of all bins, and the line at slack 0."""
    step = max(1, int(round_step(axes.most, 4)))
    for count in range(0, int(axes.most) + 1, step):
        picture.line(LEFT, axes.y(count), WIDTH - RIGHT, axes.y(count), "axis" if count == 0 else "grid")
        picture.text(LEFT - 6, axes.y(count) + 4, str(count), "soft", "end", 10)
    for edge in edges:
        picture.line(axes.x(edge), axes.y(0), axes.x(edge), axes.y(0) + 4, "axis")
        picture.text(axes.x(edge), axes.y(0) + 16, edge_text(edge), "soft", "middle", 10)
    if axes.low <= 0 <= axes.high:
        picture.line(axes.x(0), axes.top + TOP - 8, axes.x(0), axes.y(0), "zero")
    picture.text(WIDTH - RIGHT, axes.y(0) + 32, "slack in ps", "soft", "end", 10)
    picture.text(LEFT, axes.y(0) + 32, "endpoints (each picture has its own scale)", "soft", "start", 10)


def draw_histogram(picture: Picture, top: float, title: str, values: list[int]) -> None:
    """Draws one histogram with its top at a height of the picture; bins below 0 have the colour of failing ones."""
    bins = bins_of(values)
    axes = Axes(bins[0][0], bins[-1][1], max(count for _, _, count in bins), top)
    failing = [it for it in values if it < 0]
    picture.text(LEFT, top + 16, title, "ink", "start", 13)
    worst = f"worst {picoseconds(min(values))} ps, total negative {picoseconds(sum(failing))} ps"
    told = f"{worst}, {len(failing)} of {len(values)} fail"
    picture.text(LEFT, top + 33, told, "failing" if failing else "soft", "start", 11)
    draw_axes(picture, axes, [low for low, _, _ in bins] + [bins[-1][1]])
    for low, high, count in bins:
        if count:
            height = max(LEAST_BAR, axes.y(0) - axes.y(count))
            place, width = axes.x(low) + 1, axes.x(high) - axes.x(low) - 2
            said = f"{count} with {edge_text(low)} to {edge_text(high)} ps"
            picture.box(place, axes.y(0) - height, width, height, "failing" if high <= 0 else "met", said)
            picture.text(place + width / 2, axes.y(0) - height - 4, str(count), "ink", "middle", 10)


def histogram(title: str, values: list[int]) -> Picture:
    """One histogram as a picture."""
    picture = Picture(WIDTH, HEIGHT, title)
    draw_histogram(picture, 0, title, values)
    return picture


def histograms(number: int, slacks: dict[str, dict[str, int | None]]) -> Picture:
    """A histogram for each kind that has slacks, one below the other."""
    panels = {kind: [it for it in ends.values() if it is not None] for kind, ends in slacks.items()}
    panels = {kind: values for kind, values in panels.items() if values}
    picture = Picture(WIDTH, HEIGHT * max(1, len(panels)), f"slacks of endpoints, design {number}")
    for place, (kind, values) in enumerate(panels.items()):
        draw_histogram(picture, place * HEIGHT, f"{kind} slack of {endpoints_text(values)}, design {number}", values)
    return picture
