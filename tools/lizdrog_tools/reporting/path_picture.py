"""The picture of a path: above, its stages along the time axis; below, what its required time is made of."""
from lizdrog_tools.reporting.drawing import Picture, number, round_step
from lizdrog_tools.reporting.histogram import picoseconds
from lizdrog_tools.reporting.paths import Part, ShownPath, Stage

WIDTH, LEFT, RIGHT = 980, 74, 22
LANE, AXIS = 26, 250
ARRIVAL, REQUIRED = 62, 150
LABELLED = 3
# The height of a step of the required time, and the room that its words take.
STEP, ROOM = 12, 190


class Scale:
    """Where times are in a picture."""

    def __init__(self, low: int, high: int):
        margin = max(1, (high - low) // 40)
        self.low, self.high = low - margin, high + margin

    def x(self, time: float) -> float:
        """The place of a time."""
        return LEFT + (WIDTH - LEFT - RIGHT) * (time - self.low) / (self.high - self.low)


def scale_of(path: ShownPath) -> Scale:
    """A scale that holds all times of a path."""
    times = [0, path.start[2], path.required(), *(it.end for it in path.stages)]
    times += [time for part in path.parts for time in (part.start, part.end)]
    return Scale(min(times), max(times))


def draw_axis(picture: Picture, scale: Scale) -> None:
    """Draws the time axis in picoseconds."""
    step = int(max(1, round_step((scale.high - scale.low) / 1000, 12)) * 1000)
    picture.line(LEFT, AXIS, WIDTH - RIGHT, AXIS, "axis")
    for time in range(-(-scale.low // step) * step, scale.high + 1, step):
        picture.line(scale.x(time), 34, scale.x(time), AXIS, "grid")
        picture.text(scale.x(time), AXIS + 15, f"{time / 1000:g}", "soft", "middle", 10)
    picture.text(WIDTH - RIGHT, AXIS + 31, "ps since the launch edge", "soft", "end", 10)


def stage_title(stage: Stage) -> str:
    """What is said of a stage where a pointer rests."""
    cell = f" ({stage.cell})" if stage.cell else ""
    times = f"{picoseconds(stage.delay())} ps, at {picoseconds(stage.end)} ps"
    return f"{stage.pin} {stage.edge}{cell}: {stage.sort()}, {times}"


def draw_stages(picture: Picture, scale: Scale, path: ShownPath) -> None:
    """Draws the stages in a lane, with the names of the slowest."""
    picture.text(LEFT - 8, ARRIVAL + 17, "arrival", "ink", "end")
    if path.start[2] > 0:
        said = f"{path.start[0]} {path.start[1]}: input delay, {picoseconds(path.start[2])} ps"
        picture.box(scale.x(0), ARRIVAL, scale.x(path.start[2]) - scale.x(0), LANE, "early", said)
        picture.text(scale.x(0), ARRIVAL + LANE + 13, "input delay", "soft", "start", 10)
    for stage in path.stages:
        classes = ("cell" if stage.is_cell else "wire") + (" network" if stage.is_network else "")
        gap = 0.6 if stage.is_cell else 0
        width = max(scale.x(stage.end) - scale.x(stage.start) - gap, 0.6)
        picture.box(scale.x(stage.start), ARRIVAL, width, LANE, classes, stage_title(stage))
    draw_names(picture, scale, path)
    network = [it for it in path.stages if it.is_network]
    if network:
        middle = (scale.x(network[0].start) + scale.x(network[-1].end)) / 2
        picture.text(middle, ARRIVAL + LANE + 13, "launch clock", "soft", "middle", 10)


def draw_names(picture: Picture, scale: Scale, path: ShownPath) -> None:
    """Draws the names of the slowest stages, over the lines that lead to them."""
    slowest = sorted((it for it in path.stages if not it.is_network), key=Stage.delay, reverse=True)[:LABELLED]
    places = [
        (stage, (scale.x(stage.start) + scale.x(stage.end)) / 2, ARRIVAL - 5 - 12 * place)
        for place, stage in enumerate(sorted(slowest, key=lambda it: it.start))
    ]
    for _, middle, top in places:
        picture.line(middle, top, middle, ARRIVAL, "axis")
    for stage, middle, top in places:
        name = stage.pin.rpartition(":")[0] or stage.pin
        anchor = "end" if middle > WIDTH - 160 else "start" if middle < LEFT + 120 else "middle"
        picture.text(middle, top - 2, f"{name} {picoseconds(stage.delay())}", "ink", anchor, 10)


def draw_parts(picture: Picture, scale: Scale, parts: list[Part]) -> None:
    """Draws the parts of the required time in steps, each at a height of its own."""
    picture.text(LEFT - 8, REQUIRED + 10, "required", "ink", "end")
    for place, part in enumerate(parts):
        left, right = (scale.x(it) for it in sorted((part.start, part.end)))
        top = REQUIRED + place * (STEP + 3)
        said = f"{part.name}: {picoseconds(part.end - part.start)} ps"
        picture.box(left, top, max(right - left, 1.5), STEP, part.sort, said)
        if right - left > ROOM:
            picture.text((left + right) / 2, top + 10, said, "ink", "middle", 10)
        elif right > WIDTH - ROOM - RIGHT:
            picture.text(left - 5, top + 10, said, "ink", "end", 10)
        else:
            picture.text(right + 5, top + 10, said, "ink", "start", 10)


def draw_slack(picture: Picture, scale: Scale, path: ShownPath) -> None:
    """Draws the ends of both lanes and the slack between them."""
    classes = "broken" if path.slack < 0 else "mark"
    ends = sorted((path.arrival(), path.required()))
    picture.line(scale.x(path.arrival()), ARRIVAL - 3, scale.x(path.arrival()), 118, "mark")
    picture.line(scale.x(path.required()), 104, scale.x(path.required()), AXIS, classes)
    picture.box(
        scale.x(ends[0]),
        107,
        max(scale.x(ends[1]) - scale.x(ends[0]), 1.5),
        8,
        "failing" if path.slack < 0 else "credit",
    )
    words = f"slack {picoseconds(path.slack)} ps"
    at_end = scale.x(ends[1]) < WIDTH - 150
    picture.text(
        scale.x(ends[1]) + 6 if at_end else scale.x(ends[0]) - 6,
        115,
        words,
        "failing" if path.slack < 0 else "ink",
        "start" if at_end else "end",
        12,
    )
    required = f"required {picoseconds(path.required())}"
    arrival = f"arrival {picoseconds(path.arrival())}"
    picture.text(LEFT, 12, f"{arrival} ps, {required} ps", "soft", "start", 11)


def path_picture(path: ShownPath) -> Picture:
    """The picture of a path."""
    picture = Picture(WIDTH, AXIS + 38, f"{path.kind} path to {path.pin}, slack {picoseconds(path.slack)} ps")
    scale = scale_of(path)
    draw_axis(picture, scale)
    draw_stages(picture, scale, path)
    draw_slack(picture, scale, path)
    draw_parts(picture, scale, path.parts)
    return picture


def bar(path: ShownPath, stage: Stage) -> str:
    """The place and the width of a stage's bar in a column of the table, in percent of the path's time."""
    start, end = path.start[2], max(path.arrival(), path.start[2] + 1)
    left = 100 * (stage.start - start) / (end - start)
    return f"left:{number(left)}%;width:{max(0.5, 100 * stage.delay() / (end - start)):.2f}%"
