"""What answers to questions for closing timing say: how many lines belong to each, as lines for people, and as data. An
answer is its sort, its words and the words of the lines below it. closing_tables.py has them as tables."""
import re
from collections.abc import Callable, Iterator

Lines = list[list[str]]
# Tells the cell of a pin, or that it is a port of this direction; none where no design is known.
Cells = Callable[[str, str], str] | None
# How many of an answer's words, counted from the end, say how many lines belong to it.
COUNTS = {"net": (3, 1), "instance": (1,), "sizes": (1,), "timing": (5, 3, 1), "failing": (1,)}
SORTS = {*COUNTS, "summary", "skew", "resizes", "worst_paths"}
OF_LINES = {"report_timing_through": "timing", "advise_tns": "resizes", "advise_sizes": "resizes"}
PARTS = {
    "capture_edge": "from the launch edge to the capture edge", "capture_arrival": "the capture clock's arrival",
    "setup_time": "setup time", "hold_time": "hold time", "output_delay": "output delay", "uncertainty": "uncertainty",
    "credit": "credit", "required": "required", "arrival": "arrival", "slack": "slack",
}


T = r"(?:none|-?[0-9]+\.[0-9]{3})"
TOTALS = rf"setup {T} {T} hold {T} {T}"
WIRES = rf"(?:none|lumped|tree nodes [0-9]+ resistance {T})"
# What stands behind the sort of an answer, and in each line below it.
FORMS = {
    "net": (rf"\S+ driver \S+ load {T} {T} parasitics {WIRES} sinks [0-9]+ edits 1",
            rf"\S+ {T} {T} {T} {T}|set_parasitics \S+ .+"),
    "instance": (r"\S+ \S+ pins [0-9]+", r"\S+ (?:input|output) (?:net \S+|tied|open)"),
    "sizes": (r"\S+ \S+ cells [0-9]+", rf"\S+ (?:alike|other) inputs [0-9]+(?: \S+ {T})*"),
    "timing": (rf"none|\S+ \S+ slack {T} credit {T} from \S+ \S+ to \S+ \S+ nodes [0-9]+ capture [0-9]+ parts [0-9]+",
               rf"\S+ (?:rise|fall) {T} {T} {T}(?: net \S+ {T} [0-9]+)?|[a-z_]+(?: \S+ \S+)? {T}"),
    "failing": ("[0-9]+ listed [0-9]+", rf"\S+ {T}"),
    "summary": (r"\S+ clocks [0-9]+ untested [0-9]+", rf"\S+ tested [0-9]+ failing [0-9]+ worst {T} total {T}"),
    "skew": ("[0-9]+", rf"\S+ \S+ {T} late \S+ \S+ {T} early \S+ \S+ {T}"),
    "resizes": (rf"[0-9]+ tried [0-9]+ refused [0-9]+ {TOTALS}", rf"\S+ \S+ {TOTALS}"),
    "worst_paths": ("[0-9]+", rf"path \S+ \S+ slack {T} .+ nodes [0-9]+|\S+ (?:rise|fall) {T}"),
}


def check(sort: str, words: list[str], below: Lines) -> None:
    """A ValueError where an answer is not as the program writes it."""
    head, line = FORMS.get(sort, (".*", ".*"))
    if not re.fullmatch(head, " ".join(words)) or not all(re.fullmatch(line, " ".join(it)) for it in below):
        raise ValueError(f"the words of an answer, {sort}")


def lines_below(answer: list[str]) -> int:
    """How many lines belong to an answer other than paths."""
    sort = answer[0]
    if sort in ("skew", "resizes"):
        return int(answer[1])
    if sort == "summary":
        return int(answer[3])
    return 0 if answer == ["timing", "none"] else sum(int(answer[-it]) for it in COUNTS.get(sort, ()))


def is_asked(question: list[str], sort: str, words: list[str]) -> bool:
    """Whether an answer of a sort names what a question of that sort asks for."""
    if sort in ("net", "instance", "sizes", "summary"):
        return words[:1] == question[1:2]
    return sort != "timing" or words == ["none"] or words[:2] == [question[2], question[1]]


def counted(number: str, what: str) -> str:
    return f"{number} {what}{'' if number == '1' else 's'}"


# ------------------------------------------------------------------------------------------------ the parts of answers

def net_head(words: list[str]) -> dict:
    """What the first line about a net says."""
    tree = words[8:12] if words[7] == "tree" else [None] * 4
    return {"net": words[0], "driver": None if words[2] == "none" else words[2],
            "load": {"early": words[4], "late": words[5]}, "parasitics": words[7],
            "nodes": tree[1] and int(tree[1]), "resistance": tree[3], "sinks": int(words[-3])}


def totals(words: list[str]) -> dict[str, dict[str, str | None]]:
    """Worst and total slacks of both kinds: setup WNS TNS hold WNS TNS."""
    return {words[at]: {"wns": None if words[at + 1] == "none" else words[at + 1], "tns": words[at + 2]}
            for at in (0, 3)}


def totals_text(words: list[str]) -> str:
    return "; ".join(f"{kind} worst {it['wns'] or 'none'}, total {it['tns']}" for kind, it in totals(words).items())


def stage(words: list[str], cell: str | None) -> dict[str, str | int | None]:
    """A line of a path: pin, its cell where it is known, edge, time, delay and slew, and where the pin drives a net
    that net."""
    drives = words[5:6] == ["net"]
    return {"pin": words[0], **({"cell": cell} if cell else {}), "edge": words[1], "time": words[2],
            "delay": None if words[3] == "none" else words[3], "slew": words[4], "net": words[6] if drives else None,
            "load": words[7] if drives else None, "fanout": int(words[8]) if drives else None}


def path_of(lines: Lines, cells: Cells) -> list[dict]:
    """The lines of a path; it begins at an input port and may end at an output port."""
    ways = ["input", *["output"] * len(lines)]
    return [stage(line, cells and cells(line[0], way)) for line, way in zip(lines, ways)]


def stages(words: list[str], below: Lines, cells: Cells = None) -> tuple[list[dict], list[dict], Lines]:
    """The nodes of a path, those of its capture clock, and the parts of its slack."""
    nodes, captured = int(words[-5]), int(words[-3])
    end = nodes + captured
    return path_of(below[:nodes], cells), path_of(below[nodes:end], cells), below[end:]


def skew_edge(line: list[str]) -> dict:
    late, early = line[4:7], line[8:11]
    return {"clock": line[0], "edge": line[1], "skew": line[2],
            **{name: dict(zip(("pin", "edge", "time"), it)) for name, it in (("late", late), ("early", early))}}


def pin_of_instance(line: list[str]) -> dict[str, str | None]:
    return {"pin": line[0], "direction": line[1], "on": line[2], "net": line[3] if line[2] == "net" else None}


# ------------------------------------------------------------------------------------------------ lines for people

def text(sort: str, words: list[str]) -> str:
    """An answer, in a line."""
    if sort == "net":
        it = net_head(words)
        driver = f"driven by {it['driver']}" if it["driver"] else "without a driver"
        wires = {"none": "no parasitics", "lumped": "lumped parasitics",
                 "tree": f"a tree of {it['nodes']} nodes and {it['resistance']} ohm"}[it["parasitics"]]
        load = "" if len(set(it["load"].values())) == 1 else f" early, {it['load']['late']} fF late"
        return f"{driver}, load {it['load']['early']} fF{load}, {wires}, {counted(words[-3], 'sink')}"
    if sort == "instance":
        return f"{words[1]}, {counted(words[3], 'pin')}"
    if sort == "sizes":
        return f"{words[1]}, may be {counted(words[3], 'cell')}"
    if sort == "timing":
        return ("no tested path" if words[0] == "none" else
                f"slack {words[3]} ps, credit {words[5]} ps, from {words[7]} {words[8]} to {words[10]} {words[11]}")
    if sort == "failing":
        listed = "" if words[0] == words[2] else f", of which {words[2]} are listed"
        return f"{counted(words[0], 'endpoint')} of negative slack{listed}"
    if sort == "summary":
        return f"{counted(words[2], 'clock')}, {counted(words[4], 'endpoint')} without a tested path"
    if sort == "skew":
        return counted(words[0], "launch edge")
    helping = {"0": "none helps", "1": "the best that helps"}
    better = helping.get(words[0], f"the best {words[0]} that help")
    return f"{words[2]} tried, {words[4]} refused, {better}; now {totals_text(words[5:])} ps"


def stage_row(it: dict) -> list[str]:
    """What a path's table has of a node."""
    drives = [it["net"], it["load"], str(it["fanout"])] if it["net"] else ["", "", ""]
    cell = [it["cell"]] if "cell" in it else []
    return [it["time"], it["delay"] or "", it["slew"], it["edge"], it["pin"], *cell, *drives]


def stage_lines(lines: list[dict]) -> Iterator[str]:
    """The table of a path: numbers stand at the right of their columns, names at the left."""
    cell = ["cell"] if "cell" in lines[0] else []
    rows = [["arrival", "delay", "slew", "edge", "pin", *cell, "net", "load/fF", "fan-out"], *map(stage_row, lines)]
    least = [11, 10, 10]
    widths = [max(map(len, column)) for column in zip(*rows)]
    widths[:3] = map(max, widths, least)
    numbers = {0, 1, 2, len(widths) - 2, len(widths) - 1}
    for row in rows:
        cells = (it.rjust(width) if at in numbers else it.ljust(width)
                 for at, (it, width) in enumerate(zip(row, widths)))
        yield f"  {'  '.join(cells)}".rstrip()


def timing_lines(words: list[str], below: Lines, cells: Cells) -> Iterator[str]:
    """A path, its capture clock's, and the sum of its slack."""
    nodes, captured, parts = stages(words, below, cells)
    yield from stage_lines(nodes)
    if captured:
        yield "  the capture clock, since the capture edge"
        yield from stage_lines(captured)
    for name, *between, value in parts:
        of = f", {' '.join(between)}" if between else ""
        yield f"  {value:>11}  {PARTS.get(name, name)}{of}"


def lines_of(sort: str, words: list[str], below: Lines, cells: Cells = None) -> Iterator[str]:
    """What is below the line of an answer."""
    if sort == "timing":
        yield from timing_lines(words, below, cells) if below else ()
    elif sort == "net":
        for pin, early, late, *wire in below[:-1]:
            delay = "" if wire[0] == "none" else f", wire {wire[0]} ps early, {wire[1]} ps late"
            yield f"  {pin}: {early} fF early, {late} fF late{delay}"
        yield f"  {' '.join(below[-1])}"
    elif sort == "failing":
        width = max((len(slack) for _, slack in below), default=0)
        yield from (f"  {slack:>{width}} ps  {pin}" for pin, slack in below)
    elif sort == "summary":
        for clock, _, tested, _, failing, _, worst, _, total in below:
            yield f"  {clock}: {tested} tested, {failing} failing, worst {worst}, total {total} ps"
    elif sort == "skew":
        for it in map(skew_edge, below):
            late, early = (f"{it[name]['pin']} {it[name]['edge']} {it[name]['time']}" for name in ("late", "early"))
            yield f"  {it['clock']} {it['edge']}: {it['skew']} ps, late {late}, early {early}"
    elif sort == "resizes":
        yield from (f"  {inst} to {cell}: {totals_text(more)} ps" for inst, cell, *more in below)
    else:
        yield from (f"  {' '.join(line)}" for line in below)


# ------------------------------------------------------------------------------------------------ rows for programs

def value(sort: str, words: list[str], below: Lines, cells: Cells = None) -> dict:
    """An answer as data; times, capacitances and resistances are texts."""
    if sort == "net":
        sinks = [{"pin": pin, "capacitance": {"early": early, "late": late},
                  "delay": None if wire[0] == "none" else {"early": wire[0], "late": wire[1]}}
                 for pin, early, late, *wire in below[:-1]]
        return {**net_head(words), "sinks": sinks, "edit": " ".join(below[-1])}
    if sort == "instance":
        return {"instance": words[0], "cell": words[1], "pins": [pin_of_instance(it) for it in below]}
    if sort == "sizes":
        cells = [{"cell": cell, "alike": way == "alike", "inputs": dict(zip(caps[::2], caps[1::2]))}
                 for cell, way, _, _, *caps in below]
        return {"instance": words[0], "cell": words[1], "cells": cells}
    if sort == "timing":
        if words[0] == "none":
            return {"path": None}
        nodes, captured, parts = stages(words, below, cells)
        return {"slack": words[3], "credit": words[5], "launch": words[7:9], "capture": words[10:12], "path": nodes,
                "capture_path": captured, "parts": {name: more[-1] for name, *more in parts}}
    if sort == "failing":
        return {"failing": int(words[0]), "endpoints": [{"pin": pin, "slack": slack} for pin, slack in below]}
    if sort == "summary":
        clocks = [{"clock": clock, "tested": int(tested), "failing": int(failing),
                   "worst": None if worst == "none" else worst, "total": total}
                  for clock, _, tested, _, failing, _, worst, _, total in below]
        return {"clocks": clocks, "untested": int(words[4])}
    if sort == "skew":
        return {"edges": [skew_edge(it) for it in below]}
    found = [{"instance": inst, "cell": cell, **totals(more)} for inst, cell, *more in below]
    return {"tried": int(words[2]), "refused": int(words[4]), "now": totals(words[5:]), "resizes": found}
