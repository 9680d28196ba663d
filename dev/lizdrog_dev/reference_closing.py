"""Answers the questions for closing timing for the plain timer of reference_timer.py, written from the page of these
questions and not from the program: nets, instances and their sizes, paths stage by stage, the worst paths and failing
endpoints of a design, its clocks, and the resizes that help most.

A path is what the timer makes of it: its slack, its nodes by their keys, the key of the clock pin of its test, its
credit, and its launch and capture edges.
"""
from collections.abc import Callable, Iterator
from typing import Any

from lizdrog_dev.reference_documents import Cell, ps
from lizdrog_dev.reference_edits import FALL, RISE, Refused, direction, shape, usable

MOST_LISTED, MOST_LINES, MOST_INSTANCES, MOST_SIZES = 10000, 5, 20, 200
SPLITS = {'setup': ('late', 'early'), 'hold': ('early', 'late')}
# The analysis of a design, and what gives that of an edited one or refuses it.
Timing = Any
Tried = Callable[[Timing, list], Timing]


class NoAnswer(Exception):
    """A question has no answer; the arguments are the code and the name."""


def need(holds: bool, code: str, name: str) -> None:
    if not holds:
        raise NoAnswer(code, name)


def by_name(names: Any) -> list[str]:
    return sorted(names, key=str.encode)


def key(node: tuple[str, str]) -> tuple[bytes, int]:
    """What orders nodes: the bytes of the pin's name, then rise before fall."""
    return node[0].encode(), (RISE, FALL).index(node[1])


def both(value: Callable[[str], int]) -> str:
    """A value early and late."""
    return f'{ps(value("early"))} {ps(value("late"))}'


# ---------------------------------------------------------------- nets and instances

def is_sink(t: Timing, pin: str) -> bool:
    """Whether a pin on a net is an input pin of an instance or an output port."""
    if pin in t.d.ports:
        return t.d.ports[pin] == 'output'
    inst, own = pin.rsplit(':', 1)
    return direction(t.d.lib['late'][t.d.insts[inst][0]], own) == 'input'


def sinks_of(t: Timing, net: str) -> list[str]:
    return by_name(it for it in t.netpins[net] if is_sink(t, it))


def load(t: Timing, net: str, split: str) -> int:
    driver = t.driver.get(net)
    return t.load[driver, split] if driver else sum(t.cap_of(it, split) for it in sinks_of(t, net))


def parasitics_edit(t: Timing, net: str) -> str:
    """The edit that gives a net the parasitics that it has: capacitances before resistors, each in their order."""
    rc = t.d.rcs.get(net)
    if rc is None:
        return f'set_parasitics {net} none'
    def word(node: tuple[str, Any]) -> str:
        return node[1] if node[0] == 'p' else f'#{node[1]}'
    items = [f'c {word(node)} {value}' for node, value in rc['caps']]
    resistors = [f'r {word(a)} {word(b)} {value}' for a, b, value in rc['ress']]
    if rc['lump'] or not items + resistors:
        items.append(f'c {t.driver[net]} {rc["lump"]}')
    return ' '.join([f'set_parasitics {net}', *items, *resistors])


def report_net(t: Timing, net: str) -> list[str]:
    need(net in t.d.nets, 'Q4', net)
    rc, driver, sinks = t.d.rcs.get(net), t.driver.get(net), sinks_of(t, net)
    sort = 'none' if rc is None else 'lumped'
    if rc and rc['ress']:
        nodes = {node for a, b, _ in rc['ress'] for node in (a, b)}
        sort = f'tree nodes {len(nodes)} resistance {ps(sum(it[2] for it in rc["ress"]))}'
    lines = [f'net {net} driver {driver or "none"} load {both(lambda split: load(t, net, split))} parasitics {sort}'
             f' sinks {len(sinks)} edits 1']
    for pin in sinks:
        wire = both(lambda split, pin=pin: t.wire[pin, split][0]) if driver else 'none none'
        lines.append(f'{pin} {both(lambda split, pin=pin: t.cap_of(pin, split))} {wire}')
    return [*lines, parasitics_edit(t, net)]


def report_instance(t: Timing, inst: str) -> list[str]:
    need(inst in t.d.insts, 'Q4', inst)
    cell, joined = t.d.insts[inst]
    pins = t.d.lib['late'][cell].pins
    lines = [f'instance {inst} {cell} pins {len(pins)}']
    for pin in by_name(pins):
        on = f'net {joined[pin]}' if joined.get(pin) is not None else 'tied' if pin in joined else 'open'
        lines.append(f'{inst}:{pin} {pins[pin][0]} {on}')
    return lines


def sizes(t: Timing, inst: str) -> Iterator[tuple[str, Cell, bool]]:
    """The cells that an instance may become by their names, and whether each is alike."""
    name, joined = t.d.insts[inst]
    now = t.d.lib['late'][name]
    for other in by_name(t.d.lib['late']):
        cell = usable(t.d, other)
        if cell and all(direction(cell, pin) == direction(now, pin) for pin in joined):
            yield other, cell, shape(cell) == shape(now)


def report_sizes(t: Timing, inst: str) -> list[str]:
    need(inst in t.d.insts, 'Q4', inst)
    lines = []
    for name, cell, is_alike in sizes(t, inst):
        inputs = by_name(pin for pin, (way, _) in cell.pins.items() if way == 'input')
        caps = ''.join(f' {pin} {ps(cell.pins[pin][1])}' for pin in inputs)
        lines.append(f'{name} {"alike" if is_alike else "other"} inputs {len(inputs)}{caps}')
    return [f'sizes {inst} {t.d.insts[inst][0]} cells {len(lines)}', *lines]


# ---------------------------------------------------------------- a path, stage by stage

def stages(t: Timing, nodes: list, split: str, begin: int) -> list[str]:
    """The nodes of a path with their times, delays and slews, and the nets that they drive."""
    lines, time = [], begin
    for at, node in enumerate(nodes):
        delay = t.delay[split][nodes[at - 1], node] if at else None
        time += delay or 0
        line = f'{node[0]} {node[1]} {ps(time)} {ps(delay)} {ps(t.slew[split][node])}'
        net = t.pin_net(node[0])
        if net is not None and not is_sink(t, node[0]):
            line += f' net {net} {ps(load(t, net, split))} {len(sinks_of(t, net))}'
        lines.append(line)
    return lines


def nodes_of(path: tuple) -> list[tuple[str, str]]:
    return [(name.decode(), (RISE, FALL)[edge]) for name, edge in path[1]]


def timing_lines(t: Timing, pin: str, kind: str, path: tuple | None) -> list[str]:
    """What is told of a path, which may be none."""
    if path is None:
        return ['timing none']
    slack, _, clock, credit, launch, capture = path
    nodes, (data, other) = nodes_of(path), SPLITS[kind]
    test = next(it for it in t.tests(nodes[-1], kind)
                if (key(it['clockpin']) if it['clockpin'] else ()) == clock and it['edge'] == capture)
    begin = t.at[data][nodes[0]][launch]
    arrival = begin + sum(t.delay[data][step] for step in zip(nodes, nodes[1:]))
    launch_pin = [it[0] for at, it in enumerate(nodes) if at == 0 or it[0] in t.network][-1]
    edge = t.moved(launch_pin, launch, pin, capture, kind)
    sign, uncertainty = 1 if kind == 'setup' else -1, t.d.con.clocks[capture[0]][kind]
    name = f'{kind}_time' if test['clockpin'] else 'output_delay'
    parts = [('capture_arrival', test['arrival']), (name, -sign * test['need']), ('uncertainty', -sign * uncertainty),
             ('credit', sign * credit)]
    required = edge + sum(value for _, value in parts)
    assert slack == sign * (required - arrival), (pin, kind, slack, required, arrival)
    captured = stages(t, t.walk(test['clockpin']), other, 0) if test['clockpin'] else []
    return [
        f'timing {kind} {pin} slack {ps(slack)} credit {ps(credit)} from {" ".join(launch)} to {" ".join(capture)}'
        f' nodes {len(nodes)} capture {len(captured)} parts 8',
        *stages(t, nodes, data, begin), *captured, f'capture_edge {" ".join(capture)} {ps(edge)}',
        *(f'{name} {ps(value)}' for name, value in parts),
        f'required {ps(required)}', f'arrival {ps(arrival)}', f'slack {ps(slack)}',
    ]


def report_timing(t: Timing, pin: str, kind: str) -> list[str]:
    fault = t.fault(pin, kind)
    return [fault] if fault else timing_lines(t, pin, kind, t.worst(pin, kind, True))


def report_timing_through(t: Timing, pin: str, kind: str, *pins: str) -> list[str]:
    fault = t.fault(pin, kind, pins)
    return [fault] if fault else timing_lines(t, pin, kind, next(iter(t.worst_paths(pin, kind, 1, list(pins))), None))


# ---------------------------------------------------------------- the whole design

def report_worst_paths(t: Timing, kind: str, count: str, *each: str) -> list[str]:
    """The worst paths over all endpoints; those whose least slack is above that of so many others have none of them."""
    most, slacks = int(each[1]) if each else 1, t.slacks(kind)
    limit = sorted(slacks.values())[:int(count)][-1:]
    found = []
    for pin in (it for it, slack in slacks.items() if slack <= limit[0]):
        paths = t.worst_paths(pin, kind, most) if most > 1 else [t.worst(pin, kind, True)]
        found += [(path[:2], pin, path) for path in paths]
    found = sorted(found, key=lambda it: it[0])[:int(count)]
    return [f'worst_paths {len(found)}', *(t.path_lines(pin, kind, *path) for _, pin, path in found)]


def report_failing(t: Timing, kind: str) -> list[str]:
    failing = sorted((slack, pin.encode()) for pin, slack in t.slacks(kind).items() if slack < 0)
    lines = [f'{pin.decode()} {ps(slack)}' for slack, pin in failing[:MOST_LISTED]]
    return [f'failing {len(failing)} listed {len(lines)}', *lines]


def report_summary(t: Timing, kind: str) -> list[str]:
    slacks: dict[str, list[int]] = {clock: [] for clock in t.d.con.clocks}
    untested = 0
    for pin in t.endpoints():
        path = t.worst(pin, kind, True)
        if path is None:
            untested += 1
        else:
            slacks[path[5][0]].append(path[0])
    lines = [f'summary {kind} clocks {len(slacks)} untested {untested}']
    for clock, found in slacks.items():
        failing = [it for it in found if it < 0]
        lines.append(f'{clock} tested {len(found)} failing {len(failing)} worst {ps(min(found, default=None))}'
                     f' total {ps(sum(failing))}')
    return lines


def clock_pins(t: Timing) -> set[str]:
    """The clock pins of registers that the clock network has."""
    found = set()
    for inst, (name, _) in t.d.insts.items():
        cell = t.d.lib['late'][name]
        own = {arc[0] for arc in cell.arcs if arc[4] == 'edge'} | {test[2] for test in cell.tests}
        found |= {f'{inst}:{pin}' for pin in own}
    return found & t.network


def report_skew(t: Timing) -> list[str]:
    nodes = [(pin, edge) for pin in clock_pins(t) for edge in (RISE, FALL)]
    lines = []
    for launch in ((clock, edge) for clock in t.d.con.clocks for edge in (RISE, FALL)):
        late, early = ([(t.at[split][it][launch], it) for it in nodes if launch in t.at[split].get(it, {})]
                       for split in ('late', 'early'))
        if late:
            last = min(late, key=lambda it: (-it[0], key(it[1])))
            first = min(early, key=lambda it: (it[0], key(it[1])))
            lines.append(f'{" ".join(launch)} {ps(last[0] - first[0])} late {" ".join(last[1])} {ps(last[0])}'
                         f' early {" ".join(first[1])} {ps(first[0])}')
    return [f'skew {len(lines)}', *lines]


# ---------------------------------------------------------------- resizes

def sums(t: Timing) -> str:
    return ' '.join(f'{kind} {ps(t.wns(kind))} {ps(t.tns(kind))}' for kind in ('setup', 'hold'))


def resizes(t: Timing, tried: Tried, value: Callable[[Timing], int | None], pairs: list[tuple[str, str]]) -> list[str]:
    """The five resizes of greatest value of those that make it greater than it is, each tried alone."""
    pairs, now, refused, better = list(dict.fromkeys(pairs)), value(t), 0, []
    for inst, cell in pairs:
        try:
            after = tried(t, [['repower_gate', inst, cell]])
        except Refused:
            refused += 1
            continue
        reached = value(after)
        if now is not None and reached is not None and reached > now:
            better.append((-reached, inst.encode(), cell.encode(), f'{inst} {cell} {sums(after)}'))
    lines = [it[-1] for it in sorted(better)[:MOST_LINES]]
    return [f'resizes {len(lines)} tried {len(pairs)} refused {refused} {sums(t)}', *lines]


def advise_tns(t: Timing, tried: Tried, kind: str, *words: str) -> list[str]:
    pairs = list(zip(words[::2], words[1::2]))
    for inst, cell in pairs:
        need(inst in t.d.insts, 'Q4', inst)
        need(bool(usable(t.d, cell)), 'Q4', cell)
    return resizes(t, tried, lambda it: it.tns(kind), pairs)


def advise_sizes(t: Timing, tried: Tried, kind: str, measure: str, *insts: str) -> list[str]:
    for inst in insts:
        need(inst in t.d.insts, 'Q4', inst)
    need(len(insts) <= MOST_INSTANCES, 'Q5', 'instances')
    pairs = [(inst, name) for inst in dict.fromkeys(insts) for name, _, is_alike in sizes(t, inst)
             if is_alike and name != t.d.insts[inst][0]]
    need(len(pairs) <= MOST_SIZES, 'Q5', 'candidates')
    return resizes(t, tried, lambda it: it.wns(kind) if measure == 'wns' else it.tns(kind), pairs)


ADVICE = {'advise_tns': advise_tns, 'advise_sizes': advise_sizes}
REPORTS = {
    it.__name__: it for it in (report_net, report_instance, report_sizes, report_timing, report_timing_through,
                               report_worst_paths, report_failing, report_summary, report_skew)
}


def answer(t: Timing, words: list[str], tried: Tried) -> str | None:
    """The answer to a question of these, by its words; none to another one. `tried` analyses edits of the design."""
    name, *rest = words
    try:
        if name in ADVICE:
            return '\n'.join(ADVICE[name](t, tried, *rest))
        return '\n'.join(REPORTS[name](t, *rest)) if name in REPORTS else None
    except NoAnswer as why:
        return 'no %s %s' % why.args
