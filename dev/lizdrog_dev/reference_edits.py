"""Edits and their faults for the plain timer of reference_timer.py, written from the definitions (docs/DEFINITIONS.md,
"Edits and linking"
and "Checks") and not from the program: what each of the nine edits does to a design, E1 to E9 of one edit, and which of
E17 and E10 to E15
stands in a design. E16 is the timer's own, since it speaks of computed values. A fault is its text, its code and its
names."""

RISE, FALL = 'rise', 'fall'
MOST, MOST_NODES = 200000, 65535


class Refused(Exception):
    """An ECO is refused; its one argument is the fault's text."""


def need(holds, code, *names):
    if not holds:
        raise Refused(' '.join((code, *names)))


def as_pin(name):
    """A name as that of a pin: its last slash or colon is a colon."""
    at = max(name.rfind('/'), name.rfind(':'))
    return name if at < 0 else name[:at] + ':' + name[at + 1:]


# ---------------------------------------------------------------- one edit

def direction(cell, pin):
    return cell.pins[pin][0] if pin in cell.pins else None


def shape(cell):
    """What has to agree between the cells of a name in both libraries."""
    return ({(name, way) for name, (way, _) in cell.pins.items()}, {arc[:5] for arc in cell.arcs},
            {test[:5] for test in cell.tests})


def usable(d, name):
    """The late cell of a name, where both libraries have one and they agree; else none."""
    early, late = d.lib['early'].get(name), d.lib['late'].get(name)
    return late if early and late and (early is late or shape(early) == shape(late)) else None


def parted(word):
    """The instance and the pin of a pin word, or none of a port's."""
    inst, colon, pin = word.rpartition(':')
    return (inst, pin) if colon else None


def need_instance_of(d, word):
    part = parted(word)
    need(not part or not part[0] or part[0] in d.insts, 'E1', (part or ('',))[0])


def way_of(d, word):
    """The direction of an instance pin's word, or none where there is no such pin."""
    part = parted(word)
    return direction(d.lib['late'][d.insts[part[0]][0]], part[1]) if part and part[0] in d.insts else None


def net_at(d, word):
    part = parted(word)
    return d.insts[part[0]][1].get(part[1])


def is_used(d, net):
    return net in d.ports or any(net in conns.values() for _, conns in d.insts.values())


def joined(d, word, net):
    """An instance pin joins a net."""
    inst, pin = parted(word)
    cell, conns = d.insts[inst]
    d.insts[inst] = [cell, {**conns, pin: net}]


def repower(d, inst, name):
    need(inst in d.insts, 'E1', inst)
    cell = usable(d, name)
    need(cell, 'E3', name)
    old = d.lib['late'][d.insts[inst][0]]
    need(all(direction(cell, pin) == direction(old, pin) for pin in d.insts[inst][1]), 'E6', inst)
    d.insts[inst] = [name, d.insts[inst][1]]


def insert_gate(d, inst, name):
    need(usable(d, name), 'E3', name)
    need(inst not in d.insts, 'E5', inst)
    d.insts[inst] = [name, {}]


def remove_gate(d, inst):
    need(inst in d.insts, 'E1', inst)
    need(all(net is None for net in d.insts[inst][1].values()), 'E9', inst)
    del d.insts[inst]


def insert_net(d, net):
    need(net not in d.nets, 'E5', net)
    d.nets[net] = 1


def remove_net(d, net):
    need(net in d.nets, 'E2', net)
    need(not is_used(d, net), 'E9', net)
    del d.nets[net]
    d.rcs.pop(net, None)


def connect(d, word, net):
    need_instance_of(d, word)
    need(net in d.nets, 'E2', net)
    need(way_of(d, word), 'E4', word)
    need(net_at(d, word) is None, 'E7', word)
    joined(d, word, net)
    d.rcs.pop(net, None)


def disconnect(d, word):
    need_instance_of(d, word)
    need(way_of(d, word), 'E4', word)
    net = net_at(d, word)
    need(net is not None, 'E8', word)
    inst, pin = parted(word)
    cell, conns = d.insts[inst]
    d.insts[inst] = [cell, {other: on for other, on in conns.items() if other != pin}]
    d.rcs.pop(net, None)


def insert_buffer(d, net, inst, fresh, name, *sinks):
    for sink in sinks:
        need_instance_of(d, sink)
    need(net in d.nets, 'E2', net)
    cell = usable(d, name)
    need(cell, 'E3', name)
    for sink in sinks:
        need(way_of(d, sink) == 'input', 'E4', sink)
    need(inst not in d.insts, 'E5', inst)
    need(fresh not in d.nets, 'E5', fresh)
    ins, outs = ([pin for pin, (way, _) in cell.pins.items() if way == side] for side in ('input', 'output'))
    need(len(ins) == len(outs) == 1, 'E6', inst)
    for at, sink in enumerate(sinks):
        need(net_at(d, sink) == net and sink not in sinks[:at], 'E8', sink)
    for sink in sinks:
        joined(d, sink, fresh)
    d.insts[inst] = [name, {ins[0]: net, outs[0]: fresh}]
    d.nets[fresh] = 1
    d.rcs.pop(net, None)


def set_parasitics(d, net, *words):
    need(net in d.nets, 'E2', net)
    if words == ('none',):
        d.rcs.pop(net, None)
        return
    rc, at = dict(caps=[], ress=[], lump=0), 0
    node = lambda word: ('n', int(word[1:])) if word.startswith('#') else ('p', word)
    while at < len(words):
        if words[at] == 'c':
            rc['caps'].append((node(words[at + 1]), int(words[at + 2])))
            at += 3
        else:
            rc['ress'].append((node(words[at + 1]), node(words[at + 2]), int(words[at + 3])))
            at += 4
    d.rcs[net] = rc


EDITS = {'repower_gate': repower, 'insert_gate': insert_gate, 'remove_gate': remove_gate, 'insert_net': insert_net,
         'remove_net': remove_net, 'connect_pin': connect, 'disconnect_pin': disconnect, 'insert_buffer': insert_buffer,
         'set_parasitics': set_parasitics}


def edited(d, edits):
    """The design after these edits, each its words; or it is refused by the first fault of E1 to E9."""
    made = d.copy()
    for words in edits:
        EDITS[words[0]](made, *words[1:])
    return made


# ---------------------------------------------------------------- a whole design

def least(names):
    """The least of some names by bytes, or none."""
    return min(names, key=str.encode, default=None)


class Checks:
    """A design with its pins and nets, and which fault of E17 and E10 to E15 stands in it."""

    def __init__(self, d):
        self.d, self.way, self.on, self.pins_on, self.drivers = (
            d,
            {},
            {},
            {net: [] for net in d.nets},
            {net: [] for net in d.nets},
        )
        for port, role in d.ports.items():
            self.add(port, role, port, 'input')
        for inst, (cell, conns) in d.insts.items():
            for pin, (way, _) in d.lib['late'][cell].pins.items():
                self.add(inst + ':' + pin, way, conns.get(pin), 'output')

    def add(self, name, way, net, driving):
        """A pin with its direction and its net; `driving` is the direction that drives a net."""
        self.way[name], self.on[name] = way, net
        if net is not None:
            self.pins_on[net].append(name)
            if way == driving:
                self.drivers[net].append(name)

    def fault(self):
        """The text of the fault that stands, or none."""
        large = self.large()
        if large:
            return 'E17 ' + large
        for code, look in (('E10', self.many_drivers), ('E11', self.loop), ('E12', self.broken_network),
                           ('E13', self.dangling), ('E14', self.no_trees), ('E15', self.other_pins)):
            names = look()
            if names:
                return ' '.join((code, *names) if code == 'E11' else (code, least(names)))
        return None

    def many_drivers(self):
        return [net for net, found in self.drivers.items() if len(found) > 1]

    def large(self):
        d = self.d
        for what, count in (('pins', len(self.way)), ('insts', len(d.insts)), ('nets', len(d.nets))):
            if count > MOST:
                return what
        net = least([net for net, rc in d.rcs.items() if len(self.rc_nodes(net, rc)) > MOST_NODES])
        return net and 'net ' + net

    def rc_nodes(self, net, rc):
        """The different nodes of a net with parasitics that count for its size."""
        found = set() if rc['ress'] else {('p', pin) for pin in self.pins_on[net]}
        return found | self.named(rc)

    @staticmethod
    def named(rc):
        return {node for a, b, _ in rc['ress'] for node in (a, b)} | {node for node, _ in rc['caps']}

    # arcs between pins

    def is_driver(self, pin):
        return self.on[pin] is not None and pin in self.drivers[self.on[pin]]

    def sinks(self, pin):
        return [it for it in self.pins_on[self.on[pin]] if it != pin] if self.is_driver(pin) else []

    def arcs(self, kinds):
        """From each pin, those to which a net arc or an arc of these kinds of its cell leads."""
        out = {pin: set(self.sinks(pin)) for pin in self.way}
        for inst, (cell, _) in self.d.insts.items():
            for source, _, target, _, kind, *_ in self.d.lib['late'][cell].arcs:
                if kind in kinds:
                    out[inst + ':' + source].add(inst + ':' + target)
        return out

    def loop(self):
        """The pins of a loop, from its least pin, or none."""
        out, state = self.arcs(('comb', 'edge')), {}
        for first in out:
            if first in state:
                continue
            stack = [(first, iter(sorted(out[first])))]
            state[first] = 'open'
            while stack:
                pin, rest = stack[-1]
                after = next((it for it in rest if state.get(it) != 'done'), None)
                if after is None:
                    state[pin] = 'done'
                    stack.pop()
                elif state.get(after) == 'open':
                    walk = [it for it, _ in stack]
                    walk = walk[walk.index(after):]
                    at = walk.index(least(walk))
                    return walk[at:] + walk[:at]
                else:
                    state[after] = 'open'
                    stack.append((after, iter(sorted(out[after]))))
        return None

    def network(self):
        """The pins of the clock network, its ports, and the arcs into each pin."""
        out, d = self.arcs(('comb',)), self.d
        before = {pin: set() for pin in self.way}
        for pin, after in out.items():
            for it in after:
                before[it].add(pin)
        ports = {clock['port'] for clock in d.con.clocks.values() if clock['port']
                 and d.ports.get(clock['port']) == 'input'}
        clock_pins = {
            inst + ":" + pin
            for inst, (cell, _) in d.insts.items()
            for pin in {arc[0] for arc in d.lib["late"][cell].arcs if arc[4] == "edge"}
            | {test[2] for test in d.lib["late"][cell].tests}
        }
        return self.reached(ports, out) & self.reached(clock_pins, before), ports, before

    @staticmethod
    def reached(first, step):
        found, todo = set(first), list(first)
        while todo:
            for it in step[todo.pop()]:
                if it not in found:
                    found.add(it)
                    todo.append(it)
        return found

    def broken_network(self):
        network, ports, before = self.network()
        return [pin for pin in network - ports if not self.enters_well(pin, before[pin] & network)]

    def enters_well(self, pin, sources):
        """Whether one network pin leads to a network pin, and by arcs of one sense."""
        if len(sources) != 1:
            return False
        [source] = sources
        if not self.is_output(pin):
            return True
        inst, own = pin.rsplit(':', 1)
        keeps = {arc[1] == arc[3] for arc in self.d.lib['late'][self.d.insts[inst][0]].arcs
                 if arc[4] == 'comb' and inst + ':' + arc[0] == source and arc[2] == own}
        return len(keeps) <= 1

    def is_output(self, pin):
        """Whether it is an output pin of an instance."""
        return ':' in pin and self.way[pin] == 'output'

    # constraints

    def dangling(self):
        d, con = self.d, self.d.con
        wrong = [clock['port'] for clock in con.clocks.values() if clock['port']
                 and d.ports.get(clock['port']) != 'input']
        for named, way in ((con.inputs, 'input'), (con.slews, 'input'), (con.outputs, 'output')):
            wrong += [port for port, *_ in named if d.ports.get(port) != way]
        wrong += [port for port, *_ in con.loads if port not in d.ports]
        for _, _, start, end in con.exceptions:
            for objects, way in ((start, 'input'), (end, 'output')):
                wrong += [name for kind, name in objects or [] if not self.is_there(kind, name, way)]
        return wrong

    def is_there(self, kind, name, way):
        d = self.d
        if kind == 'clock' or kind == 'any' and name in d.con.clocks:
            return True
        if kind == 'port' or kind == 'any' and name in d.ports:
            return d.ports.get(name) == way
        if kind == 'pin':
            return ':' in name and name in self.way
        return name in d.insts or kind == 'any' and as_pin(name) in self.way

    # parasitics

    def no_trees(self):
        return [net for net, rc in self.d.rcs.items() if not self.is_tree(net, rc)]

    def is_tree(self, net, rc):
        """Whether resistors are a tree over all named nodes, from the driver; a net without a driver has no
        parasitics."""
        if not self.drivers[net]:
            return False
        if not rc['ress']:
            return True
        root = ('p', self.drivers[net][0])
        step = {}
        for a, b, _ in rc['ress']:
            step.setdefault(a, set()).add(b)
            step.setdefault(b, set()).add(a)
        named = self.named(rc)
        reached = self.reached({root}, {**{it: set() for it in named | {root}}, **step})
        return named <= reached and len(rc['ress']) == len(step) - 1

    def other_pins(self):
        return [net for net, rc in self.d.rcs.items() if not self.pins_agree(net, rc)]

    def pins_agree(self, net, rc):
        named = {name for kind, name in self.named(rc) if kind == 'p'}
        with_resistor = {node for a, b, _ in rc['ress'] for node in (a, b)}
        return named <= set(self.pins_on[net]) and (not rc['ress'] or all(('p', pin) in with_resistor
                                                                          for pin in self.pins_on[net]))


def standing(d):
    """The text of the fault of E17 and E10 to E15 that stands in a design, or none."""
    return Checks(d).fault()
