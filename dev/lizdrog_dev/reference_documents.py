"""Reads the documents of a design for the plain timer of reference_timer.py, written from the definitions and not from
the program: what bench/design.py, bench/small_design.py, bench/spef.py and the examples write. They are taken to be
without a fault.

Quantities are whole numbers of femtoseconds, attofarads and milliohms.
"""
import re
from collections.abc import Callable, Iterator
from decimal import Decimal

from lizdrog_dev.reference_edits import FALL, RISE, as_pin

SPLITS, EDGES = ('early', 'late'), (RISE, FALL)


def rnd(n: int, d: int) -> int:
    """The quotient, rounded to the nearest whole number, and halves upward."""
    return (2 * n + d) // (2 * d)


def dec(text: str, ten: int) -> int:
    """A decimal times a power of ten, rounded."""
    n, d = Decimal(text).scaleb(ten).as_integer_ratio()
    return rnd(n, d)


def ps(value: int | None) -> str:
    """A time in picoseconds with three places, or none; so are thousandths of other units."""
    if value is None:
        return 'none'
    return '%s%d.%03d' % ('-' if value < 0 else '', *divmod(abs(value), 1000))


# ---------------------------------------------------------------- Liberty: groups

TOKEN = re.compile(r'"((?:[^"\\]|\\.|\\\n)*)"|/\*.*?\*/|\\\n|([{}();:,])|([^\s{}();:,"]+)|(\n)', re.S)


class Group:
    """A group of a library: its arguments, its attributes (plain, and with words in brackets), and the groups in it."""

    def __init__(self, name: str, args: list[str]):
        self.name, self.args, self.attrs, self.groups, self.complex = name, args, {}, [], {}


def lib_tokens(text: str) -> Iterator[tuple[str, str]]:
    """Tokens with their sort: a quoted text (q), a mark (m), a word (w), the end of a line (n)."""
    for m in TOKEN.finditer(text):
        if m[0].startswith('/*') or m[0] == '\\\n':
            continue
        if m[0].startswith('"'):
            yield 'q', m[1].replace('\\\n', '')
        elif m[2] or m[3]:
            yield ('m', m[2]) if m[2] else ('w', m[3])
        else:
            yield 'n', '\n'


class Tokens:
    """Tokens, and the next one to be read."""

    def __init__(self, tokens: list[tuple[str, str]]):
        self.tokens, self.at = tokens, 0

    def next_is(self, *marks: str) -> bool:
        return self.at < len(self.tokens) and self.tokens[self.at] in [('m', it) for it in marks]

    def is_line_end(self) -> bool:
        return self.at < len(self.tokens) and self.tokens[self.at][0] == 'n'

    def take(self) -> str:
        self.at += 1
        return self.tokens[self.at - 1][1]

    def skip_lines(self) -> None:
        while self.is_line_end():
            self.at += 1

    def until_end(self) -> str:
        """The words of a plain attribute."""
        words = []
        while not (self.is_line_end() or self.next_is(';', '}')):
            words.append(self.take())
        return ' '.join(words)

    def in_brackets(self) -> list[str]:
        """The words between brackets, the first of which is next."""
        assert self.next_is('('), self.tokens[self.at]
        self.at += 1
        words = []
        while not self.next_is(')'):
            sort, word = self.tokens[self.at]
            words += [word] if sort in 'qw' else []
            self.at += 1
        self.at += 1
        return words


def read_statement(tokens: Tokens, stack: list[Group], root: Group | None) -> Group | None:
    """Reads an attribute, or the head of a group, which goes on the stack; the outermost group."""
    name = tokens.take()
    tokens.skip_lines()
    if tokens.next_is(':'):
        tokens.take()
        stack[-1].attrs[name] = tokens.until_end()
        return root
    args, behind = tokens.in_brackets(), tokens.at
    tokens.skip_lines()
    if not tokens.next_is('{'):
        tokens.at = behind
        stack[-1].complex[name] = args
        return root
    tokens.take()
    group = Group(name, args)
    if stack:
        stack[-1].groups.append(group)
    stack.append(group)
    return root or group


def read_groups(text: str) -> Group:
    """The outermost group of a text, with all that is in it."""
    tokens, stack, root = Tokens(list(lib_tokens(text))), [], None
    while tokens.at < len(tokens.tokens):
        if tokens.is_line_end() or tokens.next_is(';'):
            tokens.at += 1
        elif tokens.next_is('}'):
            stack.pop()
            tokens.at += 1
        else:
            root = read_statement(tokens, stack, root)
    return root


# ---------------------------------------------------------------- Liberty: tables

SLEW, LOAD = 'input_net_transition', 'total_output_net_capacitance'
CLOCK_SLEW, DATA_SLEW = 'related_pin_transition', 'constrained_pin_transition'


class Table:
    """Values over two axes, row by row."""

    __slots__ = ('xs', 'ys', 'vals')

    def __init__(self, xs: list[int], ys: list[int], vals: list[int]):
        self.xs, self.ys, self.vals = xs, ys, vals


def lin(p: int, q: int, a: int, b: int, x: int) -> int:
    return p + rnd((q - p) * (x - a), b - a)


def seg(axis: list[int], x: int) -> int:
    """The segment of an axis for a value: the last whose first entry is not above it, of those between entries."""
    lo = 0
    for i in range(len(axis) - 1):
        if axis[i] <= x:
            lo = i
    return lo


def look_up(t: Table, x: int, y: int) -> int:
    """The value at a point, between and beyond the entries: along the first axis, and then along the second."""
    ny = len(t.ys)

    def col(j: int) -> int:
        if len(t.xs) == 1:
            return t.vals[j]
        i = seg(t.xs, x)
        return lin(t.vals[i * ny + j], t.vals[(i + 1) * ny + j], t.xs[i], t.xs[i + 1], x)

    if ny == 1:
        return col(0)
    j = seg(t.ys, y)
    return lin(col(j), col(j + 1), t.ys[j], t.ys[j + 1], y)


def nums(args: list[str], ten: int) -> list[int]:
    return [dec(w, ten) for a in args for w in re.split(r'[,\s]+', a.strip()) if w]


# ---------------------------------------------------------------- Liberty: cells

TIME_UNIT = {'1ps': 3, '10ps': 4, '100ps': 5, '1ns': 6}
LOAD_UNIT = {'ff': 3, 'pf': 6}
POWERS = {'1000': 3, '100': 2, '10': 1, '1': 0, '0.1': -1, '0.01': -2, '0.001': -3}
SENSES = {'positive_unate': [(RISE, RISE), (FALL, FALL)], 'negative_unate': [(FALL, RISE), (RISE, FALL)],
          'non_unate': [(RISE, RISE), (FALL, RISE), (RISE, FALL), (FALL, FALL)]}
TABLES = {RISE: ('cell_rise', 'rise_transition'), FALL: ('cell_fall', 'fall_transition')}
LIMITS = ((RISE, 'rise_constraint'), (FALL, 'fall_constraint'))


class Cell:
    """Pins with way and capacitance; arcs (from, edge, to, edge, sort, delays, slews); tests (pin, edge, clock pin,
    its edge, kind, limits)."""

    def __init__(self):
        self.pins, self.arcs, self.tests = {}, [], []


class CellReader:
    """Reads cells with the templates and the units of their library."""

    def __init__(self, templates: dict[str, Group], tt: int, ct: int):
        self.templates, self.tt, self.ct = templates, tt, ct

    def axis(self, group: Group, template: Group, number: int) -> list[int]:
        """An axis of a table, by its own index or that of its template."""
        variable, name = template.attrs.get(f'variable_{number}'), f'index_{number}'
        if variable is None:
            return [0]
        return nums(group.complex.get(name) or template.complex[name], self.ct if variable == LOAD else self.tt)

    def table(self, group: Group, first: str, second: str) -> Table:
        """A table by its first and its second variable, in whichever order it is written."""
        template, name = None, group.args[0]
        if name != 'scalar' or name in self.templates:
            template = self.templates[name]
        vals = nums(group.complex['values'], self.tt)
        if template is None:
            return Table([0], [0], vals)
        v1, v2 = (template.attrs.get(f'variable_{it}') for it in (1, 2))
        a1, a2 = self.axis(group, template, 1), self.axis(group, template, 2)
        assert len(vals) == len(a1) * len(a2), (group.name, group.args)
        if v1 == first and v2 in (None, second):
            return Table(a1, a2, vals)
        assert v1 == second and v2 in (None, first), (v1, v2)
        return Table(a2, a1, [vals[i * len(a2) + j] for j in range(len(a2)) for i in range(len(a1))])

    def arcs(self, timing: Group, rel: str, pin: str) -> Iterator[tuple]:
        """The arcs of a timing group to an output."""
        tables = {it.name: it for it in timing.groups}
        kind = timing.attrs.get('timing_type', 'combinational')
        if kind not in ('combinational', 'rising_edge', 'falling_edge'):
            return
        if kind == 'combinational':
            sort, pairs = 'comb', SENSES[timing.attrs.get('timing_sense', 'non_unate')]
        else:
            sort, pairs = 'edge', [(RISE if kind == 'rising_edge' else FALL, it) for it in EDGES]
        for start, end in pairs:
            delays, slews = (tables.get(it) for it in TABLES[end])
            if delays and slews:
                yield rel, start, pin, end, sort, self.table(delays, SLEW, LOAD), self.table(slews, SLEW, LOAD)

    def tests(self, timing: Group, rel: str, pin: str) -> Iterator[tuple]:
        """The setup and hold tests of a timing group at an input."""
        tables = {it.name: it for it in timing.groups}
        kind, _, edge = timing.attrs.get('timing_type', 'combinational').partition('_')
        if kind in ('setup', 'hold') and edge in ('rising', 'falling'):
            for tran, name in LIMITS:
                if name in tables:
                    limits = self.table(tables[name], CLOCK_SLEW, DATA_SLEW)
                    yield pin, tran, rel, RISE if edge == 'rising' else FALL, kind, limits

    def cell(self, group: Group) -> Cell:
        cell, pins = Cell(), [(n, p) for p in group.groups if p.name == 'pin' for n in p.args]
        for name, it in pins:
            way = it.attrs.get('direction')
            if way in ('input', 'output'):
                cell.pins[name] = (way, dec(it.attrs.get('capacitance', '0'), self.ct))
        for name, timing in ((n, t) for n, p in pins if n in cell.pins for t in p.groups if t.name == 'timing'):
            for rel in timing.attrs.get('related_pin', '').split():
                if rel in cell.pins and cell.pins[name][0] == 'output':
                    cell.arcs += self.arcs(timing, rel, name)
                elif rel in cell.pins:
                    cell.tests += self.tests(timing, rel, name)
        return cell


def read_library(text: str) -> tuple[dict[str, Cell], tuple[int, int]]:
    """The cells of a library by name, and the powers of ten of its units of time and load."""
    root = read_groups(text)
    number, unit = root.complex['capacitive_load_unit']
    tt, ct = TIME_UNIT[root.attrs.get('time_unit', '1ns')], LOAD_UNIT[unit.lower()] + POWERS[f'{float(number):g}']
    reader = CellReader({g.args[0]: g for g in root.groups if g.name == 'lu_table_template'}, tt, ct)
    return {g.args[0]: reader.cell(g) for g in root.groups if g.name == 'cell'}, (tt, ct)


# ---------------------------------------------------------------- Verilog

class Module:
    """Reads a module: its ports with their ways, its nets, and its instances with cell and connections."""

    def __init__(self, text: str):
        text = re.sub(r'/\*.*?\*/|//[^\n]*|\(\*.*?\*\)', ' ', text, flags=re.S)
        self.words = re.findall(r'\\\S+|[A-Za-z_][\w$]*|\d+\'[bh]\d|\d+|[()\[\]:;,.]', text)
        assert self.words[0] == 'module'
        self.at = self.words.index(';') + 1
        self.ports, self.nets, self.insts = {}, {}, {}
        while self.words[self.at] != 'endmodule':
            if self.words[self.at] in ('input', 'output', 'wire'):
                self.declaration()
            else:
                self.instance()

    def take(self) -> str:
        self.at += 1
        return self.words[self.at - 1]

    def name(self) -> str:
        return self.take().removeprefix('\\')

    def is_next(self, word: str) -> bool:
        """Whether a mark is next, which is then taken."""
        found = self.words[self.at] == word
        self.at += found
        return found

    def bits(self) -> list[int] | None:
        """The numbers of the bits of a vector, where a range is next."""
        if not self.is_next('['):
            return None
        first, _, last, _ = (self.take() for _ in range(4))
        step = 1 if int(last) >= int(first) else -1
        return list(range(int(first), int(last) + step, step))

    def declaration(self) -> None:
        role, bits = self.take(), self.bits()
        while True:
            name = self.name()
            for net in [name] if bits is None else [f'{name}[{bit}]' for bit in bits]:
                self.nets[net] = 1
                if role != 'wire':
                    self.ports[net] = role
            if self.take() == ';':
                return

    def connection(self) -> tuple[str, str | None]:
        """A pin and its net, or none where it is open or tied to a constant."""
        pin, net = self.name(), None
        assert self.take() == '('
        if "'" in self.words[self.at]:
            self.take()
        elif self.words[self.at] != ')':
            net = self.name()
            if self.is_next('['):
                net = f'{net}[{int(self.take())}]'
                self.take()
            self.nets[net] = 1
        assert self.take() == ')'
        self.is_next(',')
        return pin, net

    def instance(self) -> None:
        cell, name = self.name(), self.name()
        assert self.take() == '('
        connections = {}
        while self.is_next('.'):
            pin, connections[pin] = self.connection()
        assert self.take() == ')' and self.take() == ';', self.words[self.at - 2:self.at + 3]
        self.insts[name] = [cell, connections]


def read_module(text: str) -> tuple[dict, dict, dict]:
    """The ports, the nets and the instances of a module."""
    module = Module(text)
    return module.ports, module.nets, module.insts


# ---------------------------------------------------------------- SDC

WORD = re.compile(r'\[get_\w+ (?:\{[^}]*\}|(?:[^\s\[\]]|\[\d+\])+)\]|\{[^}]*\}|\S+')
VALUED = {
    'create_clock': ('-period', '-name', '-waveform'),
    'set_units': ('-time', '-capacitance', '-resistance', '-voltage', '-current'),
    'set_false_path': ('-from', '-to'),
    'set_multicycle_path': ('-from', '-to'),
}
SDC_TIME, SDC_LOAD = {'ps': 3, '10ps': 4, '100ps': 5, 'ns': 6}, {'fF': 3, 'pF': 6}
NO_CONSTRAINTS = ('current_design', 'set_propagated_clock', 'set')


def objects(word: str) -> list[str]:
    """The names that a word has: those of a getter, of a list, or its own."""
    m = re.fullmatch(r'\[get_\w+ (.*)\]', word, re.S)
    word = m[1] if m else word
    return (word[1:-1] if word.startswith('{') else word).split()


def objects_of_exception(word: str | None) -> list[tuple[str, str]] | None:
    """The objects of a word of an exception, each its kind and its name."""
    if word is None:
        return None
    m = re.match(r'\[get_(\w+)s ', word)
    kind = m[1] if m else 'any'
    return [(kind, as_pin(it) if kind == 'pin' else it) for it in objects(word)]


class Line:
    """A command with its options and its plain words."""

    def __init__(self, text: str):
        self.name, *rest = WORD.findall(text)
        self.options, self.plain, words = {}, [], iter(rest)
        for word in words:
            if not word.startswith('-') or re.match(r'-[\d.]', word):
                self.plain.append(word)
            else:
                self.options[word] = next(words) if word in VALUED.get(self.name, ('-clock',)) else True

    def named(self, **names: str) -> list[str]:
        """Of some values those whose option is there, or all where none is."""
        return [it for it, option in names.items() if option in self.options] or list(names)

    def splits(self) -> list[str]:
        return self.named(early='-min', late='-max')

    def edges(self) -> list[str]:
        return [it for it, option in ((RISE, '-rise'), (FALL, '-fall')) if option in self.options] or list(EDGES)


class Constraints:
    """What the commands of a text say; later ones overwrite earlier ones."""

    def __init__(self, units: tuple[int, int]):
        self.tt, self.ct = units
        self.clocks, self.inputs, self.outputs, self.slews, self.loads, self.exceptions = {}, {}, {}, {}, {}, []
        self.derate = {(split, kind): 1000000 for split in SPLITS for kind in ('cell', 'net')}

    def units(self, line: Line) -> None:
        if '-time' in line.options:
            self.tt = SDC_TIME.get(line.options['-time'].lstrip('1.0') or 'ns', self.tt)
        if '-capacitance' in line.options:
            self.ct = SDC_LOAD[line.options['-capacitance']]

    def clock(self, line: Line) -> None:
        period, port = dec(line.options['-period'], self.tt), objects(line.plain[0])[0] if line.plain else None
        rise, fall = 0, period // 2
        if '-waveform' in line.options:
            rise, fall = (dec(it, self.tt) for it in objects(line.options['-waveform'])[:2])
        name = line.options.get('-name', port)
        self.clocks[name] = {'port': port, 'period': period, 'rise': rise, 'fall': fall, 'setup': 0, 'hold': 0}

    def at_ports(self, line: Line, table: dict, value: object) -> None:
        """A value for ports, splits and edges."""
        table.update({(port, split, edge): value for port in objects(line.plain[1]) for split in line.splits()
                      for edge in line.edges()})

    def delay(self, line: Line) -> None:
        table = self.inputs if line.name == 'set_input_delay' else self.outputs
        self.at_ports(line, table, (objects(line.options['-clock'])[0], dec(line.plain[0], self.tt)))

    def transition(self, line: Line) -> None:
        self.at_ports(line, self.slews, dec(line.plain[0], self.tt))

    def load(self, line: Line) -> None:
        value = dec(line.plain[0], self.ct)
        self.loads.update({(port, split): value for port in objects(line.plain[1]) for split in line.splits()})

    def uncertainty(self, line: Line) -> None:
        for clock in objects(line.plain[1]):
            for kind in line.named(setup='-setup', hold='-hold'):
                self.clocks[clock][kind] = dec(line.plain[0], self.tt)

    def derates(self, line: Line) -> None:
        for split in line.named(early='-early', late='-late'):
            for kind in line.named(cell='-cell_delay', net='-net_delay'):
                self.derate[split, kind] = dec(line.plain[0], 6)

    def exception(self, line: Line, kinds: set[str], count: int | None) -> None:
        ends = (objects_of_exception(line.options.get(it)) for it in ('-from', '-to'))
        self.exceptions.append((kinds, count, *ends))

    def false_path(self, line: Line) -> None:
        self.exception(line, set(line.named(setup='-setup', hold='-hold')), None)

    def multicycle(self, line: Line) -> None:
        self.exception(line, {'hold' if '-hold' in line.options else 'setup'}, int(line.plain[0]))


COMMANDS = {
    'set_units': Constraints.units, 'create_clock': Constraints.clock, 'set_input_delay': Constraints.delay,
    'set_output_delay': Constraints.delay, 'set_input_transition': Constraints.transition, 'set_load': Constraints.load,
    'set_clock_uncertainty': Constraints.uncertainty, 'set_timing_derate': Constraints.derates,
    'set_false_path': Constraints.false_path, 'set_multicycle_path': Constraints.multicycle,
}


def read_sdc(text: str, units: tuple[int, int]) -> Constraints:
    found = Constraints(units)
    for text_of in text.replace('\\\n', ' ').split('\n'):
        if not text_of.strip() or text_of.strip().startswith('#'):
            continue
        line = Line(text_of.strip())
        if line.name in COMMANDS:
            COMMANDS[line.name](found, line)
        elif line.name not in NO_CONSTRAINTS:
            raise SystemExit('sdc: ' + text_of.strip())
    return found


# ---------------------------------------------------------------- SPEF

PASSED = ('*PORTS', '*PHYSICAL_PORTS', '*POWER_NETS', '*GROUND_NETS')
ATTRIBUTES = ('*C', '*L', '*S', '*D')
# A row of a net's section, and how many words it has
WHOLE_ROWS = (('*CAP', 3), ('*CAP', 4), ('*RES', 4))
SPEF_CAP, SPEF_RES = {'FF': 3, 'PF': 6}, {'OHM': 3, 'KOHM': 6}
Node = tuple[str, object]


def unescaped(word: str) -> str:
    return re.sub(r'\\([^A-Za-z0-9])', r'\1', word)


class Parasitics:
    """Reads the nets of a text: of each its capacitances and resistors between nodes, a lumped capacitance, the total
    that its head tells, and whether it has capacitances."""

    def __init__(self):
        self.names, self.cap, self.res, self.delimiter = {}, None, None, ':'
        self.nets, self.net, self.part, self.section = {}, None, None, 'head'
        # Of the net that is read: nodes that resistors or connections name, and capacitances between two nodes.
        self.named, self.pairs = set(), []

    def name(self, word: str) -> str:
        return self.names[word] if word in self.names else unescaped(word)

    def fits(self, word: str) -> bool:
        """Whether a word may be in a list of ports."""
        parts = word.rsplit(self.delimiter, 1)
        return word[0] != '*' or word in ATTRIBUTES or all(re.fullmatch(r'\*\d+|[^*].*', it) for it in parts)

    def node(self, word: str) -> Node:
        """A pin or port (p), an inner node of this net (n), or one of another net (x)."""
        if word in self.names or self.delimiter not in word:
            return 'p', self.name(word)
        first, last = word.rsplit(self.delimiter, 1)
        first = self.name(first)
        if last.isdigit():
            return ('n', int(last)) if first == self.net else ('x', word)
        return 'p', first + ':' + unescaped(last)

    def begin_net(self, words: list[str]) -> None:
        self.section, self.net = 'net', self.name(words[1])
        assert self.net not in self.nets
        self.nets[self.net] = {'caps': [], 'ress': [], 'lump': 0, 'total': dec(words[2], self.cap), 'any': False}
        self.named, self.pairs = set(), []

    def end_net(self, _: list[str]) -> None:
        """A capacitance between two nodes counts at the one of this net; without resistors all are lumped."""
        it = self.nets[self.net]
        for a, b, value in self.pairs:
            it['caps'].append(([y for y in (a, b) if y in self.named or y[0] == 'n'][0], value))
        if not it['ress']:
            it['lump'] = sum(value for _, value in it['caps']) if it['any'] else it['total']
            it['caps'] = []
        self.net = None

    def row(self, words: list[str]) -> None:
        """A row of a net: of its connections, capacitances or resistors."""
        if self.part != '*CONN' and (self.part, len(words)) not in WHOLE_ROWS:
            raise SystemExit('spef: rows are read by lines here, and this line is no row: ' + ' '.join(words))
        it, nodes = self.nets[self.net], [self.node(word) for word in words[1:3]]
        if self.part == '*CONN':
            self.named.add(nodes[0])
        elif self.part == '*RES':
            it['ress'].append((*nodes, dec(words[3], self.res)))
            self.named |= set(nodes)
        else:
            it['any'] = True
            if len(words) == 3:
                it['caps'].append((nodes[0], dec(words[2], self.cap)))
            else:
                self.pairs.append((*nodes, dec(words[3], self.cap)))

    def unit(self, words: list[str]) -> None:
        assert words[1] == '1'
        if words[0] == '*C_UNIT':
            self.cap = SPEF_CAP[words[2]]
        else:
            self.res = SPEF_RES[words[2]]

    def begin_section(self, words: list[str]) -> bool:
        """Whether a line begins a section, or is one of the head's."""
        key = words[0]
        if key in HEADS:
            HEADS[key](self, words)
        elif key == '*DELIMITER':
            self.delimiter = words[1]
        elif key == '*NAME_MAP' or key in PASSED:
            self.section = 'map' if key == '*NAME_MAP' else 'ports'
        elif key in ('*CONN', '*CAP', '*RES'):
            self.part = key
        else:
            return False
        return True

    def read(self, words: list[str]) -> None:
        """Reads a line."""
        if self.section == 'ports' and words[0] not in ('*NAME_MAP', '*D_NET', *PASSED) and not all(
                map(self.fits, words)):
            raise SystemExit('spef: ' + ' '.join(words))
        if self.begin_section(words):
            return
        if self.section == 'map':
            self.names[words[0]] = unescaped(words[1])
        elif self.section == 'net':
            self.row(words)


HEADS: dict[str, Callable[[Parasitics, list[str]], None]] = {
    '*C_UNIT': Parasitics.unit, '*R_UNIT': Parasitics.unit, '*D_NET': Parasitics.begin_net, '*END': Parasitics.end_net}


def read_spef(text: str) -> dict[str, dict]:
    """The parasitics of each net."""
    found = Parasitics()
    for line in re.sub(r'//[^\n]*|/\*.*?\*/', ' ', text, flags=re.S).split('\n'):
        if line.strip():
            found.read(line.split())
    return found.nets
