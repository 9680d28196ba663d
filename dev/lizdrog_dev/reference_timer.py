"""A plain, slow timer, written from the definitions and not from the program, to compare the program with:
reference_timer.py [--closing] run EARLY LATE NETLIST SDC SPEF WORKERS SCRIPT. It reads what bench/design.py,
bench/small_design.py, bench/spef.py and the examples write. Documents but the script, and the design that they link to,
are taken to be without a fault; faults of the script, refusals of ECOs and questions without an answer are told (where
one of several loops or overflows may be named, E11 and E16, one of them). Each ECO, tried or not, is followed by a
whole analysis. Paths through pins and the worst paths of an endpoint come from a list of all paths to it; where that
has more than MOST_PARTS parts of paths, from the best ways from each node. With --closing, scripts have the questions
for closing timing, too (reference_closing.py), and drafts have these, report_paths, report_through and advise."""
import functools
import sys
from math import gcd, isqrt

from lizdrog_dev import reference_closing, reference_scripts
from lizdrog_dev.reference_documents import look_up, ps, read_library, read_module, read_sdc, read_spef, rnd
from lizdrog_dev.reference_edits import FALL, RISE, Refused, as_pin, edited, standing

LIM = 10 ** 12
ORDER = {RISE: 0, FALL: 1}
OTHER = {RISE: FALL, FALL: RISE}
MOST_PARTS = 20000


# ---------------------------------------------------------------- analysis


class Design:
    def __init__(self, early, late, mod, con, rcs):
        self.lib = {'early': early, 'late': late}
        self.ports, self.nets, self.insts = mod
        self.con, self.rcs = con, rcs

    def copy(self):
        return Design(
            self.lib['early'],
            self.lib['late'],
            (self.ports, dict(self.nets), dict(self.insts)),
            self.con,
            dict(self.rcs),
        )


@functools.cache
def node_key(n):
    """What orders nodes: the bytes of the pin's name, and then the edge."""
    return n[0].encode(), ORDER[n[1]]


def reached(starts, steps):
    """What some steps lead to, with where they begin."""
    found, todo = set(starts), list(starts)
    while todo:
        for q in steps.get(todo.pop(), ()):
            if q not in found:
                found.add(q)
                todo.append(q)
    return found


class TooMany(Exception):
    """There are too many paths to list."""


class Timing:
    def __init__(self, d):
        self.d, self.beyond = d, []
        self.walks, self.befores = {}, {}
        self.build()
        self.propagate()

    def within(self, value, place, name):
        """Notes a place where a computed value leaves its limit."""
        if abs(value) > LIM:
            self.beyond.append(place + ' ' + name)
        return value

    def overflow(self):
        """A place where a value leaves its limit that is computed from none that does, or none: the first that is
        met."""
        if not self.beyond:
            self.required()
            for p in self.endpoints():
                for node in ((p, RISE), (p, FALL)):
                    for kind in ('setup', 'hold'):
                        self.tests(node, kind)
        return self.beyond[0] if self.beyond else None

    def pin_net(self, p):
        d = self.d
        if ':' in p:
            i, q = p.rsplit(':', 1)
            return d.insts[i][1].get(q)
        return p

    def build(self):
        self.join_nets()
        self.wires()
        self.arcs_in, self.arcs_out = {}, {}
        comb, edge, clockpins = self.cell_arcs()
        for n, dr in self.driver.items():
            for p in self.netpins[n]:
                if p != dr:
                    for t in (RISE, FALL):
                        self.add_arc((dr, t), (p, t), 'net', n)
        for (a, b), ks in comb.items():
            self.add_arc(a, b, 'cell', ks)
        self.find_network(clockpins)
        for (a, b), ks in edge.items():
            if a[0] in self.network and b[0] not in self.network:
                self.add_arc(a, b, 'cell', ks)

    def join_nets(self):
        """The pins of each net, and its driver."""
        d = self.d
        self.netpins, self.driver = {n: [] for n in d.nets}, {}
        for p, role in d.ports.items():
            self.netpins[p].append(p)
            if role == 'input':
                assert p not in self.driver
                self.driver[p] = p
        for i, (cell, conns) in d.insts.items():
            for q, n in conns.items():
                if n is None:
                    continue
                p = i + ':' + q
                self.netpins[n].append(p)
                if d.lib['late'][cell].pins[q][0] == 'output':
                    assert n not in self.driver, n
                    self.driver[n] = p

    def add_arc(self, a, b, kind, info):
        self.arcs_in.setdefault(b, []).append((a, kind, info))
        self.arcs_out.setdefault(a, []).append((b, kind, info))

    def cell_arcs(self):
        """The arcs of instances between two nodes, combinational ones and those of a clock's edge, and the clock pins
        of registers."""
        comb, edge, clockpins = {}, {}, set()
        for i, (cell, _) in self.d.insts.items():
            c = self.d.lib['late'][cell]
            for k, (f, ft, t, tt, kind, _, _) in enumerate(c.arcs):
                if kind == 'edge':
                    clockpins.add(i + ':' + f)
                (comb if kind == 'comb' else edge).setdefault(((i + ':' + f, ft), (i + ':' + t, tt)), []).append((i, k))
            for t in c.tests:
                clockpins.add(i + ':' + t[2])
        return comb, edge, clockpins

    def find_network(self, clockpins):
        """The clock network: the pins between a clock's port and a clock pin."""
        pin_out, pin_in = {}, {}
        for a, outs in self.arcs_out.items():
            pin_out.setdefault(a[0], set()).update(b[0] for b, _, _ in outs)
        for a, outs in pin_out.items():
            for b in outs:
                pin_in.setdefault(b, set()).add(a)
        ports = {c['port']: n for n, c in self.d.con.clocks.items() if c['port']}
        self.network, self.clock_ports = reached(ports, pin_out) & reached(clockpins, pin_in), ports
        for p in self.network:
            if p not in ports:
                assert len([q for q in pin_in.get(p, ()) if q in self.network]) == 1, ('E12', p)

    def cap_of(self, p, split):
        d = self.d
        if ':' in p:
            i, q = p.rsplit(':', 1)
            return d.lib[split][d.insts[i][0]].pins[q][1]
        return d.con.loads.get((p, split), 0) if d.ports[p] == 'output' else 0

    def wires(self):
        """load[driver pin, split]; wire[sink, split] = (delay, impulse)."""
        d = self.d
        self.load, self.wire = {}, {}
        for n, dr in self.driver.items():
            rc = d.rcs.get(n)
            for split in ('early', 'late'):
                if rc is None or not rc['ress']:
                    total = sum(self.cap_of(p, split) for p in self.netpins[n] if p != dr or rc is not None)
                    if rc is not None:
                        total += rc['lump'] + sum(c for _, c in rc['caps'])
                    self.load[dr, split] = self.within(total, 'net', n)
                    for p in self.netpins[n]:
                        self.wire[p, split] = (0, 0)
                    continue
                self.tree(n, dr, rc, split)

    def tree(self, n, dr, rc, split):
        cap, adj = {}, {}
        for a, b, r in rc['ress']:
            adj.setdefault(a, []).append((b, r))
            adj.setdefault(b, []).append((a, r))
        for p in self.netpins[n]:
            assert ('p', p) in adj, ('E15', n, p)
            cap[('p', p)] = self.cap_of(p, split)
        for nd, c in rc['caps']:
            assert nd in adj, ('E14', n, nd)
            cap[nd] = cap.get(nd, 0) + c
        root = ('p', dr)
        parent, order, seen = {root: None}, [root], {root}
        for x in order:
            for y, r in adj[x]:
                if y not in seen:
                    seen.add(y)
                    parent[y] = (x, r)
                    order.append(y)
        assert len(seen) == len(adj) and len(rc['ress']) == len(adj) - 1, ('E14', n)

        def accumulate(weight):
            down = {x: weight(x) for x in order}
            for x in reversed(order):
                if parent[x]:
                    down[parent[x][0]] += down[x]
            out = {root: 0}
            for x in order[1:]:
                y, r = parent[x]
                out[x] = out[y] + r * down[x]
            return out
        self.within(sum(r for _, _, r in rc['ress']), 'net', n)
        raw = accumulate(lambda x: cap.get(x, 0))
        delay = {x: self.within(rnd(v, 10**6), 'net', n) for x, v in raw.items()}
        raw2 = accumulate(lambda x: cap.get(x, 0) * delay[x])
        self.load[dr, split] = self.within(sum(cap.values()) + rc['lump'], 'net', n)
        for p in self.netpins[n]:
            x = ('p', p)
            beta = rnd(raw2[x], 10**6)
            self.wire[p, split] = (delay[x], max(0, 2 * beta - delay[x] ** 2))

    def raw(self, kind, info, split, a, b, slew):
        """Raw delay and slew at the end of an arc, or none where the start has no slew."""
        d = self.d
        if kind == 'net':
            delay, imp = self.wire[b[0], split]
            return delay, isqrt(slew * slew + imp) if d.rcs.get(info) and d.rcs[info]['ress'] else slew
        best = None
        load = self.load.get((b[0], split))
        if load is None:
            load = 0
        for i, k in info:
            arc = self.arc(i, k, split)
            dl, sl = (self.within(look_up(tab, slew, load), 'pin', b[0]) for tab in arc[5:7])
            if best is None:
                best = (dl, sl)
            else:
                f = max if split == 'late' else min
                best = (f(best[0], dl), f(best[1], sl))
        return best

    def arc(self, i, k, split):
        cell = self.d.insts[i][0]
        late = self.d.lib['late'][cell].arcs[k]
        if split == 'late' or self.d.lib['late'] is self.d.lib['early']:
            return late
        for arc in self.d.lib['early'][cell].arcs:
            if arc[:5] == late[:5]:
                return arc

    def propagate(self):
        nodes = [(p, t) for n in self.netpins for p in self.netpins[n] for t in (RISE, FALL)]
        known = set(nodes)
        for a in list(self.arcs_out) + list(self.arcs_in):
            if a not in known:
                known.add(a)
                nodes.append(a)

        def ins(b):
            l = self.arcs_in.get(b, [])
            return [x for x in l if x[0][0] in self.network] if b[0] in self.network else l
        self.ins = ins
        deg = {b: len(self.arcs_in.get(b, [])) for b in nodes}
        todo = [b for b in nodes if deg[b] == 0]
        order = []
        while todo:
            a = todo.pop()
            order.append(a)
            for b, _, _ in self.arcs_out.get(a, []):
                deg[b] -= 1
                if deg[b] == 0:
                    todo.append(b)
        assert len(order) == len(nodes), 'loop'
        self.order = order
        self.slew = {'early': {}, 'late': {}}
        self.at = {'early': {}, 'late': {}}
        self.delay = {'early': {}, 'late': {}}
        for b in order:
            for split in ('early', 'late'):
                self.row(b, split, ins)

    def row(self, b, split, ins):
        d, con = self.d, self.d.con
        f = max if split == 'late' else min
        slew, at = None, {}
        if d.ports.get(b[0]) == 'input':
            slew = con.slews.get((b[0], split, b[1]), 0)
            if b[0] in self.clock_ports:
                at[self.clock_ports[b[0]], b[1]] = 0
            elif (b[0], split, b[1]) in con.inputs:
                clock, delay = con.inputs[b[0], split, b[1]]
                at[clock, RISE] = delay
        for a, kind, info in ins(b):
            if a not in self.slew[split]:
                continue
            raw, sl = self.raw(kind, info, split, a, b, self.slew[split][a])
            delay = self.within(rnd(raw * con.derate[split, 'net' if kind == 'net' else 'cell'], 10**6), 'pin', b[0])
            self.delay[split][a, b] = delay
            slew = sl if slew is None else f(slew, sl)
            for e, v in self.at[split].get(a, {}).items():
                at[e] = v + delay if e not in at else f(at[e], v + delay)
        if slew is not None:
            self.slew[split][b] = self.within(slew, 'pin', b[0])
        if at:
            self.at[split][b] = {e: self.within(v, 'pin', b[0]) for e, v in at.items()}

    # tests: (kind, clock pin node or None, capture edge, capture arrival early/late, needed)
    def tests(self, node, kind):
        d, con = self.d, self.d.con
        p, t = node
        out = []
        if ':' in p:
            i, q = p.rsplit(':', 1)
            cell = d.insts[i][0]
            lib = d.lib['late' if kind == 'setup' else 'early'][cell]
            need = {}
            for pin, tran, clock, active, k, tab in lib.tests:
                if pin == q and tran == t and k == kind:
                    c = (i + ':' + clock, active)
                    if c[0] not in self.network:
                        continue
                    cs = self.slew['early' if kind == 'setup' else 'late'].get(c)
                    ds = self.slew['late' if kind == 'setup' else 'early'].get(node)
                    if cs is None or ds is None:
                        continue
                    v = self.within(look_up(tab, cs, ds), 'pin', p)
                    need[c] = v if c not in need else max(need[c], v)
            for c, v in need.items():
                early, late = self.at['early'].get(c, {}), self.at['late'].get(c, {})
                for e in early:
                    arrival = early[e] if kind == 'setup' else late[e]
                    out.append(dict(end=p, clockpin=c, edge=e, need=v, arrival=arrival))
        elif d.ports.get(p) == 'output':
            o = con.outputs.get((p, 'late' if kind == 'setup' else 'early', t))
            if o:
                need = o[1] if kind == 'setup' else -o[1]
                out.append(dict(end=p, clockpin=None, edge=(o[0], RISE), need=need, arrival=0))
        return out

    def required(self):
        """The required times of each node by split, for each launch edge that arrives there."""
        if not hasattr(self, '_r'):
            ends = set(self.endpoints())
            self._r = {
                split: self.required_on(split, kind, ends) for split, kind in (('early', 'hold'), ('late', 'setup'))
            }
        return self._r

    def required_on(self, split, kind, ends):
        f, out = min if split == 'late' else max, {}
        for n in reversed(self.order):
            times = {}
            for e in self.at[split].get(n, {}):
                if n[0] in ends:
                    found = [self.latest(kind, test, e) for test in self.tests(n, kind)]
                else:
                    after = [
                        b for b, _, _ in self.arcs_out.get(n, []) if b[0] not in self.network or n[0] in self.network
                    ]
                    found = [out[b][e] - self.delay[split][n, b] for b in after if e in out.get(b, {})]
                if found:
                    times[e] = self.within(f(found), 'pin', n[0])
            out[n] = times
        return out

    def latest(self, kind, test, launch):
        """The time that gives a test slack 0, without credit and exceptions."""
        sep, clk = self.separation(launch, test['edge'], kind), self.d.con.clocks[test['edge'][0]]
        if kind == 'setup':
            return test['arrival'] + sep - test['need'] - clk['setup']
        return test['arrival'] + sep + test['need'] + clk['hold']

    def graph_slack(self, node, split):
        """The least over launch edges of required less arrival, or the other way round, or none."""
        sign, rat = 1 if split == 'late' else -1, self.required()[split].get(node, {})
        return min((sign * (v - self.at[split][node][e]) for e, v in rat.items()), default=None)

    def separation(self, launch, capture, kind):
        cs = self.d.con.clocks
        l, c = cs[launch[0]], cs[capture[0]]
        g = gcd(l['period'], c['period'])
        off = (c['rise'] if capture[1] == RISE else c['fall']) - (l['rise'] if launch[1] == RISE else l['fall'])
        s = (off - 1) % g + 1
        return s if kind == 'setup' else s - g

    def among(self, objects, pin, clock):
        """Whether a list of objects of an exception names a pin, its instance or a clock; an absent one always does."""
        cell = pin.rsplit(':', 1)[0] if ':' in pin else None

        def names(kind, name):
            if kind == 'clock' or kind == 'any' and name in self.d.con.clocks:
                return name == clock
            if kind == 'any':
                return name == cell or as_pin(name) == pin or name == pin and cell is None
            return name == (cell if kind == 'cell' else pin)
        return objects is None or any(names(*x) for x in objects)

    def moved(self, launch_pin, launch, end_pin, capture, kind):
        """The separation with multicycles, or none where a false path removes the test."""
        cycles, cs = {'setup': 1, 'hold': 0}, self.d.con.clocks
        for kinds, count, start, end in self.d.con.exceptions:
            if self.among(start, launch_pin, launch[0]) and self.among(end, end_pin, capture[0]):
                if count is None and kind in kinds:
                    return None
                for k in kinds if count is not None else ():
                    cycles[k] = count
        s = self.separation(launch, capture, kind) + (cycles['setup'] - 1) * cs[capture[0]]['period']
        return s if kind == 'setup' else s - cycles['hold'] * cs[launch[0]]['period']

    def slack(self, kind, test, sep, credit, length):
        """The slack of a path of this length."""
        clk = self.d.con.clocks[test['edge'][0]]
        if kind == 'setup':
            return test['arrival'] + sep - test['need'] - clk['setup'] + credit - length
        return length - test['arrival'] - sep - test['need'] - clk['hold'] + credit

    def walk(self, end):
        """The network walk that ends at the node."""
        if end not in self.walks:
            w = [end]
            while w[-1][0] not in self.clock_ports:
                w.append(self.ins(w[-1])[0][0])
            self.walks[end] = w[::-1]
        return self.walks[end]

    def endpoints(self):
        d = self.d
        out = [p for p, r in d.ports.items() if r == 'output']
        for i, (cell, _) in d.insts.items():
            out += sorted({i + ':' + t[0] for t in d.lib['late'][cell].tests})
        return out

    def suffixes(self, end, split):
        """Best suffix sums from each node of the fan-in cone to the end node, with the node lists where asked."""
        sign = 1 if split == 'late' else -1
        cone, todo = {end}, [end]
        while todo:
            b = todo.pop()
            if b[0] in self.network:
                continue
            for a, _, _ in self.arcs_in.get(b, []):
                if a not in cone:
                    cone.add(a)
                    todo.append(a)
        return cone, sign

    def worst(self, end_pin, kind, want_path=False):
        """(slack, path details) of the endpoint."""
        best = None
        for t in (RISE, FALL):
            end = (end_pin, t)
            tests = self.tests(end, kind)
            if not tests:
                continue
            cone, sign = self.suffixes(end, 'late' if kind == 'setup' else 'early')
            suf = self.worst_ends(end, kind, cone, sign, want_path)
            for n in (it for it in cone if it in suf):
                for start in self.starts(n, kind):
                    for test in tests:
                        c = self.path_by(start, test, kind, sign, suf[n], want_path)
                        if c and (best is None or c[:3] < best[:3]):
                            best = c
        return best

    def worst_ends(self, end, kind, cone, sign, want_path):
        """For each node of a cone the worst way from it to the end: what it adds, and its nodes."""
        split, suf = 'late' if kind == 'setup' else 'early', {end: (0, (node_key(end),))}
        for b in self.cone_order(cone):
            if b not in suf or b[0] in self.network:
                continue
            s, l = suf[b]
            for a, _, _ in self.arcs_in.get(b, []):
                dl = self.delay[split].get((a, b))
                if dl is None:
                    continue
                c = (-sign * dl + s, (node_key(a),) + l if want_path else ())
                if a not in suf or c < suf[a]:
                    suf[a] = c
        return suf

    def starts(self, n, kind):
        """Where paths over a node begin, if they do there: the launch edge, the walk of the clock, the arrival."""
        split = 'late' if kind == 'setup' else 'early'
        if n[0] in self.network:
            w = self.walk(n)
            e = (self.clock_ports[w[0][0]], w[0][1])
            return [(e, w, self.at[split][n][e])]
        if self.d.ports.get(n[0]) == 'input':
            return [(e, [n], v) for e, v in self.at[split].get(n, {}).items()]
        return []

    def path_by(self, start, test, kind, sign, suffix, want_path):
        """The slack of a way by a test, with what orders it among others; none where an exception takes it out."""
        (e, w, v), n = start, start[1][-1]
        sep = self.moved(n[0], e, test['end'], test['edge'], kind)
        if sep is None:
            return None
        credit = self.credit(w, test) if n[0] in self.network else 0
        slack = self.slack(kind, test, sep, credit, v - sign * suffix[0])
        lst = tuple(node_key(x) for x in w[:-1]) + suffix[1] if want_path else ()
        return slack, lst, node_key(test['clockpin']) if test['clockpin'] else (), credit, e, test['edge']

    def cone_order(self, cone):
        if not hasattr(self, 'rank'):
            self.rank = {n: i for i, n in enumerate(self.order)}
        return sorted(cone, key=lambda n: -self.rank[n])

    def credit(self, w, test):
        if test['clockpin'] is None:
            return 0
        v = self.walk(test['clockpin'])
        shared = None
        for a, b in zip(w, v):
            if a != b:
                break
            shared = a
        if shared is None:
            return 0
        e = (self.clock_ports[w[0][0]], w[0][1])
        return self.at['late'][shared][e] - self.at['early'][shared][e]

    def slacks(self, kind):
        if not hasattr(self, '_s'):
            self._s = {}
        if kind not in self._s:
            out = {}
            for p in self.endpoints():
                b = self.worst(p, kind)
                if b is not None:
                    out[p] = b[0]
            self._s[kind] = out
        return self._s[kind]

    def wns(self, kind):
        s = self.slacks(kind)
        return min(s.values()) if s else None

    def tns(self, kind):
        return sum(v for v in self.slacks(kind).values() if v < 0)

    def path_text(self, pin, kind):
        b = self.worst(pin, kind, True)
        if b is None:
            return 'path none'
        return self.path_lines(pin, kind, *b)

    def path_lines(self, pin, kind, slack, lst, _, credit, e, cap):
        split = 'late' if kind == 'setup' else 'early'
        nodes = [(x[0].decode(), (RISE, FALL)[x[1]]) for x in lst]
        time = self.at[split][nodes[0]][e]
        lines = [
            'path %s %s slack %s credit %s from %s %s to %s %s nodes %d'
            % (kind, pin, ps(slack), ps(credit), *e, *cap, len(nodes))
        ]
        for k, n in enumerate(nodes):
            if k:
                time += self.delay[split][nodes[k - 1], n]
            lines.append('%s %s %s' % (*n, ps(time)))
        return '\n'.join(lines)

    # paths one by one: each list of nodes from a start to a node of an endpoint, joined by arcs
    def start_of(self, n, split):
        """The launch edge and the time of a path that begins at the node, or none."""
        p, t = n
        if p in self.clock_ports:
            return (self.clock_ports[p], t), 0
        if self.d.ports.get(p) == 'input' and (p, split, t) in self.d.con.inputs:
            clock, delay = self.d.con.inputs[p, split, t]
            return (clock, RISE), delay
        return None

    def before(self, node, split):
        """The nodes from which an arc with a delay leads to the node."""
        if (node, split) not in self.befores:
            found = {a for a, _, _ in self.ins(node)}
            self.befores[node, split] = [a for a in found if (a, node) in self.delay[split]]
        return self.befores[node, split]

    def parts_to(self, end, split):
        """How many lists of nodes lead to the node, from wherever they begin."""
        ways, todo = {end: 1}, [end]
        while todo:
            new = [a for a in self.before(todo.pop(), split) if a not in ways]
            ways.update(dict.fromkeys(new, 0))
            todo += dict.fromkeys(new)
        for b in self.cone_order(ways):
            for a in self.before(b, split):
                ways[a] += ways[b]
        return sum(ways.values())

    def lists_to(self, end, split):
        """All lists of nodes from a start to the node."""
        if self.parts_to(end, split) > MOST_PARTS:
            raise TooMany
        parts = [(end,)]
        while parts:
            part = parts.pop()
            if self.start_of(part[0], split):
                yield part
            parts += [(a,) + part for a in self.before(part[0], split)]

    def all_paths(self, end_pin, kind):
        """All tested paths to an endpoint, each by its slack, its nodes and the test that counts, in order."""
        split = 'late' if kind == 'setup' else 'early'
        found = []
        for end in ((end_pin, RISE), (end_pin, FALL)):
            tests = self.tests(end, kind)
            for nodes in self.lists_to(end, split) if tests else ():
                launch, time = self.start_of(nodes[0], split)
                length = time + sum(self.delay[split][step] for step in zip(nodes, nodes[1:]))
                launch_pin = [n[0] for k, n in enumerate(nodes) if k == 0 or n[0] in self.network][-1]
                by_test = []
                for test in tests:
                    sep = self.moved(launch_pin, launch, end_pin, test['edge'], kind)
                    if sep is not None:
                        credit = self.credit(nodes, test) if launch_pin in self.network else 0
                        clock = node_key(test['clockpin']) if test['clockpin'] else ()
                        by_test.append(
                            (
                                self.slack(kind, test, sep, credit, length),
                                tuple(map(node_key, nodes)),
                                clock,
                                credit,
                                launch,
                                test['edge'],
                            )
                        )
                if by_test:
                    found.append(min(by_test))
        return sorted(found)

    @staticmethod
    def passes(pins, path):
        """Whether a path has nodes of the pins, each behind the one before."""
        rest = iter(path[1])
        return all(any(n[0].decode() == pin for n in rest) for pin in pins)

    # many paths: the best ways from each node to the end
    def best_ways(self, end_pin, kind, count, pins):
        """The worst paths to an endpoint that pass the pins in order, at most so many, as `worst` finds one: for each
        node, and each number of pins that are still to pass before it, the best so many ways to the end."""
        split = 'late' if kind == 'setup' else 'early'
        left = lambda n, todo: todo - 1 if todo and pins[todo - 1] == n[0] else todo
        found = {}
        for end in ((end_pin, RISE), (end_pin, FALL)):
            tests = self.tests(end, kind)
            if not tests:
                continue
            cone, sign = self.suffixes(end, split)
            ways = {end: {left(end, len(pins)): [(0, (node_key(end),))]}}
            for b in self.cone_order(cone):
                for todo, best in ways.get(b, {}).items():
                    best[:] = sorted(best)[:count]
                    for a in {a for a, _, _ in self.arcs_in.get(b, [])} if b[0] not in self.network else ():
                        dl = self.delay[split].get((a, b))
                        if dl is not None:
                            ways.setdefault(a, {}).setdefault(left(a, todo), []).extend(
                                (s - sign * dl, (node_key(a),) + l) for s, l in best
                            )
            for n, by_todo in ways.items():
                if n[0] not in self.network and not self.start_of(n, split):
                    continue
                w = self.walk(n) if n[0] in self.network else [n]
                launch, _ = self.start_of(w[0], split)
                for todo, best in by_todo.items():
                    for x in w[-2::-1]:
                        todo = left(x, todo)
                    for s, l in best if todo == 0 else ():
                        lst = tuple(node_key(x) for x in w[:-1]) + l
                        c = self.test_that_counts(
                            kind, tests, end_pin, w, launch, lst, self.at[split][n][launch] - sign * s
                        )
                        if c:
                            found[lst] = c
        return sorted(found.values())[:count]

    def test_that_counts(self, kind, tests, end_pin, w, launch, lst, length):
        """A path, which begins with a walk to its launch pin, with the test that gives its least slack."""
        by_test = []
        for test in tests:
            sep = self.moved(w[-1][0], launch, end_pin, test['edge'], kind)
            if sep is not None:
                credit = self.credit(w, test) if w[-1][0] in self.network else 0
                clock = (test['clockpin'][0].encode(), ORDER[test['clockpin'][1]]) if test['clockpin'] else ()
                by_test.append((self.slack(kind, test, sep, credit, length), lst, clock, credit, launch, test['edge']))
        return min(by_test, default=None)

    def worst_paths(self, pin, kind, count, pins=()):
        """The worst paths to an endpoint that pass the pins in order, at most so many."""
        try:
            return [x for x in self.all_paths(pin, kind) if self.passes(pins, x)][:count]
        except TooMany:
            return self.best_ways(pin, kind, count, pins)

    def through_text(self, pin, kind, pins):
        found = self.worst_paths(pin, kind, 1, pins)
        return self.path_lines(pin, kind, *found[0]) if found else 'path none'

    def paths_text(self, pin, kind, count):
        found = self.worst_paths(pin, kind, count)
        return '\n'.join(['paths %d' % len(found)] + [self.path_lines(pin, kind, *x) for x in found])

    def unknown(self, pins):
        """The first of some pins that is not there, or none."""
        def pins_of(i):
            return self.d.lib['late'][self.d.insts[i][0]].pins if i in self.d.insts else {}
        parts = ((p, *p.rpartition(':')) for p in pins)
        return next((p for p, i, _, q in parts if p not in self.d.ports and q not in pins_of(i)), None)

    def fault(self, end_pin, kind, pins=()):
        """Why a question about an endpoint is refused, or none: a pin that is not there, no endpoint, no clock."""
        d, gone = self.d, self.unknown((end_pin, *pins))
        if gone:
            return 'no Q1 ' + gone
        if end_pin in d.ports:
            return None if d.ports[end_pin] == 'output' else 'no Q2 ' + end_pin
        i, q = end_pin.rsplit(':', 1)
        tests = [t for t in d.lib['late'][d.insts[i][0]].tests if t[0] == q]
        if not tests:
            return 'no Q2 ' + end_pin
        return None if any(t[4] == kind and i + ':' + t[2] in self.network for t in tests) else 'no Q3 ' + end_pin

# ---------------------------------------------------------------- edits and scripts


def tried(t, edits):
    """The analysis of the design that edits make of another; or they are refused."""
    d = edited(t.d, edits)
    fault = standing(d)
    if fault:
        raise Refused(fault)
    after = Timing(d)
    if after.overflow():
        raise Refused('E16 ' + after.overflow())
    return after


def canonical(w):
    if w[0] != 'set_parasitics' or w[2] == 'none':
        return ' '.join(w)
    c, r, j = [], [], 2
    while j < len(w):
        if w[j] == 'c':
            c += w[j:j + 3]
            j += 3
        else:
            r += w[j:j + 4]
            j += 4
    return ' '.join(w[:2] + c + r)


def ask(t, w):
    closing = reference_closing.answer(t, w, tried)
    if closing is not None:
        return closing
    k = w[0]
    if k == 'report_wns':
        return 'wns ' + ps(t.wns(w[1]))
    if k == 'report_tns':
        return 'tns ' + ps(t.tns(w[1]))
    if k == 'report_worst':
        s = sorted((v, p.encode()) for p, v in t.slacks(w[1]).items())[:int(w[2])]
        return '\n'.join(['worst %d' % len(s)] + ['%s %s' % (p.decode(), ps(v)) for v, p in s])
    if k in ('report_path', 'report_endpoint', 'report_through', 'report_paths'):
        fault = t.fault(w[1], w[2], w[3:] if k == 'report_through' else ())
        if fault:
            return fault
    if k == 'report_path':
        return t.path_text(w[1], w[2])
    if k == 'report_through':
        return t.through_text(w[1], w[2], w[3:])
    if k == 'report_paths':
        return t.paths_text(w[1], w[2], int(w[3]))
    if k == 'report_endpoint':
        b = t.worst(w[1], w[2])
        return 'endpoint ' + ps(b[0] if b else None)
    if t.unknown(w[1:2]):
        return 'no Q1 ' + w[1]
    split, node = w[2], (w[1], w[3])
    if k == 'report_slew':
        return 'slew ' + ps(t.slew[split].get(node))
    if k == 'report_slack':
        return 'slack ' + ps(t.graph_slack(node, split))
    a = t.at[split].get(node, {}) if k == 'report_at' else t.required()[split].get(node, {})
    clocks = list(t.d.con.clocks)
    return '%s %d' % (k[7:], len(a)) + ''.join(
        ' %s %s %s' % (c, e, ps(a[c, e])) for c, e in sorted(a, key=lambda x: (clocks.index(x[0]), ORDER[x[1]]))
    )


def drafted(t, trials):
    """The answers of a draft over a design: the list of its designs, each with its analysis, is what the trials
    change."""
    shown, answers = [t], []
    for sort, *more in trials:
        if sort == 'try':
            try:
                shown.append(tried(shown[-1], *more))
                answers.append('tried')
            except Refused as why:
                answers.append('refused %s' % why)
        elif sort == 'drop':
            answers.append('dropped' if len(shown) > 1 else 'no_draft')
            shown = shown[:-1] or shown
        elif sort == 'advise':
            answers.append(advised(shown[-1], *more))
        else:
            answers.append(ask(shown[-1], *more))
    return '\n'.join(['what_if %d' % len(trials)] + answers)


def advised(t, kind, pairs):
    """The first resize of greatest worst slack."""
    best = None
    for inst, cell in pairs:
        try:
            value = tried(t, [['repower_gate', inst, cell]]).wns(kind)
        except Refused:
            continue
        if value is not None and (best is None or value > best[2]):
            best = inst, cell, value
    return 'advice %s %s %s' % (*best[:2], ps(best[2])) if best else 'advice none'


def read_design(early, late, netlist, sdc, spef):
    """The design of some files; without parasitics where the last is the word none."""
    def text_of(name):
        with open(name) as file:
            return file.read()

    cells, units = read_library(text_of(late))
    early_cells = cells if early == late else read_library(text_of(early))[0]
    d = Design(early_cells, cells, read_module(text_of(netlist)), read_sdc(text_of(sdc), units),
               {} if spef == 'none' else read_spef(text_of(spef)))
    for n in d.rcs:
        assert n in d.nets, ('E2', n)
    return d


class Session:
    """A session over a design: its analysis, the rows of its commands, and the entries of the journal."""

    def __init__(self, d):
        self.timing, self.rows, self.journal = Timing(d), [], []

    def change(self, edits):
        try:
            self.timing = tried(self.timing, edits)
        except Refused as why:
            return 'refused %s' % why
        head = 'entry %d session 1 edits %d' % (len(self.journal) + 1, len(edits))
        self.journal.append('\n'.join([head] + [canonical(e) for e in edits]))
        return 'accepted'

    def await_design(self, number, looks):
        return 'reached' if len(self.journal) >= number else 'not_yet %d' % looks

    def answer(self, sort, more):
        t = self.timing
        return {'change': self.change, 'await': self.await_design, 'take': lambda: 'taken', 'ask': lambda w: ask(t, w),
                'what_if': lambda trials: drafted(t, trials),
                'advise': lambda kind, pairs: advised(t, kind, pairs)}[sort](*more)

    def run(self, commands):
        for k, (sort, *more) in enumerate(commands, 1):
            answer = self.answer(sort, more)
            self.rows.append('%d %d %s' % (k, len(self.journal), answer))

    def lines(self):
        t, number = self.timing, len(self.journal)
        sums = (ps(it(kind)) for kind in ('setup', 'hold') for it in (t.wns, t.tns))
        return ['journal 1 %d' % number, *self.journal, 'session 1 rows %d' % len(self.rows), *self.rows,
                'final %d setup %s %s hold %s %s' % (number, *sums)]


def main():
    if sys.argv[1:] in ([], ['-h'], ['--help']):
        print(__doc__.strip())
        return 0
    is_closing = sys.argv[1] == '--closing'
    *documents, _, script = sys.argv[2 + is_closing:9 + is_closing]
    session = Session(read_design(*documents))
    try:
        with open(script, encoding='latin-1', newline='') as file:
            commands = reference_scripts.read(file.read(), is_closing)
    except reference_scripts.Fault as why:
        print('fault script1 %s %d' % why.args)
        sys.exit(3)
    session.run(commands)
    print('\n'.join(session.lines()))
    return 0
