"""A design as its netlist, parasitics and journal tell it: what is on which net, and how an ECO is taken back."""
import collections
import dataclasses

from lizdrog_tools.files import TextFault
from lizdrog_tools.liberty import Library
from lizdrog_tools.net_parasitics import LONGEST, line_of_net
from lizdrog_tools.spef import Spef, SpefNet
from lizdrog_tools.verilog import Netlist

MOST_EDITS = 1000
MOST_ALIKE = 100


class CannotUndo(Exception):
    """Says in a sentence why an ECO cannot be taken back."""


@dataclasses.dataclass
class Part:
    """An instance: its cell, the net of each pin, and its pins that are tied to constants."""

    cell: str
    nets: dict[str, str | None]
    tied: frozenset[str]


@dataclasses.dataclass
class Wire:
    """A net: its instance pins, and its parasitics as a SPEF or an edit has them."""

    pins: set[str]
    parasitics: SpefNet | str | None


@dataclasses.dataclass
class Change:
    """What an ECO changed: each instance and net that it touched before and after it, the edits that take it back, the
    nets whose parasitics these drop, what they cannot bring back, and which ECO it took back itself, if any."""

    before: dict
    after: dict
    inverse: list[list[str]]
    dropped: set[str]
    notes: list[str]
    took_back: int | None = None


def words_of_parasitics(name: str, parasitics: SpefNet | str | None) -> str:
    """The words behind the net of the edit that gives it these parasitics."""
    if isinstance(parasitics, SpefNet):
        return line_of_net(parasitics, name, lambda node: node).split(" ", 2)[2]
    return parasitics or "none"


def is_same(key: tuple[str, str], one: tuple | None, other: tuple | None) -> bool:
    """Whether an instance or a net stands as at another time."""
    if key[0] == "instance" or one is None or other is None:
        return one == other
    return one[0] == other[0] and words_of_parasitics(key[1], one[1]) == words_of_parasitics(key[1], other[1])


def standing_undo(taken_back: dict[int, int], number: int) -> int | None:
    """The ECO that took one back, where none took that one back in turn."""
    chain = [number]
    while chain[-1] in taken_back:
        chain.append(taken_back[chain[-1]])
    return chain[1] if len(chain) % 2 == 0 else None


def is_reverse(one: Change, other: Change) -> bool:
    """Whether an ECO begins with what another of the same instances and nets left, and leaves what that began with."""
    return all(
        is_same(it, one.before[it], other.after[it]) and is_same(it, one.after[it], other.before[it])
        for it in one.before
    )


class Design:
    """Instances and nets, taken through the ECOs of a journal one after the other."""

    def __init__(self, netlist: Netlist, library: Library, spef: Spef | None):
        self.library, self.number, self.changes = library, 0, {}
        # The last ECOs that touched just these instances and nets; and of an ECO the last one that took it back.
        self.alike: dict[frozenset, collections.deque[int]] = {}
        self.taken_back: dict[int, int] = {}
        self.ports = dict(netlist.ports)
        self.parts = {it.name: Part(it.cell, dict(it.nets), frozenset(it.tied)) for it in netlist.instances.values()}
        self.wires = {name: Wire(set(), None) for name in netlist.declared}
        for name, part in self.parts.items():
            for pin, net in part.nets.items():
                if net is not None:
                    self.wires.setdefault(net, Wire(set(), None)).pins.add(f"{name}:{pin}")
        for name, net in (spef.nets if spef else {}).items():
            if name in self.wires:
                self.wires[name].parasitics = net

    # ------------------------------------------------------------------------------------------------ ECOs

    def take(self, number: int, edits: list[str]) -> None:
        """Makes the ECO of this number, which is the next one."""
        change = Change({}, {}, [], set(), [])
        for edit in edits:
            try:
                self.edit(edit.split(" "), change)
            except (KeyError, IndexError, StopIteration) as why:
                raise TextFault(
                    None, f"the edit `{edit[:80]}` of entry {number} names what the documents have not"
                ) from why
        change.after = {it: self.value(it) for it in change.before}
        self.changes[number], self.number = change, number
        self.note_reverse(number, change)

    def note_reverse(self, number: int, change: Change) -> None:
        """Notes which ECO this one took back."""
        alike = self.alike.setdefault(frozenset(change.before), collections.deque(maxlen=MOST_ALIKE))
        if alike and not all(is_same(it, change.before[it], change.after[it]) for it in change.before):
            change.took_back = next((it for it in reversed(alike) if is_reverse(change, self.changes[it])), None)
        alike.append(number)
        if change.took_back is not None:
            self.taken_back[change.took_back] = number

    def value(self, key: tuple[str, str]) -> tuple | None:
        """What stands at an instance or a net; none where there is none."""
        sort, name = key
        if sort == "instance":
            part = self.parts.get(name)
            return part and (part.cell, frozenset(it for it in part.nets.items() if it[1] is not None))
        wire = self.wires.get(name)
        return wire and (frozenset(wire.pins), wire.parasitics)

    def touch(self, change: Change, sort: str, name: str) -> None:
        """Keeps what stands there before the ECO."""
        change.before.setdefault((sort, name), self.value((sort, name)))

    def edit(self, words: list[str], change: Change) -> None:
        """Makes an edit, and notes what takes it back."""
        name, *rest = words
        work = {
            "repower_gate": self.repower,
            "insert_gate": self.insert_gate,
            "remove_gate": self.remove_gate,
            "insert_net": self.insert_net,
            "remove_net": self.remove_net,
            "connect_pin": self.connect,
            "disconnect_pin": self.disconnect,
            "insert_buffer": self.insert_buffer,
            "set_parasitics": self.set_parasitics,
        }
        work[name](change, *rest) if name not in ("insert_buffer", "set_parasitics") else work[name](change, rest)

    def repower(self, change: Change, instance: str, cell: str) -> None:
        self.touch(change, "instance", instance)
        change.inverse.append([f"repower_gate {instance} {self.parts[instance].cell}"])
        self.parts[instance].cell = cell

    def insert_gate(self, change: Change, instance: str, cell: str) -> None:
        self.touch(change, "instance", instance)
        self.parts[instance] = Part(cell, {}, frozenset())
        change.inverse.append([f"remove_gate {instance}"])

    def remove_gate(self, change: Change, instance: str) -> None:
        self.touch(change, "instance", instance)
        part = self.parts.pop(instance)
        self.note_tied(change, instance, part, part.tied)
        change.inverse.append([f"insert_gate {instance} {part.cell}"])

    def insert_net(self, change: Change, net: str) -> None:
        self.touch(change, "net", net)
        self.wires[net] = Wire(set(), None)
        change.inverse.append([f"remove_net {net}"])

    def remove_net(self, change: Change, net: str) -> None:
        self.touch(change, "net", net)
        del self.wires[net]
        change.inverse.append([f"insert_net {net}"])
        change.dropped.add(net)

    def connect(self, change: Change, pin: str, net: str) -> None:
        self.join(change, pin, net)
        change.inverse.append([f"disconnect_pin {pin}"])

    def disconnect(self, change: Change, pin: str) -> None:
        change.inverse.append([f"connect_pin {pin} {self.part(change, pin)}"])

    def insert_buffer(self, change: Change, words: list[str]) -> None:
        net, instance, new, cell, *sinks = words
        pins = self.library.cells[cell].pins.items()
        given, made = (next(it for it, (way, _) in pins if way == side) for side in ("input", "output"))
        self.touch(change, "instance", instance)
        self.touch(change, "net", new)
        self.parts[instance], self.wires[new] = Part(cell, {}, frozenset()), Wire(set(), None)
        for sink in sinks:
            self.part(change, sink)
            self.join(change, sink, new)
        self.join(change, f"{instance}:{given}", net)
        self.join(change, f"{instance}:{made}", new)
        moved = [line for sink in sinks for line in (f"disconnect_pin {sink}", f"connect_pin {sink} {net}")]
        change.inverse.append(
            [
                f"disconnect_pin {instance}:{given}",
                *moved,
                f"disconnect_pin {instance}:{made}",
                f"remove_gate {instance}",
                f"remove_net {new}",
            ]
        )

    def set_parasitics(self, change: Change, words: list[str]) -> None:
        self.touch(change, "net", words[0])
        self.wires[words[0]].parasitics = None if words[1] == "none" else " ".join(words[1:])

    def join(self, change: Change, pin: str, net: str) -> None:
        """A pin joins a net, whose parasitics go."""
        instance, _, name = pin.rpartition(":")
        self.touch(change, "instance", instance)
        self.touch(change, "net", net)
        part, wire = self.parts[instance], self.wires[net]
        if name in part.tied:
            self.note_tied(change, instance, part, {name})
            part.tied -= {name}
        part.nets[name] = net
        wire.pins.add(pin)
        wire.parasitics = None
        change.dropped.add(net)

    def part(self, change: Change, pin: str) -> str:
        """A pin leaves its net, whose parasitics go; gives the net."""
        instance, _, name = pin.rpartition(":")
        net = self.parts[instance].nets[name]
        self.touch(change, "instance", instance)
        self.touch(change, "net", net)
        self.parts[instance].nets[name] = None
        self.wires[net].pins.discard(pin)
        self.wires[net].parasitics = None
        change.dropped.add(net)
        return net

    @staticmethod
    def note_tied(change: Change, instance: str, part: Part, pins: set[str] | frozenset[str]) -> None:
        """No edit ties a pin to a constant."""
        if pins:
            change.notes.append(
                f"{', '.join(f'{instance}:{it}' for it in sorted(pins))} of {part.cell} was tied to a constant, and "
                f"stays "
                "open"
            )

    # ------------------------------------------------------------------------------------------------ taking back

    def later_change(self, key: tuple[str, str], number: int) -> int | None:
        """The first ECO behind one that touched an instance or a net."""
        return next((it for it in sorted(self.changes) if it > number and key in self.changes[it].before), None)

    def other_now(self, change: Change) -> tuple[str, str] | None:
        """An instance or a net that is no more as an ECO left it, if there is one."""
        return next((it for it, value in change.after.items() if not is_same(it, self.value(it), value)), None)

    def undo(self, number: int) -> tuple[list[str], list[str]]:
        """The edits that take an ECO back, and what they cannot bring back."""
        change = self.changes.get(number)
        if change is None:
            raise CannotUndo(f"there is no entry {number}")
        key = self.other_now(change)
        if key is not None:
            undo = standing_undo(self.taken_back, number)
            if undo is not None and self.other_now(self.changes[undo]) is None:
                raise CannotUndo(f"entry {undo} took it back already: `undo {undo}` does it again")
            raise CannotUndo(
                f"entry {self.later_change(key, number)} changed the {' '.join(key)} since: take that back first"
            )
        edits = [edit for part in reversed(change.inverse) for edit in part]
        for (sort, name), before in change.before.items():
            if sort == "net" and before is not None:
                edits += self.restored(change, name, before[1])
        if len(edits) > MOST_EDITS:
            raise CannotUndo(f"that takes {len(edits)} edits, and an ECO has {MOST_EDITS} at most")
        return edits, change.notes

    @staticmethod
    def restored(change: Change, name: str, wanted: SpefNet | str | None) -> list[str]:
        """The edit that gives a net its parasitics again, where the others do not."""
        after = change.after["net", name]
        left = None if name in change.dropped or after is None else after[1]
        words = words_of_parasitics(name, wanted)
        if words == words_of_parasitics(name, left):
            return []
        edit = f"set_parasitics {name} {words}"
        if len(edit) > LONGEST:
            raise CannotUndo(f"the parasitics of {name} take a line of {len(edit)} bytes, and {LONGEST} are the most")
        return [edit]
