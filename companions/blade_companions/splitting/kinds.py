"""Kinds of values: which are public in any case, which are secret, and of which the public world needs to
know something.

    U   public by the label rules: no secret is part of it
    S   secret, and only the secret world uses it
    D   both: its value in the secret world, and beside it known bits in the public one
    P   a load that reads the shadow alone, all of whose bits have to be known: its value is U from there on

Licence: public domain (CC0)."""
from __future__ import annotations

from dataclasses import dataclass, field
from typing import Dict, Iterable, List, Set

from . import codes as op
from .flow import Flow, Place, Sink


@dataclass
class Recorded:
    """What runs from start files showed. Sinks go by their numbers."""

    feeds: Dict[Place, Set[Place]] = field(default_factory=dict)  # the stores that wrote what a load read
    reached: Set[Place] = field(default_factory=set)  # loads and stores of needed values that were executed
    partly: Set[Place] = field(
        default_factory=set
    )  # needed loads of which some bit wasn't known, at least once
    unknown: Set[Place] = field(default_factory=set)  # the same where all loads were tracked, useful or not
    met: Set[int] = field(default_factory=set)  # sinks that were executed
    leaks: Set[int] = field(default_factory=set)  # sinks that met a value of which some bit wasn't known
    useful: Dict[int, Set[Place]] = field(
        default_factory=dict
    )  # the loads and stores that known bits came to a sink through
    blank: Set[int] = field(default_factory=set)  # needed nodes of which no bit was ever known
    executed: Set[Place] = field(default_factory=set)  # branches, accesses and divisions that a run came to
    zeros: Set[int] = field(default_factory=set)  # bytes that needed loads read before anything wrote them

    def is_useless(self, place: Place) -> bool:
        """Whether a load or store was executed, and no sink ever knew anything by it."""
        return place in self.reached and not any(
            place in used for sink, used in self.useful.items() if sink not in self.leaks
        )


def declared(flow: Flow) -> Set[int]:
    """The nodes that the labels declare secret, loads apart."""
    found = set()
    for kind, numbers in flow.module.labels:
        if kind == "secret-param":
            found.add(flow.functions[numbers[0]].locals[numbers[1]])
        elif kind == "secret-global":
            found.add(flow.globals[numbers[0]])
    return found


class Kinds:
    """The kind of each node, for a set of leaks that stay and a set of loads that are checked."""

    def __init__(self, flow: Flow, checked: Iterable[Place], recorded: Recorded) -> None:
        self.flow, self.recorded = flow, recorded
        self.sinks = {(sink.place, sink.node) for sink in flow.sinks}
        self.leaking = {(flow.sinks[number].place, flow.sinks[number].node) for number in recorded.leaks}
        self.checked = {place for place in checked if self.has_public_address(place)}
        self.load_of = {node: place for place, node in flow.loads.items()}
        self.useless = {place for place in (*flow.loads, *flow.stores) if recorded.is_useless(place)}
        self.public = self.public_quotients() | self.demanded()
        self.secret = self.tainted()
        self.needed: Set[int] = set()
        self.need(sink.node for sink in self.open_sinks())
        for place in self.checked:
            self.need(self.stored(place))
        self.changes = bool(self.checked or self.needed)  # else the module stays as it is
        self.reads_shadow = bool(self.checked or self.needed_loads())  # else nothing has to be written there

    def has_public_address(self, place: Place) -> bool:
        return (place, self.flow.step(place).operands[0]) not in self.leaking

    def public_quotients(self) -> Set[int]:
        """Results of divisions whose operands are checked, and so public."""
        steps = {
            sink.place: self.flow.step(sink.place)
            for sink in self.flow.sinks
            if sink.what == "an operand of a division"
        }
        return {
            step.result
            for place, step in steps.items()
            if not any((place, node) in self.leaking for node in step.operands)
        }

    def demanded(self) -> Set[int]:
        """Results and globals that are public by demand: what they take is checked."""
        flow = self.flow
        results = {node: index for index in flow.public_results for node in flow.functions[index].results}
        found = {flow.globals[index] for index in flow.public_globals} | set(results)
        for place, node in self.leaking:
            step = flow.step(place)
            if node == step.carried:
                found -= set(step.joins)
            elif step.ins.code == op.GLOBAL_SET:
                found.discard(flow.globals[step.ins.numbers[0]])
        return found

    def tainted(self) -> Set[int]:
        """By Blade's label rules: what is made of a secret is secret."""
        readers: List[List[int]] = [[] for _ in self.flow.kind]
        for target, sources in enumerate(self.flow.made_of):
            for source in sources:
                readers[source].append(target)
        rest = [node for place, node in self.flow.loads.items() if place not in self.checked] + list(
            declared(self.flow)
        )
        found = set(rest)
        while rest:
            for target in readers[rest.pop()]:
                if target not in found and target not in self.public:
                    found.add(target)
                    rest.append(target)
        return found

    def open_sinks(self) -> List[Sink]:
        """Sinks that a secret reaches, and that are to be public."""
        return [
            one
            for one in self.flow.sinks
            if one.node in self.secret and (one.place, one.node) not in self.leaking
        ]

    def need(self, nodes: Iterable[int]) -> None:
        """These have to be known in the public world, and so what they are made of: through memory by what
        the runs showed."""
        rest = list(nodes)
        while rest:
            node = rest.pop()
            if node in self.needed or node not in self.secret or node in self.recorded.blank:
                continue
            load = self.load_of.get(node)
            if load in self.useless:
                continue
            self.needed.add(node)
            rest += self.flow.made_of[node] if load is None else self.stored(load)

    def stored(self, load: Place) -> List[int]:
        return [
            self.flow.stores[store]
            for store in self.recorded.feeds.get(load, ())
            if store not in self.useless
        ]

    def of(self, node: int) -> str:
        return "U" if node not in self.secret else "D" if node in self.needed else "S"

    def needed_loads(self) -> List[Place]:
        return [place for place, node in self.flow.loads.items() if node in self.needed]

    def is_public_use(self, node: int) -> bool:
        """Whether a node of kind D goes to a sink, where its known bits take its place."""
        place = self.flow.consumer.get(node)
        return (
            place is not None
            and self.of(node) == "D"
            and (place, node) in self.sinks
            and (place, node) not in self.leaking
        )


def is_copied(flow: Flow, load: Place) -> bool:
    """Whether what it gives is stored at once, as memcpy does."""
    node = flow.loads[load]
    return flow.stores.get(flow.consumer[node]) == node


def slice_of(kinds: Kinds) -> Set[int]:
    """What sinks are made of, not through memory."""
    rest, found = [sink.node for sink in kinds.open_sinks()], set()
    while rest:
        node = rest.pop()
        if node not in found and node in kinds.secret:
            found.add(node)
            rest += kinds.flow.made_of[node]
    return found


def decide(flow: Flow, recorded: Recorded) -> Kinds:
    """The kinds by which a module is split: loads that were wholly known whenever they were executed become
    P. One that no run reached does so where a sink needs it; one that is copied stays D, since a copy is made
    of secrets, too."""
    first = Kinds(flow, (), recorded)
    direct = slice_of(first)
    checked = set()
    for place in first.needed_loads():
        is_direct = flow.loads[place] in direct
        if place in recorded.reached:
            wanted = place not in recorded.partly and (is_direct or not is_copied(flow, place))
        else:
            wanted = is_direct
        if wanted:
            checked.add(place)
    return Kinds(flow, checked, recorded)


def secret_memory(flow: Flow) -> bool:
    return ("secret-memory", (0,)) in flow.module.labels
