"""Which secrets reach which ends of an image, by the label rules: apart from the program, which stays the
judge. Licence: public domain (CC0)."""
from __future__ import annotations

from collections import defaultdict
from dataclasses import dataclass, field
from typing import Dict, Iterable, Iterator, List, NamedTuple, Optional, Sequence, Set, Tuple

from ..formats.image import Command, Image
from ..formats.operators import OUTSIDE

CONDITION, LOAD_ADDRESS, STORE_ADDRESS, DIVISION, STORED, DEMANDED = KINDS = (
    "branch", "address of a load", "address of a store", "division", "store to a public memory",
    "public demand")
PLURALS = dict(zip(KINDS, (
    "branches", "addresses of loads", "addresses of stores", "divisions", "stores to public memories",
    "public demands")))
OBSERVED = (CONDITION, LOAD_ADDRESS, STORE_ADDRESS, DIVISION)  # what an observer of a run sees
CHUNK = 8192  # so many groups are followed at a time


class Origin(NamedTuple):
    """Where a secret comes from: what declares it, the site that first writes it (none for a parameter or a
    global), its variable."""

    declared: str
    position: Optional[int]
    variable: int


class End(NamedTuple):
    """A place where a secret may not go: its position, its kind, and the variable that has to be public."""

    position: int
    kind: str
    variable: int


def declared_origins(image: Image) -> List[Origin]:
    """The parameters and globals that are declared secret."""
    found = []
    for number, function in enumerate(image.functions):
        secret = [index for index, is_secret in enumerate(function.secret_params) if is_secret]
        found += [Origin(f"parameter {number} {index}", None, function.first + index) for index in secret]
    found += [Origin(f"global {number}", None, number) for number,
              secret in enumerate(image.secret_globals) if secret]
    return found


def loaded_origins(image: Image) -> List[Origin]:
    """The loads of memories that are declared secret."""
    secret = image.secret_memories
    return [Origin(f"memory {command.memory}", position, command.writes) for position,
            command in enumerate(image.commands)
            if command.kind == "Load" and secret[command.memory]]


def demanded_variables(image: Image) -> Set[int]:
    found = set()
    for function, index in image.demands:
        defined = image.functions[function] if function is not None else None
        found.add(index if defined is None else defined.first + defined.params + index)
    return found


def is_bounds_test(commands: Sequence[Command], position: int) -> bool:
    """Whether the Test there is that of an access's bounds, behind which the access stands."""
    if position + 1 >= len(commands) or commands[position + 1].kind not in ("Load", "Store"):
        return False
    return commands[position - 1].kind == "Set" and commands[position - 1].operator == OUTSIDE


def kind_of_test(commands: Sequence[Command], position: int) -> str:
    """The kind of a Test: C has no branch where an access tests its bounds, but an address."""
    if not is_bounds_test(commands, position):
        return CONDITION
    return LOAD_ADDRESS if commands[position + 1].kind == "Load" else STORE_ADDRESS


def ends_of_command(image: Image, position: int, command: Command) -> List[End]:
    """The ends at a position, but for what is demanded public."""
    if command.kind == "Test":
        return [End(position, kind_of_test(image.commands, position), x) for x in command.sinks]
    if command.kind == "Load":
        return [End(position, LOAD_ADDRESS, x) for x in command.sinks]
    if command.kind == "Store":
        found = [End(position, STORE_ADDRESS, x) for x in command.sinks]
        value = command.operands[1]
        if not image.memories[command.memory].is_secret and value.is_variable:
            found.append(End(position, STORED, value.value))
        return found
    return [End(position, DIVISION, x) for x in dict.fromkeys(command.sinks)]


class Graph:
    """The sites of an image by the variables that they read."""

    def __init__(self, image: Image) -> None:
        self.image, self.commands = image, image.commands
        self.readers: Dict[int, List[int]] = defaultdict(list)
        self.writers: Dict[int, List[int]] = defaultdict(list)
        for position, command in enumerate(self.commands):
            if command.writes >= 0:
                self.writers[command.writes].append(position)
                for variable in dict.fromkeys(command.reads):
                    self.readers[variable].append(position)

    def reach(self, origins: Iterable[Origin], within: Optional[Set[int]] = None) -> "Reach":
        """The variables that origins reach, and the shortest way to each."""
        came: Dict[int, Tuple[Optional[int], Optional[int], Optional[Origin]]] = {}
        for origin in origins:
            came.setdefault(origin.variable, (origin.position, None, origin))
        depth = dict.fromkeys(came, 0)
        work = list(came)
        for variable in work:
            for position in self.readers.get(variable, ()):
                to = self.commands[position].writes
                if to not in came and (within is None or to in within):
                    came[to] = (position, variable, None)
                    depth[to] = depth[variable] + 1
                    work.append(to)
        return Reach(came, depth)

    def reached_back(self, variables: Iterable[int], within: Dict) -> Set[int]:
        """The variables from which those given are reached, among some."""
        found = set(variables)
        work = list(found)
        for variable in work:
            for position in self.writers.get(variable, ()):
                new = [x for x in self.commands[position].reads if x in within and x not in found]
                found.update(new)
                work += new
        return found


@dataclass
class Reach:
    """Of each variable that is reached: the site that writes it, the variable that this reads, and the origin
    where it begins there."""

    came: Dict[int, Tuple[Optional[int], Optional[int], Optional[Origin]]]
    depth: Dict[int, int]

    def way(self, variable: int) -> Tuple[Origin, List[int]]:
        """The origin and the sites of the shortest way to a variable."""
        sites: List[int] = []
        while True:
            position, former, origin = self.came[variable]
            if position is not None:
                sites.append(position)
            if origin is not None:
                return origin, sites[::-1]
            variable = former


def all_ends(image: Image, graph: Graph) -> List[End]:
    """All ends; of an access, its test and its address are one, at the access."""
    found: List[End] = []
    for position, command in enumerate(image.commands):
        if command.sinks or command.kind == "Store":
            found += ends_of_command(image, position, command)
    for variable in sorted(demanded_variables(image)):
        found += [End(position, DEMANDED, variable) for position in graph.writers.get(variable, ())]
        if not graph.writers.get(variable):
            found.append(End(0, DEMANDED, variable))
    return found


def is_refused(image: Image, end: End, secret: Dict) -> bool:
    """Whether a secret arrives at an end; a bounds test counts by itself only where the address is public."""
    if end.variable not in secret:
        return False
    if end.kind == DEMANDED:
        command = image.commands[end.position]
        loads = command.kind == "Load" and image.memories[command.memory].is_secret
        return loads or any(x in secret for x in command.reads)
    if image.commands[end.position].kind == "Test" and is_bounds_test(image.commands, end.position):
        return not any(x in secret for x in image.commands[end.position + 1].sinks)
    return True


@dataclass
class Findings:
    """What comes of the label rules."""

    image: Image
    graph: Graph
    origins: List[Origin]
    ends: List[End]
    secret: Reach
    refused: List[End]
    core: Set[int] = field(default_factory=set)  # the variables between an origin and a refused end
    guilty: List[Origin] = field(default_factory=list)

    @property
    def is_constant_time(self) -> bool:
        return not self.refused


def find(image: Image, public: Sequence[int] = ()) -> Findings:
    """What the label rules say, where what some loads give counts as public."""
    graph, taken = Graph(image), set(public)
    origins = declared_origins(image) + [one for one in loaded_origins(image) if one.position not in taken]
    ends, secret = all_ends(image, graph), graph.reach(origins)
    refused = [end for end in ends if is_refused(image, end, secret.came)]
    found = Findings(image, graph, origins, ends, secret, refused)
    found.core = graph.reached_back([end.variable for end in refused], secret.came)
    found.guilty = [origin for origin in origins if origin.variable in found.core]
    return found


class Components:
    """The strongly connected components of some variables, those first from which no other one is reached
    (Tarjan's way, without calls)."""

    def __init__(self, graph: Graph, core: Set[int]) -> None:
        self.graph, self.core = graph, core
        self.order: Dict[int, int] = {}
        self.low: Dict[int, int] = {}
        self.stack: List[int] = []
        self.placed: Set[int] = set()
        self.found: List[List[int]] = []
        for start in core:
            if start not in self.order:
                self.visit(start)

    def enter(self, variable: int) -> Tuple[int, Iterator[int]]:
        """Numbers a variable, and gives it with the variables that it goes to."""
        self.order[variable] = self.low[variable] = len(self.order)
        self.stack.append(variable)
        writes = (self.graph.commands[position].writes for position in self.graph.readers.get(variable, ()))
        return variable, iter([x for x in writes if x in self.core])

    def leave(self, variable: int) -> None:
        """Takes the component off that the variable is the first one of."""
        if self.low[variable] != self.order[variable]:
            return
        at = len(self.stack) - 1
        while self.stack[at] != variable:
            at -= 1
        self.found.append(self.stack[at:])
        self.placed.update(self.stack[at:])
        del self.stack[at:]

    def visit(self, start: int) -> None:
        work, low = [self.enter(start)], self.low
        while work:
            variable, rest = work[-1]
            new = next(rest, None)
            if new is None:
                work.pop()
                self.leave(variable)
                if work:
                    low[work[-1][0]] = min(low[work[-1][0]], low[variable])
            elif new not in self.order:
                work.append(self.enter(new))
            elif new not in self.placed:
                low[variable] = min(low[variable], self.order[new])


class Counter:
    """How often each of many bits was seen, the digits of each count one above the other."""

    def __init__(self) -> None:
        self.planes: List[int] = []

    def add(self, bits: int) -> None:
        for at, plane in enumerate(self.planes):
            self.planes[at], bits = plane ^ bits, plane & bits
            if not bits:
                return
        if bits:
            self.planes.append(bits)

    def count(self, bit: int) -> int:
        return sum((plane >> bit & 1) << at for at, plane in enumerate(self.planes))


def spread(graph: Graph, order: List[List[int]], incoming: Dict[int, int], core: Set[int],
           asked: Set[int]) -> Dict[int, int]:
    """Of each variable that is asked for, the bits that reach it from the variables where they begin."""
    mask: Dict[int, int] = {}
    for members in reversed(order):
        bits = 0
        for variable in members:
            bits |= incoming.pop(variable, 0)
        if bits:
            mask.update((variable, bits) for variable in members if variable in asked)
            for to in {graph.commands[position].writes for variable in members
                       for position in graph.readers.get(variable, ())} & core:
                incoming[to] = incoming.get(to, 0) | bits
    return mask


def count_ends(found: Findings, groups: Sequence[Sequence[Origin]]) -> Tuple[List[Dict[str, int]], Set[int]]:
    """Of each group of origins, how many refused ends of each kind it reaches; and the places in the list of
    those that none reaches."""
    order = Components(found.graph, found.core).found
    counts: List[Dict[str, int]] = []
    missed = set(range(len(found.refused)))
    asked = {end.variable for end in found.refused}
    for first in range(0, len(groups), CHUNK):
        seeds: Dict[int, int] = defaultdict(int)
        for bit, group in enumerate(groups[first : first + CHUNK]):
            for origin in group:
                seeds[origin.variable] |= 1 << bit
        mask = spread(found.graph, order, seeds, found.core, asked)
        counters: Dict[str, Counter] = defaultdict(Counter)
        for at, end in enumerate(found.refused):
            if mask.get(end.variable):
                counters[end.kind].add(mask[end.variable])
                missed.discard(at)
        size = min(CHUNK, len(groups) - first)
        counts += [{kind: n for kind, one in counters.items() if (n := one.count(bit))}
                   for bit in range(size)]
    return counts, missed
