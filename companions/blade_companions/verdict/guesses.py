"""What a cause is likely to be, what may help, and what the guess rests on. Licence: public domain (CC0)."""
from __future__ import annotations

import re
from collections import defaultdict
from typing import TYPE_CHECKING, Dict, List, NamedTuple, Optional, Sequence, Set, Tuple

from .flow import DEMANDED, STORED, Findings, Origin
from ..formats.image import Command, Image
from ..c.lines import Lines

if TYPE_CHECKING:
    from .causes import Cause, Way


class Guess(NamedTuple):
    """A likely reason, its remedy, and what the guess rests on."""

    reason: str
    remedy: str
    rests: str

    def __str__(self) -> str:
        likely = "" if self.reason == UNKNOWN.reason else "likely "
        return f"{likely}{self.reason}, since {self.rests}: {self.remedy}"


LEDGER = Guess("a public number in a secret memory",
               "give it as a parameter, or keep it in the ledger: PUB(x), SETPUB(x, v)",
               "it is loaded from one place and nothing mixes it")
POINTER = Guess("a function pointer in a secret memory",
                "call the function directly, or keep the pointer in the ledger", "a call goes by it")
SHARED = Guess("locals that clang shares between C variables", "wasm-opt -g --untee --ssa before labelling",
               "a step on the way reads what was written anew")
LEAK = Guess("a look-up or a branch by a secret",
             "if what is loaded is secret this is a leak: read all entries, or compute without a branch", "")
UNKNOWN = Guess("unknown whether it is secret",
                "one run decides (--start FILE); if it is public, give it as a parameter, or keep it in the "
                "ledger", "")
FRAME = Guess("a variable that clang keeps in memory", "compile with -O1 or more",
              "the function keeps all its parameters in its frame")
SPILL = Guess("a secret that is stored to a public memory",
              "keep it in a memory that is declared secret; unroll loops over local arrays, inline what "
              "takes an address", "it reaches nothing but stores")
DEMAND = Guess("a result that depends on a secret and is demanded public",
               "drop the demand, or don't make the result of the secret",
               "it reaches nothing but the demand")
# Operators by their codes: those that ciphers mix bits with, those that cut an index out of a word, and those
# that move an address.
MIXING = frozenset([0x73, 0x77, 0x78, 0x85, 0x89, 0x8A])  # xor, rotl, rotr
CUTTING = frozenset([0x71, 0x75, 0x76, 0x83, 0x87, 0x88])  # and, shr_s, shr_u
COPY, MOVING = 0x00, frozenset([0x00, 0x6A, 0x6B])  # as it is, add, sub
BYTES = frozenset([0x2C, 0x2D, 0x30, 0x31])  # loads of a byte
WALKED = 100_000  # the most commands that are looked at for one step of a way
STEPS = 30  # the most steps of a way that are looked at
BASES = 64  # the most variables that are looked at for an address
# C's text where an element of an array is loaded
ELEMENT = re.compile(r"(?:\w+(?:->|\.))*\w+\[")
LOADS = 3  # so many loads of a cause are looked at


class Guesser:
    """Guesses of causes, by what was found of an image."""

    def __init__(self, found: Findings, lines: Lines) -> None:
        self.found, self.graph, self.image, self.lines = found, found.graph, found.image, lines
        self.unoptimised: Dict[int, bool] = {}
        self.loops: Dict[int, List[Tuple[int, int]]] = {}

    def likely(self, cause: "Cause") -> Guess:
        """The likely reason of a cause, by its ways: said as likely, not as fact."""
        kinds = set(cause.counts)
        if kinds == {DEMANDED}:
            return DEMAND
        if kinds <= {STORED, DEMANDED}:
            return SPILL
        if any(is_broken(self.found, cause.way(end)) for end in cause.reached[:3]):
            return SHARED
        shortest = cause.way(next(end for end in cause.reached if end.kind not in (STORED, DEMANDED)))
        load = shortest.origin.position
        if (load is not None and self.is_framed(self.address_of(load))
            and self.is_unoptimised(self.image.function_at(load))):
            return FRAME
        if self.lines.instruction(shortest.end.position) == "call_indirect":
            return POINTER
        why = self.why_secret(cause, shortest)
        if why:
            return LEAK._replace(rests=why)
        why = self.why_unknown(cause)
        return UNKNOWN._replace(rests=why) if why else LEDGER

    def why_secret(self, cause: "Cause", way: "Way") -> str:
        """Why a cause is more like key bytes, or numbers made of them, than like a count or a pointer; empty
        where it isn't."""
        if not way.origin.declared.startswith("memory"):
            return "it is declared secret by itself"
        commands = [self.graph.commands[site] for site in way.sites]
        operators = {command.operator for command in commands if command.kind == "Set"}
        if operators & MIXING:
            return "it is mixed by xor or rotations on the way"
        if self.why_unknown(cause):
            return ""
        conditions, addresses, _ = cause.columns()
        if operators & CUTTING and 4 * conditions < addresses:
            return "bits are cut out of it for addresses"
        is_byte = any(command.kind == "Load" and command.operator in BYTES for command in commands)
        return "a byte is loaded" if is_byte else ""

    def why_unknown(self, cause: "Cause") -> str:
        """Why a cause may as well be a count or a pointer as a part of a key: arrays hold both. Empty where
        it is no element."""
        if ELEMENT.match(text_at(cause, self.lines)):
            return "it is an element of an array"
        if any(self.is_walked(load) for load in cause.loads[:LOADS]):
            return "a loop walks over where it is loaded from"
        return ""

    def address_of(self, load: int) -> Optional[int]:
        """The variable that a load has its address in; None of a constant one, and of what is no load."""
        command = self.graph.commands[load]
        return command.sinks[0] if command.kind == "Load" and command.sinks else None

    def written_by(self, variable: int) -> List[Command]:
        return [self.graph.commands[position] for position in self.graph.writers.get(variable, ())]

    def is_framed(self, address: Optional[int]) -> bool:
        """Whether an address is a fixed place from the stack pointer on, which is the one global that clang
        makes."""
        seen, work, is_based = {address}, [address] if address is not None else [], False
        for variable in work:
            if variable < len(self.image.secret_globals):
                is_based = True
                continue
            commands = self.written_by(variable)
            if (not commands or len(work) > BASES
                or any(one.kind != "Set" or one.operator not in MOVING for one in commands)):
                return False
            new = dict.fromkeys(x for one in commands for x in one.reads if x not in seen)
            seen.update(new)
            work += new
        return is_based

    def is_unoptimised(self, function: int) -> bool:
        """Whether a function stores each of its parameters to its frame, as clang -O0 does."""
        if function not in self.unoptimised:
            one = self.image.functions[function]
            params = set(range(one.first, one.first + one.params))
            self.unoptimised[function] = (bool(params) and params <= self.stored(
                self.graph.commands[one.entry : one.entry + one.length]))
        return self.unoptimised[function]

    def stored(self, commands: Sequence[Command]) -> Set[int]:
        """The variables that are stored to fixed places of a frame, as they are or by a copy."""
        found: Set[int] = set()
        for command in commands:
            if (command.kind == "Store" and command.sinks and command.operands[1].is_variable
                and self.is_framed(command.sinks[0])):
                value = command.operands[1].value
                found.update([value], *(one.reads for one in self.written_by(value) if one.kind == "Set"
                                        and one.operator == COPY))
        return found

    def loop_of(self, position: int) -> Tuple[int, int]:
        """The first and the last position of the loops round a place, whose code stands together; (0, -1)
        where there is none."""
        function = self.image.function_at(position)
        if function not in self.loops:
            one = self.image.functions[function]
            self.loops[function] = [(to, at) for at in range(one.entry, one.entry + one.length)
                                    for to in self.graph.commands[at].targets
                                    if self.graph.commands[at].kind in ("Test", "Jump")
                                    and one.entry <= to <= at]
        round_it = [(first, last) for first, last in self.loops[function] if first <= position <= last]
        return (min(first for first, _ in round_it),
                max(last for _, last in round_it)) if round_it else (0, -1)

    def is_walked(self, load: int) -> bool:
        """Whether a load stands in a loop that moves its address: an element of an array, or a limb of a
        number, and no field of a context."""
        first, last = self.loop_of(load)
        address = self.address_of(load)
        seen, work = {address}, [address] if last > 0 and address is not None else []
        for variable in work:
            writers = self.graph.writers.get(variable, ())
            inside = [position for position in writers if first <= position <= last]
            if 0 < len(inside) < len(writers):
                # It has a first value, and another one each time round.
                return True
            if len(work) > BASES:
                break
            commands = [self.graph.commands[position] for position in inside]
            new = dict.fromkeys(x for one in commands for x in one.reads + one.sinks if x not in seen)
            seen.update(new)
            work += new
        return False


def is_broken(found: Findings, way: "Way") -> bool:
    """Whether a step of a way can't be: the variable that a site writes is always written anew before the
    next one reads it."""
    places = (way.sites + [way.end.position])[:STEPS]
    if way.origin.position is None and not enters(found, way.origin, places[0]):
        return True
    return any(not may_follow(found, first, second) for first, second in zip(places, places[1:]))


def enters(found: Findings, origin: Origin, second: int) -> bool:
    """Whether the value that a function gets for a secret parameter may be what stands in its variable at
    second."""
    words = origin.declared.split()
    if words[0] != "parameter" or found.image.function_at(second) != int(words[1]):
        return True
    return walk(found, origin.variable, found.image.functions[int(words[1])].entry, second)


def may_follow(found: Findings, first: int, second: int) -> bool:
    """Whether what the site at first writes may be what stands in its variable at second, within one
    function."""
    image, variable = found.image, found.graph.commands[first].writes
    function = image.function_at(first)
    if function < 0 or function != image.function_at(second) or not is_own(image, function, variable):
        return True
    return walk(found, variable, first + 1, second)


def is_own(image: Image, function: int, variable: int) -> bool:
    """Whether a variable is a local one of the function, which no call changes."""
    defined = image.functions[function]
    index = variable - defined.first
    return 0 <= index < defined.variables and not defined.params <= index < defined.params + defined.results


def walk(found: Findings, variable: int, start: int, goal: int) -> bool:
    commands, seen, work, left = found.graph.commands, set(), [start], WALKED
    while work and left:
        position = work.pop()
        while position not in seen and position >= 7:
            seen.add(position)
            if position == goal:
                return True
            command, left = commands[position], left - 1
            if (command.kind in ("Ret", "Trap") or command.writes == variable
                and command.kind in ("Set", "Load")):
                break
            if command.kind == "Test":
                work.append(command.targets[1])
            position = command.targets[0] if command.kind in ("Test", "Jump") else position + 1
    return not left


def settle(causes: Sequence["Cause"], lines: Lines) -> None:
    """A number that is read at several places gets one answer: that of the places that look secret, since
    moving a secret to the ledger is worse than keeping a public number."""
    order = [LEDGER.reason, UNKNOWN.reason, LEAK.reason]
    named: Dict[str, List["Cause"]] = defaultdict(list)
    for cause in causes:
        name = name_of(cause, lines)
        if name and cause.likely is not None and cause.likely.reason in order:
            named[name].append(cause)
    for name, members in named.items():
        most = max(members, key=lambda one: order.index(one.likely.reason))
        for cause in members:
            if cause.likely.reason != most.likely.reason:
                cause.likely = most.likely._replace(rests=f"{name} is read at {most.place} too, and there "
                                                    f"{most.likely.rests}")


def text_at(cause: "Cause", lines: Lines, behind: bool = True) -> str:
    """The text of C from the place that is loaded on, or up to it."""
    line = next((line for line in map(lines.line, cause.loads) if line.column), None)
    text = lines.source_as_is(line) if line else ""
    return text[line.column - 1 :] if line and behind else text[: line.column - 1] if line else ""


def name_of(cause: "Cause", lines: Lines) -> str:
    """The object of C that is loaded: the word at the place, with what stands before . or -> in front of it;
    empty of an element."""
    text = text_at(cause, lines)
    word, whole = re.match(r"\w+", text), re.search(r"(?:\w+\s*(?:->|\.)\s*)+$", text_at(cause, lines, False))
    behind = text[word.end() :] if word else ""
    accessed = re.match(r"\s*\(\s*&?\s*(\w+(?:(?:->|\.)\w+)+)\s*\)", behind)
    if accessed:
        # By a macro or a function that reads it: PUB(x->y), pub64(&x->y).
        return accessed[1]
    if not word or not whole or re.match(r"\s*[\[(]", behind):
        return ""
    return re.sub(r"\s", "", whole[0] + word[0])
