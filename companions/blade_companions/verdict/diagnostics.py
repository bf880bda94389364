"""What is refused, as a compiler tells it: a place in a file, a rule, and the way from what is declared
secret. Licence: public domain (CC0)."""
from __future__ import annotations

from dataclasses import dataclass, field
from typing import Dict, Iterator, List, Optional, Sequence

from .causes import Cause, Way, add_ends
from ..c.dwarf import subprograms
from .flow import CONDITION, DEMANDED, DIVISION, LOAD_ADDRESS, STORE_ADDRESS, STORED, End, Findings, Origin
from .guesses import LEAK, UNKNOWN, Guess, Guesser, settle
from .libraries import Owners
from .panics import panic_text
from .uses import Uses
from ..c.lines import NOWHERE, Line, Lines
from ..c.paths import shown
from ..formats.certificate import Protect
from ..c.declarations import declared, labels_of
from ..formats.module import MEMORY

MOST_JUDGED = 40  # so many causes get a likely reason
MANY, MOST_SOURCES = 3, 4  # with more places than that it is told where to begin: so many lines
MOST_STEPS = 12  # of a way
CALLED = "call by a secret"
WARNING, ERROR = "warning", "error"


@dataclass(frozen=True)
class Rule:
    """A kind of end: the rule's name, what is said of a place, and what helps."""

    name: str
    title: str
    text: str
    help: str


RULES: Dict[str, Rule] = {
    CONDITION: Rule("blade-branch", "SecretBranch", "a branch depends on a secret",
                    "compute without a branch: both ways, and a mask that keeps one"),
    LOAD_ADDRESS: Rule("blade-load", "SecretLoadAddress", "a secret is part of the address of a load",
                       "read all entries, and keep one by a mask"),
    STORE_ADDRESS: Rule("blade-store", "SecretStoreAddress", "a secret is part of the address of a store",
                        "write all entries, by masks"),
    DIVISION: Rule("blade-division", "SecretDivision", "a secret is an operand of a division",
                   "divide by a constant, or by multiplications and shifts"),
    STORED: Rule("blade-public-memory", "SecretInPublicMemory", "a secret is stored to a public memory",
                 "keep it in a memory that is declared secret"),
    CALLED: Rule("blade-call", "SecretCall", "a secret chooses which function is called",
                 "call functions by their names, or keep the pointer in the ledger"),
    DEMANDED: Rule("blade-public-demand", "SecretResult", "what has to be public depends on a secret",
                   "drop the demand, or don't make it of the secret"),
}


@dataclass
class Step:
    """A place on a way, and what is said of it."""

    line: Line
    position: int
    message: str
    function: str = ""


@dataclass
class Problem:
    """A refused place: its rule, its line, the way there, and the likely reason. Ends of one rule at one
    place are one problem."""

    rule: Rule
    line: Line
    position: int
    function: str
    instruction: str
    steps: List[Step]
    ends: int = 1
    likely: Optional[Guess] = None
    loaded: Optional[Step] = None  # the line that loads the secret, where it comes of a memory
    module: str = ""
    offset: int = 0  # in the module's file
    panic: str = ""  # of a branch by which Rust panics, what it checks


@dataclass
class Source:
    """A line that loads or declares secrets, its cause, and the likely reason: where to mend first."""

    line: Line
    position: int
    text: str
    cause: Cause
    likely: Optional[Guess]

    @property
    def reason(self) -> str:
        """What a run or a witness shows; if neither shows anything, the likely reason."""
        return self.cause.observed or str(self.likely or "")


@dataclass
class Told:
    """All that is told of an image."""

    found: Findings
    problems: List[Problem]
    protects: List[Step]
    weights: List[int] = field(default_factory=list)
    sources: List[Source] = field(default_factory=list)
    # by the positions of problems, what a run and a witness show, in place of what is likely
    observed: Dict[int, str] = field(default_factory=dict)
    witnessed: Optional[int] = None  # the position of the problem that a witness shows
    level: str = WARNING  # what a violation is called
    warnings: List[str] = field(default_factory=list)  # of what the verdict rests on

    def also(self, one: Problem) -> str:
        """What is shown of a problem, behind its text."""
        return (f". {self.observed[one.position][0].upper()}{self.observed[one.position][1:]}"
                if one.position in self.observed else "")


def rule_of(end: End, instruction: str) -> Rule:
    """A division's test of its divisor is told as the division, the tests of an indirect call as the call."""
    word = instruction.split(" ")[0]
    if end.kind == CONDITION and word[3:7] in (".div", ".rem"):
        return RULES[DIVISION]
    return RULES[CALLED if end.kind == CONDITION and word == "call_indirect" else end.kind]


def place_of(lines: Lines, position: int, way: Sequence[int] = ()) -> int:
    """A position with a line of C, for one that has none (in an accessor, or made by the compiler): the last
    one on the way."""
    if lines.line(position).number and lines.is_plain(position):
        return position
    return next((site for site in reversed(way) if lines.line(site).number), position)


def parameter_name(lines: Lines, number: int, index: int) -> str:
    """As C calls it, where DWARF tells of as many parameters as the module has."""
    if number >= len(lines.functions):
        return str(index)
    linked = lines.functions[number]
    if linked.module.path not in lines.told:
        lines.told[linked.module.path] = subprograms(linked.module)
    one = next((one for one in lines.told[linked.module.path] if one.function == linked.index), None)
    if one is None or len(one.params) != len(linked.module.type_of(linked.index).params):
        return str(index)
    return one.params[index].name or str(index)


def origin_text(origin: Origin, found: Findings, lines: Lines) -> str:
    words = origin.declared.split()
    if words[0] == "parameter":
        number = int(words[1])
        name = lines.functions[number].name if number < len(lines.functions) else f"function {number}"
        called = parameter_name(lines, number, int(words[2]))
        return f"parameter {called} of {name} is declared secret"
    return f"{origin.declared} is declared secret" + (": it is loaded here" if origin.position is not None
                                                      else "")


def declared_at(lines: Lines) -> Dict[str, Line]:
    """Of what sources declare by blade.h, the lines where: by the words that origins are told by."""
    numbers = {(one.module.name, one.index): number for number, one in enumerate(lines.functions)}
    found: Dict[str, Line] = {}
    memories = 0
    for module in {one.module.name: one.module for one in lines.functions}.values():
        told = labels_of(module).entries if declared(module) else []
        imported = len(module.imported(MEMORY))
        for (kind, indices), where in told:
            path, _, number = where.rpartition(":")
            line = Line(path, int(number) if number.isdigit() else 0, "")
            if kind == "secret-param" and (module.name, indices[0]) in numbers:
                found[f"parameter {numbers[module.name, indices[0]]} {indices[1]}"] = line
            elif kind == "secret-memory":
                found[f"memory {memories + indices[0] - imported}"] = line
        memories += module.memories - imported
    return found


def steps_of(way: Way, found: Findings, lines: Lines, known: Dict[str, Line]) -> List[Step]:
    """The way by lines, from where a secret is declared to the end."""
    steps = steps_between(way, found, lines)
    line = known.get(way.origin.declared)
    if line is not None and line.number:
        first = steps[0]
        declaring = Step(line, first.position, origin_text(way.origin._replace(position=None), found, lines),
                         "")
        loads = way.origin.position is not None and len(steps) > 1
        steps[:1] = [declaring, first] if loads else [declaring] + ([first] if len(steps) == 1 else [])
        if loads:
            first.message = "it is loaded here"
    return steps


def steps_between(way: Way, found: Findings, lines: Lines) -> List[Step]:
    """The way by lines, from the first one that has the secret to the end; each line once where steps follow
    one another there."""
    first = way.origin.position
    if first is None:
        words = way.origin.declared.split()
        first = (found.image.functions[int(words[1])].entry if words[0] == "parameter" else way.sites[0]
                 if way.sites else way.end.position)
    steps: List[Step] = []
    for position in [first] + way.sites + [way.end.position]:
        line, spot = lines.line(position), lines.spot(position)
        name = line.function or (spot.linked.name if spot else "")
        if not steps:
            steps.append(Step(line, position, origin_text(way.origin, found, lines), name))
        elif line is NOWHERE and lines.has_lines and position != way.end.position:
            continue
        elif (line.path, line.number) != (steps[-1].line.path, steps[-1].line.number) or not line.number:
            steps.append(Step(line, position, "through here", name))
    if len(steps) > MOST_STEPS:
        steps[MOST_STEPS // 2 : 1 - MOST_STEPS // 2] = []
    if len(steps) == 1 or steps[-1].position != way.end.position:
        line, spot = lines.line(way.end.position), lines.spot(way.end.position)
        last = Step(line, way.end.position, "", line.function or (spot.linked.name if spot else ""))
        if (steps[-1].message == "through here"
            and (steps[-1].line.path, steps[-1].line.number) == (line.path, line.number)):
            steps.pop()
        steps.append(last)
    steps[-1].message = rule_of(way.end, lines.instruction(way.end.position)).text
    return steps


def reasons(found: Findings, lines: Lines, causes: Sequence[Cause]) -> Dict[Origin, Guess]:
    """Of the origins of the causes that reach most, what they are likely to be."""
    guesser, judged = Guesser(found, lines), []
    for cause in causes[:MOST_JUDGED]:
        add_ends(found, cause)
        if cause.reached:
            judged.append(cause)
            cause.likely = guesser.likely(cause)
    settle(judged, lines)
    return {origin: cause.likely for cause in reversed(judged) for origin in cause.origins}


def loaded_at(way: Way, lines: Lines) -> Optional[Step]:
    if way.origin.position is None:
        return None
    at = next((site for site in [way.origin.position] + way.sites if lines.line(site).number
               and lines.is_plain(site)), way.origin.position)
    return Step(lines.line(at), at, "")


def advice(reason: Optional[Guess], way: Way, rule: Rule) -> Optional[Guess]:
    """The likely reason; of a leak, what helps there."""
    if reason is not None and reason.reason == UNKNOWN.reason:
        return reason._replace(remedy=f"{reason.remedy}; if it is secret this is a leak: {rule.help}")
    if reason is None or reason.reason != LEAK.reason:
        return reason
    if way.origin.position is None:
        return Guess("a leak", rule.help, reason.rests)
    return reason._replace(remedy=f"if that is secret this is a leak: {rule.help}")


def told_of(found: Findings, lines: Lines, causes: Sequence[Cause], protects: Sequence[Protect]) -> Told:
    """All problems, by file and line."""
    reach = found.graph.reach(found.guilty, found.core)
    ways = [Way(*reach.way(end.variable), end) for end in found.refused if end.variable in reach.depth]
    entries = [found.image.functions[int(way.origin.declared.split()[1])].entry
               for way in ways if way.origin.declared.startswith("parameter")]
    lines.ask({position for way in ways for position in way.sites + [way.end.position]} | set(entries)
              | {one.position for one in protects})
    lines.ask({site for one in protects if one.reason for site in (one.reason[0][0], one.reason[1])})
    why = reasons(found, lines, causes)
    known = declared_at(lines)
    problems: Dict[tuple, Problem] = {}
    for way in ways:
        at = place_of(lines, way.end.position, way.sites)
        line, spot = lines.line(at), lines.spot(at)
        rule = rule_of(way.end, lines.instruction(way.end.position))
        panic = panic_text(found.image, lines, way.end.position)
        key = (rule.name, line.path, line.number,
               line.column) if line.number else (rule.name, way.end.position)
        if key in problems:
            problems[key].ends += 1
            continue
        name = line.function or (spot.linked.name if spot else "")
        steps = steps_of(way, found, lines, known)
        if panic:
            steps[-1].message += f": {panic}"
        problems[key] = Problem(
            rule, line, way.end.position, name, lines.instruction(way.end.position),
            steps, 1, advice(why.get(way.origin), way, rule),
            loaded_at(way, lines), spot.linked.module.path if spot else "",
            spot.row.place if spot else 0, panic)
    ordered = sorted(problems.values(),
                     key=lambda one: (one.line.path, one.line.number, one.line.column, one.position))
    sources = []
    for cause in causes:
        at = cause.loads[0] if cause.loads else -1
        line = lines.line(at) if at >= 0 else known.get(cause.declared, NOWHERE)
        told = ("what is loaded here" if at >= 0 else origin_text(cause.origins[0], found,
                                                                  lines).replace(" is declared secret", ""))
        sources.append(Source(line, at, told, cause, why.get(cause.origins[0])))
    return Told(found, ordered, [protect_step(one, lines) for one in protects],
                [one.weight for one in protects], sources)


def protect_step(protect: Protect, lines: Lines) -> Step:
    line, spot = lines.line(protect.position), lines.spot(protect.position)
    text = f"held back until no older branch is open (weight {protect.weight})"
    if protect.reason:
        sites, sink = protect.reason
        text += (f": loaded at {lines.place(sites[0]) or sites[0]}, it would reach "
                 f"{lines.place(sink) or sink} under a wrong guess")
    return Step(line, protect.position, text, line.function or (spot.linked.name if spot else ""))


def spelled(line: Line, otherwise: str) -> str:
    if not line.number:
        return otherwise
    return (f"{shown(line.path)}:{line.number}:{line.column}" if line.column
            else f"{shown(line.path)}:{line.number}")


def of_text(one: Problem, image: str) -> str:
    """Where the secret comes from, in short."""
    if one.loaded is not None:
        return f"by what {spelled(one.loaded.line, f'{image}: position {one.loaded.position}')} loads"
    return "by " + one.steps[0].message.replace(" is declared secret", "")


def problem_text(one: Problem) -> str:
    panic = f": {one.panic}" if one.panic else ""
    instruction = f" ({one.instruction})" if one.instruction else ""
    places = f", at {one.ends} places of this line" if one.ends > 1 else ""
    return one.rule.text + panic + instruction + places


def as_text(told: Told, image: str, limit: int, lines: Lines, everything: bool = True) -> Iterator[str]:
    """In the form of compilers: file:line:column: error: .. [blade-..], with notes for the way. The user's
    own sources come first; unless everything is asked for, a library is one line."""
    owners = Owners(lines.sources)
    own, libraries = owners.parted(told.problems)
    others = [one for library in libraries for one in library.problems]
    yield from violations(told, own + others if everything else own, image, limit, lines)
    if libraries and not everything:
        uses = Uses(told.found.image, lines, owners)
        yield from (f"{image}: note: {library.text(uses.text)}" for library in libraries)
    hidden = set() if everything else {one.line.path for one in others}
    if len(told.problems) > MANY or not own:
        yield from beginnings(told, [one for one in told.sources if one.line.path not in hidden], image,
                              lines)


def violations(told: Told, problems: Sequence[Problem], image: str, limit: int,
               lines: Lines) -> Iterator[str]:
    origins = set()
    for one in problems[:limit]:
        where = spelled(one.line, f"{image}: position {one.position} of {one.function}")
        origin = of_text(one, image)
        again = (origin, one.likely) in origins
        origins.add((origin, one.likely))
        yield f"{where}: {told.level}: {problem_text(one)}{', ' + origin if again else ''} [{one.rule.name}]"
        source = lines.source_as_is(one.line)
        if source.strip():
            yield f" {source}"
            if one.line.column:
                yield " " + "".join("\t" if letter == "\t" else " "
                                    for letter in source[: one.line.column - 1]) + "^"
        if one.position in told.observed:
            yield f"{where}: note: {told.observed[one.position]}"
        if again:
            # Its way was told with another place.
            continue
        for step in one.steps[:-1]:
            yield f"{spelled(step.line, f'{image}: position {step.position}')}: note: {step.message}" + (
                f" [in {step.function}]" if step.function else "")
        if one.likely:
            yield f"{where}: note: {one.likely}"
    if len(problems) > limit:
        yield f"{image}: note: and {len(problems) - limit} more places (--limit)"


def beginnings(told: Told, sources: Sequence[Source], image: str, lines: Lines) -> Iterator[str]:
    """Where to mend first."""
    if sources:
        yield f"{image}: note: begin with what causes most of the {len(told.found.refused)} violations:"
    for source in sources[:MOST_SOURCES]:
        where = spelled(source.line,
                        f"{image}: position {source.position}" if source.position >= 0 else image)
        yield f"{where}: note: {source.cause.ends} come from {source.text}" + (
            f", {source.reason}" if source.reason else "")
        text = lines.source_as_is(source.line)
        if text.strip():
            yield f" {text}"
