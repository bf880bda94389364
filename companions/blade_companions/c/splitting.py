"""blade-cc --split: tries to make a yes of a no by blade-split. Then the split modules are what is judged and
kept. Licence: public domain (CC0)."""
from __future__ import annotations

import os
import sys
from dataclasses import dataclass
from typing import TYPE_CHECKING, Iterator, List, Optional, Sequence, Tuple

from .arguments import REFUSED, USAGE, Asked, Stop
from .lines import Lines
from .paths import shown
from .tools import HERE, written_to
from ..formats.image import read_image
from ..formats.labels import entries_of
from ..formats.lowering import lower
from ..formats.module import Module, read_module
from ..formats.reading import Bad, read_file
from ..formats.running import Run, counts, read_start
from ..printing import say
from ..split import Named, named, span
from ..splitting.making import Split, split
from ..splitting.parts import whole_parts_of
from ..splitting.report import report_of, summary
from ..splitting.shadow import NAME
from ..splitting.starts import split_start
from ..splitting.trapping import trapped
from ..verdict.diagnostics import Problem, Told, as_text
from ..verdict.flow import find

if TYPE_CHECKING:
    from ..cc import Driver

NEVER, AUTO, ALWAYS = "never", "auto", "always"
REPORT = "split.txt"
STEPS = "4000000000"  # the most of a run that is compared
COUNTED = 2_000_000  # the most commands of a run whose cost is told
HINT = (
    "note: a public number that passes through the secret memory is secret there; --split keeps such numbers "
    "in a public memory, if that is all, and --record START tries the split program by a run "
    "(docs/from-no-to-yes.md)"
)
UNTRIED = "constant-time yes after splitting, not tried: no run was recorded"
RETURNED = "returned"


@dataclass
class Remaining:
    """The violations of split modules that aren't constant-time."""

    told: Told
    lines: Lines
    image: str


@dataclass
class Outcome:
    """What the driver goes on with: the modules, what harden and verify said of them, and what is told of the
    split."""

    modules: List[str]
    report: str
    verified: str
    told: str = ""
    warning: str = ""
    remaining: Optional[Remaining] = None

    def verdict(self, words: str) -> str:
        """The verdict's words. A yes that no run tried says so."""
        return words.replace("constant-time yes:", f"{UNTRIED};", 1) if self.warning else words


def is_yes(report: str) -> bool:
    return report.endswith("constant-time yes\n")


def refuse_words(asked: Asked) -> None:
    """Words that don't go together."""
    if asked.split not in (NEVER, AUTO, ALWAYS):
        raise Stop(USAGE, f"blade-cc: error: --split={asked.split}: never, auto or always is due")
    if asked.split == NEVER:
        for word, given in (("--record", asked.record), ("--public", asked.public)):
            if given:
                raise Stop(USAGE, f"blade-cc: error: {word} goes with --split")
    elif asked.part:
        raise Stop(USAGE, "blade-cc: error: --split and --part: a part has no verdict of its own")
    elif asked.native:
        raise Stop(
            USAGE,
            "blade-cc: error: --native with --split: a program that writes to C's memory would have to "
            "tell the shadow, and blade-native doesn't yet",
        )
    elif asked.way:
        raise Stop(
            USAGE,
            f"blade-cc: error: --split and --{asked.way}: each takes public numbers out of C's memory; "
            "give one of them",
        )


def hint(asked: Asked, modules: Sequence[str]) -> List[str]:
    """What may help after a no."""
    secret = ("secret-memory", (0,)) in entries_of(read_module(modules[-1]))
    return [f"blade-cc: {HINT}"] if asked.split == NEVER and not asked.way and secret else []


def files_of(driver: "Driver") -> List[str]:
    """What an earlier call made by --split: files of these names are its own where its report is."""
    folder = driver.folder
    if not os.path.isfile(f"{folder}/{REPORT}"):
        return []
    return [f"{folder}/{REPORT}", f"{folder}/{NAME}.wasm", f"{driver.aside}/{NAME}.wasm"]


def tried(driver: "Driver", plain: Outcome) -> Outcome:
    """The split modules, if they are constant-time and the module isn't; else the module as it is."""
    asked = driver.asked
    if asked.split == NEVER or asked.split == AUTO and is_yes(plain.report):
        return plain
    module = read_module(plain.modules[-1])
    try:
        starts = recorded(asked, module)
        made = split(
            module,
            [one.call for one in starts],
            [span(word) for word in asked.public],
            lambda line: say(f"blade-cc: note: {line}", sys.stderr),
        )
    except Bad as bad:
        return given_up(driver, plain, str(bad))
    driver.runner.show(
        [
            os.path.join(HERE, "blade-split"),
            module.path,
            "-o",
            f"{driver.folder}/build/split",
            *(word for one in given(asked) for word in ("--start", one)),
            *(word for one in asked.public for word in ("--public", one)),
        ]
    )
    driver.put(REPORT, ("\n".join(report_of(made, bool(starts))) + "\n").encode())
    if not made.kinds.changes:
        return given_up(
            driver, plain, f"no public number that passes through the memory would help ({REPORT})"
        )
    return hardened(driver, plain, made, starts)


def given_up(driver: "Driver", plain: Outcome, why: str) -> Outcome:
    if driver.asked.split == ALWAYS:
        raise Stop(REFUSED, f"blade-cc: error: --split: {why}")
    for line in why.split("\n"):
        say(f"blade-cc: note: --split: {line}", sys.stderr)
    return plain


def given(asked: Asked) -> List[str]:
    """The start files whose runs are recorded."""
    return list(dict.fromkeys([*asked.record, *asked.counts, *[asked.start] * bool(asked.start)]))


def recorded(asked: Asked, module: Module) -> List[Named]:
    """The calls of the start files."""
    parts, public = whole_parts_of(module), [span(word) for word in asked.public]
    return [named(parts, word, public) for word in given(asked)]


def hardened(driver: "Driver", plain: Outcome, made: Split, starts: Sequence[Named]) -> Outcome:
    """Hardens the split modules in the place of the plain ones, and puts those back if the verdict is no."""
    room, kept = f"{driver.folder}/build", [f"{driver.module}.{end}" for end in ("wasm", "img", "json")]
    os.makedirs(f"{room}/plain", exist_ok=True)
    for name in kept:
        os.replace(f"{driver.aside}/{name}", f"{room}/plain/{name}")
    modules = [f"{driver.aside}/{NAME}.wasm", f"{driver.aside}/{driver.module}.wasm"]
    written_to(modules[0], made.shadow)
    written_to(modules[1], made.made)
    before, why, outcome = driver.asked.counts, "", plain
    try:
        driver.asked.counts = counted_starts(driver, made, starts, f"{room}/start")
        outcome = Outcome(modules, *driver.harden(modules))
        driver.refuse_public_arguments(modules)
        why = (
            f"after splitting the verdict is still no ({REPORT} says why)"
            if not is_yes(outcome.report)
            else differs(driver, f"{room}/plain/{driver.module}.img", starts, f"{room}/start")
        )
    except Stop as stop:
        why = "\n".join(stop.lines)
    if not why:
        outcome.told = told(driver, made, starts, f"{room}/plain/{driver.module}.img")
        outcome.warning = "" if starts else untried(made)
        return outcome
    driver.asked.counts = before
    put_back(driver, kept)
    if outcome is not plain and not is_yes(outcome.report):
        leave(driver, plain, outcome)
    return given_up(driver, plain, why)


def untried(made: Split) -> str:
    return (
        f"--split: no run was recorded, so nothing was tried: {summary(made)}, and the program traps "
        "wherever one of them is not known; --record START tries it"
    )


def put_back(driver: "Driver", kept: Sequence[str]) -> None:
    """The plain modules go back to their place, and the split ones to build/split/."""
    room = f"{driver.folder}/build"
    os.makedirs(f"{room}/split", exist_ok=True)
    for name in [f"{NAME}.wasm", *kept]:
        if os.path.exists(f"{driver.aside}/{name}"):
            os.replace(f"{driver.aside}/{name}", f"{room}/split/{name}")
    for name in kept:
        os.replace(f"{room}/plain/{name}", f"{driver.aside}/{name}")


def leave(driver: "Driver", plain: Outcome, outcome: Outcome) -> None:
    """What is told of a no: the violations that remain in the split modules."""
    stem = f"{driver.folder}/build/split/{driver.module}"
    modules = [f"{driver.folder}/build/split/{os.path.basename(path)}" for path in outcome.modules]
    found, lines, differ = driver.explained(modules, stem, outcome.report)
    if not differ:
        before = len(find(read_image(read_file(f"{driver.aside}/{driver.module}.img", "image"))).refused)
        plain.told = f"after splitting: {len(found.found.refused)} violations remain of {before}"
        plain.remaining = Remaining(found, lines, shown(f"{stem}.img"))


def key_of(one: Problem) -> Tuple[object, ...]:
    """What a violation is known by in both modules."""
    line = one.line
    place = (line.path, line.number, line.column) if line.number else (one.function,)
    return (one.rule.name, *place)


def remaining_text(driver: "Driver", plain: Told, remaining: Remaining) -> Iterator[str]:
    """The violations of the split modules, with what a run showed at the same places, and how many others the
    module has."""
    left, asked = remaining.told, driver.asked
    left.level = plain.level
    observed = {key_of(one): plain.observed[one.position] for one in plain.problems
                if one.position in plain.observed}
    left.observed = {one.position: observed[key_of(one)] for one in left.problems if key_of(one) in observed}
    yield from as_text(left, remaining.image, asked.limit, remaining.lines, asked.everything)
    gone = len({key_of(one) for one in plain.problems} - {key_of(one) for one in left.problems})
    if gone:
        verb = "is" if gone == 1 else "are"
        yield f"{remaining.image}: note: {gone} more {verb} gone after splitting (problems.json has all)"


def counted_starts(driver: "Driver", made: Split, starts: Sequence[Named], base: str) -> List[str]:
    """The start files of --counts for the split modules, as harden's words name them."""
    found = []
    for number, (word, one) in enumerate(zip(given(driver.asked), starts)):
        written_to(f"{base}{number}", split_start(one.call, made.base).encode())
        if word in driver.asked.counts:
            found.append(word.rpartition("=")[0] + "=" * ("=" in word) + f"{base}{number}")
    return found


def told(driver: "Driver", made: Split, starts: Sequence[Named], plain: str) -> str:
    """The verdict's words, and what the split costs, in the report."""
    refused = len(find(read_image(read_file(plain, "image"))).refused)
    more = "" if starts else ", and the program traps wherever one is not known (--record START tries it)"
    lines = [f"after splitting: {summary(made)}{more}; without it {refused} violations"]
    for number, one in enumerate(starts):
        cost = cost_of(driver, plain, one, f"{driver.folder}/build/start{number}")
        lines.append(
            f"cost of {one.name}: {cost}" if cost else f"cost of {one.name}: not counted, it takes long"
        )
    driver.put(REPORT, read_file(f"{driver.folder}/{REPORT}") + ("\n".join(lines) + "\n").encode())
    return lines[0]


def cost_of(driver: "Driver", plain: str, one: Named, start: str) -> Optional[str]:
    """What a run executes before and after, if it is short."""
    found = []
    for image, begun in (
        (plain, plain_start(one)),
        (f"{driver.aside}/{driver.module}.img", read_file(start, "start").decode()),
    ):
        read = read_image(read_file(image, "image"))
        run = Run(read, read.entries[f"{driver.module}/{one.export}"], read_start(begun))
        found.append(counts(run, COUNTED))
        if not run.left:
            return None
    (a, b), (c, d) = ((one["commands"], one["protects"]) for one in found)
    return f"commands {a:,} to {c:,} ({c / a:.2f} times), protects {b:,} to {d:,}"


def differs(driver: "Driver", plain: str, starts: Sequence[Named], base: str) -> str:
    """Why the recorded runs don't try the split program: one doesn't return, or it ends otherwise than that
    of the module as it was, by what it returns, and by all of C's memory."""
    for number, one in enumerate(starts):
        written_to(f"{base}-plain", plain_start(one).encode())
        entry = f"{driver.module}/{one.export}"
        ends = [
            driver.blade("run", image, entry, start, "--steps", STEPS).out
            for image, start in (
                (plain, f"{base}-plain"),
                (f"{driver.aside}/{driver.module}.img", f"{base}{number}"),
            )
        ]
        if not ends[0].startswith(RETURNED):
            return (
                f"the run from {one.name} ends with `{ends[0].partition(chr(10))[0]}` without a split, too, "
                "so it tries nothing: record a run that returns"
            )
        if not ends[1].startswith(RETURNED):
            return f"the run from {one.name} doesn't return: {stopped(driver, entry, f'{base}{number}')}"
        if of_memory(ends[0], 0) != of_memory(ends[1], 1):
            return f"the run from {one.name} doesn't end as that of the module as it was"
    return ""


def stopped(driver: "Driver", entry: str, start: str) -> str:
    """Where a run of the split program trapped, by its line of C."""
    modules = [f"{driver.aside}/{name}.wasm" for name in (NAME, driver.module)]
    image = read_image(read_file(f"{driver.aside}/{driver.module}.img", "image"))
    lines = Lines(lower([read_module(path) for path in modules]))
    return trapped(image, lines, entry, read_start(read_file(start, "start").decode()))


def of_memory(outcome: str, memory: int) -> List[str]:
    """What an outcome says, with nothing but one memory, whose number is left out."""
    found = []
    for line in outcome.splitlines():
        words = line.split()
        if words[:1] not in (["memory"], ["row"]):
            found.append(line)
        elif words[1:2] == [str(memory)]:
            found.append(" ".join([words[0], *words[2:]]))
    return found


def plain_start(one: Named) -> str:
    """The start file of the module itself."""
    return "".join(
        [
            *(f"arg {value}\n" for value in one.call.arguments),
            *(f"memory 0 {at} {data.hex()}\n" for at, data in one.call.contents if data),
        ]
    )
