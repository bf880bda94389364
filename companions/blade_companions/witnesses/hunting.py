"""What blade-cc tells of a run from a start file after a `no`. Licence: public domain (CC0)."""
from __future__ import annotations

import os
from typing import TYPE_CHECKING, Iterator, List, Sequence, Tuple

from ..c.arguments import Stop
from ..verdict.diagnostics import Told
from ..verdict.evidence import RUN, UNPROVED, Evidence, evidence_of_run, read_witness, secret_of
from ..c.lines import Lines
from .telling import UNSEARCHED, places
from ..c.tools import HERE
from ..statuses import GAVE_UP, NO, USAGE, YES
from ..formats.module import FUNCTION, read_module

if TYPE_CHECKING:
    from ..cc import Driver

SECONDS = "10"  # of the search
WRITTEN = ("trace", "a.start", "b.start", "again")


def entry_of(given: str, module: str, path: str) -> Tuple[str, str]:
    """The export and the start file: EXPORT=FILE or, where there is one export, FILE."""
    name, _, start = given.rpartition("=")
    exports = [told for sort, told in read_module(path).exports if sort == FUNCTION]
    if not name and len(exports) != 1:
        raise Stop(USAGE, f"blade-cc: error: --start {given}: EXPORT=FILE says which function runs: "
                   f"{', '.join(exports[:8])}")
    return f"{module}/{name or exports[0]}", start


def after_no(driver: "Driver", told: Told, lines: Lines, modules: Sequence[str],
             made: str) -> Tuple[Evidence, List[str]]:
    """Looks for a witness for some seconds, and follows the run: what that shows, and the words by which
    blade-explain tells the same."""
    entry, prefix = entry_of(driver.asked.start, driver.module, modules[-1]), f"{driver.folder}/witness"
    for path in (f"{prefix}.{end}" for end in WRITTEN):
        if os.path.exists(path):
            os.remove(path)
    kept = [word for one in driver.asked.keep for word in ("--keep", one)]
    words = [os.path.join(HERE, "blade-witness"), f"{made}.img", *entry, *modules, *kept, "--seconds",
             SECONDS, "--out", prefix, "--blade", driver.program]
    done = driver.runner.run(words)
    if done.status not in (YES, NO, GAVE_UP) or not done.out:
        said = done.errors.strip() or f"blade-witness ends with status {done.status}"
        raise Stop(USAGE, f"blade-cc: error: --start {driver.asked.start}: {said}")
    image = told.found.image
    causes = [source.cause for source in told.sources]
    evidence = evidence_of_run(told.found, causes, secret_of(image, *entry, (), driver.asked.keep), entry[0],
                               RUN)
    explained = ["--start", *entry, *kept]
    evidence.is_searched = done.status != GAVE_UP
    if os.path.exists(f"{prefix}.trace"):
        evidence.witness = read_witness(image, f"{made}.img", prefix, driver.program)
        explained += ["--witness", prefix, "--blade", driver.program]
    evidence.mark_causes()
    evidence.mark_problems(told, lines)
    return evidence, explained


def summary(evidence: Evidence, lines: Lines) -> Iterator[str]:
    """The answer to the `no`, in short."""
    if evidence.witness:
        yield (f"leak witnessed at {places([evidence.witness.position], lines)}; again: "
               f"{evidence.witness.words}")
        return
    said = "not witnessed" if evidence.is_searched else UNSEARCHED
    yield f"{said} in {SECONDS} seconds; {evidence.run_text()}"
    clean, missed = evidence.never_loaded(), evidence.not_reached()
    if clean:
        yield f"looks public, {UNPROVED}: {places(clean, lines)}"
    if missed:
        yield f"not reached, give other starts: {places(missed, lines)}"
