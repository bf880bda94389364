"""Whether what is told here is what the program says: its report, and the commands of the modules. Licence:
public domain (CC0)."""
from __future__ import annotations

import re
from typing import Dict, List, Optional, Sequence, Set, Tuple

from .flow import Findings, is_bounds_test
from ..formats.image import TRAPS, Image
from ..formats.lowering import LinkedFunction
from ..formats.certificate import Protect


def positions_differ(image: Image, functions: Sequence[LinkedFunction]) -> List[str]:
    """Where the commands that the modules' instructions become aren't those of the image."""
    if len(functions) != len(image.functions):
        return [f"the modules have {len(functions)} functions, the image {len(image.functions)}"]
    total = TRAPS + sum(len(row.kinds) for linked in functions for row in linked.rows)
    for linked in functions:
        for row in linked.rows:
            given = tuple(command.kind
                          for command in image.commands[row.position : row.position + len(row.kinds)])
            if given != row.kinds:
                return [f"at position {row.position} the modules have {' '.join(row.kinds)}, the "
                        f"image {' '.join(given)}"]
    if total != len(image.commands):
        return [f"the modules have {total} commands, the image {len(image.commands)}"]
    return []


def fields_of(text: str) -> Dict[str, str]:
    """The lines of a report by their first word, but for those of protects."""
    rows = [line.partition(" ") for line in text.splitlines() if not line.startswith("protect ")]
    return {first: rest for first, _, rest in rows}


def counts_differ(image: Image, protects: Sequence[Protect], fields: Dict[str, str]) -> List[str]:
    weight = sum(protect.weight for protect in protects)
    mine = {"functions": len(image.functions), "commands": len(image.commands), "sites": image.sites()}
    told = {name: str(number) for name, number in mine.items()}
    told["protects"] = f"{len(protects)} weight {weight}"
    return [f"{name}: {told[name]} here, {fields[name]} in the report" for name in told if name in fields
            and fields[name] != told[name]]


def protect_line(protect: Protect) -> str:
    sites, sink = protect.reason or ([], 0)
    return f"protect {protect.position} weight {protect.weight} path {' '.join(map(str, sites))} sink {sink}"


def protects_differ(protects: Sequence[Protect], text: str) -> List[str]:
    told = [line for line in text.splitlines() if line.startswith("protect ")]
    if not any(protect.reason for protect in protects):
        # Without a certificate there are no reasons to compare.
        told = [line.partition(" path ")[0] for line in told]
        mine = [f"protect {protect.position} weight {protect.weight}" for protect in protects]
    else:
        mine = [protect_line(protect) for protect in protects]
    if mine == told:
        return []
    first = next((pair for pair in zip(mine + ["none"], told + ["none"]) if pair[0] != pair[1]), ("", ""))
    return [f"protects: `{first[0]}` here, `{first[1]}` in the report"]


CHAIN = re.compile(r"no ((?:parameter \d{1,9} \d{1,9})|(?:(?:global|memory) \d{1,9}))(?: through((?: "
                   r"\d{1,9})+))? end (\d{1,9})")


def chain_of(rest: str) -> Optional[Tuple[str, List[int], int]]:
    """The origin, the sites and the end of the line `constant-time no ..`; None where it tells none."""
    found = CHAIN.fullmatch(rest)
    return found and (found[1], [int(word) for word in (found[2] or "").split()], int(found[3]))


def is_chain(found: Findings, declared: str, sites: Sequence[int], end: int) -> bool:
    """Whether a secret goes that way by what was read here."""
    commands = found.graph.commands
    if any(place >= len(commands) for place in [*sites, end]):
        return False
    starts = [origin for origin in found.origins if origin.declared == declared
              and (origin.position is None or origin.position in sites[:1])]
    if not starts:
        return False
    loaded = starts[0].position is not None
    variables = {origin.variable for origin in starts}
    for site in sites[1:] if loaded else sites:
        variables = {commands[site].writes} if variables & set(commands[site].reads) else set()
    return bool(variables) and ends_there(found, variables, sites, end)


def ends_there(found: Findings, variables: Set[int], sites: Sequence[int], end: int) -> bool:
    commands = found.graph.commands
    if any(one.position == end and one.variable in variables for one in found.ends):
        return True
    # A demand: the chain ends at the site that gives the demanded variable, which its last variable feeds.
    if any(one.position == end and variables & set(commands[end].reads) for one in found.ends):
        return True
    # A bounds test, whose access is told here.
    return is_bounds_test(commands, end) and bool(variables & set(commands[end].sinks))


def verdict_differs(found: Findings, fields: Dict[str, str]) -> List[str]:
    told = fields.get("constant-time")
    if told is None:
        return ["the report has no line on constant time"]
    if (told == "yes") != found.is_constant_time:
        return [f"constant-time {'yes' if found.is_constant_time else 'no'} here, "
                f"{told.partition(' ')[0]} in the report"]
    chain = chain_of(told)
    if told != "yes" and not (chain and is_chain(found, *chain)):
        return [f"the report's chain is none here: {told}"]
    return []


def report_differs(found: Findings, protects: Sequence[Protect], text: Optional[str]) -> List[str]:
    """Where a report of harden, or the lines of verify, says something else; found has to count nothing as
    public."""
    if text is None:
        return []
    fields = fields_of(text)
    differ = verdict_differs(found, fields)
    if "commands" in fields:
        differ += counts_differ(found.image, protects, fields) + protects_differ(protects, text)
    return differ
