"""From a labelled module to the two that it is split into. Licence: public domain (CC0)."""
from __future__ import annotations

import re
from dataclasses import dataclass
from typing import Callable, Iterable, List, NamedTuple, Sequence, Tuple

from .flow import Flow
from .kinds import Kinds, Recorded, decide, secret_memory
from .parts import Parts, module_bytes, whole_parts_of
from .profile import CONSTANTS, Call, Recorder, room
from .rewriting import FUNCTION_LABELS, ModuleWriter
from .shadow import NAME, Shadow
from ..formats.labels import check, entries_of, with_labels
from ..formats.module import FUNCTION, Module, module_of
from ..formats.reading import Bad


OTHER, CONSTANT, NAMED, ZERO = 1, 2, 3, 4
WHY = {CONSTANT: "constants of C", NAMED: "named by --public", ZERO: "zeros that a run read before any store"}
KNOWN = re.compile(b"|".join(bytes([one]) + b"+" for one in WHY))


class First(NamedTuple):
    """First bytes of C's memory that the shadow knows, and why."""

    offset: int
    bytes: bytes
    why: str


@dataclass
class Split:
    """What a module is split into, and what that was made by."""

    shadow: bytes
    made: bytes
    base: int  # from here on the shadow has masks
    known: List[First]
    kinds: Kinds
    recorded: Recorded


def first_known(
    parts: Parts, recorded: Recorded, calls: Iterable[Call], public: Sequence[Tuple[int, int]]
) -> List[First]:
    """What the shadow knows at the start: constants of C, what --public names, and zeros that a needed load
    of a recorded run read before any store; but for what start files give."""
    size = room(parts)
    memory, why = bytearray(size), bytearray(size)  # of each byte its first value, and the number of a reason
    for one in parts.data:
        places = slice(one.offset, one.offset + len(one.bytes))
        memory[places] = one.bytes
        why[places] = bytes([CONSTANT if one.name.startswith(CONSTANTS) else OTHER]) * len(one.bytes)
    for first, count in public:
        end = min(first + count, size)
        why[first:end] = bytes(at if at == CONSTANT else NAMED for at in why[first:end])
    for at in recorded.zeros:
        why[at] = why[at] or ZERO
    for call in calls:
        for first, data in call.contents:
            why[first : first + len(data)] = bytes(len(data))
    return [
        First(one.start(), bytes(memory[one.start() : one.end()]), WHY[why[one.start()]])
        for one in re.finditer(KNOWN, why)
    ]


def refuse_lost_labels(before: Module, after: Module) -> None:
    """Each label of the module that was split has to stand in the split one: of an exported function also for
    the function that is called from outside now."""
    by, have = len(after.imported(FUNCTION)), set(entries_of(after))
    for kind, numbers in entries_of(before):
        of_function = kind in FUNCTION_LABELS
        wanted = {(kind, (numbers[0] + by * of_function, *numbers[1:]))}
        wanted |= {
            (kind, (after.exports.get(key, -1), *numbers[1:]))
            for key, index in before.exports.items()
            if of_function and key[0] == FUNCTION and index == numbers[0]
        }
        if wanted - have:
            raise Bad(f"a label would be lost: {kind} {' '.join(map(str, numbers))}")


def split(
    module: Module,
    calls: Sequence[Call],
    public: Sequence[Tuple[int, int]] = (),
    told: Callable[[str], None] = lambda line: None,
) -> Split:
    """The shadow and the split module."""
    if module.name == NAME:
        raise Bad(f"the module has the shadow's name, {NAME}")
    try:
        return split_parts(whole_parts_of(module), calls, public, told)
    except (IndexError, KeyError) as fault:
        raise Bad(f"{module.name}: its code isn't valid: blade harden says where ({fault})") from None


def split_parts(
    parts: Parts, calls: Sequence[Call], public: Sequence[Tuple[int, int]], told: Callable[[str], None]
) -> Split:
    """The same of a module that may be split."""
    module = parts.module
    flow = Flow(parts)
    if not secret_memory(flow):
        raise Bad(
            "the module's memory isn't declared secret (secret-memory 0), so no public number is lost in it"
        )
    shadow = Shadow(parts.memory[1])
    is_open = Kinds(flow, (), Recorded()).open_sinks()
    recorded = Recorder(flow, calls, public, told).record() if is_open else Recorded()
    kinds = decide(flow, recorded)
    written = ModuleWriter(kinds, shadow).write()
    bare = module_of(module_bytes(written), module.path)
    check(bare, written.labels)
    made = with_labels(bare, written.labels)
    refuse_lost_labels(module, module_of(made, module.path))
    known = first_known(parts, recorded, calls, public) if kinds.reads_shadow else []
    return Split(shadow.module([one[:2] for one in known]), made, shadow.base, known, kinds, recorded)
