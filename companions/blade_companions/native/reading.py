"""Images as this tool takes them: checked against the nine rules of programs, and what they call, grow, and
keep secret. Licence: public domain (CC0)."""
from __future__ import annotations

from collections import defaultdict
from typing import Dict, Iterable, List, Set

from ..formats.image import SITES, Command, Image, read_image
from ..formats.reading import read_file
from ..formats.rules import I32, I64, check_rules


def image_of(data: bytes) -> Image:
    """The image that bytes spell; one that breaks a rule is refused as `blade` refuses it."""
    image = read_image(data)
    check_rules(image)
    return image


def image_in(path: str) -> Image:
    """The image in a file."""
    return image_of(read_file(path, "image"))


def growing(image: Image) -> Set[int]:
    """The memories whose size some command writes."""
    sizes = range(len(image.first_globals), image.shared)
    return {command.writes - sizes.start for command in image.commands
            if command.kind == "Set" and command.writes in sizes}


def calls(image: Image) -> List[Set[int]]:
    """The functions that each function calls."""
    found: List[Set[int]] = []
    for function in image.functions:
        own = image.commands[function.entry : function.entry + function.length]
        found.append({image.function_at(one.targets[0]) for one in own if one.kind == "Call"})
    return found


def spread(begin: Iterable[int], commands: Iterable[Command]) -> Set[int]:
    """Some variables, and those that commands make of them."""
    made_of: Dict[int, List[int]] = defaultdict(list)
    for command in commands:
        for variable in command.reads:
            made_of[variable].append(command.writes)
    found = set(begin)
    waiting = list(found)
    for variable in waiting:
        new = set(made_of.get(variable, ())) - found
        found |= new
        waiting += new
    return found


def secret_variables(image: Image) -> Set[int]:
    """The variables that are secret by the label rules."""
    begin = {number for number, is_secret in enumerate(image.secret_globals) if is_secret}
    for function in image.functions:
        labelled = zip(function.parameter_variables, function.secret_params)
        begin |= {variable for variable, is_secret in labelled if is_secret}
    begin |= {one.writes for one in image.commands
              if one.kind == "Load" and image.memories[one.memory].is_secret}
    return spread(begin, (one for one in image.commands if one.kind in SITES))


def transient_variables(image: Image) -> Set[int]:
    """The variables that may hold a value of a wrong guess: what comes from a Load past no protect."""
    sites = [one for one in image.commands if one.kind in SITES and not one.is_protected]
    return spread({one.writes for one in sites if one.kind == "Load"}, sites)


__all__ = [
    "I32",
    "I64",
    "calls",
    "growing",
    "image_in",
    "image_of",
    "secret_variables",
    "transient_variables",
]
