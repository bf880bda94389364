"""The protects of an image: what each weighs, and the reason that its certificate gives. Licence: public
domain (CC0)."""
from __future__ import annotations

import json
from dataclasses import dataclass
from typing import Dict, List, Optional, Tuple

from .image import Image
from ..c.lines import Lines
from .reading import Bad


@dataclass
class Protect:
    position: int
    weight: int
    reason: Optional[Tuple[List[int], int]]  # the sites of a path from a load on, and the sink


def number(value: object) -> int:
    """A position."""
    if type(value) is not int or not 0 <= value < 1 << 32:
        raise ValueError
    return value


def read_certificate(data: bytes) -> List[Tuple[List[int], int]]:
    """The paths of a certificate: the sites and the sink of each."""
    try:
        paths = json.loads(data)["paths"]
        return [([number(site) for site in path["sites"]], number(path["sink"])) for path in paths]
    except (ValueError, KeyError, TypeError, RecursionError):
        raise Bad("this is no certificate") from None


def protects_of(image: Image, paths: Optional[List[Tuple[List[int], int]]]) -> List[Protect]:
    """Each protect with the first path of the certificate that takes it, which is the report's."""
    first: Dict[int, Tuple[List[int], int]] = {}
    for sites, sink in paths or []:
        for site in sites:
            first.setdefault(site, (sites, sink))
    return [Protect(place, image.weight(place), first.get(place)) for place in image.protects()]


def totals(protects: List[Protect], image: Image, lines: Lines) -> List[Tuple[str, int, int]]:
    """By function, heaviest first: its name, how many protects it has, and what they weigh."""
    sums: Dict[int, Tuple[int, int]] = {}
    for protect in protects:
        function = image.function_at(protect.position)
        count, weight = sums.get(function, (0, 0))
        sums[function] = (count + 1, weight + protect.weight)
    named = [(function_name(number, image, lines), *both) for number, both in sums.items()]
    return sorted(named, key=lambda one: (-one[2], one[0]))


def function_name(number: int, image: Image, lines: Lines) -> str:
    if 0 <= number < len(lines.functions):
        return lines.functions[number].name
    return image.exports.get(number, f"function {number}")
