"""What the declarations of a function call its parameters, by clang's own account of a source.
Licence: public domain (CC0)."""
from __future__ import annotations

import re
from typing import Dict, List, NamedTuple, Set

FUNCTION = re.compile(r"(?:Function|CXX(?:Method|Constructor|Destructor|Conversion))Decl (0x\w+) "
                      r"(?:parent 0x\w+ )?(?:prev (0x\w+) "
                      r")?<.*?> \S+ (?:(?:used|referenced|implicit|invalid|constexpr) )*(\S+) '")
PARAMETER = re.compile(r"[|`]-ParmVarDecl 0x\w+ (?:prev 0x\w+ )?<.*?> \S+ (?:(?:used|referenced|implicit"
                       r"|invalid|constexpr) )*(?:([^\s']+) )?'")


class Prototype(NamedTuple):
    """A declaration: the first one of its function, its name, and what it calls the parameters ("" where it
    doesn't)."""

    first: str
    name: str
    params: List[str]


def prototypes_in(text: str) -> List[Prototype]:
    """The declarations in clang's tree of a source (-ast-dump)."""
    found: List[Prototype] = []
    firsts: Dict[str, str] = {}
    for line in text.split("\n"):
        function, parameter = FUNCTION.search(line), PARAMETER.match(line)
        if function:
            address, former, name = function.groups()
            firsts[address] = firsts.get(former, former) if former else address
            found.append(Prototype(firsts[address], name, []))
        elif parameter and found:
            found[-1].params.append(parameter[1] or "")
    return found


def differing(text: str, name: str, parameter: str) -> bool:
    """Whether two declarations of one function may give a parameter's name to different parameters."""
    places: Dict[str, Set[int]] = {}
    if not any(one.name == name for one in prototypes_in(text)):
        return True  # what isn't found isn't compared
    for one in prototypes_in(text):
        if one.name == name:
            places.setdefault(one.first, set()).update(at for at, told in enumerate(one.params)
                                                       if told == parameter)
    return any(len(one) > 1 for one in places.values())
