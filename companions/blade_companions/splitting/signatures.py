"""What is known of arguments and results goes from function to function. Licence: public domain (CC0)."""
from __future__ import annotations

from typing import Dict, Optional, Set

from .kinds import Kinds
from ..formats.module import FuncType


class Signatures:
    """Which parameters and results of functions have known bits beside them. Functions of one type in the
    table agree on it. What is known of an argument is handed on by two more parameters, and of a result by
    two globals."""

    def __init__(self, kinds: Kinds) -> None:
        flow = kinds.flow
        secret = {numbers for kind, numbers in flow.module.labels if kind == "secret-param"}
        self.params: Dict[int, Set[int]] = {}
        self.results: Dict[int, bool] = {}
        for index, function in flow.functions.items():
            nodes = function.locals[: len(function.type.params)]
            self.params[index] = {
                at for at, node in enumerate(nodes) if kinds.of(node) == "D" and (index, at) not in secret
            }
            self.results[index] = any(kinds.of(node) == "D" for node in function.results)
        for kind in {flow.module.type_of(index) for index in flow.in_table}:
            members = flow.callees(kind)
            union, results = set().union(*(self.params[one] for one in members)), any(
                self.results[one] for one in members
            )
            for one in members:
                self.params[one], self.results[one] = union, results

    def widened(self, kind: FuncType, function: Optional[int]) -> FuncType:
        if function is None:
            return kind
        extra = [kind.params[at] for at in sorted(self.params[function]) for _ in range(2)]
        return FuncType(bytes([*kind.params, *extra]), kind.results)
