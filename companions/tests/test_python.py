"""Tests that the Python of this repository is that of Python 3.8: its syntax, and what it takes of the
standard library. Licence: public domain (CC0)."""
from __future__ import annotations

import ast
import os
import unittest
from typing import Iterator, List

TOP = os.path.dirname(os.path.dirname(os.path.dirname(os.path.realpath(__file__))))
FOLDERS = ("companions", "tools", "bench", "oracles", "formats", "examples/many")
# Names of the standard library since 3.9: attributes and functions, modules, and names that modules give.
ATTRIBUTES = frozenset("""removeprefix removesuffix waitstatus_to_exitcode randbytes pairwise batched
    is_relative_to with_stem hardlink_to bit_count lcm nextafter ulp sumprod cbrt exp2 pidfd_open
    pidfd_send_signal unparse to_thread TaskGroup aclosing stdlib_module_names orig_argv getencoding
    file_digest assertNoLogs addModuleCleanup enterContext enterClassContext""".split())
MODULES = frozenset("graphlib zoneinfo tomllib".split())
IMPORTED = {"functools": {"cache"}, "itertools": {"pairwise", "batched"}, "contextlib": {"aclosing", "chdir"},
            "math": {"lcm", "nextafter", "ulp", "cbrt", "exp2"},
            "types": {"GenericAlias", "UnionType", "EllipsisType", "NoneType"},
            "enum": {"StrEnum", "EnumType", "verify"}, "inspect": {"get_annotations"},
            "typing": {"Annotated", "ParamSpec", "TypeAlias", "Concatenate", "TypeGuard", "Self", "Never",
                       "LiteralString", "Required", "NotRequired", "Unpack", "TypeVarTuple", "assert_never",
                       "assert_type", "reveal_type", "override"}}
# Types that can be subscribed since 3.9 where they are looked up when the program runs.
GENERIC = frozenset("list dict tuple set frozenset type deque defaultdict OrderedDict Counter ChainMap "
                    "CompletedProcess Popen Pattern Match".split())
ARGUMENTS = {"zip": {"strict"}, "dataclass": {"slots", "kw_only", "match_args"}, "bisect_right": {"key"},
             "bisect_left": {"key"}, "insort": {"key"}}


def name_of(node: ast.AST) -> str:
    return node.attr if isinstance(node, ast.Attribute) else node.id if isinstance(node, ast.Name) else ""


def at_run_time(node: ast.AST, is_lazy: bool) -> Iterator[ast.AST]:
    """A tree's nodes, without annotations where those aren't looked up."""
    yield node
    for field, value in ast.iter_fields(node):
        if is_lazy and field in ("annotation", "returns"):
            continue
        for inner in value if isinstance(value, list) else [value]:
            if isinstance(inner, ast.AST):
                yield from at_run_time(inner, is_lazy)


def is_made(node: ast.AST) -> bool:
    """Whether an expression is a dictionary by its form."""
    return (isinstance(node, (ast.Dict, ast.DictComp)) or isinstance(node, ast.Call)
            and name_of(node.func) in ("dict", "Counter", "defaultdict"))


def newer_in(node: ast.AST) -> str:
    """What of a node is newer than 3.8."""
    if (isinstance(node, ast.Attribute)
        and (node.attr in ATTRIBUTES or node.attr in IMPORTED.get(name_of(node.value), ()))):
        return f".{node.attr}"
    if isinstance(node, ast.ImportFrom) and node.module:
        names = {one.name for one in node.names}
        return (", ".join(sorted(names & IMPORTED.get(node.module, set())))
                or ", ".join({node.module} & MODULES))
    if isinstance(node, ast.Import):
        return ", ".join({one.name for one in node.names} & MODULES)
    if isinstance(node, ast.Subscript) and name_of(node.value) in GENERIC:
        return f"{name_of(node.value)}[..]"
    if (isinstance(node, ast.BinOp) and isinstance(node.op, ast.BitOr)
        and (is_made(node.left) or is_made(node.right))):
        return "a union of dictionaries"
    if isinstance(node, ast.AugAssign) and isinstance(node.op, ast.BitOr) and is_made(node.value):
        return "a union of dictionaries"
    if isinstance(node, ast.Call):
        return ", ".join(word.arg
                         for word in node.keywords if word.arg in ARGUMENTS.get(name_of(node.func), ()))
    return ""


def is_enclosed(node: ast.AST, text: str) -> bool:
    """Whether a `with` has its items, of which one is named, in parentheses: some parsers take them for any
    version."""
    if not isinstance(node, (ast.With, ast.AsyncWith)) or not any(one.optional_vars for one in node.items):
        return False
    lines = text.splitlines()[node.lineno - 1 : node.body[0].lineno]
    last = node.items[-1].optional_vars or node.items[-1].context_expr
    behind = lines[last.end_lineno - node.lineno][last.end_col_offset :] + "".join(
        lines[last.end_lineno - node.lineno + 1 :])
    return (lines[0][node.col_offset :].partition("with")[2].lstrip().startswith("(")
            and behind.lstrip(" ,").startswith(")"))


def newer(text: str) -> List[str]:
    """What of a source is newer than 3.8, each with its line."""
    try:
        tree = ast.parse(text, feature_version=(3, 8))
    except SyntaxError as fault:
        return [f"{fault.lineno}: {fault.msg}"]
    is_lazy = any(isinstance(one, ast.ImportFrom) and one.module == "__future__" for one in tree.body)
    nodes = list(at_run_time(tree, is_lazy))
    enclosed = [f"{node.lineno}: a with in parentheses" for node in nodes if is_enclosed(node, text)]
    return enclosed + [f"{node.lineno}: {found}" for node in nodes for found in [newer_in(node)] if found]


def sources() -> Iterator[str]:
    """The paths of all Python here, with and without an ending."""
    for folder in FOLDERS:
        for at, _, names in os.walk(f"{TOP}/{folder}"):
            for path in (f"{at}/{name}" for name in names):
                with open(path, "rb") as file:
                    if path.endswith(".py") or file.readline().startswith(b"#!/usr/bin/env python3"):
                        yield path


class Python(unittest.TestCase):
    def test_all_is_of_python_3_8(self) -> None:
        paths = list(sources())
        self.assertIn(f"{TOP}/companions/blade_companions/cc.py", paths)
        for path in paths:
            with self.subTest(os.path.relpath(path, TOP)), open(path, encoding="utf-8") as file:
                self.assertEqual(newer(file.read()), [])

    def test_what_is_newer_is_found(self) -> None:
        for text in ("match x:\n    case 1: pass", "with (open(a) as b, open(c) as d):\n    pass",
                     "x.removesuffix('a')", "from functools import cache",
                     "import os\nos.waitstatus_to_exitcode(0)", "import zoneinfo", "{1: 2} | x",
                     "x |= {1: 2}", "x: list[int] = []", "zip(a, b, strict=True)",
                     "from typing import ParamSpec", "T = dict[str, int]",
                     "import functools\n@functools.cache\ndef f(): pass", "def f(x: list[int]): pass"):
            with self.subTest(text):
                self.assertEqual(len(newer(text)), 1)

    def test_what_is_not_newer_is_not(self) -> None:
        for text in ("from __future__ import annotations\nx: list[int] = []\ndef f(x: dict[str, int]) -> "
                     "Counter[str]: pass", "x | y", "x = y[1]", "if (n := 1): pass",
                     "def f(a, /): pass", "with open(a) as b, open(c) as d:\n    pass",
                     "with (a or b) as c, (d) as e: pass"):
            with self.subTest(text):
                self.assertEqual(newer(text), [])
