"""Calls of `part` and `join` over several libraries, for tools/checks/apart: modules as texts of WebAssembly,
orders of calls, and what is worked out by hand of them. Licence: public domain (CC0)."""
from typing import Dict, List, NamedTuple, Sequence, Tuple


class Order(NamedTuple):
    """Calls, and how main of the client ends in the linked modules. The files of a call are those of its
    words with .img, .if or .wasm behind. Where the joined image ends otherwise, `joined` is its line; where
    the last call is refused, `refused` is its status and what it prints."""

    name: str
    linked: Sequence[str]
    calls: Sequence[str]
    told: str = ""
    joined: str = ""
    refused: Tuple[int, str] = (0, "")


# f adds its argument to a number of the library's memory, 5 at first, and gives the sum; g multiplies one, 3
# at first.
ADDS = """(module (memory 1 1) (data (i32.const 0) "\\05")
  (func (export "f") (param i32) (result i32) i32.const 0 i32.const 0 i32.load local.get 0 i32.add
  i32.store i32.const 0 i32.load))"""
TIMES = """(module {0} (memory 1 1) (data (i32.const 0) "\\03")
  (func (export "g") (param i32) (result i32) i32.const 0 i32.const 0 i32.load local.get 0 i32.mul
  i32.store i32.const 0 i32.load {1}))"""
F = '(import "a" "f" (func $f (param i32) (result i32)))'
# The client keeps f of 7 and g of 11 in its memory, and adds f of 1: 5 + 7 = 12, and 33; or, where g hands 33
# to f, 12 + 33 = 45.
CLIENT = f"""(module {F} (import "b" "g" (func $g (param i32) (result i32))) (memory 1 1)
  (func (export "main") (param i32 i32) (result i32)
    i32.const 8 local.get 0 call $f i32.store i32.const 12 local.get 1 call $g i32.store
    i32.const 8 i32.load i32.const 12 i32.load i32.const 16 i32.shl i32.add i32.const 1 call $f
    i32.const 24 i32.shl i32.add))"""
APART = f"returned i32 {12 + (33 << 16) + (13 << 24)}"
OVER = f"returned i32 {12 + (45 << 16) + (46 << 24)}"
# g of `through` hands its argument to f, and f's answer on: 5 + 7 = 12, 12 + 11 = 23.
THROUGH = f'(module {F} (func (export "g") (param i32) (result i32) local.get 0 call $f))'
HANDED = f"returned i32 {12 + (23 << 16) + (24 << 24)}"
# A client of two libraries over one, each with a 3 of its own: 5 + 3 * 7 = 26 by the first, 26 + 3 * 11 = 59
# by the other.
TWO = """(module (import "b" "g" (func $g (param i32) (result i32)))
  (import "d" "g" (func $h (param i32) (result i32))) (memory 1 1)
  (func (export "main") (param i32 i32) (result i32) local.get 0 call $g local.get 1 call $h i32.const 16
  i32.shl i32.add))"""
BOTH_OVER = f"returned i32 {26 + (59 << 16)}"
# A stub whose body asks for what a client owes and gives what it is given: its parameter is an address, its
# result is loaded; within six loops, where a protect weighs most, so that the least protects stand in the
# library over it.
DEMANDING = f"""(module (memory 1 1) (func (export "f") (param i32) (result i32)
  {'loop ' * 6} local.get 0 i32.load return {'end ' * 6} unreachable))"""

MODULES: Dict[str, str] = {
    "a": ADDS, "b": TIMES.format("", ""), "c": CLIENT, "over/b": TIMES.format(F, "call $f"),
    "through/b": THROUGH, "over/d": TIMES.format(F, "call $f"), "two/c": TWO,
    "stub/a": '(module (func (export "f") (param i32) (result i32) unreachable))',
    "stub/b": '(module (func (export "g") (param i32) (result i32) unreachable))',
    "stub/d": '(module (func (export "g") (param i32) (result i32) unreachable))', "demanding/a": DEMANDING}
# By their names: where the letters end with the library's name, what it asks (s of parameters) and what it
# gives (s of results).
INTERFACES: Dict[str, str] = {
    "none": "", "a": "function t s a/f\n", "b": "function s t b/g\n",
    "ab": "function t s a/f\nfunction s t b/g\n", "d": "function s t d/g\n",
    "bd": "function s t b/g\nfunction s t d/g\n", "strict": "function s t a/f\n",
    "kind": "function t s b/g\n", "both": "function s t a/f\nfunction t s b/g\n"}

PARTS = ["part client c ab stub/a stub/b c", "part library a a a", "part library b b b"]
LOWER = ["part client c ab stub/a stub/b c", "part library a a a", "part client b a stub/a over/b"]
UPPER = ["part client c ab stub/a stub/b c", "part library a a a", "part library b b stub/a over/b"]
DIAMOND = ["part client c bd stub/b stub/d two/c", "part library a a a", "part client b a stub/a over/b",
           "part client d a stub/a over/d"]
STRICT = ["part client c both stub/a stub/b c", "part library a strict a"]
ALONE, STACKED = ["a", "b", "c"], ["a", "over/b", "c"]

ORDERS: List[Order] = [
    # Two libraries that know nothing of each other.
    Order("a client joined with one library and then with another", ALONE,
          [*PARTS, "join one a c a", "join all b one b"], APART),
    Order("the other one first", ALONE, [*PARTS, "join one b c b", "join all a one a"], APART),
    Order("two libraries side by side, and then the client", ALONE,
          [*PARTS, "join one none a b", "join all ab c one"], APART),
    Order("these in the other order", ALONE, [*PARTS, "join one none b a", "join all ab c one"], APART),
    Order("an interface that names what another library has", ALONE, [*PARTS, "join one ab c a"],
          refused=(20, "interface: function 1\n")),
    Order("one that names what was joined before", ALONE, [*PARTS, "join one a c a", "join all ab one b"],
          refused=(20, "interface: function 0\n")),
    # A library over a library, and a client of both.
    Order("a library over a library, hardened as its client, and then the client", STACKED,
          [*LOWER, "join one a b a", "join all ab c one"], OVER),
    Order("the same, hardened as the library of its client", STACKED,
          [*UPPER, "join one a b a", "join all ab c one"], OVER),
    Order("the client first, with the library above", STACKED,
          [*UPPER, "join one ab c b", "join all a one a"], OVER),
    Order("the same, hardened as the client of the one below", STACKED,
          [*LOWER, "join one ab c b", "join all a one a"], OVER),
    Order("the client first with the library above, by its names alone: both keep a stub of the one below",
          STACKED, [*UPPER, "join one b c b"], refused=(20, "interface: export 0\n")),
    Order("the client first with the one below, and then with the library above by all names: the stub that "
          "it stands over comes in place of the one below", STACKED,
          [*UPPER, "join one a c a", "join all ab one b"], OVER, joined="trapped unreachable"),
    # Two libraries over one.
    Order("two libraries over one, merged by what both import, and then joined with it",
          ["a", "over/b", "over/d", "two/c"],
          [*DIAMOND, "join pair a b d", "join three a pair a", "join all bd c three"], BOTH_OVER),
    Order("two libraries over one that have it twice", ["a", "over/b", "over/d", "two/c"],
          [*DIAMOND, "join one a b a", "join other a d a", "join both none one other"],
          refused=(20, "interface: export 1\n")),
    # A library that owes something on both sides: `part` hardens it for one.
    Order("a library that owes its client and the one below, hardened for its client",
          ["a", "through/b", "c"], [*STRICT, "part library b kind stub/a over/b", "join one strict b a"],
          refused=(1, "client no 24\n")),
    Order("hardened for the one below", ["a", "through/b", "c"],
          [*STRICT, "part client b strict stub/a through/b", "join one strict b a", "join all both c one"],
          refused=(1, "library no 14\n")),
    Order("hardened over a stub that demands what is owed", ["a", "through/b", "c"],
          [*STRICT, "part library b kind demanding/a through/b", "join one strict b a",
           "join all both c one"],
          HANDED),
]
