"""Modules for tools/checks/metadata, as texts of WebAssembly, whose least protects fall where clang's never
did, and where. Licence: public domain (CC0).

What they load comes of `get` of the module `source`, where a protect weighs 1,000. A value of `MERGED` comes
of three calls of it by three ways, so that it takes three protects in front of where the ways meet, and one
behind. What is behind is read directly by the next instruction.

No module makes these fall among least protects: the tests and the result of a division, since both its
operands are ends themselves, and so stable; the first test of an access (that it is in bounds) by its
address, which is an end too, so that only a size makes it one that may come of a guess; what -1 or a constant
is, and the locals at the entry of a function, which no load reaches. That they are named all the same is
tested by hand, in companions/tests/test_metadata.py."""
from typing import List, NamedTuple, Tuple

SOURCE = """(module (memory (export "memory") 1 1)
  (func (export "get") (param i32) (result i32)
    loop loop loop local.get 0 i32.load return end end end unreachable)
  (func (export "use") (param i32) local.get 0 call $load drop local.get 0 call $load drop)
  (func $load (param i32) (result i32) loop loop loop local.get 0 i32.load return end end end unreachable))"""

HEAD = ('(import "source" "get" (func $get (param i32) (result i32))) (import "source" "use" '
        '(func $use (param i32)))')
MERGED = """block (result i32)
    i32.const 0 call $get local.get 0 br_if 0 drop i32.const 4 call $get local.get 1 br_if 0 drop
    i32.const 8 call $get
  end"""
USED = "i32.load drop"


class Made(NamedTuple):
    """A module behind `source`: what stands in it, and the protects by function, instruction and what of it
    is held back, as bytes of the section."""

    name: str
    text: str
    held: List[Tuple[str, str, str]]


def main(body: str, more: str = "", locals_of: str = "", memory: str = "(memory 1 1)") -> str:
    """A module with a function of two parameters, which nothing declares secret and no guess touches."""
    return (f'(module {HEAD} {memory} {more} (func $main (export "main") (param i32 i32) (result i32) '
            f'{locals_of} {body} i32.const 7))')


RESULT, ROOM, SIZE, BOUNDS, ARM = "00", "0304", "0305", "0300", "0303"
TWO = "(type $two (func (result i32 i32)))"
ONE = "(type $one (func (param i32))) (table 1 funcref) (elem (i32.const 0) $use)"
# Functions that give what is loaded by two ways.
PAIR = "local.get 0 if i32.const 1 i32.const 0 call $get return end i32.const 2 i32.const 4 call $get"
SINGLE = "local.get 0 if i32.const 0 call $get return end i32.const 4 call $get"
GROWING = f"loop {MERGED} memory.grow drop local.get 0 i32.const 1 i32.shr_u local.tee 0 br_if 0 end"
MANY = ("(type $many (func (param i32) (result i32{0}))) (table 1 funcref) (elem (i32.const 0) $many) (func "
        "$many (param i32) (result i32{0}) {1})")

MADE: List[Made] = [
    # What an instruction leaves.
    Made("a call's result", main(f"i32.const 0 call $get {USED}"), [("main", "call", RESULT)]),
    Made("an operator's result, of two that are loaded",
         main(f"i32.const 0 call $get i32.const 4 call $get i32.add {USED}"), [("main", "i32.add", RESULT)]),
    Made("a select's", main("i32.const 0 call $get i32.const 4 call $get i32.const 8 call $get select "
                            f"{USED}"), [("main", "select", RESULT)]),
    Made("what local.set writes", main(f"{MERGED} local.set 2 local.get 2 {USED} local.get 2 {USED}",
                                       locals_of="(local i32)"), [("main", "local.set", RESULT)]),
    Made("what local.tee writes", main(f"{MERGED} local.tee 2 drop local.get 2 {USED} local.get 2 {USED}",
                                       locals_of="(local i32)"), [("main", "local.tee", RESULT)]),
    Made("a local that is set three times",
         main("".join(f"i32.const {4 * at} call $get local.set 2 " for at in range(3))
              + f"local.get 2 {USED}", locals_of="(local i32)"),
         [("main", "local.get", RESULT)]),
    Made("a global that is set three times", main("".join(f"i32.const {4 * at} call $get global.set 0 "
                                                          for at in range(3)) + f"global.get 0 {USED}",
                                                  more="(global (mut i32) (i32.const 0))"),
                                                  [("main", "global.get", RESULT)]),
    Made("what global.set writes", main(f"{MERGED} global.set 0 global.get 0 {USED} global.get 0 {USED}",
                                        more="(global (mut i32) (i32.const 0))"),
         [("main", "global.set", RESULT)]),
    # An operand of a call, and a result of several.
    Made("an argument of a call", main(f"local.get 0 {MERGED} local.get 1 call $three",
                                       more="(func $three (param i32 i32 i32) local.get 1 i32.load drop "
                                       "local.get 1 i32.load drop)"), [("main", "call", "0101")]),
    Made("two arguments", main(f"{MERGED} {MERGED} call $both",
                               more="(func $both (param i32 i32) local.get 0 i32.load drop local.get 1 "
                               "i32.load drop local.get 0 i32.load drop local.get 1 i32.load drop)"),
         [("main", "call", "01000101")]),
    Made("the second result of a call", main(f"local.get 0 call $pair {USED} drop", more="(func $pair (param "
                                             f"i32) (result i32 i32) {PAIR})"), [("main", "call", "0201")]),
    Made("an argument of call_indirect", main(f"{MERGED} i32.const 0 call_indirect (type $one)", more=ONE),
         [("main", "call_indirect", "0100")]),
    Made("the second result of call_indirect", main("local.get 0 i32.const 0 call_indirect (type $many) "
                                                    f"{USED} drop", more=MANY.format(" i32", PAIR)),
         [("main", "call_indirect", "0201")]),
    Made("the result of call_indirect", main(f"local.get 0 i32.const 0 call_indirect (type $many) {USED}",
                                             more=MANY.format("", SINGLE)),
                                             [("main", "call_indirect", RESULT)]),
    # A value that a branch or an end hands on.
    Made("what br hands on", main(f"block (result i32) {MERGED} br 0 end {USED}"), [("main", "br", "0100")]),
    Made("what br_if hands on, not what it leaves",
         main(f"block (result i32) i32.const 3 {MERGED} local.get 1 br_if 0 drop end {USED}"),
         [("main", "br_if", "0100")]),
    Made("the second of what br_if hands on",
         main(f"block (type $two) i32.const 3 {MERGED} local.get 1 br_if 0 drop drop i32.const 1 i32.const 2 "
              f"end {USED} drop", more=TWO),
         [("main", "br_if", "0101")]),
    Made("what br_table hands on", main(f"block (result i32) block (result i32) {MERGED} local.get 1 "
                                        f"br_table 0 1 end drop i32.const 16 end {USED}"),
         [("main", "br_table", "0100")]),
    Made("what return hands on",
         main(f"local.get 0 local.get 1 call $given {USED} local.get 0 local.get 1 call $given {USED}",
                                      more=f"(func $given (param i32 i32) (result i32) {MERGED} return)"),
                                      [("given", "return", "0100")]),
    Made("what the end of a block hands on", main(f"block (result i32) {MERGED} end {USED}"),
         [("main", "end", "0100")]),
    Made("what the end of a function hands on",
         main(f"local.get 0 local.get 1 call $given {USED} local.get 0 local.get 1 call $given {USED}",
                                                     more="(func $given (param i32 i32) (result i32) "
                                                     f"{MERGED})"), [("given", "end", "0100")]),
    Made("what the first part of an if hands on", main(f"local.get 0 if (result i32) {MERGED} else i32.const "
                                                       f"4 end {USED}"), [("main", "else", "0100")]),
    Made("what an if without else hands on", main(f"{MERGED} local.get 1 if (param i32) (result i32) drop "
                                                  f"i32.const 8 end {USED}"), [("main", "end", "0100")]),
    Made("what is handed to a loop", main(f"{MERGED} loop (param i32) {USED} end"),
         [("main", "loop", "0100")]),
    # A condition inside an instruction.
    Made("a br_table's test", main(f"block {MERGED} br_table 0 0 end"), [("main", "br_table", ARM)]),
    Made("the tests of a br_table of two arms", main(f"block {MERGED} br_table 0 0 0 end"),
         [("main", "br_table", ARM)]),
    Made("a call_indirect's test", main(f"local.get 0 {MERGED} call_indirect (type $one)", more=ONE),
         [("main", "call_indirect", ARM)]),
    # What memory.grow makes, and what stands on the size.
    Made("whether a memory has room", main(f"{MERGED} memory.grow drop", memory="(memory 1 2)"),
         [("main", "memory.grow", ROOM)]),
    Made("the size that a memory has from then on",
         main(f"{MERGED} memory.grow drop i32.const 0 {USED} i32.const 8 i32.const 1 i32.store",
              memory="(memory 1 2)"),
         [("main", "memory.grow", ROOM + SIZE)]),
    Made("whether a load is in bounds", main(f"{GROWING} i32.const 0 {USED}", memory="(memory 1 2)"),
         [("main", "i32.load", BOUNDS), ("main", "memory.grow", ROOM)]),
    Made("whether a store is in bounds",
         main(f"{GROWING} i32.const 0 i32.const 1 i32.store8", memory="(memory 1 2)"),
         [("main", "i32.store8", BOUNDS), ("main", "memory.grow", ROOM)]),
    Made("the old size, and whether there is room, of another growth",
         main(f"{GROWING} i32.const 0 memory.grow call $use", memory="(memory 1 2)"),
         [("main", "memory.grow", ROOM), ("main", "memory.grow", RESULT + ROOM)]),
    Made("a memory's size", main(f"{GROWING} memory.size call $use", memory="(memory 1 2)"),
         [("main", "memory.grow", ROOM), ("main", "memory.size", RESULT)]),
]
