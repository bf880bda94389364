"""Libraries, stubs and clients for tools/checks/apart, as texts of WebAssembly, with what is worked out by
hand of them. Licence: public domain (CC0)."""
from typing import Dict, List, NamedTuple, Sequence, Tuple


class Call(NamedTuple):
    """A function that is called: its arguments, bytes over memories of the linked modules, and the first line
    of its outcome."""

    export: str
    arguments: Sequence[int]
    told: str
    patches: Sequence[Tuple[int, int, str]] = ()


class Case(NamedTuple):
    """Modules by name, the stub where it isn't blade-stub's, and calls. Of a witness the joined image's line,
    and what blade-stub tells."""

    name: str
    interface: str
    library: Dict[str, str]
    clients: Dict[str, str]
    calls: Sequence[Call]
    stub: Dict[str, str] = {}
    joined: str = ""
    warned: Sequence[str] = ()


FG = "function - s lib/f\nfunction - s lib/g\n"
ELEVEN = ('(module (func (export "f") (result i32) i32.const 11) (func (export "g") '
          '(result i32) i32.const 22))')
IMPORTS_F = '(import "lib" "f" (func $f (result i32)))'
BOTH = f"""(module {IMPORTS_F} (import "lib" "g" (func $g (result i32)))
  (func (export "both") (result i32) call $f i32.const 100 i32.mul call $g i32.add))"""
F_STUB = '(func (export "f") (result i32) unreachable)'
HAND_ON = f'(module {IMPORTS_F} (export "again" (func $f)) (func (export "one") (result i32) call $f))'

# Where a client or its stub doesn't keep what is asked, and the answers differ.
WITNESSES: List[Case] = [
    Case("two names of one function of the stub", FG, {"lib": ELEVEN}, {"client": BOTH},
         [Call("client/both", [], "returned i32 1122")],
         {"lib": '(module (func $s (result i32) unreachable) (export "f" (func $s)) (export "g" (func $s)))'},
         "returned i32 1111",
         ["lib/f and lib/g are one function of the stub, and two of the library: calls of both go to lib/f"]),
    Case("a memory from the stub", "function - - lib/set\n",
         {"lib": '(module (memory (export "m") 1) (func (export "set") i32.const 8 i32.const 77 i32.store))'},
         {"client": """(module (import "lib" "set" (func $set)) (import "lib" "m" (memory 1))
           (func (export "get") (result i32) call $set i32.const 8 i32.load))"""},
         [Call("client/get", [], "returned i32 77")],
         {"lib": '(module (memory (export "m") 1) (func (export "set") unreachable))'}, "returned i32 0",
         ["CLIENT/client.wasm: imports memory lib/m of the stub: it stays the stub's, apart from "
          "what the library has"]),
    Case("a function of the stub that is handed on", "function - s lib/f\n", {"lib": ELEVEN},
         {"client": HAND_ON},
         [Call("client/again", [], "returned i32 11")], {}, "trapped unreachable",
         ["CLIENT/client.wasm: exports client/again, a function of the stub: under that name "
          "the stub's body runs"]),
    Case("a function that neither the interface nor the library has", "function - s lib/f\n", {"lib": ELEVEN},
         {"client": '(module (import "lib" "extra" (func $extra (result i32))) (func (export "one") '
          '(result i32) call $extra))'},
         [Call("client/one", [], "link: client import 0 unknown")],
         {"lib": f'(module {F_STUB} (func (export "extra") (result i32) i32.const 5))'}, "returned i32 5",
         ["the stub exports lib/extra, which neither the interface nor the library has: who calls "
          "it runs the stub's body",
          "CLIENT/client.wasm: imports function lib/extra, which isn't in the interface: "
          "the stub's body runs"]),
    Case("an export of the stub that the interface doesn't have", "function - s lib/f\n", {"lib": ELEVEN},
         {"client": HAND_ON.replace('(export "again" (func $f))', "")},
         [Call("lib/z", [], "start: export")],
         {"lib": f'(module {F_STUB} (func (export "z") (result i32) i32.const 5))'}, "returned i32 5",
         ["the stub exports lib/z, which neither the interface nor the library has: who calls it "
          "runs the stub's body"]),
]

TABLES = """(module
  (import "lib" "add" (func $add (param i32 i32) (result i32)))
  (import "lib" "put" (func $put (param i32) (result i32)))
  (import "lib" "get" (func $get (param i32) (result i32)))
  (type $one (func (param i32) (result i32)))
  (type $two (func (param i32 i32) (result i32)))
  (table 7 funcref)
  (elem (i32.const 1) $add $put $own $get $put)
  (func $own (param i32) (result i32) local.get 0 i32.const 3 i32.mul)
  (func (export "one") (param i32 i32) (result i32) local.get 1 local.get 0 call_indirect (type $one))
  (func (export "two") (param i32 i32 i32) (result i32) local.get 1 local.get 2 local.get 0 call_indirect
  (type $two)))"""
TABLED = """(module (memory 1)
  (func (export "add") (param i32 i32) (result i32) local.get 0 local.get 1 i32.add)
  (func (export "put") (param i32) (result i32) i32.const 32 local.get 0 i32.store i32.const 32 i32.load8_u)
  (func (export "get") (param i32) (result i32) local.get 0 i32.load))"""

RESULTS = """(module
  (import "lib" "three" (func $three (param i32 i64) (result i64 i32 i64)))
  (type $three (func (param i32 i64) (result i64 i32 i64)))
  (table 1 funcref) (elem (i32.const 0) $three)
  (func (export "turned") (param i32 i64) (result i32 i64 i64) (local i64 i32 i64)
    local.get 0 local.get 1 call $three local.set 4 local.set 3 local.set 2 local.get 3 local.get 4
    local.get 2)
  (func (export "as") (param i32 i64) (result i64 i32 i64)
    local.get 0 local.get 1 block (param i32 i64) (result i64 i32 i64) i32.const 0 call_indirect
    (type $three) end)
  (func (export "none") (param i32) (result i64 i32 i64)
    i64.const 6 i32.const 2 i64.const 0 local.get 0 i32.eqz br_if 0 drop drop drop local.get 0 i64.const 5
    call $three))"""
THREE = """(module (func (export "three") (param i32 i64) (result i64 i32 i64)
  local.get 1 i64.const 1 i64.add local.get 0 i32.const 2 i32.add local.get 1 local.get 0 i64.extend_i32_u
  i64.mul))"""

# A library of two modules, each with a memory; a stub with a memory and a global of its own; two clients, the
# second over the first's memory.
STATES = {
    "low": """(module (memory (export "m") 1 3) (data (i32.const 0) "\\01\\02\\03\\04")
      (global $count (mut i32) (i32.const 0))
      (func (export "store") (param i32 i32) local.get 0 local.get 1 i32.store global.get $count
      i32.const 1 i32.add global.set $count)
      (func (export "count") (result i32) global.get $count)
      (func (export "grow") (param i32) (result i32) local.get 0 memory.grow))""",
    "high": """(module (import "low" "store" (func $store (param i32 i32))) (memory 2)
      (data (i32.const 16) "\\aa\\bb")
      (func (export "copy") (param i32 i32) local.get 0 local.get 1 i32.load call $store)
      (func (export "load") (param i32) (result i32) local.get 0 i32.load)
      (func (export "size") (result i32) memory.size)
      (export "put" (func $store)))""",
}
STATES_STUBS = {
    "low": """(module (memory 1) (global $g (mut i32) (i32.const 9)) (data (i32.const 0) "\\ff")
      (func (export "store") (param i32 i32) local.get 0 local.get 1 i32.store)
      (func (export "count") (result i32) global.get $g))""",
    "high": """(module (func (export "copy") (param i32 i32) unreachable)
      (func (export "put") (param i32 i32) i32.const 1 drop unreachable)
      (func (export "load") (param i32) (result i32) i32.const 7))""",
}
STATES_IFACE = ("function ss - high/copy\nfunction - t low/count\nfunction st - low/store\nfunction st - "
                "high/put\nfunction s t high/load\n")
STATES_CLIENTS = {
    "first": """(module (import "high" "copy" (func $copy (param i32 i32)))
      (import "low" "count" (func $count (result i32)))
      (memory (export "m") 1 2) (global (export "g") (mut i32) (i32.const 40)) (data (i32.const 4) "\\07")
      (func (export "twice") (param i32 i32) (result i32)
        local.get 0 local.get 1 call $copy local.get 0 i32.const 4 i32.add local.get 1 call $copy
        i32.const 64 call $count i32.store i32.const 4 i32.load))""",
    "second": """(module (import "first" "twice" (func $twice (param i32 i32) (result i32)))
      (import "first" "m" (memory 1)) (import "first" "g" (global $g (mut i32)))
      (import "high" "put" (func $put (param i32 i32)))
      (import "high" "load" (func $load (param i32) (result i32)))
      (import "low" "store" (func $store (param i32 i32)))
      (func (export "all") (param i32) (result i32)
        global.get $g i32.const 2 i32.add global.set $g
        i32.const 128 i32.const 16 call $load i32.store
        i32.const 256 global.get $g call $put i32.const 260 local.get 0 call $store
        i32.const 8 i32.const 16 call $twice i32.const 1 memory.grow i32.add memory.size i32.add)
      (func (export "small") (param i32) (result i32) local.get 0 i32.load8_u))""",
}

TRAPS = """(module (memory 1) (table 2 funcref) (elem (i32.const 1) $own) (type $none (func))
  (type $one (func (param i32)))
  (func $own)
  (func $deep call $deep)
  (func (export "trap") (param i32) (result i32)
    i32.const 4 local.get 0 i32.store
    block block block block block block block block
      local.get 0 br_table 0 1 2 3 4 5 6 7
    end unreachable
    end i32.const 1 i32.const 0 i32.rem_u return
    end i32.const 0x80000000 i32.const -1 i32.div_s return
    end i32.const 65533 i32.load return
    end i32.const 2 call_indirect (type $none)
    end i32.const 0 call_indirect (type $none)
    end i32.const 5 i32.const 1 call_indirect (type $one)
    end call $deep i32.const 3))"""
TRAPPED = """(module (import "lib" "trap" (func $trap (param i32) (result i32))) (memory 1)
  (func (export "trap") (param i32) (result i32)
    i32.const 12 local.get 0 i32.store8 local.get 0 call $trap i32.const 12 i32.const 9 i32.store8))"""
KINDS = ["unreachable", "integer divide by zero", "integer overflow", "out of bounds memory access",
         "undefined element", "uninitialized element", "indirect call type mismatch", "call stack exhausted",
         "call stack exhausted"]

# Each counts down one number by its own calls; the client then calls the library.
DOWN = """(module (func $down (export "down") (param i32) (result i32)
  local.get 0 if (result i32) local.get 0 i32.const 1 i32.sub call $down i32.const 1 i32.add else
  i32.const 0 end))"""
DEPTH = """(module (import "lib" "down" (func $lib (param i32) (result i32)))
  (func $both (export "both") (param i32 i32) (result i32)
    local.get 0 if (result i32) local.get 0 i32.const 1 i32.sub local.get 1 call $both i32.const 1 i32.add
    else local.get 1 call $lib end))"""
EXHAUSTED = "trapped call stack exhausted"

# Clients that keep to the interface.
KEPT: List[Case] = [
    Case("each name a function of its own", FG, {"lib": ELEVEN}, {"client": BOTH},
         [Call("client/both", [], "returned i32 1122"), Call("lib/f", [], "returned i32 11"),
          Call("lib/g", [], "returned i32 22")]),
    Case("a client that hands on a function keeps the rest", "function - s lib/f\n", {"lib": ELEVEN},
         {"client": HAND_ON},
         [Call("client/one", [], "returned i32 11"), Call("lib/g", [], "returned i32 22")],
         warned=["CLIENT/client.wasm: exports client/again, a function of the stub: under that name "
                 "the stub's body runs"]),
    Case("two names of one function on both sides", FG,
         {"lib": '(module (func $s (export "f") (export "g") (result i32) i32.const 4))'}, {"client": BOTH},
         [Call("client/both", [], "returned i32 404")],
         {"lib": '(module (func $s (export "f") (export "g") (result i32) unreachable))'}),
    Case("a table that holds a library's functions", "function tt t lib/add\nfunction s t lib/put\nfunction "
         "s t lib/get\n", {"lib": TABLED}, {"client": TABLES},
         [Call("client/two", [1, 5, 6], "returned i32 11"),
          Call("client/one", [2, 0x1234], f"returned i32 {0x34}"),
          Call("client/one", [3, 5], "returned i32 15"),
          Call("client/one", [4, 8], f"returned i32 {0x04030201}", [(0, 8, "01020304")]),
          Call("client/one", [5, 255], "returned i32 255"),
          Call("client/one", [1, 5], "trapped indirect call type mismatch"),
          Call("client/two", [4, 5, 6], "trapped indirect call type mismatch"),
          Call("client/one", [0, 5], "trapped uninitialized element"),
          Call("client/one", [6, 5], "trapped uninitialized element"),
          Call("client/one", [7, 5], "trapped undefined element"),
          Call("client/one", [4, 65533], "trapped out of bounds memory access")]),
    Case("several results", "function st ttt lib/three\n", {"lib": THREE}, {"client": RESULTS},
         [Call("client/turned", [6, 7], "returned i32 8 i64 42 i64 8"),
          Call("client/as", [6, 7], "returned i64 8 i32 8 i64 42"),
          Call("client/none", [0], "returned i64 6 i32 2 i64 0"),
          Call("client/none", [6], "returned i64 6 i32 8 i64 30"),
          Call("lib/three", [6, 7], "returned i64 8 i32 8 i64 42")]),
    Case("memories on both sides", STATES_IFACE, STATES, STATES_CLIENTS,
         [Call("first/twice", [8, 16], "returned i32 7"), Call("second/all", [77], "returned i32 10"),
          Call("second/all", [77], "returned i32 10", [(0, 8, "0505"), (1, 16, "0909"), (2, 12, "0808")]),
          Call("second/small", [70000], "trapped out of bounds memory access"),
          Call("low/grow", [1], "returned i32 1"), Call("low/count", [], "returned i32 0"),
          Call("first/twice", [65534, 16], "trapped out of bounds memory access"),
          Call("high/size", [], "returned i32 2"), Call("high/put", [0, 9], "returned"),
          Call("high/load", [2], "returned i32 5", [(1, 2, "05")])], STATES_STUBS),
    Case("traps in the library", "function s t lib/trap\n", {"lib": TRAPS}, {"client": TRAPPED},
         [Call("client/trap", [number], f"trapped {kind}") for number, kind in enumerate(KINDS)]),
    Case("calls 1,024 deep across the border", "function s t lib/down\n", {"lib": DOWN}, {"client": DEPTH},
         [Call("client/both", [own, 1022 - own + more], EXHAUSTED if more else "returned i32 1022")
          for own in (0, 1, 500, 1022) for more in (0, 1)]
         + [Call("client/both", [1023, 0], EXHAUSTED), Call("client/both", [3, 4], "returned i32 7"),
            Call("lib/down", [1023], "returned i32 1023"), Call("lib/down", [1024], EXHAUSTED)]),
]

MODULE_F = "(module " + F_STUB + ")"
IMPORTING = '(module (import "lib" {0}))'

# What blade-stub says besides of a stub, an interface, a library and clients.
TOLD: List[Case] = [
    Case("a name that the stub hasn't", FG, {"lib": ELEVEN}, {}, [], {"lib": MODULE_F},
         warned=["the stub exports no function lib/g, which the interface names"]),
    Case("a name that the library hasn't", FG, {"lib": MODULE_F}, {}, [], {"lib": ELEVEN},
         warned=["the library exports no function lib/g, which the interface names"]),
    Case("a name without a module", "function - s lib/f\nfunction - s lib\n",
         {"lib": '(module (func (export "f") (export "") (result i32) i32.const 1))'}, {}, [],
         {"lib": MODULE_F},
         warned=["the library exports no function lib, which the interface names",
                 "the stub exports no function lib, which the interface names"]),
    Case("another type in the stub", "function - s lib/f\n", {"lib": ELEVEN}, {}, [],
         {"lib": '(module (func (export "f") (result i64) unreachable))'},
         warned=["lib/f has another type in the stub than in the library"]),
    Case("letters for what isn't there", "function t - lib/f\n", {"lib": ELEVEN}, {}, [], {"lib": MODULE_F},
         warned=["lib/f has 0 parameters and 1 results in the library, and 1 and 0 in the interface"]),
    Case("a function that the interface doesn't name", "function - s lib/f\n", {"lib": ELEVEN}, {}, [],
         {"lib": ELEVEN},
         warned=["the stub exports lib/g, which isn't in the interface: who calls it runs the stub's body"]),
    Case("a global, a table and a module from nowhere", "function - s lib/f\n", {"lib": MODULE_F},
         {"one": IMPORTING.format('"g" (global i32)'), "two": IMPORTING.format('"t" (table 1 funcref)'),
          "three": '(module (import "env" "f" (func)))'}, [], {"lib": MODULE_F},
         warned=["CLIENT/one.wasm: imports global lib/g of the stub: it stays the stub's, apart "
                 "from what the library has",
                 "CLIENT/two.wasm: imports table lib/t of the stub: it stays the stub's, apart "
                 "from what the library has",
                 "CLIENT/three.wasm: imports function env/f, and no module of the stub or of a "
                 "client is called env"]),
    Case("a function of the stub that goes through two clients", "function - s lib/f\n", {"lib": MODULE_F},
         {"one": f'(module {IMPORTS_F} (export "h" (func $f)))', "two": '(module (import "one" "h" (func $h '
          '(result i32))) (export "k" (func $h)))'}, [], {"lib": MODULE_F},
         warned=["CLIENT/one.wasm: exports one/h, a function of the stub: under that "
                 "name the stub's body runs",
                 "CLIENT/two.wasm: exports two/k, a function of the stub: under that name "
                 "the stub's body runs"]),
    Case("a client called as the library", "function - s lib/f\n", {"lib": MODULE_F, "more": "(module)"},
         {"more": "(module)"}, [], {"lib": MODULE_F},
         warned=["two modules of the library and the clients are called more"]),
    Case("modules that no call takes together", "function - s lib/f\n", {"lib": MODULE_F},
         {f"c{number}": "(module)" for number in range(8)}, [], {"lib": MODULE_F},
         warned=["the stub and the clients are 9 modules, and a call takes 8",
                 "the library and the clients are 9 modules, and a call takes 8"]),
    Case("a name that forges a line", "function - s lib/f\n", {"lib": MODULE_F},
         {"client": f'(module {IMPORTS_F} (export "\\1b[2J\\0akept" (func $f)))'}, [], {"lib": MODULE_F},
         warned=["CLIENT/client.wasm: exports client/\\x1b[2J\\nkept, a function of the stub: under that "
                 "name the stub's body runs"]),
]
