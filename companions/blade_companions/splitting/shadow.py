"""The module `shadow`: a public memory with two bytes for each byte of C's memory, and the functions by which
it is read and written. The known bits of the byte at address a stand at a, their mask at a + base.
Licence: public domain (CC0)."""
from __future__ import annotations

from typing import Dict, List, NamedTuple, Sequence, Tuple

from . import codes as op
from .parts import (
    CODE,
    DATA,
    EXPORTS,
    FUNCTIONS,
    MEMORIES,
    PAGE,
    TYPES,
    Body,
    constant,
    function_names,
    written,
)
from ..formats.encoding import MAGIC, custom, func_type, leb, section, sized, string, vector
from ..formats.module import FUNCTION, MEMORY, FuncType
from ..formats.reading import Bad

NAME = "shadow"
MOST_PAGES = 128  # of C's memory: the shadow has twice as many, and a memory at most 256
# Stores by their width, with the type of what they store.
WIPES = (
    ("i64.store", 8, "i64"),
    ("i32.store", 4, "i32"),
    ("i32.store16", 2, "i32"),
    ("i32.store8", 1, "i32"),
)
UNSIGNED = {1: "i64.load8_u", 2: "i64.load16_u", 4: "i64.load32_u"}
TRAP = "if; unreachable; end;"


class Accessor(NamedTuple):
    """A function of the shadow: what it does, by which load or store, at which offset. `other` is the load's
    offset of a copy, and of a wipe how many bytes. One for addresses that leak stands apart, so that it alone
    is refused."""

    what: str
    code: int
    offset: int
    other: int = 0
    leaks: bool = False

    @property
    def name(self) -> str:
        if self == FORGET:
            return "forget"
        access = op.ACCESS_NAMES[self.code].replace(".", "_")
        return (
            f"{self.what}_{access}_{self.offset}"
            + (f"_{self.other}" if self.other else "")
            + ("_leaks" if self.leaks else "")
        )


# Exported in any case: a host that writes bytes of C's memory forgets what was known of them.
FORGET = Accessor("wipe_range", 0x37, 0)


def full_mask(code: int) -> int:
    """The mask of a wholly known value as a load reads it."""
    access = op.ACCESSES[code]
    bits = op.BITS[access.type]
    return (1 << (bits if access.is_signed else 8 * access.width)) - 1


def load_like(code: int) -> str:
    """The load without sign that reads as many bytes as a store writes."""
    return {
        0x36: "i32.load",
        0x37: "i64.load",
        0x3A: "i32.load8_u",
        0x3B: "i32.load16_u",
        0x3C: "i64.load8_u",
        0x3D: "i64.load16_u",
        0x3E: "i64.load32_u",
    }[code]


class Shadow:
    """Collects the accessors that a split module calls, and makes the module of them."""

    def __init__(self, pages: int) -> None:
        if pages > MOST_PAGES:
            raise Bad(
                f"a memory that may grow to {pages} pages: the shadow has room for at most {MOST_PAGES}, "
                "so give it a most (--max-memory)"
            )
        self.pages, self.base = pages, pages * PAGE
        self.numbers: Dict[Accessor, int] = {}
        self.number(FORGET)

    def number(self, accessor: Accessor) -> int:
        return self.numbers.setdefault(accessor, len(self.numbers))

    def is_inside(self, offset: int) -> bool:
        """Whether an access at this offset can be within C's memory at all."""
        return offset < self.base

    # The bodies of accessors.

    def value(self, one: Accessor) -> str:
        """The access to known bits."""
        return f"{op.ACCESS_NAMES[one.code]} {one.offset};"

    def masks(self, one: Accessor) -> str:
        """The access to their mask."""
        return f"{op.ACCESS_NAMES[one.code]} {one.offset + self.base};"

    def type_of(self, accessor: Accessor) -> FuncType:
        kind, what = op.ACCESSES[accessor.code].type, accessor.what
        more = {
            "copy": (op.I32,),
            "mirror": (kind,),
            "put": (kind, kind),
            "wipe_range": (op.I32,),
            "fill_range": (op.I32, op.I32),
        }.get(what, ())
        return FuncType(bytes((op.I32, *more)), bytes([kind] if what in ("public", "bits", "mask") else []))

    def body_of(self, accessor: Accessor) -> Body:
        is_narrow = accessor.what == "public" and op.ACCESSES[accessor.code].width < 8
        own = [op.I64] if is_narrow or accessor.what == "fill_range" else []
        return Body(own, op.assembled(getattr(self, accessor.what)(accessor) + "end"))

    def public(self, one: Accessor) -> str:
        """Traps unless all bits are known. The mask is read first: if its place is outside, so is that of the
        module's value. Mask and value of at most four bytes are put into one number before the test, so that
        one protect holds both back."""
        access = op.ACCESSES[one.code]
        if access.width == 8:
            return (
                f"local.get 0; {self.masks(one)} i64.const -1; i64.ne; {TRAP}"
                f"local.get 0; {self.value(one)}"
            )
        narrow, whole = UNSIGNED[access.width], (1 << 8 * access.width) - 1
        return (
            f"local.get 0; {narrow} {one.offset + self.base}; i64.const 32; i64.shl;"
            f"local.get 0; {narrow} {one.offset}; i64.or; local.set 1;"
            f"local.get 1; i64.const 32; i64.shr_u; i64.const {whole}; i64.ne; {TRAP}"
            f"local.get 1; {self.taken_out(access)}"
        )

    def taken_out(self, access: op.Access) -> str:
        """The lower half of a number, as a load gives it."""
        kind = "i32" if access.type == op.I32 else "i64"
        taken = "i32.wrap_i64;" if access.type == op.I32 else "i64.const 0xFFFFFFFF; i64.and;"
        is_extended = access.is_signed and access.width * 8 < op.BITS[access.type]
        return taken + (f"{kind}.extend{8 * access.width}_s;" if is_extended else "")

    def bits(self, one: Accessor) -> str:
        return f"local.get 0; {self.value(one)}"

    def mask(self, one: Accessor) -> str:
        """What a load without sign adds above is known."""
        kind = op.ACCESSES[one.code].type
        above = ((1 << op.BITS[kind]) - 1) ^ full_mask(one.code)
        word = f"i{op.BITS[kind]}"
        return f"local.get 0; {self.masks(one)}" + (f"{word}.const {above}; {word}.or;" if above else "")

    def clear(self, one: Accessor) -> str:
        return f"local.get 0; i{op.BITS[op.ACCESSES[one.code].type]}.const 0; {self.masks(one)}"

    def wipe(self, one: Accessor) -> str:
        """Clears the masks of several bytes in a row."""
        code, at, left = "", one.offset, one.other
        while left:
            store, width, kind = next(row for row in WIPES if row[1] <= left)
            code += f"local.get 0; {kind}.const 0; {store} {at + self.base};"
            at, left = at + width, left - width
        return code

    def wipe_range(self, one: Accessor) -> str:
        """Clears the masks from one address to another."""
        return self.ranged(("i64.const 0;", self.base))

    def fill_range(self, one: Accessor) -> str:
        """The same known byte from one address to another."""
        byte = "local.get 2; i32.const 255; i32.and; i64.extend_i32_u;"
        eight = f"{byte} i64.const 0x101010101010101; i64.mul; local.set 3;"
        return eight + self.ranged(("local.get 3;", 0), ("i64.const -1;", self.base))

    def ranged(self, *rows: Tuple[str, int]) -> str:
        """A loop of 32 bytes a turn, and then what is left. Each row has a value, and where its bytes stand,
        from local 0 on."""

        def turn(width: int) -> str:
            store = f"i64.store{8 * width}" if width < 8 else "i64.store"
            stores = "".join(f"local.get 0; {value} {store} {at + more};"
                             for more in range(0, width, 8) for value, at in rows)
            return f"{stores} local.get 0; i32.const {width}; i32.add; local.set 0;"

        left = "local.get 1; local.get 0; i32.sub;"

        def rest(widths: Sequence[int]) -> str:
            each = "".join(f"{left} i32.const {one}; i32.and; if; {turn(one)} end;" for one in widths)
            return f"{left} i32.const {sum(widths)}; i32.and; if; {each} end;"

        return (
            f"block; {left} i32.const 32; i32.lt_u; br_if 0; loop; {turn(32)}"
            f"{left} i32.const 32; i32.ge_u; br_if 0; end; end; {rest((16, 8))} {rest((4, 2, 1))}"
        )

    def mirror(self, one: Accessor) -> str:
        kind = f"i{op.BITS[op.ACCESSES[one.code].type]}"
        return f"local.get 0; local.get 1; {self.value(one)} local.get 0; {kind}.const -1; {self.masks(one)}"

    def put(self, one: Accessor) -> str:
        return f"local.get 0; local.get 1; {self.value(one)} local.get 0; local.get 2; {self.masks(one)}"

    def copy(self, one: Accessor) -> str:
        load, store = load_like(one.code), op.ACCESS_NAMES[one.code]
        return "".join(
            f"local.get 0; local.get 1; {load} {one.other + half}; {store} {one.offset + half};"
            for half in (0, self.base)
        )

    # The module.

    def imports(self) -> List[Tuple[str, str, FuncType]]:
        return [(NAME, accessor.name, self.type_of(accessor)) for accessor in self.numbers]

    def module(self, known: Sequence[Tuple[int, bytes]]) -> bytes:
        """The module; `known` has the first bytes of C's memory that may be relied on."""
        kinds = [self.type_of(accessor) for accessor in self.numbers]
        types = list(dict.fromkeys(kinds))
        exported = [string("memory") + bytes([MEMORY, 0])]
        exported += [string(one.name) + bytes([FUNCTION]) + leb(at) for one, at in self.numbers.items()]
        data = [
            b"\0" + constant(op.I32, at) + sized(some)
            for first, told in known
            for at, some in ((first, told), (self.base + first, b"\xff" * len(told)))
        ]
        pages = leb(2 * self.pages)
        return (
            MAGIC
            + section(TYPES, vector([func_type(*kind) for kind in types]))
            + b"".join(
                [
                    section(FUNCTIONS, vector([leb(types.index(kind)) for kind in kinds])),
                    section(MEMORIES, vector([b"\1" + pages + pages])),
                    section(EXPORTS, vector(exported)),
                    section(CODE, written([self.body_of(one) for one in self.numbers], [])),
                    section(DATA, vector(data)) if data else b"",
                    custom("name", function_names({at: one.name for one, at in self.numbers.items()})),
                ]
            )
        )
