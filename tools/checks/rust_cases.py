"""Ways to lose a label in Rust, for the check `rust`: crates whose declared secret would be an address. Each
has the statuses that are right: 1 (the leak is found), 5 (the label is refused), 3 (rustc refuses the label),
2 (words that are refused). Nothing is right that says yes, but for the last crates, which leak nothing.
Licence: public domain (CC0)."""
from __future__ import annotations

from typing import Dict, List, NamedTuple, Tuple

LEAK, REFUSED, BUILD, WORDS, YES = 1, 5, 3, 2, 0
HEAD = """#![no_std]
#![allow(dead_code, unused_variables, unused_imports)]
use blade_labels::{public_result, secret_memory, secret_param};
#[panic_handler]
fn stop(_: &core::panic::PanicInfo) -> ! { loop {} }
static TABLE: [u32; 16] = [3, 14, 9, 0, 7, 12, 5, 10, 1, 15, 6, 11, 2, 13, 8, 4];
"""
LOOKUP = """secret_param!(lookup, index);
#[no_mangle] pub extern "C" fn lookup(index: u32) -> u32 { TABLE[(index & 15) as usize] }
"""
INNER = "secret_param!(inner, x);\n%s fn inner(x: u32) -> u32 { TABLE[(x & 15) as usize] }\n"
OUTER = '#[no_mangle] pub extern "C" fn outer(y: u32) -> u32 { inner(y) }\n'
TOML = """[package]
name = "way"
version = "0.1.0"
edition = "2021"
[lib]
crate-type = ["cdylib"]
[dependencies]
blade-labels = { path = "LABELS" }
%s
"""


class Way(NamedTuple):
    """A crate: what is tried, the right statuses, a part of what is said, the files, and the environment."""

    name: str
    right: Tuple[int, ...]
    told: str
    files: Dict[str, str]
    setting: Dict[str, str] = {}
    words: Tuple[str, ...] = ()


def way(
    name: str,
    right: int,
    told: str,
    source: str,
    toml: str = "",
    words: Tuple[str, ...] = (),
    more: Dict[str, str] = {},
    setting: Dict[str, str] = {},
) -> Way:
    return Way(
        name, (right,), told, {"Cargo.toml": TOML % toml, "src/lib.rs": HEAD + source, **more}, setting, words
    )


def profile(text: str) -> str:
    return f"[profile.release]\n{text}"


NO = "constant-time no"
LABEL = "[blade-label]"
CALLER = "passes a public value as the secret parameter"
NOTHING = "nothing is declared secret"
GENERIC = "has no code of its own"
WAYS: List[Way] = [
    way(
        "a plain function", LEAK, "src/lib.rs:8:60: error: a secret is part of the address of a load", LOOKUP
    ),
    # What the profile asks for.
    way("lto = fat", LEAK, NO, LOOKUP, profile('lto = "fat"')),
    way("lto = thin", LEAK, NO, LOOKUP, profile('lto = "thin"')),
    way("codegen-units = 16", LEAK, NO, LOOKUP, profile("codegen-units = 16")),
    way(
        "codegen-units = 1 with panic = abort",
        LEAK,
        NO,
        LOOKUP,
        profile('codegen-units = 1\npanic = "abort"'),
    ),
    way("opt-level 0", LEAK, NO, LOOKUP, profile("opt-level = 0")),
    way("opt-level 1", LEAK, NO, LOOKUP, profile("opt-level = 1")),
    way("opt-level 3", LEAK, NO, LOOKUP, profile("opt-level = 3")),
    way("opt-level s", LEAK, NO, LOOKUP, profile('opt-level = "s"')),
    way("opt-level z with strip", LEAK, NO, LOOKUP, profile('opt-level = "z"\nstrip = true\ndebug = false')),
    way("checks of overflow", LEAK, NO, LOOKUP, profile("overflow-checks = true\ndebug-assertions = true")),
    # Calls from inside.
    way("inline(always)", REFUSED, "#[inline(always)]", INNER % "#[inline(always)]" + OUTER),
    way("inline, given a public value", REFUSED, CALLER, INNER % "#[inline]" + OUTER),
    way("no attribute, given a public value", REFUSED, CALLER, INNER % "" + OUTER),
    way("inline(never), given a public value", REFUSED, CALLER, INNER % "#[inline(never)]" + OUTER),
    way(
        "given a constant",
        REFUSED,
        CALLER,
        INNER % "" + '#[no_mangle] pub extern "C" fn outer() -> u32 { inner(3) }\n',
    ),
    way(
        "a result that doesn't depend on the secret",
        REFUSED,
        CALLER,
        "secret_param!(inner, x);\nfn inner(x: u32) -> u32 { 7 }\n" + OUTER,
    ),
    way(
        "an identity",
        REFUSED,
        CALLER,
        """secret_param!(same, x);
fn same(x: u32) -> u32 { x }
#[no_mangle] pub extern "C" fn outer(y: u32) -> u32 { TABLE[(same(y) & 15) as usize] }
""",
    ),
    way("given a secret of the caller", LEAK, NO, INNER % "" + OUTER + "secret_param!(outer, y);\n"),
    way(
        "through a wrapper",
        REFUSED,
        CALLER,
        INNER % "" + "fn between(z: u32) -> u32 { inner(z) }\n" + OUTER.replace("inner", "between"),
    ),
    way(
        "a recursion with public values",
        REFUSED,
        CALLER,
        """secret_param!(inner, x);
#[no_mangle] pub extern "C" fn inner(x: u32, n: u32) -> u32 {
    if n == 0 { TABLE[(x & 15) as usize] } else { inner(n, n - 1) ^ 1 }
}
""",
    ),
    way(
        "through a function pointer",
        REFUSED,
        CALLER,
        INNER % ""
        + """
#[no_mangle] pub static mut CHOSEN: fn(u32) -> u32 = inner;
#[no_mangle] pub extern "C" fn outer(y: u32) -> u32 { unsafe { core::ptr::read_volatile(&CHOSEN)(y) } }
""",
    ),
    way(
        "through a dyn trait",
        REFUSED,
        CALLER,
        """trait Lookup { fn look(&self, x: u32) -> u32; }
struct One(u32);
struct Two(u32);
impl Lookup for One { fn look(&self, x: u32) -> u32 { TABLE[((x ^ self.0) & 15) as usize] } }
impl Lookup for Two { fn look(&self, x: u32) -> u32 { x + self.0 } }
secret_param!(One::look, x);
#[inline(never)] fn by(it: &dyn Lookup, x: u32) -> u32 { it.look(x) }
#[no_mangle] pub extern "C" fn outer(y: u32, b: u32) -> u32 {
    let (one, two) = (One(b), Two(b));
    by(if b & 1 == 0 { &one } else { &two }, y)
}
""",
    ),
    way(
        "a labelled function nobody calls",
        REFUSED,
        "isn't in the module",
        INNER % "" + '#[no_mangle] pub extern "C" fn outer(y: u32) -> u32 { TABLE[(y & 15) as usize] }\n',
    ),
    # What has no code of its own.
    way(
        "a generic function",
        BUILD,
        "error",
        "secret_param!(inner, x);\nfn inner<T: Into<u32>>(x: T) -> u32 { TABLE[(x.into() & 15) as usize] }\n"
        + OUTER,
    ),
    way(
        "an instance of a generic function",
        BUILD,
        GENERIC,
        "secret_param!(inner::<u32>, x);\nfn inner<T: Into<u32>>(x: T) -> u32 { TABLE[(x.into() & 15) as"
        " usize] }\n"
        + OUTER,
    ),
    way(
        "a const generic function",
        BUILD,
        "error",
        (
            "secret_param!(inner, x);\nfn inner<const N: usize>(x: u32) -> u32 { TABLE[(x as usize) % N] }\n"
            '#[no_mangle] pub extern "C" fn outer(y: u32) -> u32 { inner::<16>(y) }\n'
        ),
    ),
    way(
        "impl Trait as a parameter",
        BUILD,
        "error",
        "secret_param!(inner, x);\nfn inner(x: impl Into<u32>) -> u32 { TABLE[(x.into() & 15) as usize] }\n"
        + OUTER,
    ),
    way(
        "a method of a generic type",
        BUILD,
        "error",
        """struct Pair<T>(T);
impl<T: Into<u32>> Pair<T> { fn inner(x: u32, y: T) -> u32 { TABLE[((x ^ y.into()) & 15) as usize] } }
secret_param!(Pair::inner, x);
#[no_mangle] pub extern "C" fn outer(y: u32) -> u32 { Pair::<u32>::inner(y, 1) }
""",
    ),
    way(
        "a method of a trait",
        BUILD,
        "error",
        """trait Lookup { fn look(x: u32) -> u32; }
struct One;
impl Lookup for One { fn look(x: u32) -> u32 { TABLE[(x & 15) as usize] } }
secret_param!(Lookup::look, x);
#[no_mangle] pub extern "C" fn outer(y: u32) -> u32 { One::look(y) }
""",
    ),
    way(
        "a trait's method by its full path",
        BUILD,
        GENERIC,
        """trait Lookup { fn look(x: u32) -> u32; }
struct One;
impl Lookup for One { fn look(x: u32) -> u32 { TABLE[(x & 15) as usize] } }
secret_param!(<One as Lookup>::look, x);
#[no_mangle] pub extern "C" fn outer(y: u32) -> u32 { One::look(y) }
""",
    ),
    way(
        "a type's method, called through a generic function",
        REFUSED,
        CALLER,
        """trait Lookup { fn look(x: u32) -> u32; }
struct One;
impl Lookup for One { fn look(x: u32) -> u32 { TABLE[(x & 15) as usize] } }
secret_param!(One::look, x);
fn by<T: Lookup>(x: u32) -> u32 { T::look(x) }
#[no_mangle] pub extern "C" fn outer(y: u32) -> u32 { by::<One>(y) }
""",
    ),
    way(
        "a default method of a trait",
        BUILD,
        "error",
        """trait Lookup { fn look(x: u32) -> u32 { TABLE[(x & 15) as usize] } }
struct One;
impl Lookup for One {}
secret_param!(Lookup::look, x);
#[no_mangle] pub extern "C" fn outer(y: u32) -> u32 { One::look(y) }
""",
    ),
    way(
        "a default method by its type",
        REFUSED,
        "error: ",
        """trait Lookup { fn look(x: u32) -> u32 { TABLE[(x & 15) as usize] } }
struct One;
impl Lookup for One {}
secret_param!(One::look, x);
#[no_mangle] pub extern "C" fn outer(y: u32) -> u32 { One::look(y) }
""",
    ),
    way(
        "a closure",
        REFUSED,
        "error: ",
        """const LOOK: fn(u32) -> u32 = |x| TABLE[(x & 15) as usize];
secret_param!(LOOK, x);
#[no_mangle] pub extern "C" fn outer(y: u32) -> u32 { LOOK(y) }
""",
    ),
    way(
        "a constant with a function",
        REFUSED,
        "by its own name",
        """const LOOK: fn(u32) -> u32 = inner;
fn inner(x: u32) -> u32 { TABLE[(x & 15) as usize] }
secret_param!(LOOK, x);
#[no_mangle] pub extern "C" fn outer(y: u32) -> u32 { LOOK(y) }
""",
    ),
    way(
        "a constructor",
        REFUSED,
        "error: ",
        """struct Wrapped(u32);
secret_param!(Wrapped, 0);
#[no_mangle] pub extern "C" fn outer(y: u32) -> u32 { TABLE[(Wrapped(y).0 & 15) as usize] }
""",
    ),
    way("track_caller", REFUSED, "error: ", INNER % "#[track_caller]" + OUTER),
    way(
        "an async function",
        REFUSED,
        "error: ",
        """use core::{future::Future, pin::Pin, task::*};
secret_param!(look, x);
async fn look(x: u32) -> u32 { TABLE[(x & 15) as usize] }
static CALLS: RawWakerVTable =
    RawWakerVTable::new(|_| RawWaker::new(core::ptr::null(), &CALLS), |_| {}, |_| {}, |_| {});
#[no_mangle] pub extern "C" fn outer(y: u32) -> u32 {
    let waker = unsafe { Waker::from_raw(RawWaker::new(core::ptr::null(), &CALLS)) };
    let mut one = look(y);
    match unsafe { Pin::new_unchecked(&mut one) }.poll(&mut Context::from_waker(&waker)) {
        Poll::Ready(value) => value,
        Poll::Pending => 0,
    }
}
""",
    ),
    way(
        "computed by rustc",
        REFUSED,
        "isn't in the module",
        """secret_param!(inner, x);
const fn inner(x: u32) -> u32 { TABLE_OF[(x & 15) as usize] }
const TABLE_OF: [u32; 4] = [1, 2, 3, 4];
const KNOWN: u32 = inner(3);
#[no_mangle] pub extern "C" fn outer(y: u32) -> u32 { KNOWN ^ y }
""",
    ),
    # Names.
    way(
        "another name by use",
        REFUSED,
        "by its own name",
        "mod deep { pub fn inner(x: u32) -> u32 { super::TABLE[(x & 15) as usize] } }\n"
        "use deep::inner as outside;\nsecret_param!(outside, x);\n"
        + OUTER.replace("inner", "outside"),
    ),
    way(
        "pub use of a module",
        REFUSED,
        CALLER,
        "pub mod deep { pub fn inner(x: u32) -> u32 { super::TABLE[(x & 15) as usize] } }\n"
        "pub use deep::inner;\nsecret_param!(inner, x);\n"
        + OUTER,
    ),
    way(
        "two functions of one name",
        LEAK,
        NO,
        """mod a {
    #[export_name = "first"] pub extern "C" fn look(x: u32) -> u32 { crate::TABLE[(x & 15) as usize] }
}
mod b { #[export_name = "second"] pub extern "C" fn look(x: u32) -> u32 { x } }
secret_param!(a::look, x);
""",
    ),
    way(
        "two functions with equal bodies",
        LEAK,
        NO,
        LOOKUP + '#[no_mangle] pub extern "C" fn other(index: u32) -> u32 { TABLE[(index & 15) as usize] }\n',
    ),
    way(
        "two private functions with equal bodies",
        REFUSED,
        CALLER,
        INNER % "#[inline(never)]"
        + OUTER
        + "#[inline(never)] fn twin(x: u32) -> u32 { TABLE[(x & 15) as usize] }\n"
        '#[no_mangle] pub extern "C" fn second(y: u32) -> u32 { twin(y) }\n',
    ),
    way("export_name", LEAK, NO, LOOKUP.replace("no_mangle", 'export_name = "other"')),
    way("an unsafe function", LEAK, NO, LOOKUP.replace("pub extern", "pub unsafe extern")),
    way(
        "a function that a macro makes",
        LEAK,
        NO,
        """macro_rules! made {
    ($name:ident) => {
        #[no_mangle] pub extern "C" fn $name(x: u32) -> u32 { TABLE[(x & 15) as usize] }
        secret_param!($name, x);
    };
}
made!(lookup);
""",
    ),
    way(
        "a label inside of a function",
        LEAK,
        NO,
        (
            '#[no_mangle] pub extern "C" fn lookup(index: u32) -> u32 { secret_param!(lookup, index); '
            "TABLE[(index & 15) as usize] }\n"
        ),
    ),
    way("a raw identifier", LEAK, NO, LOOKUP.replace("index", "r#match")),
    way(
        "the newer mangling",
        REFUSED,
        CALLER,
        INNER % "" + OUTER,
        setting={"RUSTFLAGS": "-C symbol-mangling-version=v0"},
    ),
    # Parameters.
    way("by number", LEAK, NO, LOOKUP.replace("lookup, index", "lookup, 0")),
    way("a number too large", REFUSED, "has 1 parameter", LOOKUP.replace("lookup, index", "lookup, 1")),
    way(
        "a name that isn't one",
        REFUSED,
        "has no parameter indx: do you mean index?",
        LOOKUP.replace("lookup, index", "lookup, indx"),
    ),
    way(
        "behind a slice",
        LEAK,
        NO,
        """secret_param!(inner, x);
#[inline(never)] fn inner(data: &[u32], x: u32) -> u32 { data[(x & 15) as usize] }
#[no_mangle] pub extern "C" fn outer(y: u32) -> u32 { inner(&TABLE, y) }
secret_param!(outer, y);
""",
    ),
    way(
        "behind a result by pointer",
        LEAK,
        NO,
        """secret_param!(inner, x);
#[no_mangle] pub extern "C" fn inner(x: u32) -> [u32; 4] { [TABLE[(x & 15) as usize]; 4] }
""",
    ),
    way(
        "a slice",
        REFUSED,
        "is a slice, a struct or nothing at all",
        """secret_param!(inner, data);
#[inline(never)] fn inner(data: &[u32]) -> u32 { TABLE[(data[0] & 15) as usize] }
#[no_mangle] pub extern "C" fn outer(y: &[u32; 4]) -> u32 { inner(y) }
""",
    ),
    way(
        "a reference",
        REFUSED,
        "is a pointer",
        LOOKUP.replace("index: u32", "index: &u32").replace("(index &", "(*index &"),
    ),
    way(
        "a struct",
        REFUSED,
        "error: ",
        """pub struct Two { a: u32, b: u32 }
secret_param!(inner, x);
#[inline(never)] fn inner(x: Two) -> u32 { TABLE[((x.a ^ x.b) & 15) as usize] }
#[no_mangle] pub extern "C" fn outer(y: u32, z: u32) -> u32 { inner(Two { a: y, b: z }) }
""",
    ),
    way("a number of 128 bits", REFUSED, "error: ", LOOKUP.replace("index: u32", "index: u128")),
    way(
        "a bool",
        LEAK,
        NO,
        LOOKUP.replace("index: u32", "index: bool").replace("(index & 15) as usize", "index as usize"),
    ),
    way("a byte", LEAK, NO, LOOKUP.replace("index: u32", "index: u8")),
    way("64 bits", LEAK, NO, LOOKUP.replace("index: u32", "index: u64")),
    way(
        "a name for two values",
        LEAK,
        NO,
        """secret_param!(inner, x);
#[no_mangle] pub extern "C" fn inner(_: u32, x: u32) -> u32 {
    let y = x;
    let x = 3u32;
    TABLE[((x ^ y) & 15) as usize]
}
""",
    ),
    # Results and memories.
    way(
        "a result that has to be public",
        LEAK,
        "what has to be public depends on a secret",
        (
            "secret_param!(inner, x); public_result!(inner);\n"
            '#[no_mangle] pub extern "C" fn inner(x: u32) -> u32 { x ^ 1 }\n'
        ),
    ),
    way(
        "a public result of a function that is inlined",
        REFUSED,
        "error: ",
        "secret_param!(outer, y); public_result!(inner);\n#[inline(always)] fn inner(x: u32) -> u32 { x ^"
        " 1 }\n"
        + OUTER,
    ),
    way(
        "a public result of a private function",
        LEAK,
        "what has to be public depends on a secret",
        "secret_param!(outer, y); public_result!(inner);\nfn inner(x: u32) -> u32 { x ^ 1 }\n" + OUTER,
    ),
    way(
        "the memory",
        LEAK,
        NO,
        (
            'secret_memory!();\n#[no_mangle] pub extern "C" fn lookup(x: &u32) -> u32 { TABLE[(*x & 15) as'
            " usize] }\n"
        ),
    ),
    way(
        "the memory, in a module that nothing uses",
        LEAK,
        NO,
        (
            "mod labels { blade_labels::secret_memory!(); }\n"
            '#[no_mangle] pub extern "C" fn lookup(x: &u32) -> u32 { TABLE[(*x & 15) as usize] }\n'
        ),
    ),
    # Where the label is.
    way("no label", REFUSED, NOTHING, LOOKUP.replace("secret_param!(lookup, index);", "")),
    way(
        "a label of a feature that is off",
        REFUSED,
        NOTHING,
        LOOKUP.replace("secret_param", '#[cfg(feature = "labels")]\nsecret_param'),
        "[features]\nlabels = []\n",
    ),
    way(
        "a dependency's function, given a public value",
        REFUSED,
        CALLER,
        '#[no_mangle] pub extern "C" fn outer(y: u32) -> u32 { dep::inner(y) }\n',
        'dep = { path = "dep" }',
        more={
            "dep/Cargo.toml": TOML.replace("way", "dep").replace('[lib]\ncrate-type = ["cdylib"]\n', "") % "",
            "dep/src/lib.rs": (
                "#![no_std]\nstatic TABLE: [u32; 16] = [5; 16];\npub fn inner(x: u32) -> u32 { TABLE[(x & 15)"
                " as usize] }\nblade_labels::secret_param!(inner, x);\n"
            ),
        },
    ),
    way(
        "a dependency's inline function, given a public value",
        REFUSED,
        CALLER,
        '#[no_mangle] pub extern "C" fn outer(y: u32) -> u32 { dep::inner(y) }\n',
        'dep = { path = "dep" }',
        more={
            "dep/Cargo.toml": TOML.replace("way", "dep").replace('[lib]\ncrate-type = ["cdylib"]\n', "") % "",
            "dep/src/lib.rs": (
                "#![no_std]\nstatic TABLE: [u32; 16] = [5; 16];\n"
                "#[inline] pub fn inner(x: u32) -> u32 { TABLE[(x & 15) as usize] }\n"
                "blade_labels::secret_param!(inner, x);\n"
            ),
        },
    ),
    way(
        "a label beside another crate's function",
        REFUSED,
        CALLER,
        (
            "secret_param!(dep::inner, x);\n"
            '#[no_mangle] pub extern "C" fn outer(y: u32) -> u32 { dep::inner(y) }\n'
        ),
        'dep = { path = "dep" }',
        more={
            "dep/Cargo.toml": TOML.replace("way", "dep").replace('[lib]\ncrate-type = ["cdylib"]\n', "") % "",
            "dep/src/lib.rs": (
                "#![no_std]\nstatic TABLE: [u32; 16] = [5; 16];\n"
                "pub fn inner(x: u32) -> u32 { TABLE[(x & 15) as usize] }\n"
            ),
        },
    ),
    way(
        "a dependency's memory",
        LEAK,
        NO,
        '#[no_mangle] pub extern "C" fn lookup(x: &u32) -> u32 { TABLE[(*x & 15) as usize] ^ dep::ONE }\n',
        'dep = { path = "dep" }',
        more={
            "dep/Cargo.toml": TOML.replace("way", "dep").replace('[lib]\ncrate-type = ["cdylib"]\n', "") % "",
            "dep/src/lib.rs": "#![no_std]\npub const ONE: u32 = 1;\nblade_labels::secret_memory!();\n",
        },
    ),
    way(
        "a function of the standard library",
        REFUSED,
        "isn't defined in a crate that is compiled here",
        "secret_param!(core::str::from_utf8, v);\n" + LOOKUP.replace("secret_param!(lookup, index);", ""),
    ),
    # Words for rustc.
    way(
        "llvm-args", WORDS, "llvm-args", LOOKUP, setting={"RUSTFLAGS": "-C llvm-args=-inline-threshold=9999"}
    ),
    way("passes", WORDS, "passes", LOOKUP, setting={"RUSTFLAGS": "-Cpasses=inline"}),
    way("-Z", WORDS, "-Zmir-opt-level=4", LOOKUP, setting={"RUSTFLAGS": "-Zmir-opt-level=4"}),
    way(
        "flags of cargo's configuration",
        LEAK,
        NO,
        LOOKUP,
        more={
            ".cargo/config.toml": """[build]
rustflags = ["-C", "opt-level=3", "-C", "llvm-args=-inline-threshold=9999"]
[target.wasm32-unknown-unknown]
linker = "true"
"""
        },
    ),
    # What leaks nothing.
    way(
        "a mask",
        YES,
        "constant-time yes",
        """secret_param!(masked, index);
#[no_mangle] pub extern "C" fn masked(index: u32) -> u32 {
    let mask = |at: usize| ((at as u32 ^ index & 15).wrapping_sub(1) >> 31).wrapping_neg();
    TABLE.iter().enumerate().fold(0, |found, (at, one)| found | one & mask(at))
}
""",
    ),
    way(
        "a mask in a private function",
        YES,
        "constant-time yes",
        """secret_param!(choose, bit);
fn choose(a: u32, b: u32, bit: u32) -> u32 { b ^ (a ^ b) & bit.wrapping_neg() }
#[no_mangle] pub extern "C" fn chosen(a: u32, b: u32, bit: u32) -> u32 { choose(a, b, bit & 1) }
secret_param!(chosen, bit);
""",
    ),
    way(
        "a public caller that is meant",
        YES,
        "constant-time yes",
        """secret_param!(choose, bit);
fn choose(a: u32, b: u32, bit: u32) -> u32 { b ^ (a ^ b) & bit.wrapping_neg() }
#[no_mangle] pub extern "C" fn chosen(a: u32, b: u32, bit: u32) -> u32 { choose(a, b, bit & 1) }
""",
        words=("--public-callers=way::choose",),
    ),
]


class Routine(NamedTuple):
    """An example of examples/rust: its verdict's status, what is said, whether it is split, and a published
    vector: the exported function, and where the result is (-1: it is returned)."""

    name: str
    status: int
    told: Tuple[str, ...]
    export: str = ""
    offset: int = -1
    vector: str = ""
    split: bool = False


PLAIN, SPLIT = ("constant-time yes: none of ",), ("constant-time yes: none of ", "after splitting")
LONG = ("sha256", "blake2b")  # only with --all: they take twenty seconds of a processor
ROUTINES: List[Routine] = [
    Routine("lookup", LEAK, ("examples/lookup.rs:12:15: error: a secret is part of the address of a load",)),
    Routine("early_exit", LEAK, ("examples/early_exit.rs:11:12: error: a branch depends on a secret",)),
    Routine("choose", YES, PLAIN),
    Routine("equal", YES, PLAIN, "same", -1, "i32 1"),
    # RFC 7748, 5.2
    Routine(
        "x25519",
        YES,
        PLAIN,
        "x25519",
        196512,
        "c3da55379de9c6908e94ea4df28d084f32eccf03491c71f754b4075577a28552",
    ),
    # FIPS 197, appendix C.1
    Routine("aes128", YES, PLAIN, "aes128", 196576, "69c4e0d86a7b0430d8cdb78070b4c55a"),
    # Aumasson and Bernstein, SipHash, appendix A
    Routine("siphash", YES, SPLIT, "siphash", -1, f"i64 {0xa129ca6149be45e5}", True),
    # FIPS 180, FIPS 202: the message abc
    Routine(
        "sha256",
        YES,
        SPLIT,
        "sha256",
        196560,
        "ba7816bf8f01cfea414140de5dae2223b00361a396177a9cb410ff61f20015ad",
        True,
    ),
    Routine(
        "sha3",
        YES,
        SPLIT,
        "sha3_256",
        196560,
        "3a985da74fe225b2045c172d6bd390bd855f086e3e9d525b46bfe24511431532",
        True,
    ),
    # RFC 4231, test case 2
    Routine(
        "hmac",
        YES,
        SPLIT,
        "hmac",
        196528,
        "5bdcc146bf60754e6a042426089575c75a003f089d2739839dec58b964ec3843",
        True,
    ),
    # the reference's blake2b-kat, the second vector
    Routine(
        "blake2b",
        LEAK,
        ("constant-time no", "blake2b_simd-1.0.0: "),
        "blake2b",
        196464,
        (
            "961f6dd1e4dd30f63901690c512e78e4b45e4742ed197c3c5e45c549fd25f2e4"
            "187b0bc9fe30492b16b0d0bc4ef9b0f34c7003fac09a5ef1532e69430234cebd"
        ),
    ),
]
