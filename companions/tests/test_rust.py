"""Names of Rust's symbols, and how messages speak of Rust. Licence: public domain (CC0)."""
import json
import os
import shutil
import subprocess
import unittest

from blade_companions.nesting import shortened
from blade_companions.rust import words
from blade_companions.rust.demangling import demangled, names_told
from blade_companions.rust.records import taken_out, with_plain_types, with_traps
from blade_companions.formats.reading import Bad

HERE = os.path.dirname(os.path.dirname(os.path.realpath(__file__)))
# The RFC of the newer mangling and its tests have these.
NEWER = {
    "_RNvC6_123foo3bar": "123foo::bar",
    "_RNCNCNgCs6DXkGYLi8lr_2cc5spawn00B5_": "cc::spawn::{closure#0}::{closure#0}",
    "_RNCINkXs25_NgCsbmNqQUJIY6D_4core5sliceINyB9_4IterhENuNgNoBb_4iter8iterator8Iterator9rpositionNCNgNp"
    "B9_6memchr7memrchrs_0E0Bb_": (
        "<core::slice::Iter<u8> as core::iter::iterator::Iterator>::rposition::<core::slice::"
        "memchr::memrchr::{closure#1}>::{closure#0}"
    ),
    "_RINbNbCskIICzLVPPb_5alloc5alloc8box_freeDINbNiB4_5boxed5FnBoxuEp6OutputuEL_ECs1iopQbuBiw2_3std": (
        "alloc::alloc::box_free::<dyn alloc::boxed::FnBox<(), Output = ()>>"
    ),
    "_RMC0INtC8arrayvec8ArrayVechKj7b_E": "<arrayvec::ArrayVec<u8, 123>>",
    "_RNqCs4fqI2P2rA04_11utf8_identsu30____7hkackfecea1cbdathfdh9hlq6y": (
        "utf8_idents::\u10e1\u10d0\u10ed\u10db\u10d4\u10da\u10d0\u10d3_"
        "\u10d2\u10d4\u10db\u10e0\u10d8\u10d4\u10da\u10d8_\u10e1\u10d0\u10d3\u10d8\u10da\u10d8"
    ),
}
LEGACY = {
    "_ZN4sha26sha2564soft8compress17h276f4c7e0afd42b4E": "sha2::sha256::soft::compress",
    "_ZN71_$LT$Test$u20$$u2b$$u20$$u27$static$u20$as$u20$foo..Bar$LT$Test$GT$$GT$3bar17h930b740aa94f1d3aE": (
        "<Test + 'static as foo::Bar<Test>>::bar"
    ),
    "_ZN4core5slice29_$LT$impl$u20$$u5b$T$u5d$$GT$15copy_from_slice17len_mismatch_fail17h740a78e4b354ca33E": (
        "core::slice::<impl [T]>::copy_from_slice::len_mismatch_fail"
    ),
}
RECORD = (
    "@a = internal constant <{ i8*, [52 x i8] }> <{ i8* bitcast (i32 (i32)* @look to i8*), [52 x i8] "
    'c"blade-label 1\\09secret-param\\09look\\09index\\09src/lib.rs:12\\0A" }>, align 4'
)
USED = "@llvm.compiler.used = appending global [1 x i8*] [i8* bitcast (<{ i8*, [52 x i8] }>* @a to i8*)]"


class Names(unittest.TestCase):
    def test_the_newer_mangling_is_read_as_its_rfc_says(self) -> None:
        for symbol, name in NEWER.items():
            self.assertEqual(demangled(symbol), name)

    def test_the_older_mangling_is_read_without_its_hash(self) -> None:
        for symbol, name in LEGACY.items():
            self.assertEqual(demangled(symbol), name)

    def test_what_is_no_symbol_of_rust_stays(self) -> None:
        for name in ("lookup", "_ZN3foo3barEv", "_RNvC6_123foo", "_Rx", "_RB_", "_R" + "I" * 5000, "main"):
            self.assertEqual(demangled(name), name)

    def test_llvm_reads_the_newer_mangling_alike(self) -> None:
        tool = next(
            filter(None, map(shutil.which, ("llvm-cxxfilt", "llvm-cxxfilt-19", "llvm-cxxfilt-14"))), None
        )
        if tool is None:
            self.skipTest("no llvm-cxxfilt here")
        for symbol in NEWER:
            done = subprocess.run([tool, symbol], capture_output=True, text=True, check=True)
            self.assertEqual(demangled(symbol), done.stdout.strip())

    def test_long_names_are_shortened_by_nesting(self) -> None:
        deep = "digest_pad<" + "typenum::uint::UInt<" * 6 + "typenum::B1" + ">" * 6 + ", u8>"
        self.assertEqual(shortened(deep, 26), "digest_pad<UInt<..>, u8>")
        self.assertEqual(shortened("a::b<c>", 30), "a::b<c>")

    def test_a_symbol_in_a_text_is_told_as_a_name(self) -> None:
        self.assertEqual(
            names_told("call _ZN4sha26sha2564soft8compress17h276f4c7e0afd42b4E.0 here"),
            "call sha2::sha256::soft::compress here",
        )


class Records(unittest.TestCase):
    def test_a_record_is_found_by_its_pointer_and_taken_out(self) -> None:
        kept, found = taken_out(["x", RECORD, USED, "y"])
        self.assertEqual(kept, ["x", "", "y"])
        self.assertEqual(found[0], ("secret-param", "look", "look", "index", "src/lib.rs:12"))

    def test_a_record_that_is_used_elsewhere_is_refused(self) -> None:
        with self.assertRaises(Bad):
            taken_out([RECORD, "  %x = load i8, i8* bitcast (<{ i8*, [52 x i8] }>* @a to i8*)"])

    def test_a_record_of_another_version_is_refused(self) -> None:
        with self.assertRaises(Bad):
            taken_out([RECORD.replace("blade-label 1", "blade-label 2")])

    def test_types_with_blanks_get_names_without(self) -> None:
        text = '%"a::B<c, d>" = type { i32 }\n@s = c"100%"\n%x = load %"a::B<c, d>", %"a::B<c, d>"* @"q r"'
        self.assertEqual(
            with_plain_types(text),
            '%blade.type.0 = type { i32 }\n@s = c"100%"\n%x = load %blade.type.0, %blade.type.0* @"q r"',
        )

    def test_a_panic_becomes_a_trap_without_arguments(self) -> None:
        lines = with_traps(
            [
                (
                    "  call void @_ZN4core9panicking5panic17h118149a781a98a78E(i32 3, i8* getelementptr (i8, "
                    "i8* @a, i32 1)) #3, !dbg !4"
                ),
                "declare void @_ZN4core9panicking5panic17h118149a781a98a78E(i32, i8*) #3",
                "attributes #3 = { cold noinline noreturn nounwind }",
            ],
            [],
        )
        self.assertEqual(
            lines[0], "  call void @_ZN4core9panicking5panic17h118149a781a98a78E.0() #3, !dbg !4"
        )


class Words(unittest.TestCase):
    def test_each_phrase_of_c_is_still_said(self) -> None:
        said = ""
        for folder, _, files in os.walk(f"{HERE}/blade_companions"):
            for name in files:
                if name.endswith(".py") and "/rust" not in folder:
                    with open(f"{folder}/{name}", encoding="utf-8") as file:
                        said += file.read()
        flat = " ".join(said.replace('"', " ").split())
        for of_c, _ in words.PHRASES:
            for part in of_c.replace('"', " ").split(": ")[0:1]:
                self.assertTrue(any(piece in flat for piece in (part.strip(), part.strip()[:24])), of_c)

    def test_a_name_with_quotes_is_escaped_in_json(self) -> None:
        symbol = "_RMC0FKCuEu"
        self.assertEqual(demangled(symbol), '<extern "C" fn(())>')
        self.assertEqual(json.loads(words.spoken_in_json(f'"{symbol}"')), '<extern "C" fn(())>')

    def test_paths_of_crates_are_short(self) -> None:
        for path, short in (
            ("/usr/share/cargo/registry/sha2-0.10.5/src/a.rs:1", "registry/sha2-0.10.5/src/a.rs:1"),
            (
                "/root/.cargo/registry/src/index.crates.io-6f17d22bba15001f/subtle-2.4.1/src/lib.rs",
                "registry/subtle-2.4.1/src/lib.rs",
            ),
            (
                "/rustc/90b35a6239c3d8bdabc530a6a0816f7ff89a0aaf/library/core/src/a.rs",
                "rustc/library/core/src/a.rs",
            ),
            ("src/library.rs:3", "src/library.rs:3"),
        ):
            self.assertEqual(words.told(f"in {path} here"), f"in {short} here")
