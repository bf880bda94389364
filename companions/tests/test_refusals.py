"""Tests of what is said of refusals, on modules that are written by hand. Licence: public domain (CC0)."""
from __future__ import annotations

import contextlib
import os
import re
import tempfile
import unittest
from typing import Iterator, Mapping

from blade_companions.c.elsewhere import Place, elsewhere
from blade_companions.c.missing import about_headers, about_symbols
from blade_companions.c.refusals import refusal
from blade_companions.formats.encoding import section, sized, vector
from blade_companions.formats.module import MAGIC, Module, module_of
from blade_companions.programs import TOP
from blade_companions.verdict.diagnostics import RULES
from blade_companions.verdict.sarif import PROTECT

# Function types () -> () and (f32) -> (); a function 0 imported as a.b; then one function of each kind of
# body.
TYPES, IMPORTS = "01 08 02 60 00 00 60 01 7D 00", "02 07 01 01 61 01 62 00 00"
START = "08 01 01"
# The body of function 1, and what the program says; the function, the place in the body, and a word of what
# is told.
CASES = [
    ("00 43 00 00 00 00 1A 0B", "unsupported: m", 1, 1, "[blade-float]"),
    ("01 01 7C 01 0B", "unsupported: m", 1, 0, "[blade-float]"),
    ("00 41 00 41 00 41 00 FC 0A 00 00 0B", "malformed: m", 1, 7, "[blade-instruction]"),
    ("00 41 00 FC 00 1A 0B", "malformed: m", 1, 3, "[blade-float]"),
    ("00 02 40 02 40 0B 0B 0B", "limit: nesting 3", 1, 3, "opens 3 blocks"),
    ("01 A0 40 7F 0B", "limit: locals 8224", 1, 0, "8224 locals"),
    ("00 0B", "link: m import 0 unknown", -1, -1, "the function b is imported from a, which no module gives"),
    ("00 10 00 0B", "link: m import 0 unknown", -1, -1, "from a (called by function 1), which no module"),
    ("00 0B", "link: m import 0 mismatch", -1, -1, "which has another type there"),
    ("00 0B", "limit: reserve 1025", -1, -1, "--memory"),
]
HEADERS = {
    "string.h": "a standard header: apt-get install wasi-libc has it",
    "sys/types.h": "a standard header: apt-get install wasi-libc",
    "pthread.h": "a header of Unix, which wasi-libc hasn't",
    "includes.h": "a header of the project: say -I src [blade-header]",
    "utils/common.h": "a header of the project: say -I lib/deep [blade-header]",
    "config.h": "generated: run configure (or cmake) first and name its folder by -I, or say --config-h,",
    "version.h": "generated from gen/version.h.in: run configure",
    "build.h": "generated from conf/build.h.in: run configure",
    "other.h": "a header of the project or of another library: -I FOLDER names where it is; if a script or "
               "the build makes it, run that first, or say --config-h=other.h, which makes"}
# Projects side by side; the file that includes a header, the header, and what is advised.
SIDE_BY_SIDE = ("one/src/config.h.in", "two/src/config.h", "two/src/util.h", "one/lib/util.h",
                "one/lib/own.h")
ADVISED = [
    ("one/src/a.c", "config.h", "config.h is generated from one/src/config.h.in: run configure"),
    ("two/a.c", "config.h", "say -I two/src [blade-header]"),
    ("one/src/a.c", "util.h", "say -I one/lib [blade-header]"),
    ("two/a.c", "own.h", "or of another library: -I FOLDER names where it is; if a script or the build"),
    ("a.c", "own.h", "say -I one/lib [blade-header]"),
    ("three/a.c", "config.h", "config.h is generated: run configure")]
SYMBOLS = [("__multi3", "__int128"), ("__udivti3", "__int128"), ("__addsf3", "floats"),
           ("malloc", "wasi-libc")]


def module(body: str, start: str = "") -> Module:
    code = sized(bytes.fromhex(body))
    return module_of(MAGIC + b"".join(map(bytes.fromhex, [TYPES, IMPORTS, "03 02 01 00", start]))
                     + section(10, vector([code])), "m")


@contextlib.contextmanager
def files(texts: Mapping[str, str]) -> Iterator[None]:
    """A folder with some files, which is the current one."""
    kept = os.getcwd()
    with tempfile.TemporaryDirectory() as folder:
        for name, text in texts.items():
            os.makedirs(os.path.dirname(os.path.join(folder, name)), exist_ok=True)
            with open(os.path.join(folder, name), "w", encoding="ascii") as file:
                file.write(text)
        os.chdir(folder)
        try:
            yield
        finally:
            os.chdir(kept)


class Refusals(unittest.TestCase):
    def test_the_place_and_the_words_of_each(self) -> None:
        for body, said, function, place, word in CASES:
            with self.subTest(said, body=body):
                made = module(body)
                told = refusal(made, said)
                at = told.place - made.bodies[0][0] if told.place >= 0 else -1
                self.assertEqual((told.function, at), (function, place))
                self.assertIn(word, told.text)

    def test_all_rules_have_a_section(self) -> None:
        with open(os.path.join(TOP, "docs", "rules.md"), encoding="utf-8") as file:
            sections = set(re.findall(r"^### (.*)$", file.read(), re.M))
        named = {PROTECT, *(rule.name for rule in RULES.values())}
        for folder, _, names in os.walk(os.path.join(TOP, "companions", "blade_companions")):
            for name in names:
                if name.endswith(".py"):
                    with open(os.path.join(folder, name), encoding="utf-8") as file:
                        named.update(re.findall(r"\[(blade-[a-z-]+)\]", file.read()))
        self.assertGreater(len(named), 20)
        self.assertEqual(sections, named)

    def test_a_start_function(self) -> None:
        self.assertIn("[blade-start]", refusal(module("00 0B", START), "unsupported: m").text)

    def test_names_that_the_linker_does_not_find(self) -> None:
        for name, word in SYMBOLS:
            with self.subTest(name):
                error, note = about_symbols([name], {name: ["f", "g"]}, False)
                self.assertIn(f"defines {name} (called by f, g) [blade-undefined]", error)
                self.assertIn(word, note)

    def test_all_undefined_names_are_one_note(self) -> None:
        names = ["malloc", "__multi3", "mine", "free"]
        error, note = about_symbols(names, {"malloc": ["a", "b", "c", "d", "e"]}, False)
        self.assertEqual(error, "blade-cc: error: no file that was given defines __multi3, free, malloc "
                         "(called by a, b, c and 2 more), mine [blade-undefined]")
        self.assertEqual([one.partition(": ")[0] for one in note[len("blade-cc: note: ") :].split("; ")],
                         ["free, malloc", "__multi3", "mine"])
        self.assertIn("free, malloc, mine: name the files", about_symbols(names, {}, True)[1])
        self.assertIn(" and 88 more [", about_symbols([f"f{at:03}" for at in range(100)], {}, True)[0])

    def test_kinds_of_missing_headers(self) -> None:
        with files({name: "" for name in ("src/includes.h", "lib/deep/utils/common.h", "gen/version.h.in",
                                          "conf/build.h.in")}):
            for name, text in HEADERS.items():
                error = f"x.c:3:10: fatal error: '{name}' file not found\n"
                told = about_headers(error, False)
                self.assertEqual(len(told), 1)
                self.assertIn(f"blade-cc: note: {name} is {text}", told[0])
                self.assertEqual("which the wasi-libc here hasn't" in about_headers(error, True)[0],
                                 "a standard header" in text)

    def test_no_folder_of_another_project_is_advised(self) -> None:
        with files({name: "" for name in SIDE_BY_SIDE}):
            for includer, name, text in ADVISED:
                with self.subTest(name, includer=includer):
                    told = about_headers(f"{includer}:3:10: fatal error: '{name}' file not found\n", True)
                    self.assertIn(text, told[0])
        # The folders of one project belong together.
        with files({"src/a.c": "", "include/own.h": "", "configure": ""}):
            told = about_headers("src/a.c:1:2: fatal error: 'own.h' file not found", True)
            self.assertIn("say -I include [", told[0])

    def test_what_wasi_libc_emulates(self) -> None:
        told = about_headers('signal.h:2:2: error: "wasm lacks signal support; to enable minimal signal '
                             'emulation, compile with -D_WASI_EMULATED_SIGNAL and link with ..', True)
        self.assertEqual(len(told), 1)
        self.assertIn("note: -D_WASI_EMULATED_SIGNAL is right here", told[0])

    def test_files_that_define_undefined_names(self) -> None:
        with files({"a/main.c": "#include \"part.c\"\nint main(void) { return one() + two() + three(); }\n",
                    "a/part.c": "/* int one(void) { */\n#ifdef PART\nint\none(void)\n{\n    return 1;\n}\n"
                                "#endif\n",
                    "a/two.c": "static int three(void) { return 3; }\nint two(int a,\n        int b) "
                               "{ return 2; }\n",
                    "b/x.c": "int four(void) { return 4; }\n", "b/four.c": "int four(void) { return 4; }\n",
                    "b/calls.c": "int two(void);\nint five = 5;\n"}):
            names = ["one", "two", "three", "four", "five"]
            found = elsewhere(names, ["a/main.c"], ["-w", "-I", "b"])
            self.assertEqual(found, {
                "one": [Place("a/part.c", 3, True)], "two": [Place("a/two.c", 2, False)],
                "four": [Place("b/four.c", 1, False), Place("b/x.c", 1, False)]})
            self.assertEqual(elsewhere(["four"], ["a/main.c"], ["-Ia"]), {})
            note = about_symbols(names, {}, True, found)[1]
            self.assertIn("one: in a/part.c:3, but not compiled: look at the #if around that line", note)
            self.assertIn("two: defined in a/two.c: give that file, too", note)
            self.assertIn("four: defined in b/four.c or b/x.c: give one of these files, too", note)
            self.assertIn("five, three: name the files or libraries that define them", note)
