"""All tools end with the statuses of one table, and answer --help and --version. Licence: public domain
(CC0)."""
from __future__ import annotations

import os
import re
import subprocess
import sys
import tempfile
import unittest
from typing import List, Sequence, Tuple

from blade_companions import statuses
from blade_companions.ending import ended
from blade_companions.formats.reading import Bad, GaveUp, LostLabel

COMPANIONS = os.path.dirname(os.path.dirname(os.path.realpath(__file__)))
TOP = os.path.dirname(COMPANIONS)


def tools() -> List[str]:
    return sorted(name for name in os.listdir(COMPANIONS) if name.startswith(("blade-", "cargo-")))


def asked(name: str, words: Sequence[str]) -> Tuple[int, str, str]:
    """The status of a tool, and what it prints and says, with no tool beside it but python3."""
    with tempfile.TemporaryDirectory() as folder:
        done = subprocess.run([sys.executable, "-B", os.path.join(COMPANIONS, name), *words], cwd=folder,
                              stdin=subprocess.DEVNULL, stdout=subprocess.PIPE, stderr=subprocess.PIPE,
                              universal_newlines=True, env={"PATH": folder}, check=False)
        return done.returncode, done.stdout, done.stderr


def raising(fault: BaseException) -> None:
    raise fault


class Statuses(unittest.TestCase):
    def test_all_tools_have_the_version_of_the_program(self) -> None:
        with open(os.path.join(TOP, "VERSION"), encoding="ascii") as file:
            version = file.read().strip()
        self.assertRegex(version, r"^\d+\.\d+\.\d+$")
        self.assertGreater(len(tools()), 8)
        for name in tools():
            self.assertEqual(asked(name, ["--version"]), (0, f"{name} {version}\n", ""), name)

    def test_help_is_on_the_standard_output(self) -> None:
        for name in tools():
            status, text, fault = asked(name, ["--help"])
            self.assertEqual((status, fault), (0, ""), name)
            self.assertIn(name.replace("cargo-", "cargo "), text)  # cargo is given the word behind it

    def test_a_wrong_call_ends_with_2(self) -> None:
        for name in tools():
            status, text, fault = asked(name, ["--no-such-word"])
            self.assertEqual((status, text), (2, ""), name)
            self.assertIn(name, fault)

    def test_a_file_that_is_missing_ends_with_3(self) -> None:
        for name, words in (("blade-explain", ["none.img"]), ("blade-trace", ["none.img", "f/f", "s"]),
                            ("blade-label", ["none.wasm", "--list"]), ("blade-native", ["i", "--check", "o"]),
                            ("blade-stub", ["a.wasm", "i.if", "o.wasm"]),
                            ("blade-witness", ["none.img", "f/f", "s"])):
            self.assertEqual(asked(name, words)[0], 3, name)

    def test_a_tool_that_is_missing_ends_with_4(self) -> None:
        self.assertEqual(asked("blade-check", ["i", "c", "--blade", "none"])[0], 4)
        status, _, fault = asked("blade-cc", ["-c", "x.c"])
        self.assertEqual((status, fault), (4, "blade-cc: error: there is no clang: apt-get install clang\n"))

    def test_faults_have_statuses(self) -> None:
        for fault, status in ((Bad(""), 3), (GaveUp(""), 4), (LostLabel(""), 5), (OSError("no"), 3),
                              (ValueError("no"), 3), (KeyboardInterrupt(), 130)):
            with open(os.devnull, "w", encoding="ascii") as nothing:
                kept, sys.stderr = sys.stderr, nothing
                try:
                    self.assertEqual(ended("tool", lambda one=fault: raising(one)), status, repr(fault))
                finally:
                    sys.stderr = kept

    def test_the_table_of_the_page_is_that_of_the_code(self) -> None:
        path = os.path.join(TOP, "docs", "CLI.md")
        with open(path, encoding="utf-8") as file:
            text = file.read().partition("## Exit statuses of the tools\n")[2].partition("\n## ")[0]
        rows = [int(one) for one in re.findall(r"^\| (\d+) \|", text, re.M)]
        self.assertEqual(rows, [statuses.YES, statuses.NO, statuses.USAGE, statuses.INPUT, statuses.GAVE_UP,
                                statuses.LOST, statuses.INTERRUPTED])


if __name__ == "__main__":
    unittest.main()
