"""blade-check ends with 0 only if blade verify answers four times yes. Licence: public domain (CC0)."""
from __future__ import annotations

import os
import subprocess
import sys
import tempfile
import unittest
from typing import Sequence, Tuple

COMPANIONS = os.path.dirname(os.path.dirname(os.path.realpath(__file__)))
YES = "certificate yes\nstable yes\nconstant-time yes\nsafe yes\n"


class Statuses(unittest.TestCase):
    """Over a program that is made up, which prints a text and ends with a status."""

    def checked(self, text: str, status: int, words: Sequence[str] = ("i", "c")) -> Tuple[int, str, str]:
        with tempfile.TemporaryDirectory() as folder:
            program = os.path.join(folder, "blade")
            with open(program, "w", encoding="ascii") as file:
                file.write(f"#!/bin/sh\nprintf '%s' '{text}'\nexit {status}\n")
            os.chmod(program, 0o755)
            command = [sys.executable, "-B", os.path.join(COMPANIONS, "blade-check"), *words, "--blade",
                       program]
            done = subprocess.run(command, stdout=subprocess.PIPE, stderr=subprocess.PIPE,
                                  universal_newlines=True, check=False)
            return done.returncode, done.stdout, done.stderr

    def test_four_times_yes_is_0(self) -> None:
        self.assertEqual(self.checked(YES, 0), (0, YES, ""))

    def test_each_no_is_1_and_is_named(self) -> None:
        for line in YES.splitlines():
            name = line.split()[0]
            status, _, told = self.checked(YES.replace(line, f"{name} no 3 0"), 0)
            self.assertEqual(status, 1, name)
            self.assertIn(f"no: {name}: ", told)

    def test_status_1_with_four_times_yes_is_1(self) -> None:
        self.assertEqual(self.checked(YES, 1)[0], 1)

    def test_a_refusal_keeps_its_status(self) -> None:
        self.assertEqual(self.checked("image: not an image\n", 12)[0], 12)

    def test_an_answer_that_is_cut_off_is_no_yes(self) -> None:
        for text in ("", YES[: YES.index("safe")], YES + "more\n", YES.replace("safe yes", "safe yes indeed"),
                     YES.replace("stable yes", "stable maybe")):
            self.assertNotEqual(self.checked(text, 0)[0], 0, text)

    def test_a_program_that_is_killed_is_no_yes(self) -> None:
        self.assertEqual(self.checked(YES, 0, ("i",))[0], 2)
        self.assertNotEqual(self.checked(YES + "'; kill -9 $$; '", 0)[0], 0)


if __name__ == "__main__":
    unittest.main()
