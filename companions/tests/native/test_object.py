"""The check of objects passes what both compilers make, and finds what it must in objects that were made
wrong. Licence: public domain (CC0)."""
import re
import tempfile
import unittest
from typing import Any, Callable, List

from outcomes import image_of, translate
from images import I32, JUMP, LOAD, MOVE, OUT, RET, SELECT, SET, TEST, Function, K, bounded, image
from blade_companions.native.building import build
from blade_companions.native.checking import Checked, check_object
from blade_companions.formats.reading import Bad

EQ, POPCNT = 0x46, 0x69
COMPILERS = ("clang", "gcc")


def looked_up() -> bytes:
    """A value is loaded, protected, and is the address of another load: the protect is at 9."""
    commands = bounded(7, 3, 0, (LOAD, 8, 0x28, 0, 4, 0, 1), 4)
    commands += bounded(10, 3, 0, (LOAD, 0, 0x28, 0, 5, 0, 4), 4)
    commands += [(SET, 0, SELECT, 5, 5, K(7), 5), (SET, 0, POPCNT, 5, 5), (OUT, 0, 0, 5), (RET,)]
    return image([Function([I32], [I32], 5, commands)], memories=[(1, 1)])


def cases() -> bytes:
    """A number is compared with 0 to 7, and each case gives another constant: what compilers like to make a
    table of."""
    first, behind = 7 + 16, 7 + 16 + 2 + 16
    commands = []
    for case in range(8):
        commands += [(SET, 0, EQ, 2, 0, K(case)), (TEST, 2, first + 2 + 2 * case, 7 + 2 * case + 2)]
    for value in (99, 5, 77, 12, 1, 3000, 42, 8, 19):
        commands += [(SET, 0, MOVE, 3, K(value)), (JUMP, behind)]
    return image([Function([I32], [I32], 4, [*commands, (OUT, 0, 0, 3), (RET,)])])


class Objects(unittest.TestCase):
    """Objects of one image, some with an edited C file."""

    def checked(
        self,
        compiler: str,
        edit: Callable[[str], str] = lambda source: source,
        more: List[str] = [],
        level: str = "-O2",
        data: bytes = looked_up(),
    ) -> Checked:
        image_ = image_of(data)
        translation = translate(image_, "tried")
        with tempfile.TemporaryDirectory() as folder:
            for ending, text in ((".c", edit(translation.source)), (".h", translation.header)):
                with open(f"{folder}/tried{ending}", "w", encoding="ascii") as file:
                    file.write(text)
            build(compiler, f"{folder}/tried.c", f"{folder}/tried.o", level, ["-c", *more])
            return check_object(image_, f"{folder}/tried.o", "tried")

    def found(self, pattern: str, **more: Any) -> None:
        """Each compiler's object has a finding of this kind."""
        for compiler in COMPILERS:
            with self.subTest(compiler=compiler):
                findings = self.checked(compiler, **more).findings
                self.assertTrue(any(re.search(pattern, one) for one in findings), findings)

    def edited(self, old: str, new: str) -> Callable[[str], str]:
        def edit(source: str) -> str:
            self.assertRegex(source, old)
            return re.sub(old, new, source, count=1)

        return edit

    def test_what_is_right_passes(self) -> None:
        for compiler in COMPILERS:
            for level in ("-O1", "-O2", "-O3", "-Os"):
                with self.subTest(compiler=compiler, level=level):
                    checked = self.checked(compiler, level=level)
                    self.assertEqual((checked.findings, checked.protects), ([], 1))
                    self.assertGreaterEqual(checked.barriers, 1)

    def test_protects_left_out(self) -> None:
        self.found("protect 9 has no barrier", more=["-DBLADE_NO_PROTECTS"])

    def test_a_barrier_without_its_fence(self) -> None:
        self.found("no barrier stands where protect 9 has one", edit=self.edited(r': lfence"', r': nop"'))

    def test_a_value_that_passes_by_its_barrier(self) -> None:
        """The value is copied in front of the barrier, and the copy is read."""
        self.found(
            "reads the value of protect 9 in front of its barrier",
            edit=self.edited(
                r"(v4 = get32[^;]*;) PROTECT\(v4, 9\);",
                r"\1 uint32_t early = v4; PROTECT(v4, 9); HIDE(v4); v4 = early;",
            ),
        )

    def test_a_choice_that_becomes_a_branch(self) -> None:
        self.found(
            "a branch that no Test of the image has",
            edit=self.edited(
                r"v5 = select32\([^;]*;", "if (v5) { HIDE(v5); v5 = v5 * 3u; } else { HIDE(v5); v5 = 7u; }"
            ),
        )

    def test_a_call_of_a_library(self) -> None:
        self.found(
            "a call or a table",
            edit=self.edited(r"v5 = popcnt32\(v5\);", "v5 = (uint32_t)atoi((const char *)memory0);"),
        )

    def test_a_table(self) -> None:
        self.found(
            "a table",
            edit=self.edited(
                r"v5 = popcnt32\(v5\);",
                "static const uint8_t bits[16] = {0, 1, 1, 2, 1, 2, 2, 3, 1, 2, 2, 3, 2, 3, 3, 4}; "
                "v5 = bits[v5 & 15];",
            ),
        )

    def test_an_object_without_lines(self) -> None:
        """Nothing is known of its branches, so none passes."""
        self.found("a branch that no Test of the image has.*no line", more=["-g0"])

    def test_other_files_are_refused(self) -> None:
        """What isn't an ELF file of x86-64 is refused, and so is a program at a fixed address."""
        head = bytearray(b"\x7fELF\2\1" + bytes(10) + b"\2\0\x3e\0")
        other = bytearray(head)
        other[16:20] = b"\1\0\xb7\0"
        archive = b"!<arch>\n" + bytes(20)
        for contents, why in ((b"", "only ELF"), (archive, "only ELF"), (head, "-pie"), (other, "only ELF")):
            with tempfile.NamedTemporaryFile() as file:
                file.write(contents)
                file.flush()
                with self.assertRaisesRegex(Bad, why):
                    check_object(image_of(looked_up()), file.name, "tried")

    def test_cases_stay_branches(self) -> None:
        for compiler in COMPILERS:
            for level in ("-O1", "-O2", "-O3", "-Os"):
                with self.subTest(compiler=compiler, level=level):
                    self.assertEqual(self.checked(compiler, level=level, data=cases()).findings, [])

    def test_cases_that_become_a_table(self) -> None:
        """Without the flag that forbids it clang makes one; gcc 12 was not seen to."""
        findings = self.checked("clang", more=["-fjump-tables"], data=cases()).findings
        self.assertTrue(any("a table" in one for one in findings), findings)

    def test_an_indirect_call(self) -> None:
        self.found(
            "an indirect jump or call",
            edit=self.edited(r"v5 = popcnt32\(v5\);", "v5 = (uint32_t)((int (*)(void))(memory0 + v5))();"),
        )


if __name__ == "__main__":
    unittest.main()
