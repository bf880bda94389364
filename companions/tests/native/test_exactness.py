"""Images that C's variables can't stand for are refused, with the position. Licence: public domain (CC0)."""
import unittest
from typing import Any

from outcomes import image_of, translate
from images import ARG, CALL, I32, I64, JUMP, LOAD, MOVE, OUT, RET, SET, TEST, Function, K, image
from blade_companions.formats.reading import Bad

ADD32, ADD64 = 0x6A, 0x7C


def refusal(*functions: Function, **more: Any) -> str:
    """Why an image is refused; an empty text if it isn't."""
    try:
        translate(image_of(image(functions, **more)), "tried")
    except Bad as bad:
        return str(bad)
    return ""


class Exactness(unittest.TestCase):
    """What stands in one register from one call to the next."""

    def test_what_is_exact_is_translated(self) -> None:
        self.assertEqual(
            refusal(Function([I32], [I32], 3, [(SET, 0, MOVE, 2, 0), (OUT, 0, 0, 2), (RET,)])), ""
        )

    def test_a_local_that_is_read_first(self) -> None:
        self.assertEqual(
            refusal(Function([], [I32], 3, [(SET, 0, MOVE, 1, 2), (OUT, 0, 0, 1), (RET,)])),
            "local v2 isn't written before it is needed at 7",
        )

    def test_a_local_that_one_way_leaves_out(self) -> None:
        commands = [(TEST, 0, 8, 9), (SET, 0, MOVE, 2, K(1)), (OUT, 0, 0, 2), (RET,)]
        self.assertEqual(
            refusal(Function([I32], [I32], 3, commands)), "local v2 isn't written before it is needed at 9"
        )

    def test_a_loop_that_carries_it(self) -> None:
        commands = [
            (SET, 0, MOVE, 2, K(1)),
            (SET, 0, ADD32, 2, 2, 0),
            (TEST, 2, 8, 10),
            (OUT, 0, 0, 2),
            (RET,),
        ]
        self.assertEqual(refusal(Function([I32], [I32], 3, commands)), "")

    def test_a_result_that_isnt_given(self) -> None:
        self.assertEqual(
            refusal(Function([I32], [I32], 2, [(RET,)])), "result v1 isn't written before it is needed at 7"
        )

    def test_a_result_that_no_call_gave(self) -> None:
        callee = Function([], [I32], 1, [(OUT, 0, 0, K(1)), (RET,)])
        caller = Function([], [I32], 1, [(OUT, 0, 0, 0), (RET,)])
        self.assertEqual(
            refusal(callee, caller), "result of a call v0 isn't written before it is needed at 9"
        )

    def test_a_result_behind_its_call(self) -> None:
        callee = Function([], [I32], 1, [(OUT, 0, 0, K(1)), (RET,)])
        caller = Function([], [I32], 1, [(CALL, 0), (OUT, 0, 0, 0), (RET,)])
        self.assertEqual(refusal(callee, caller), "")

    def test_a_result_that_another_call_ends(self) -> None:
        first = Function([], [I32], 1, [(OUT, 0, 0, K(1)), (RET,)])
        second = Function([], [], 0, [(RET,)])
        caller = Function([], [I32], 1, [(CALL, 0), (CALL, 1), (OUT, 0, 0, 0), (RET,)])
        self.assertEqual(
            refusal(first, second, caller), "result of a call v0 isn't written before it is needed at 12"
        )

    def test_an_argument_that_is_missing(self) -> None:
        callee = Function([I32], [], 1, [(RET,)])
        caller = Function([], [], 0, [(CALL, 0), (RET,)])
        self.assertEqual(refusal(callee, caller), "argument v0 isn't written before it is needed at 8")

    def test_an_argument_that_another_call_takes(self) -> None:
        callee = Function([I32], [], 1, [(RET,)])
        caller = Function([], [], 0, [(ARG, 0, 0, 0, K(1)), (CALL, 0), (CALL, 0), (RET,)])
        self.assertEqual(refusal(callee, caller), "argument v0 isn't written before it is needed at 10")

    def test_what_nothing_leads_to_doesnt_count(self) -> None:
        self.assertEqual(refusal(Function([], [], 1, [(JUMP, 9), (SET, 0, MOVE, 0, 0), (RET,)])), "")


class Widths(unittest.TestCase):
    """A variable is an i32 or an i64."""

    def test_an_i32_as_an_i64(self) -> None:
        commands = [(SET, 0, ADD64, 2, 0, 0), (OUT, 0, 0, 2), (RET,)]
        self.assertEqual(refusal(Function([I32], [I64], 3, commands)), "v0 is an i32 and an i64 at 7")

    def test_a_constant_above_32_bits(self) -> None:
        commands = [(SET, 0, ADD32, 2, 0, K(1 << 32)), (OUT, 0, 0, 2), (RET,)]
        self.assertEqual(refusal(Function([I32], [I32], 3, commands)), "a constant is no i32 at 7")

    def test_a_move_of_it_too(self) -> None:
        commands = [(SET, 0, MOVE, 2, K(1 << 32)), (OUT, 0, 0, 2), (RET,)]
        self.assertEqual(refusal(Function([I32], [I32], 3, commands)), "a constant is no i32 at 7")

    def test_an_argument_of_another_type(self) -> None:
        callee = Function([I64], [], 1, [(RET,)])
        caller = Function([I32], [], 1, [(ARG, 0, 0, 0, 1), (CALL, 0), (RET,)])
        self.assertEqual(refusal(callee, caller), "v1 is an i32 and an i64 at 8")

    def test_constants_alone_may_be_an_i64(self) -> None:
        commands = [(SET, 0, MOVE, 0, K(1)), (SET, 0, MOVE, 0, K(1 << 40)), (RET,)]
        self.assertEqual(refusal(Function([], [], 1, commands)), "")


class Rules(unittest.TestCase):
    """A program that breaks a rule is refused in blade's words."""

    def test_an_access_without_its_bounds(self) -> None:
        commands = [(LOAD, 0, 0x28, 0, 3, 0, 1), (OUT, 0, 0, 3), (RET,)]
        self.assertEqual(
            refusal(Function([I32], [I32], 3, commands), memories=[(1, 1)]), "image: rule 7 at 7"
        )

    def test_a_function_without_an_end(self) -> None:
        self.assertEqual(refusal(Function([], [], 1, [(SET, 0, MOVE, 0, K(1))])), "image: rule 5 at 7")

    def test_no_image(self) -> None:
        with self.assertRaises(Bad):
            image_of(b"BLIM\1")


if __name__ == "__main__":
    unittest.main()
