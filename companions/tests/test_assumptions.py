"""What LLVM's text of a unit with marked values no longer says. Licence: public domain (CC0)."""
import unittest

from blade_companions.c.assumptions import without_assumptions

# A line, and what stands in its place.
LINES = [
    ("  %d = sub nsw i32 %x, %y", ["  %d = sub i32 %x, %y"]),
    ("  %e = sdiv exact i32 %d, 4", ["  %e = sdiv i32 %d, 4"]),
    ("  %q = udiv i32 %x, %y, !dbg !7", ['  %blade.divisor0 = call i32 asm "", "=r,0"(i32 %y)',
                                         "  %q = udiv i32 %x, %blade.divisor0, !dbg !7"]),
    ("  %s = shl i32 %x, 40", ["  %s = shl i32 %x, 8"]),
    ("  %s = lshr i64 %x, %y", ["  %blade.amount0 = and i64 %y, 63", "  %s = lshr i64 %x, %blade.amount0"]),
    ("  %a = load i32, ptr %p, align 4, !range !3", ["  %a = load i32, ptr %p, align 4"]),
    ("  %a = call align 256 ptr @f(ptr noundef align 8 %p)", ["  %a = call ptr @f(ptr %p)"]),
    ("  %a = call zeroext i8 @f(i8 zeroext %x)", ["  %a = call i8 @f(i8 zeroext %x)"]),
    ("define zeroext i8 @f(i8 zeroext %x) #0 {", ["define zeroext i8 @f(i8 %x) null_pointer_is_valid #0 {"]),
    ("  %a = call i32 @llvm.ctlz.i32(i32 0, i1 true)", ["  %a = call i32 @llvm.ctlz.i32(i32 0, i1 false)"]),
    ("  ret i32 undef", ["  ret i32 zeroinitializer"]),
    ("  %retval = alloca i32, align 4", ["  %retval = alloca i32, align 4",
                                         "  store i32 zeroinitializer, ptr %retval"]),
    ("  unreachable, !dbg !9", ["  call void @llvm.trap(), !dbg !9", "  unreachable, !dbg !9"]),
    ("  call void @llvm.assume(i1 %c)", []),
    ('  call void asm "exact nsw", ""()', ['  call void asm "exact nsw", ""()']),
    ("  br label %exact", ["  br label %exact"])]


class Assumptions(unittest.TestCase):
    def test_lines(self) -> None:
        for line, due in LINES:
            with self.subTest(line):
                self.assertEqual(without_assumptions([line], True)[:-1], due)

    def test_typed_pointers(self) -> None:
        made = without_assumptions(["  %retval = alloca i8*, align 4"], False)
        self.assertEqual(made[1], "  store i8* zeroinitializer, i8** %retval")
