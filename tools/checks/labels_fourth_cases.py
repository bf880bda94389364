"""Programs for tools/checks/labels by a fourth author: what a compiler concludes of a marked value from an
alignment, an exact division, an overflow, a division by zero, or a variable without a value; options that
reach clang or the linker by another spelling or through a file of words; and kinds of functions that the
others don't have. The answer of each is no or an error. Licence: public domain (CC0)."""
from labels_cases import HEAD, LABELLED, NO, TABLE, Answer
from labels_more_cases import LOOK, SAME
from labels_third_cases import marked, third

WITHOUT = "blade-cc -w a.c -o out/"
HIGH = ("arg 50331648\n", "arg 150994944\n")  # differ in their highest bytes
USAGE = (Answer(2, "may lose what keeps its label"),)
WAYS = ("unsigned one(unsigned v) { return v + 1; }\nunsigned two(unsigned v) { return v * 7; }\n"
        "typedef unsigned (*way)(unsigned);\nstatic way const ways[2] = {one, two};\n")
SEEN = "volatile unsigned seen;\n"
LOSING = "-mllvm -force-remove-attribute=f:noinline -mllvm -force-attribute=f:alwaysinline\n"
ONE_UNIT = HEAD + TABLE + LABELLED + SAME + LOOK

# Each says that a part of y is that of x. The first ones say it of y ^ x, and index by what is x if it is so.
CONCLUDED = [
    marked("concluded-alignment", "return low((char *)(y ^ x), x);",
           "typedef char *__attribute__((align_value(256))) wide;\n__attribute__((noinline)) unsigned low("
           "wide p, unsigned x) { return table[(x ^ (unsigned)p) & 255]; }\n"),
    marked("concluded-alignment-of-reference", "return low(*(big *)(y ^ x), x);",
           "struct __attribute__((aligned(256))) big { char c[256]; };\n__attribute__((noinline)) static "
           "unsigned low(const big &p, unsigned x) { return table[(x ^ (unsigned)&p) & 255]; }\n",
           "blade-cc a.cc -o out/"),
    marked("concluded-alignment-of-result", "return table[(x ^ (unsigned)made(y ^ x)) & 255];",
           "__attribute__((assume_aligned(256), noinline)) char *made(unsigned v);\n"
           "char *made(unsigned v) { return (char *)v; }\n"),
    marked("concluded-exact", "unsigned d = y ^ x; int e = (int *)d - (int *)4096; "
           "return table[(x ^ (d - 4096 - (unsigned)e * 4)) & 3];"),
    marked("concluded-no-overflow", "int d = y ^ x; return table[(x ^ (unsigned)(d * 256 / 256 - d)) >> 24];"
           )._replace(starts=HIGH),
    marked("concluded-divisor", "unsigned c = y == x, z = c ? x : y * 3, d = 100u / (c ? x | 1 : 0); "
           "return table[z & 255] + d;"),
    marked("concluded-uninitialised-call", "way p; if (y == x) p = ways[x & 1]; unsigned r = p(3); "
           "return table[y & 255] + r;", WAYS, WITHOUT),
    marked("concluded-uninitialised-store", "if (y != x) { unsigned *p; *p = 1; } return table[y & 255];", "",
           WITHOUT),
    marked("concluded-no-result", "return pick(y, x)(3) + table[y & 255];", WAYS + "static inline way pick("
           "unsigned y, unsigned x) { if (y == x) return ways[x & 1]; }\n", WITHOUT),
    marked("concluded-shift", "if (y != x) { if ((x << 40) & 1) seen = 1; else seen = 2; } "
           "return table[y & 255];", SEEN, WITHOUT),
    marked("concluded-zero-bits", "if (y != x) { if (__builtin_clz(0) & 1) seen = 1; else seen = 2; } "
           "return table[y & 255];", SEEN, WITHOUT),
]
WORDS = [
    third("words-joined", {"a.c": ONE_UNIT}, "blade-cc -mllvm=-force-remove-attribute=f:noinline "
          "--public-callers=f a.c -o out/", USAGE),
    third("words-configuration", {"a.c": ONE_UNIT, "x.cfg": LOSING}, "blade-cc --config=$PWD/x.cfg "
          "--public-callers=f a.c -o out/", USAGE),
    third("words-behind-another", {"a.c": ONE_UNIT, "x": LOSING.replace("-mllvm -f", "-mllvm -Xclang -f")
                                   .replace(" -mllvm", " -Xclang -mllvm")},
          "blade-cc -Xclang @x --public-callers=f a.c -o out/", USAGE),
    third("words-for-the-linker", {"a.c": HEAD + LABELLED + SAME, "b.c": HEAD + TABLE + LABELLED + LOOK,
                                   "x": f"@y {LOSING}", "y": "--export=f\n"},
          "blade-cc -flto -Wl,@x --public-callers=f --export g a.c b.c -o out/", USAGE),
]
KINDS = [
    third("weak-reference", {"a.c": HEAD + TABLE + LABELLED + SAME + "static unsigned q(unsigned k) "
                             "__attribute__((weakref(\"f\")));\n" + LOOK.replace("f(i)", "q(i)")}),
    third("swift-call", {"a.c": HEAD + TABLE + "#define SWIFT __attribute__((swiftcall))\n"
                         "SWIFT unsigned f(unsigned p, unsigned k);\nBLADE_SECRET_PARAM(f, k);\n"
                         "SWIFT unsigned f(unsigned p, unsigned k) { return k ^ p ^ p; }\n" +
                         LOOK.replace("f(i)", "f(7, i)")}),
    third("block", {"a.c": HEAD + TABLE + LABELLED + SAME + "void *_NSConcreteStackBlock[32];\n"
                    "void *_NSConcreteGlobalBlock[32];\nunsigned g(unsigned i) { unsigned (^b)(void) = "
                    "^{ return f(i); }; return table[b() & 255]; }\n"},
          "blade-cc -fblocks --public-callers=f a.c -o out/"),
    third("static-masks", {"a.c": HEAD + TABLE + "unsigned g(unsigned x) { return table[BLADE_SECRET(x) & "
                           "255]; }\n"}, "blade-cc -Dextern=static a.c -o out/"),
    third("asm-goto", {"a.c": HEAD + TABLE + "unsigned g(unsigned x) { unsigned y = BLADE_SECRET(x); "
                       "if (y != x) { __asm__ goto (\"\" :::: far); far: __builtin_unreachable(); } "
                       "return table[y & 255]; }\n"}, "blade-cc a.c -o out/"),
]
FOURTH = [one._replace(right=NO) for one in CONCLUDED] + WORDS + KINDS
