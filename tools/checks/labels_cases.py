"""What tools/checks/labels compiles: C and C++ programs in which a value that is declared secret becomes an
address, a branch or a divisor, by ways on which its label might get lost; for each the answer of blade-cc
that is right. Licence: public domain (CC0)."""
from typing import Dict, NamedTuple, Optional, Tuple


class Answer(NamedTuple):
    """A status of blade-cc, and what it has to say."""

    status: int
    told: str


class Case(NamedTuple):
    """A program: the answers that are right, its files, the command, the function that runs, and two start
    files that differ in the secret alone."""

    name: str
    right: Tuple[Answer, ...]
    files: Dict[str, str]
    command: str = "blade-cc a.c -o out/"
    export: str = "g"
    starts: Optional[Tuple[str, str]] = ("arg 3\n", "arg 9\n")


NO = (Answer(1, "constant-time no"),)
# what is declared secret is nowhere an address, a branch or a divisor
YES = (Answer(0, "constant-time yes"),)
CALLER = (Answer(5, "passes a public value as the secret parameter"),)
COPY = (Answer(5, "doesn't have this"),)  # a unit that defines the function was compiled without its label
PARTS = (Answer(5, "isn't one parameter of the module"),)
LIBRARY = (Answer(5, "in a unit of a library that isn't linked"),)
INLINED = (Answer(5, "and yet it is to be inlined"),)
INDEX = (Answer(5, "name the function"),)
TWO = (Answer(5, "2 functions are called f"),)
ORDER = (Answer(5, "don't agree which parameter is key"),)
WRAPPED = (Answer(5, "in place of f (--wrap)"),)
LINKER = (Answer(3, "wasm-ld"),)  # the linker refuses an option or a file
STRICT = (Answer(5, "give --no-assumptions to blade-cc -c there, too"),)  # a unit beside marked values
CHANGED = (Answer(5, "isn't what its labels were made for"),)
HEAD = '#include "blade.h"\n'
TABLE = "static const unsigned char table[256] = {3, 14, 9, 7, 12, 5, 10, 1, 15, 6, 11, 2, 13, 8, 4};\n"
LABELLED = "unsigned f(unsigned k);\nBLADE_SECRET_PARAM(f, k);\n"
SAME = "unsigned f(unsigned k) { return k; }\n"
LOOK = "unsigned g(unsigned i) { return table[f(i) & 255]; }\n"
TIMES_3 = "unsigned f(unsigned k) { return k * 3; }\n"
MEMORY = "BLADE_SECRET_MEMORY;\n"
POINTED = "unsigned g(unsigned *p) { return table[p[0] & 255]; }\n"
W_LABELLED = "unsigned w(unsigned i);\nBLADE_SECRET_PARAM(w, i);\n"
W_LOOKS = "__attribute__((noinline)) unsigned w(unsigned i) { return table[i & 255]; }\n"
CALLS_W = "unsigned g(unsigned i) { return w(i); }\n"
UNUSED = "int unused(void) { return 1; }\n"
UNUSED_2 = "int unused2(void) { return 1; }\n"
STATIC = "static unsigned f(unsigned k);\nBLADE_SECRET_PARAM(f, k);\n"
CASES = [
    Case("returned", CALLER, {
        "a.c": HEAD + TABLE + LABELLED + SAME + LOOK}),
    Case("returned-marker-branch", CALLER, {
        "a.c": HEAD + LABELLED + SAME + (
            "volatile unsigned v;\n"
            "unsigned g(unsigned i) { if (f(i) > 5) v = 1; else v = v + 2; return 0; }\n")}),
    Case("returned-O1", CALLER, {
        "a.c": HEAD + TABLE + LABELLED + SAME + LOOK},
        command="blade-cc -O1 a.c -o out/"),
    Case("returned-Os", CALLER, {
        "a.c": HEAD + TABLE + LABELLED + SAME + LOOK},
        command="blade-cc -Os a.c -o out/"),
    Case("returned-O0", NO, {
        "a.c": HEAD + TABLE + LABELLED + SAME + LOOK},
        command="blade-cc -O0 --label 'secret-memory 0' a.c -o out/"),
    Case("returned-effect", CALLER, {
        "a.c": HEAD + TABLE + MEMORY + LABELLED + (
            "unsigned last;\n"
            "unsigned f(unsigned k) { last = k * 7; return k; }\n") + LOOK}),
    Case("returned-swap", CALLER, {
        "a.c": HEAD + TABLE + (
            "unsigned f(unsigned k, unsigned other);\n"
            "BLADE_SECRET_PARAM(f, k);\n"
            "unsigned f(unsigned k, unsigned other) { return (k ^ other) ^ other; }\n"
            "unsigned g(unsigned i) { return table[f(i, 77) & 255]; }\n")}),
    Case("returned-label-words", CALLER, {
        "a.c": TABLE + SAME + LOOK},
        command="blade-cc --label 'secret-param f k' a.c -o out/"),
    Case("returned-static", CALLER, {
        "a.c": HEAD + TABLE + STATIC + "static unsigned f(unsigned k) { return k; }\n" + LOOK}),
    Case("returned-units", CALLER, {
        "a.h": HEAD + LABELLED,
        "a.c": "#include \"a.h\"\n" + SAME,
        "b.c": "#include \"a.h\"\n" + TABLE + LOOK},
        command="blade-cc a.c b.c -o out/"),
    Case("returned-units-lto", CALLER, {
        "a.h": HEAD + LABELLED,
        "a.c": "#include \"a.h\"\n" + SAME,
        "b.c": "#include \"a.h\"\n" + TABLE + LOOK},
        command="blade-cc -flto --export g --export f a.c b.c -o out/"),
    Case("result-constant", CALLER, {
        "a.c": HEAD + TABLE + LABELLED + SAME + (
            "unsigned g(unsigned i) { unsigned s = 0; for (unsigned n = 0; n < f(i); n++) s += n "
            "^ s << 3; return s; }\n")}),
    Case("ipsccp-known-result", CALLER, {
        "a.c": HEAD + TABLE + (
            "static unsigned f(unsigned k, unsigned y);\n"
            "BLADE_SECRET_PARAM(f, k);\n"
            "static unsigned f(unsigned k, unsigned y) { return y; }\n"
            "unsigned g(unsigned i) { return table[f(1, i) & 255]; }\n")}),
    Case("builtin-abs", CALLER, {
        "a.c": HEAD + TABLE + (
            "int abs(int k);\n"
            "BLADE_SECRET_PARAM(abs, k);\n"
            "int abs(int k) { int m = k >> 31; return (k ^ m) - m; }\n"
            "unsigned g(int i) { return table[abs(i) & 255]; }\n")}),
    Case("builtin-toascii", CALLER, {
        "a.c": HEAD + TABLE + (
            "int toascii(int k);\n"
            "BLADE_SECRET_PARAM(toascii, k);\n"
            "int toascii(int k) { return k & 127; }\n"
            "unsigned g(int i) { return table[toascii(i) & 255]; }\n")}),
    Case("builtin-isdigit", CALLER, {
        "a.c": HEAD + TABLE + (
            "int isdigit(int k);\n"
            "BLADE_SECRET_PARAM(isdigit, k);\n"
            "int isdigit(int k) { return ((unsigned)k - 48u) < 10; }\n"
            "unsigned g(int i) { return table[isdigit(i) & 255]; }\n")},
        starts=("arg 3\n", "arg 50\n")),
    Case("builtin-ffs", CALLER, {
        "a.c": HEAD + TABLE + (
            "int ffs(int k);\n"
            "BLADE_SECRET_PARAM(ffs, k);\n"
            "int ffs(int k) { int n = 0; for (int b = 32; b-- > 0;) { int s = -(k >> b & 1); n = "
            "(b + 1 & s) | (n & ~s); } return n; }\n"
            "unsigned g(int i) { return table[ffs(i) & 255]; }\n")},
        starts=("arg 3\n", "arg 8\n")),
    Case("builtin-two-units", CALLER, {
        "a.h": HEAD + (
            "int abs(int k);\n"
            "BLADE_SECRET_PARAM(abs, k);\n"),
        "a.c": (
            "#include \"a.h\"\n"
            "int abs(int k) { int m = k >> 31; return (k ^ m) - m; }\n"),
        "b.c": "#include \"a.h\"\n" + TABLE + "unsigned g(int i) { return table[abs(i) & 255]; }\n"},
        command="blade-cc a.c b.c -o out/"),
    Case("builtin-labs-words", CALLER, {
        "a.c": TABLE + (
            "long labs(long k) { long m = k >> 31; return (k ^ m) - m; }\n"
            "unsigned g(int i) { return table[labs(i) & 255]; }\n")},
        command="blade-cc --label 'secret-param labs k' a.c -o out/"),
    Case("int128-number", PARTS, {
        "a.c": HEAD + TABLE + (
            "unsigned f(unsigned __int128 k);\n"
            "BLADE_SECRET_PARAM(f, 0);\n"
            "unsigned f(unsigned __int128 k) { return table[(unsigned char)(k >> 64)]; }\n")},
        export="f",
        starts=("arg 1\narg 3\n", "arg 1\narg 9\n")),
    Case("int128-name", PARTS, {
        "a.c": HEAD + TABLE + (
            "unsigned f(unsigned __int128 k);\n"
            "BLADE_SECRET_PARAM(f, k);\n"
            "unsigned f(unsigned __int128 k) { return table[(unsigned char)(k >> 64)]; }\n")},
        export="f",
        starts=("arg 1\narg 3\n", "arg 1\narg 9\n")),
    Case("int128-empty-name", PARTS, {
        "a.c": HEAD + TABLE + (
            "struct e {};\n"
            "unsigned f(unsigned __int128 k, struct e tag);\n"
            "BLADE_SECRET_PARAM(f, k);\n"
            "unsigned f(unsigned __int128 k, struct e tag) { return table[(unsigned char)(k >> 64)]; }\n")},
        export="f",
        starts=("arg 1\narg 3\n", "arg 1\narg 9\n")),
    Case("int128-dead-name", PARTS, {
        "a.c": HEAD + TABLE + (
            "static unsigned f(unsigned __int128 k, int unused);\n"
            "BLADE_SECRET_PARAM(f, k);\n"
            "static unsigned f(unsigned __int128 k, int unused) { return table[(unsigned char)(k "
            ">> 64)] ^ (unsigned)k; }\n"
            "unsigned g(unsigned long long a, unsigned long long b) { return f((unsigned "
            "__int128)b << 64 | a, 1) + f((unsigned __int128)a << 64 | b, 2); }\n")},
        starts=("arg 1\narg 3\n", "arg 1\narg 9\n")),
    Case("longdouble-as-int", PARTS, {
        "a.c": HEAD + TABLE + (
            "union u { unsigned __int128 w; unsigned char b[16]; };\n"
            "struct e {};\n"
            "unsigned f(unsigned __int128 k, struct e tag);\n"
            "BLADE_SECRET_PARAM(f, k);\n"
            "unsigned f(unsigned __int128 k, struct e tag) { return (unsigned)(k >> 64) > 5 ? "
            "table[1] : (unsigned)k; }\n")},
        export="f",
        starts=("arg 1\narg 3\n", "arg 1\narg 9\n")),
    Case("empty-cxx-name", PARTS, {
        "a.cc": HEAD + TABLE + (
            "struct e {};\n"
            "unsigned f(unsigned __int128 k, struct e tag);\n"
            "BLADE_SECRET_PARAM(f, k);\n"
            "unsigned f(unsigned __int128 k, struct e tag) { return table[(unsigned char)(k >> 64)]; }\n")},
        command="blade-cc a.cc -o out/",
        export="_Z1fo1e",
        starts=("arg 1\narg 3\n", "arg 1\narg 9\n")),
    Case("dead-arg-number", CALLER, {
        "a.c": HEAD + TABLE + (
            "static unsigned f(unsigned unused, unsigned k, unsigned p);\n"
            "BLADE_SECRET_PARAM(f, 1);\n"
            "static unsigned f(unsigned unused, unsigned k, unsigned p) { return table[k & 255] ^ p; }\n"
            "unsigned g(unsigned i) { return f(1, i, 5) + f(2, i + 1, i); }\n")}),
    Case("dead-arg-name", CALLER, {
        "a.c": HEAD + TABLE + (
            "static unsigned f(unsigned unused, unsigned k, unsigned p);\n"
            "BLADE_SECRET_PARAM(f, k);\n"
            "static unsigned f(unsigned unused, unsigned k, unsigned p) { return table[k & 255] ^ p; }\n"
            "unsigned g(unsigned i) { return f(1, i, 5) + f(2, i + 1, i); }\n")}),
    Case("dead-arg-words", CALLER, {
        "a.c": TABLE + (
            "static unsigned f(unsigned unused, unsigned k, unsigned p) { return table[k & 255] ^ p; }\n"
            "unsigned g(unsigned i) { return f(1, i, 5) + f(2, i + 1, i); }\n")},
        command="blade-cc --label 'secret-param f 1' a.c -o out/"),
    Case("promoted-O3-name", CALLER, {
        "a.c": HEAD + TABLE + (
            "struct s { unsigned a, b; };\n"
            "static unsigned f(const struct s *p, unsigned k, unsigned unused);\n"
            "BLADE_SECRET_PARAM(f, k);\n"
            "static unsigned f(const struct s *p, unsigned k, unsigned unused) { unsigned r = "
            "p->a ^ p->b; for (int n = 0; n < 3; n++) { r ^= table[k & 255]; k = k * 5 + r; } "
            "return r; }\n"
            "unsigned g(unsigned i) { struct s x = {i, 4}, y = {2, i}; return f(&x, i, 5) + "
            "f(&y, i + 1, 6); }\n")},
        command="blade-cc -O3 a.c -o out/"),
    Case("sret-number", NO, {
        "a.c": HEAD + TABLE + (
            "typedef struct { int w[4]; } big;\n"
            "big f(int k, int n);\n"
            "BLADE_SECRET_PARAM(f, 0);\n"
            "big f(int k, int n) { big b = {{table[k & 255], n}}; return b; }\n")},
        export="f",
        starts=("arg 131072\narg 3\narg 1\n", "arg 131072\narg 9\narg 1\n")),
    Case("empty-first-number", NO, {
        "a.c": HEAD + TABLE + (
            "struct e {};\n"
            "unsigned f(struct e tag, unsigned k, unsigned p);\n"
            "BLADE_SECRET_PARAM(f, 1);\n"
            "unsigned f(struct e tag, unsigned k, unsigned p) { return table[k & 255] ^ p; }\n")},
        export="f",
        starts=("arg 3\narg 1\n", "arg 9\narg 1\n")),
    Case("swapped-names", ORDER, {
        "a.c": HEAD + TABLE + (
            "unsigned f(unsigned key, unsigned other);\n"
            "BLADE_SECRET_PARAM(f, key);\n"
            "unsigned f(unsigned other, unsigned key) { return table[other & 255] ^ key; }\n")},
        export="f",
        starts=("arg 3\narg 1\n", "arg 9\narg 1\n")),
    Case("include-one-unit", COPY, {
        "labels.h": HEAD + LABELLED,
        "a.c": "unsigned h(unsigned x) { return x; }\n",
        "b.c": TABLE + "unsigned f(unsigned k) { return k * 5 + 1; }\n" + LOOK},
        command=(
            "blade-cc -include labels.h -c a.c -o a.o && blade-cc -c b.c -o b.o && blade-cc a.o b.o "
            "-o out/")),
    Case("include-one-unit-identity", COPY, {
        "labels.h": HEAD + LABELLED,
        "a.c": "unsigned h(unsigned x) { return x; }\n",
        "b.c": TABLE + (
            "unsigned f(unsigned k) { return k & 255; }\n"
            "unsigned g(unsigned i) { return table[f(i)]; }\n")},
        command=(
            "blade-cc -include labels.h -c a.c -o a.o && blade-cc -c b.c -o b.o && blade-cc a.o b.o "
            "-o out/")),
    Case("include-one-unit-g1", COPY, {
        "labels.h": HEAD + LABELLED,
        "a.c": "unsigned h(unsigned x) { return x; }\n",
        "b.c": TABLE + "unsigned f(unsigned k) { return k * 5 + 1; }\n" + LOOK},
        command=(
            "blade-cc -include labels.h -c a.c -o a.o && blade-cc -c -g1 b.c -o b.o && blade-cc a.o "
            "b.o -o out/")),
    Case("same-name-two-folders", COPY, {
        "one/main.c": HEAD + LABELLED + "unsigned h(unsigned x) { return f(x) + 1; }\n",
        "two/main.c": TABLE + (
            "unsigned f(unsigned k) { return k & 255; }\n"
            "unsigned g(unsigned i) { return table[f(i)]; }\n")},
        command=(
            "(cd one && blade-cc -c main.c -o main.o) && (cd two && blade-cc -c main.c -o main.o) && "
            "blade-cc one/main.o two/main.o -o out/")),
    Case("same-name-two-folders-static", CALLER, {
        "one/main.c": HEAD + TABLE + STATIC + "static unsigned f(unsigned k) { return k; }\n" + LOOK,
        "two/main.c": (
            "__attribute__((noinline)) static unsigned f(unsigned k) { return k * 3; }\n"
            "unsigned h(unsigned i) { return f(i); }\n")},
        command=(
            "(cd one && blade-cc -c main.c -o main.o) && (cd two && blade-cc -c main.c -o main.o) && "
            "blade-cc one/main.o two/main.o -o out/")),
    Case("static-inline-two-units", COPY, {
        "f.h": "static inline unsigned f(unsigned k) { return k * 5 + 1; }\n",
        "a.c": HEAD + STATIC + (
            "#include \"f.h\"\n"
            "unsigned h(unsigned x) { return f(x) + 1; }\n"),
        "b.c": TABLE + "#include \"f.h\"\n" + LOOK},
        command="blade-cc a.c b.c -o out/"),
    Case("cxx-inline-two-units", COPY, {
        "f.h": "inline unsigned f(unsigned k) { return k * 5 + 1; }\n",
        "a.cc": HEAD + (
            "inline unsigned f(unsigned k);\n"
            "BLADE_SECRET_PARAM(f, k);\n"
            "#include \"f.h\"\n"
            "extern \"C\" unsigned h(unsigned x) { return f(x) + 1; }\n"),
        "b.cc": TABLE + (
            "#include \"f.h\"\n"
            "extern \"C\" unsigned g(unsigned i) { return table[f(i) & 255]; }\n")},
        command="blade-cc a.cc b.cc -o out/"),
    Case("c99-inline-two-units", COPY, {
        "f.h": "inline unsigned f(unsigned k) { return k * 5 + 1; }\n",
        "a.c": HEAD + LABELLED + (
            "#include \"f.h\"\n"
            "extern inline unsigned f(unsigned k);\n"
            "unsigned h(unsigned x) { return f(x) + 1; }\n"),
        "b.c": TABLE + "#include \"f.h\"\n" + LOOK},
        command="blade-cc a.c b.c -o out/"),
    Case("header-label-off-in-one", LINKER, {
        "f.h": HEAD + LABELLED + "inline unsigned f(unsigned k) { return k * 5 + 1; }\n",
        "a.c": (
            "#include \"f.h\"\n"
            "extern inline unsigned f(unsigned k);\n"
            "unsigned h(unsigned x) { return f(x) + 1; }\n"),
        "b.c": TABLE + "#include \"f.h\"\n" + LOOK},
        command="blade-cc -c a.c -o a.o && blade-cc -DBLADE_OFF -c b.c -o b.o && blade-cc a.o b.o -o out/"),
    Case("archive-memory-plain", LIBRARY, {
        "a.c": HEAD + LABELLED + TABLE + TIMES_3 + W_LOOKS + CALLS_W,
        "labels.c": HEAD + W_LABELLED + UNUSED,
        "mem.c": HEAD + MEMORY + UNUSED_2,
        "b.c": HEAD + LABELLED + TABLE + TIMES_3 + POINTED},
        command=(
            "blade-cc -c b.c -o b.o && blade-cc -c mem.c -o mem.o; llvm-ar rcs liblab.a mem.o; "
            "blade-cc b.o liblab.a -o out/"),
        starts=("arg 131072\nmemory 0 131072 03000000\n", "arg 131072\nmemory 0 131072 09000000\n")),
    Case("archive-memory-thin", LIBRARY, {
        "a.c": HEAD + LABELLED + TABLE + TIMES_3 + W_LOOKS + CALLS_W,
        "labels.c": HEAD + W_LABELLED + UNUSED,
        "mem.c": HEAD + MEMORY + UNUSED_2,
        "b.c": HEAD + LABELLED + TABLE + TIMES_3 + POINTED},
        command=(
            "blade-cc -c b.c -o b.o && blade-cc -c mem.c -o mem.o; llvm-ar rcsT liblab.a mem.o; "
            "blade-cc b.o liblab.a -o out/"),
        starts=("arg 131072\nmemory 0 131072 03000000\n", "arg 131072\nmemory 0 131072 09000000\n")),
    Case("archive-memory-Wl", LIBRARY, {
        "a.c": HEAD + LABELLED + TABLE + TIMES_3 + W_LOOKS + CALLS_W,
        "labels.c": HEAD + W_LABELLED + UNUSED,
        "mem.c": HEAD + MEMORY + UNUSED_2,
        "b.c": HEAD + LABELLED + TABLE + TIMES_3 + POINTED},
        command=(
            "blade-cc -c b.c -o b.o && blade-cc -c mem.c -o mem.o; llvm-ar rcs liblab.a mem.o; "
            "blade-cc b.o -Wl,liblab.a -o out/"),
        starts=("arg 131072\nmemory 0 131072 03000000\n", "arg 131072\nmemory 0 131072 09000000\n")),
    Case("archive-memory-Xlinker", LIBRARY, {
        "a.c": HEAD + LABELLED + TABLE + TIMES_3 + W_LOOKS + CALLS_W,
        "labels.c": HEAD + W_LABELLED + UNUSED,
        "mem.c": HEAD + MEMORY + UNUSED_2,
        "b.c": HEAD + LABELLED + TABLE + TIMES_3 + POINTED},
        command=(
            "blade-cc -c b.c -o b.o && blade-cc -c mem.c -o mem.o; llvm-ar rcs liblab.a mem.o; "
            "blade-cc b.o -Xlinker liblab.a -o out/"),
        starts=("arg 131072\nmemory 0 131072 03000000\n", "arg 131072\nmemory 0 131072 09000000\n")),
    Case("archive-memory-library", LINKER + LIBRARY, {
        "a.c": HEAD + LABELLED + TABLE + TIMES_3 + W_LOOKS + CALLS_W,
        "labels.c": HEAD + W_LABELLED + UNUSED,
        "mem.c": HEAD + MEMORY + UNUSED_2,
        "b.c": HEAD + LABELLED + TABLE + TIMES_3 + POINTED},
        command=(
            "blade-cc -c b.c -o b.o && blade-cc -c mem.c -o mem.o; llvm-ar rcs liblab.a mem.o; "
            "blade-cc b.o -Wl,--library-path=.,--library=lab -o out/"),
        starts=("arg 131072\nmemory 0 131072 03000000\n", "arg 131072\nmemory 0 131072 09000000\n")),
    Case("archive-memory-colon", LINKER + LIBRARY, {
        "a.c": HEAD + LABELLED + TABLE + TIMES_3 + W_LOOKS + CALLS_W,
        "labels.c": HEAD + W_LABELLED + UNUSED,
        "mem.c": HEAD + MEMORY + UNUSED_2,
        "b.c": HEAD + LABELLED + TABLE + TIMES_3 + POINTED},
        command=(
            "blade-cc -c b.c -o b.o && blade-cc -c mem.c -o mem.o; llvm-ar rcs liblab.a mem.o; "
            "blade-cc b.o -L. -l:liblab.a -o out/"),
        starts=("arg 131072\nmemory 0 131072 03000000\n", "arg 131072\nmemory 0 131072 09000000\n")),
    Case("archive-memory-response", LIBRARY, {
        "a.c": HEAD + LABELLED + TABLE + TIMES_3 + W_LOOKS + CALLS_W,
        "labels.c": HEAD + W_LABELLED + UNUSED,
        "mem.c": HEAD + MEMORY + UNUSED_2,
        "b.c": HEAD + LABELLED + TABLE + TIMES_3 + POINTED},
        command=(
            "blade-cc -c b.c -o b.o && blade-cc -c mem.c -o mem.o; llvm-ar rcs liblab.a mem.o; echo "
            "liblab.a > r; blade-cc b.o -Wl,@r -o out/"),
        starts=("arg 131072\nmemory 0 131072 03000000\n", "arg 131072\nmemory 0 131072 09000000\n")),
    Case("archive-memory-startlib", LINKER + LIBRARY, {
        "a.c": HEAD + LABELLED + TABLE + TIMES_3 + W_LOOKS + CALLS_W,
        "labels.c": HEAD + W_LABELLED + UNUSED,
        "mem.c": HEAD + MEMORY + UNUSED_2,
        "b.c": HEAD + LABELLED + TABLE + TIMES_3 + POINTED},
        command=(
            "blade-cc -c b.c -o b.o && blade-cc -c mem.c -o mem.o; true; blade-cc b.o "
            "-Wl,--start-lib,mem.o,--end-lib -o out/"),
        starts=("arg 131072\nmemory 0 131072 03000000\n", "arg 131072\nmemory 0 131072 09000000\n")),
    Case("archive-memory-joined", LIBRARY, {
        "a.c": HEAD + LABELLED + TABLE + TIMES_3 + W_LOOKS + CALLS_W,
        "labels.c": HEAD + W_LABELLED + UNUSED,
        "mem.c": HEAD + MEMORY + UNUSED_2,
        "b.c": HEAD + LABELLED + TABLE + TIMES_3 + POINTED},
        command=(
            "blade-cc -c b.c -o b.o && blade-cc -c mem.c -o mem.o; llvm-ar rcs liblab.a mem.o; "
            "blade-cc b.o -Wl,-L. -Wl,-llab -o out/"),
        starts=("arg 131072\nmemory 0 131072 03000000\n", "arg 131072\nmemory 0 131072 09000000\n")),
    Case("archive-memory-lto", LIBRARY, {
        "a.c": HEAD + LABELLED + TABLE + TIMES_3 + W_LOOKS + CALLS_W,
        "labels.c": HEAD + W_LABELLED + UNUSED,
        "mem.c": HEAD + MEMORY + UNUSED_2,
        "b.c": HEAD + LABELLED + TABLE + TIMES_3 + POINTED},
        command=(
            "blade-cc -c b.c -o b.o && blade-cc -c mem.c -o mem.o; blade-cc -flto -c mem.c -o mem.o; "
            "llvm-ar rcs liblab.a mem.o; blade-cc b.o liblab.a -o out/"),
        starts=("arg 131072\nmemory 0 131072 03000000\n", "arg 131072\nmemory 0 131072 09000000\n")),
    Case("archive-memory-nested", LIBRARY, {
        "a.c": HEAD + LABELLED + TABLE + TIMES_3 + W_LOOKS + CALLS_W,
        "labels.c": HEAD + W_LABELLED + UNUSED,
        "mem.c": HEAD + MEMORY + UNUSED_2,
        "b.c": HEAD + LABELLED + TABLE + TIMES_3 + POINTED},
        command=(
            "blade-cc -c b.c -o b.o && blade-cc -c mem.c -o mem.o; mkdir -p deep; llvm-ar rcs "
            "deep/liblab.a mem.o; blade-cc b.o -Wl,-Ldeep -llab -o out/"),
        starts=("arg 131072\nmemory 0 131072 03000000\n", "arg 131072\nmemory 0 131072 09000000\n")),
    Case("archive-function-thin", LIBRARY, {
        "a.c": HEAD + LABELLED + TABLE + TIMES_3 + W_LOOKS + CALLS_W,
        "labels.c": HEAD + W_LABELLED + UNUSED,
        "mem.c": HEAD + MEMORY + UNUSED_2,
        "b.c": HEAD + LABELLED + TABLE + TIMES_3 + POINTED},
        command=(
            "for f in a labels; do blade-cc -c $f.c -o $f.o; done; llvm-ar rcsT liblab.a labels.o; "
            "blade-cc a.o liblab.a -o out/")),
    Case("relocatable", COPY, {
        "a.c": HEAD + TABLE + MEMORY + POINTED},
        command=(
            "blade-cc -c a.c -o a.o && wasm-ld -r -o b.o a.o && blade-cc b.o --label 'secret-param g "
            "0' -o out/"),
        starts=("arg 131072\nmemory 0 131072 03000000\n", "arg 131072\nmemory 0 131072 09000000\n")),
    Case("stripped-object", LINKER + NO, {
        "a.c": HEAD + TABLE + MEMORY + POINTED,
        "b.c": HEAD + LABELLED + TIMES_3},
        command=(
            "blade-cc -c a.c -o a.o && blade-cc -c b.c -o b.o && llvm-objcopy "
            "--remove-section=blade.secrets a.o a2.o && blade-cc a2.o b.o -o out/"),
        starts=("arg 131072\nmemory 0 131072 03000000\n", "arg 131072\nmemory 0 131072 09000000\n")),
    Case("llvm-strip-object", LINKER + NO, {
        "a.c": HEAD + TABLE + MEMORY + POINTED,
        "b.c": HEAD + LABELLED + TIMES_3},
        command=(
            "blade-cc -c a.c -o a.o && blade-cc -c b.c -o b.o && (llvm-strip --strip-debug a.o || "
            "llvm-strip-19 --strip-debug a.o); blade-cc a.o b.o -o out/"),
        starts=("arg 131072\nmemory 0 131072 03000000\n", "arg 131072\nmemory 0 131072 09000000\n")),
    Case("linker-strip-all", NO, {
        "a.c": HEAD + TABLE + MEMORY + POINTED},
        command="blade-cc -Wl,-s --label 'secret-param g 0' a.c -o out/",
        starts=("arg 131072\nmemory 0 131072 03000000\n", "arg 131072\nmemory 0 131072 09000000\n")),
    Case("linker-strip-all-static", CALLER, {
        "a.c": HEAD + TABLE + STATIC + (
            "static unsigned f(unsigned k) { return table[k & 255]; }\n"
            "unsigned g(unsigned i) { return f(i) ^ f(i + 1); }\n"
            "unsigned h(unsigned x) { return x; }\n")},
        command="blade-cc -Wl,--strip-all --label 'secret-param h 0' a.c -o out/"),
    Case("linker-strip-debug", NO, {
        "a.c": HEAD + TABLE + LABELLED + "unsigned f(unsigned k) { return table[k & 255]; }\n"},
        command="blade-cc -Wl,--strip-debug a.c -o out/",
        export="f"),
    Case("words-at-link", COPY, {
        "a.c": TABLE + "unsigned f(unsigned k) { return k * 5 + 1; }\n" + LOOK},
        command="blade-cc -c a.c -o a.o && blade-cc a.o --label 'secret-param f k' -o out/"),
    Case("words-at-link-g0", COPY, {
        "a.c": TABLE + "unsigned f(unsigned k) { return k * 5 + 1; }\n" + LOOK},
        command="blade-cc -g0 -c a.c -o a.o && blade-cc a.o --label 'secret-param f 0' -o out/"),
    Case("words-at-link-identity", COPY, {
        "a.c": TABLE + (
            "unsigned f(unsigned k) { return k & 255; }\n"
            "unsigned g(unsigned i) { return table[f(i)]; }\n")},
        command="blade-cc -c a.c -o a.o && blade-cc a.o --label 'secret-param f k' -o out/"),
    Case("words-index", INDEX, {
        "a.c": TABLE + "unsigned f(unsigned k) { return k * 5 + 1; }\n" + LOOK},
        command="blade-cc --label 'secret-param 1 0' a.c -o out/"),
    Case("words-lto-link", COPY, {
        "a.c": "unsigned f(unsigned k) { return k * 5 + 1; }\n",
        "b.c": TABLE + "unsigned f(unsigned k);\n" + LOOK},
        command=(
            "blade-cc -flto -c a.c -o a.o && blade-cc -flto -c b.c -o b.o && blade-cc a.o b.o "
            "--export f --export g --label 'secret-param f k' -o out/")),
    Case("flatten-words", INLINED, {
        "a.c": TABLE + (
            "unsigned f(unsigned k) { return k & 255; }\n"
            "__attribute__((flatten)) unsigned g(unsigned i) { return table[f(i)]; }\n")},
        command="blade-cc --label 'secret-param f k' a.c -o out/"),
    Case("flatten-words-instructions", INLINED, {
        "a.c": TABLE + (
            "unsigned f(unsigned k) { return k * 5 + 1; }\n"
            "__attribute__((flatten)) unsigned g(unsigned i) { return table[f(i) & 255]; }\n")},
        command="blade-cc --label 'secret-param f k' a.c -o out/"),
    Case("flatten-macro", CALLER, {
        "a.c": HEAD + TABLE + LABELLED + (
            "unsigned f(unsigned k) { return k & 255; }\n"
            "__attribute__((flatten)) unsigned g(unsigned i) { return table[f(i)]; }\n")}),
    Case("always-inline-macro", CALLER, {
        "a.c": HEAD + TABLE + LABELLED + (
            "__attribute__((always_inline)) inline unsigned f(unsigned k) { return k & 255; }\n"
            "extern inline unsigned f(unsigned k);\n"
            "unsigned g(unsigned i) { return table[f(i)]; }\n")}),
    Case("always-inline-words", INLINED, {
        "a.c": TABLE + (
            "__attribute__((always_inline)) unsigned f(unsigned k) { return k & 255; }\n"
            "unsigned g(unsigned i) { return table[f(i)]; }\n")},
        command="blade-cc --label 'secret-param f k' a.c -o out/"),
    Case("call-site-always-inline", CALLER + INLINED, {
        "a.c": HEAD + TABLE + LABELLED + (
            "unsigned f(unsigned k) { return k & 255; }\n"
            "unsigned g(unsigned i) { unsigned r; [[clang::always_inline]] r = f(i); return table[r]; }\n")},
        command="blade-cc -std=c2x a.c -o out/"),
    Case("cxx-call-site-always-inline", CALLER + INLINED, {
        "a.cc": HEAD + TABLE + LABELLED + (
            "unsigned f(unsigned k) { return k & 255; }\n"
            "extern \"C\" unsigned g(unsigned i) { unsigned r; [[clang::always_inline]] r = f(i); "
            "return table[r]; }\n")},
        command="blade-cc a.cc -o out/"),
    Case("words-cxx", CALLER, {
        "a.cc": TABLE + (
            "unsigned f(unsigned k) { return k & 255; }\n"
            "extern \"C\" unsigned g(unsigned i) { return table[f(i)]; }\n")},
        command=(
            "blade-cc --label "
            "'secret-param _Z1fj 0' a.cc -o out/")),
    Case("overload", CALLER, {
        "a.cc": HEAD + TABLE + STATIC + (
            "static unsigned f(unsigned k) { return k; }\n"
            "unsigned f(unsigned long long k) { return (unsigned)k * 3; }\n"
            "extern \"C\" unsigned g(unsigned i) { return table[f(i) & 255]; }\n")},
        command="blade-cc a.cc -o out/"),
    Case("namespaces", CALLER, {
        "a.cc": HEAD + TABLE + (
            "namespace a { static unsigned f(unsigned k);\n"
            "BLADE_SECRET_PARAM(f, k);\n"
            "static unsigned f(unsigned k) { return k; } }\n"
            "namespace b { unsigned f(unsigned k) { return k * 3; } }\n"
            "extern \"C\" unsigned g(unsigned i) { return table[a::f(i) & 255]; }\n")},
        command="blade-cc a.cc -o out/"),
    Case("methods", CALLER, {
        "a.cc": HEAD + TABLE + (
            "struct s { unsigned f(unsigned k); };\n"
            "unsigned s::f(unsigned k) { return k * 3; }\n") + STATIC + (
            "static unsigned f(unsigned k) { return k; }\n"
            "extern \"C\" unsigned g(unsigned i) { return table[f(i) & 255]; }\n")},
        command="blade-cc a.cc -o out/"),
    Case("constructor-export", NO, {
        "a.c": HEAD + TABLE + LABELLED + (
            "volatile int v;\n"
            "__attribute__((constructor)) static void up(void) { v = 1; }\n"
            "unsigned f(unsigned k) { return table[k & 255]; }\n")},
        export="f"),
    Case("specialised", CALLER, {
        "a.c": HEAD + TABLE + (
            "static unsigned one(unsigned x) { return x + 1; }\n"
            "static unsigned two(unsigned x) { return x * 3; }\n"
            "static unsigned f(unsigned (*how)(unsigned), unsigned k);\n"
            "BLADE_SECRET_PARAM(f, k);\n"
            "static unsigned f(unsigned (*how)(unsigned), unsigned k) { unsigned r = 0; for (int "
            "n = 0; n < 9; n++) r += table[how(k + n) & 255]; return r; }\n"
            "unsigned g(unsigned i) { return f(one, i); }\n"
            "unsigned h(unsigned i) { return f(two, i); }\n")},
        command="blade-cc -O3 a.c -o out/"),
    Case("specialised-exported", CALLER, {
        "a.c": HEAD + TABLE + (
            "static unsigned one(unsigned x) { return x + 1; }\n"
            "static unsigned two(unsigned x) { return x * 3; }\n"
            "unsigned f(unsigned (*how)(unsigned), unsigned k);\n"
            "BLADE_SECRET_PARAM(f, k);\n"
            "unsigned f(unsigned (*how)(unsigned), unsigned k) { unsigned r = 0; for (int n = 0; "
            "n < 9; n++) r += how(k + n); return r; }\n"
            "unsigned g(unsigned i) { return table[f(one, i) & 255]; }\n"
            "unsigned h(unsigned i) { return table[f(two, i) & 255]; }\n")},
        command="blade-cc -O3 a.c -o out/"),
    Case("merged-functions", CALLER, {
        "a.c": HEAD + TABLE + LABELLED + (
            "unsigned f(unsigned k) { return k * 5 + 1; }\n"
            "__attribute__((noinline)) unsigned q(unsigned k) { return k * 5 + 1; }\n") + LOOK + (
            "unsigned h(unsigned i) { return table[q(i) & 255]; }\n")},
        command="blade-cc -mllvm -enable-merge-functions a.c -o out/"),
    Case("weak-and-strong", COPY, {
        "a.c": HEAD + LABELLED + "__attribute__((weak)) unsigned f(unsigned k) { return k; }\n",
        "b.c": TABLE + (
            "unsigned f(unsigned k) { return k & 255; }\n"
            "unsigned g(unsigned i) { return table[f(i)]; }\n")},
        command="blade-cc a.c b.c -o out/"),
    Case("weak-chosen", COPY, {
        "a.c": HEAD + LABELLED + (
            "__attribute__((weak)) unsigned f(unsigned k) { return k; }\n"
            "unsigned h(unsigned x) { return f(x); }\n"),
        "b.c": TABLE + (
            "__attribute__((weak)) unsigned f(unsigned k) { return k & 255; }\n"
            "unsigned g(unsigned i) { return table[f(i)]; }\n")},
        command="blade-cc a.c b.c -o out/"),
    Case("wrap", WRAPPED, {
        "a.c": HEAD + TABLE + LABELLED + TIMES_3 + "unsigned __wrap_f(unsigned k) { return k; }\n",
        "b.c": TABLE + "unsigned f(unsigned);\n" + LOOK},
        command="blade-cc -Wl,--wrap=f a.c b.c -o out/"),
    Case("alias", CALLER, {
        "a.c": HEAD + TABLE + LABELLED + TIMES_3 + (
            "unsigned q(unsigned k) __attribute__((alias(\"f\")));\n"
            "unsigned g(unsigned i) { return table[q(i) & 255]; }\n")}),
    Case("two-statics", CALLER, {
        "a.c": HEAD + TABLE + STATIC + "static unsigned f(unsigned k) { return k * 5 + 1; }\n" + LOOK,
        "b.c": (
            "__attribute__((noinline)) static unsigned f(unsigned k) { return k * 3; }\n"
            "unsigned h(unsigned i) { return f(i); }\n")},
        command="blade-cc a.c b.c -o out/"),
    Case("two-statics-words", TWO, {
        "a.c": TABLE + "static unsigned f(unsigned k) { return k * 5 + 1; }\n" + LOOK,
        "b.c": (
            "static unsigned f(unsigned k) { return k * 3; }\n"
            "unsigned h(unsigned i) { return f(i); }\n")},
        command="blade-cc a.c b.c --label 'secret-param f k' -o out/"),
    Case("two-statics-words-reversed", TWO, {
        "a.c": TABLE + "static unsigned f(unsigned k) { return k * 5 + 1; }\n" + LOOK,
        "b.c": (
            "static unsigned f(unsigned k) { return k * 3; }\n"
            "unsigned h(unsigned i) { return f(i); }\n")},
        command="blade-cc b.c a.c --label 'secret-param f k' -o out/"),
    Case("renamed-by-asm", CALLER, {
        "a.c": HEAD + TABLE + (
            "unsigned f(unsigned k) __asm__(\"other\");\n"
            "BLADE_SECRET_PARAM(f, k);\n") + TIMES_3 + LOOK}),
    Case("address-space", YES, {
        "a.c": HEAD + TABLE + MEMORY + (
            "int __attribute__((address_space(1))) key;\n"
            "void set(int x) { key = x; }\n"
            "unsigned g(unsigned i) { key = i; return table[key & 255]; }\n")}),
    Case("wasm-opt-later", CHANGED, {
        "a.c": HEAD + TABLE + (
            "__attribute__((noinline)) static unsigned q(unsigned x, unsigned y) { return x * y + 1; }\n"
            "unsigned h(unsigned a, unsigned b) { return q(a, 7) ^ b; }\n"
            "unsigned f(unsigned p, unsigned k);\n"
            "BLADE_SECRET_PARAM(f, k);\n"
            "unsigned f(unsigned p, unsigned k) { return k ^ p; }\n"
            "unsigned g(unsigned i, unsigned j) { return table[f(j, i) & 255]; }\n")},
        command=(
            "blade-cc --no-fail --public-callers=f a.c -o out/ > /dev/null 2>&1; "
            "wasm-opt -O2 out/a.wasm -o x.wasm && "
            "rm -r out && "
            "mkdir out && cp x.wasm out/a.wasm && $BLADE harden out/a.img out/a.json out/a.wasm && "
            "blade-explain out/a.img out/a.wasm"),
        starts=("arg 3\narg 1\n", "arg 9\narg 1\n")),
    Case("wasm-opt-later-inlined", CHANGED, {
        "a.c": HEAD + TABLE + (
            "__attribute__((noinline)) static unsigned q(unsigned x) { return x * x + 1; }\n"
            "unsigned h(unsigned a) { return q(a); }\n") + LABELLED + (
            "unsigned f(unsigned k) { return table[k & 255]; }\n"
            "unsigned last(unsigned a) { return a * 3; }\n")},
        command=(
            "blade-cc --no-fail a.c -o out/ > /dev/null 2>&1; wasm-opt -O3 out/a.wasm -o x.wasm && rm -r "
            "out && "
            "mkdir out && cp x.wasm out/a.wasm && $BLADE harden out/a.img out/a.json out/a.wasm && "
            "blade-explain out/a.img out/a.wasm"),
        export="f"),
    Case("include-one-unit-nothing", COPY, {
        "labels.h": HEAD + LABELLED,
        "a.c": "unsigned h(unsigned x) { return x; }\n",
        "b.c": TABLE + SAME + LOOK},
        command=(
            "blade-cc -include labels.h -c a.c -o a.o && blade-cc -c b.c -o b.o && blade-cc a.o b.o "
            "-o out/")),
    Case("same-name-two-folders-nothing", COPY, {
        "one/main.c": HEAD + LABELLED + "unsigned h(unsigned x) { return f(x) + 1; }\n",
        "two/main.c": TABLE + SAME + LOOK},
        command=(
            "(cd one && blade-cc -c main.c -o main.o) && (cd two && blade-cc -c main.c -o main.o) && "
            "blade-cc one/main.o two/main.o -o out/")),
    Case("same-name-order-nothing", COPY, {
        "one/main.c": HEAD + LABELLED + "unsigned h(unsigned x) { return f(x) + 1; }\n",
        "two/main.c": TABLE + SAME + LOOK},
        command=(
            "(cd one && blade-cc -c main.c -o main.o) && (cd two && blade-cc -c main.c -o main.o) && "
            "blade-cc two/main.o one/main.o -o out/")),
    Case("weak-and-strong-nothing", COPY, {
        "a.c": HEAD + LABELLED + "__attribute__((weak)) unsigned f(unsigned k) { return k; }\n",
        "b.c": TABLE + SAME + LOOK},
        command="blade-cc a.c b.c -o out/"),
    Case("words-at-link-nothing", COPY, {
        "a.c": TABLE + SAME + LOOK},
        command="blade-cc -c a.c -o a.o && blade-cc a.o --label 'secret-param f k' -o out/"),
    Case("flatten-words-nothing", INLINED, {
        "a.c": TABLE + SAME + (
            "__attribute__((flatten)) unsigned g(unsigned i) { return table[f(i) & 255]; }\n")},
        command="blade-cc --label 'secret-param f k' a.c -o out/"),
    Case("vector-number", PARTS, {
        "a.c": HEAD + TABLE + (
            "typedef unsigned v4 __attribute__((vector_size(16)));\n"
            "unsigned f(v4 k);\n"
            "BLADE_SECRET_PARAM(f, 0);\n"
            "unsigned f(v4 k) { return table[k[2] & 255]; }\n")},
        export="f",
        starts=("arg 1\narg 1\narg 3\narg 1\n", "arg 1\narg 1\narg 9\narg 1\n")),
    Case("vector-name", PARTS, {
        "a.c": HEAD + TABLE + (
            "typedef unsigned v4 __attribute__((vector_size(16)));\n"
            "unsigned f(v4 k);\n"
            "BLADE_SECRET_PARAM(f, k);\n"
            "unsigned f(v4 k) { return table[k[2] & 255]; }\n")},
        export="f",
        starts=("arg 1\narg 1\narg 3\narg 1\n", "arg 1\narg 1\narg 9\narg 1\n")),
    Case("int128-sret-name", PARTS, {
        "a.c": HEAD + TABLE + (
            "struct e {};\n"
            "unsigned f(struct e a, unsigned __int128 k, struct e b, unsigned y);\n"
            "BLADE_SECRET_PARAM(f, k);\n"
            "unsigned f(struct e a, unsigned __int128 k, struct e b, unsigned y) { return "
            "table[(unsigned char)k] ^ y; }\n")},
        export="f",
        starts=("arg 3\narg 3\narg 1\n", "arg 9\narg 3\narg 1\n")),
    Case("int128-first-name", NO, {
        "a.c": HEAD + TABLE + (
            "struct e {};\n"
            "unsigned f(unsigned __int128 p, struct e b, unsigned k);\n"
            "BLADE_SECRET_PARAM(f, k);\n"
            "unsigned f(unsigned __int128 p, struct e b, unsigned k) { return table[k & 255] ^ "
            "(unsigned)p; }\n")},
        export="f",
        starts=("arg 3\narg 3\narg 3\n", "arg 3\narg 3\narg 9\n")),
    Case("result-demand-overload", NO, {
        "a.cc": HEAD + TABLE + MEMORY + (
            "static unsigned f(unsigned k);\n"
            "BLADE_PUBLIC_RESULT(f);\n"
            "static unsigned f(unsigned k) { return k; }\n"
            "unsigned f(unsigned long long k) { return 7; }\n"
            "extern \"C\" unsigned g(unsigned *i) { return f(*i); }\n")},
        command="blade-cc a.cc -o out/",
        starts=None),
    Case("bool-returned", CALLER, {
        "a.c": HEAD + TABLE + (
            "#include <stdbool.h>\n"
            "bool f(bool k);\n"
            "BLADE_SECRET_PARAM(f, k);\n"
            "bool f(bool k) { return k; }\n"
            "unsigned g(unsigned i) { return table[f(i & 1)]; }\n")},
        starts=("arg 0\n", "arg 1\n")),
    Case("char-returned", CALLER, {
        "a.c": HEAD + TABLE + (
            "unsigned char f(unsigned char k);\n"
            "BLADE_SECRET_PARAM(f, k);\n"
            "unsigned char f(unsigned char k) { return k; }\n"
            "unsigned g(unsigned i) { return table[f(i)]; }\n")}),
    Case("wide-returned", CALLER, {
        "a.c": HEAD + TABLE + (
            "unsigned long long f(unsigned long long k);\n"
            "BLADE_SECRET_PARAM(f, k);\n"
            "unsigned long long f(unsigned long long k) { return k; }\n") + LOOK}),
    Case("conditional-returned", CALLER, {
        "a.c": HEAD + TABLE + (
            "unsigned f(unsigned k, unsigned n);\n"
            "BLADE_SECRET_PARAM(f, k);\n"
            "unsigned f(unsigned k, unsigned n) { for (unsigned i = 0; i < n; i++) { unsigned a "
            "= k ^ i; k = a ^ i; } return k; }\n"
            "unsigned g(unsigned i) { return table[f(i, 4) & 255]; }\n")}),
    Case("noinline-exported-key", CALLER, {
        "a.c": HEAD + TABLE + (
            "unsigned secret(unsigned key);\n"
            "BLADE_SECRET_PARAM(secret, key);\n"
            "unsigned secret(unsigned key) { return key; } /* marks a value as secret */\n"
            "static unsigned sbox(unsigned x) { return table[x & 255]; }\n"
            "unsigned encrypt(unsigned key, unsigned text) { return sbox(secret(key) ^ text); }\n")},
        export="encrypt",
        starts=("arg 3\narg 1\n", "arg 9\narg 1\n")),
    Case("noinline-exported-key-memory", CALLER, {
        "a.c": HEAD + TABLE + MEMORY + (
            "unsigned secret(unsigned key);\n"
            "BLADE_SECRET_PARAM(secret, key);\n"
            "unsigned secret(unsigned key) { return key; }\n"
            "unsigned encrypt(unsigned key, unsigned text) { return (secret(key) & 1) ? text * 3 "
            "/ (key | 1) : text; }\n")},
        export="encrypt",
        starts=("arg 3\narg 1\n", "arg 9\narg 1\n")),
    Case("thin-archive-linked", CALLER, {
        "a.h": HEAD + LABELLED,
        "f.c": "#include \"a.h\"\n" + TIMES_3,
        "b.c": TABLE + "#include \"a.h\"\n" + LOOK},
        command=(
            "for x in f b; do blade-cc -c $x.c -o $x.o; done; llvm-ar rcsT libf.a f.o; blade-cc b.o "
            "libf.a -o out/")),
    Case("builtin-strlen", NO, {
        "a.c": HEAD + TABLE + MEMORY + (
            "unsigned long strlen(const char *p);\n"
            "BLADE_PUBLIC_RESULT(strlen);\n"
            "unsigned long strlen(const char *p) { unsigned long n = 0; while (p[n]) n++; return n; }\n"
            "unsigned g(const char *p) { return strlen(p) == 0 ? 3 : 5; }\n")},
        starts=None),
    Case("builtin-memcmp-demand", YES, {
        "a.c": HEAD + TABLE + MEMORY + (
            "int memcmp(const void *p, const void *q, unsigned long n);\n"
            "BLADE_PUBLIC_RESULT(memcmp);\n"
            "int memcmp(const void *p, const void *q, unsigned long n) { return 0; }\n"
            "unsigned g(const unsigned *p, const unsigned *q) { return memcmp(p, q, 4) == 0; }\n")},
        starts=None),
    Case("isascii-branch", CALLER, {
        "a.c": HEAD + (
            "int isascii(int c);\n"
            "BLADE_SECRET_PARAM(isascii, c);\n"
            "int isascii(int c) { return (unsigned)c < 128; }\n"
            "volatile unsigned v;\n"
            "unsigned g(int i) { if (isascii(i)) v = 1; else v = v + 2; return 0; }\n")},
        starts=("arg 3\n", "arg 900\n")),
    Case("dead-arg-number-exported-alias", CALLER, {
        "a.c": HEAD + TABLE + (
            "static unsigned f(unsigned unused, unsigned k, unsigned p);\n"
            "BLADE_SECRET_PARAM(f, 2);\n"
            "static unsigned f(unsigned unused, unsigned k, unsigned p) { return table[p & 255] ^ k; }\n"
            "unsigned g(unsigned i) { return f(1, 5, i) + f(2, 6, i + 1); }\n")}),
    Case("template", NO, {
        "a.cc": HEAD + TABLE + (
            "template <class T> __attribute__((noinline)) unsigned f(T k) { return (unsigned)k * 3; }\n"
            "extern \"C\" unsigned g(unsigned i) { return table[f(i) & 255]; }\n"
            "extern \"C\" unsigned h(unsigned long long i) { return table[f(i) & 255]; }\n")},
        command="blade-cc --label 'secret-param g 0' a.cc -o out/",
        export="h",
        starts=None),
    Case("static-same-words-index-shift", INDEX, {
        "a.c": TABLE + (
            "__attribute__((noinline)) unsigned p(unsigned x) { return x * 7; }\n"
            "unsigned f(unsigned k) { return k * 5 + 1; }\n") + LOOK},
        command="blade-cc --label 'secret-param 1 0' --export g --export p a.c -o out/"),
    # --- values that BLADE_SECRET marks
    Case("marked", NO, {
        "a.c": HEAD + TABLE + "unsigned g(unsigned i) { return table[BLADE_SECRET(i) & 255]; }\n"}),
    Case("marked-branch-O1", NO, {
        "a.c": HEAD + (
            "volatile unsigned v;\n"
            "unsigned g(unsigned i) { if (BLADE_SECRET(i) > 5) v = 1; else v = v + 2; return 0; }\n")},
         command="blade-cc -O1 a.c -o out/"),
    Case("marked-char-O0", NO, {
        "a.c": HEAD + TABLE + MEMORY + (
            "unsigned g(unsigned i) { unsigned char k = BLADE_SECRET((unsigned char)i); return "
            "table[k]; }\n")},
        command="blade-cc -O0 a.c -o out/"),
    Case("marked-wide-cxx", NO, {
        "a.cc": HEAD + TABLE + (
            "extern \"C\" unsigned g(unsigned long long i) { return 1000 / "
            "((unsigned)BLADE_SECRET(i) | 1); }\n")}, command="blade-cc a.cc -o out/"),
    Case("marked-in-one-of-two-units", STRICT, {
        "a.h": HEAD + "unsigned f(unsigned k);\n",
        "a.c": "#include \"a.h\"\n" + TABLE + "unsigned f(unsigned k) { return table[k & 255]; }\n",
        "b.c": (
            "#include \"a.h\"\n"
            "unsigned g(unsigned i) { return f(BLADE_SECRET(i)); }\n")},
        command="blade-cc -c a.c -o a.o && blade-cc -c b.c -o b.o && blade-cc a.o b.o -o out/"),
    Case("marked-for-a-parameter", NO, {
        "a.c": HEAD + TABLE + LABELLED + SAME + (
            "unsigned g(unsigned i) { return table[f(BLADE_SECRET(i)) & 255]; }\n")}),
    Case("marked-stripped", (Answer(5, "uses BLADE_SECRET, and the module doesn't have its masks by name"),),
         {
        "a.c": HEAD + TABLE + "unsigned g(unsigned i) { return table[BLADE_SECRET(i) & 255]; }\n"},
        command="blade-cc -Wl,-s a.c -o out/"),
    Case("marked-lto", LINKER + NO, {
        "a.c": HEAD + TABLE + "unsigned g(unsigned i) { return table[BLADE_SECRET(i) & 255]; }\n"},
        command="blade-cc -flto a.c -o out/"),
]
