"""Programs for tools/checks/labels by a third author, who had not read the guards: attributes, pragmas and
options that tell the compiler more than the code does, what C++ makes beside a function, macros that change
what blade.h writes, parameters and results that a module passes in another form, and assumptions about marked
values. THIRD has those whose answer is no or an error, THIRD_RIGHT has programs whose labels are all right.
Licence: public domain (CC0)."""
from typing import Dict, Optional, Tuple

from labels_cases import HEAD, LABELLED, TABLE, YES, Answer, Case
from labels_more_cases import BUILD, ENTRY, HEADERS, LOOK, PLAIN, REFUSED, SAME, TWO_WORDS, WORK

ANY = (*REFUSED, *BUILD, Answer(2, "error"))  # all but a yes
ONE = ("arg 3\n", "arg 9\n")
MEANT = "blade-cc --public-callers=f a.c -o out/"  # the compiler's guard alone has to keep the label
CXX = "blade-cc --public-callers=f a.cc -o out/"
C_LABELLED = 'extern "C" { ' + LABELLED + "}\n"
C_LOOK = 'extern "C" ' + LOOK
MARKED = "unsigned g(unsigned x) { unsigned y = BLADE_SECRET(x); "
MARKER = HEAD + "unsigned mark(unsigned x) { return BLADE_SECRET(x); }\n"
MARKER_USED = ("unsigned last;\nunsigned mark(unsigned x);\n"
               "unsigned g(unsigned x) { unsigned y = mark(x); SAME return table[y & 255]; }\n")
KEY = "unsigned g(unsigned key, unsigned i);\nBLADE_SECRET_PARAM(g, key);\n"
OWN = "unsigned h(unsigned k);\nBLADE_SECRET_PARAM(h, k);\nunsigned h(unsigned k) { return k * 7; }\n"
IN_MEMORY = ("arg 131072\nmemory 0 131072 03000000\n", "arg 131072\nmemory 0 131072 09000000\n")
READ = "unsigned g(unsigned *p) { return table[*p & 255]; }\n"


def third(name: str, files: Dict[str, str], command: str = MEANT, right: Tuple[Answer, ...] = ANY,
          export: str = "g", starts: Optional[Tuple[str, str]] = ONE) -> Case:
    return Case(name, right, files, command, export, starts)


def marked(name: str, body: str, before: str = "", command: str = "blade-cc a.c -o out/") -> Case:
    """A marked value y of x, in g."""
    files = {"a.cc" if "a.cc" in command else "a.c": HEAD + TABLE + before + MARKED + body + " }\n"}
    if "a.cc" in command:
        files = {"a.cc": files["a.cc"].replace("unsigned g(unsigned x)", 'extern "C" unsigned g(unsigned x)')}
    return third(name, files, command)


# The compiler may take each of these for a proof that y is x.
ASSUMED = [
    marked("assumed-builtin", "__builtin_assume(y == x); return table[y & 255];"),
    marked("assumed-difference", "if ((y ^ x) != 0) __builtin_unreachable(); return table[y & 255];"),
    marked("assumed-switch", "switch (y - x) { case 0: break; default: __builtin_unreachable(); } "
           "return table[y & 255];", command="blade-cc -O3 a.c -o out/"),
    marked("assumed-noreturn-const", "if (y != x) die(); return table[y & 255];",
           "__attribute__((noreturn, const)) void die(void);\nvoid die(void) { for (;;) ; }\n"),
    marked("assumed-null-store", "unsigned *p = y == x ? &last : 0; *p = 7; return table[y & 255];",
           "unsigned last;\n"),
    marked("assumed-null-branch", "if (y != x) *(volatile unsigned *)0; if (y != x) *(unsigned *)0 = 1; "
           "return table[y & 255];"),
    marked("assumed-nonnull", "hand(y == x ? &last : 0); return table[y & 255];",
           "unsigned last;\n__attribute__((nonnull, noinline)) void hand(unsigned *p);\n"
           "void hand(unsigned *p) { *p = 3; }\n"),
    marked("assumed-returns-nonnull", "unsigned *p = pick(y, x); *p = 3; return table[y & 255];",
           "unsigned last;\n__attribute__((returns_nonnull)) static inline unsigned *pick(unsigned y, "
           "unsigned x) { return y == x ? &last : 0; }\n"),
    marked("assumed-loop-ends", "while (y != x) ; return table[y & 255];", command="blade-cc -O3 a.c -o "
    "out/"),
    marked("assumed-loop-ends-cxx", "while (y != x) ; return table[y & 255];",
           command="blade-cc -O3 a.cc -o out/"),
    marked("assumed-end-of-function", "same(y, x); return table[y & 255];",
           "static inline int same(unsigned y, unsigned x) { if (y == x) return 1; }\n",
           "blade-cc -w a.cc -o out/"),
    marked("assumed-no-overflow", "int t[1] = {0}; if (2147483647 + (int)(y != x) < 0) t[0] = 1; "
           "return table[y & 255] + t[0];"),
    marked("assumed-shift", "unsigned s = 1u << (y != x ? 32 : 0); return table[y & 255] * s;"),
    marked("assumed-divisor", "unsigned s = 9 / (unsigned)(y == x); return table[y & 255] * s;"),
    marked("assumed-function", "must(y == x); return table[y & 255];",
           "static void must(int c) { if (!c) __builtin_unreachable(); }\n"),
    marked("assumed-macro", "ASSUME(y == x); return table[y & 255];", command=
           "blade-cc '-DASSUME(x)=((x)?(void)0:__builtin_unreachable())' a.c -o out/"),
    marked("assumed-wide", "unsigned long long a = x, b = BLADE_SECRET(a); if (a != b) "
           "__builtin_unreachable(); return table[b & 255] + y - y;"),
    marked("assumed-bytes", "unsigned char a = x, b = BLADE_SECRET(a); __builtin_assume(a == b); "
           "return table[b];"),
    marked("assumed-through-memory", "unsigned t[2] = {x, y}; if (t[0] != t[1]) __builtin_unreachable(); "
           "return table[t[1] & 255];"),
    marked("assumed-bound", "__builtin_assume(y >= x && y <= x); return table[y & 255];"),
    marked("assumed-lambda", "auto same = [=] { if (y != x) __builtin_unreachable(); }; same(); "
           "return table[y & 255];", command="blade-cc -O2 a.cc -o out/"),
    marked("assumed-range", "int n = 0; for (unsigned a = x; a != y; a++) __builtin_unreachable(); "
           "return table[y & 255] + n;"),
    third("assumed-in-another-unit", {"a.c": MARKER, "b.c": TABLE + MARKER_USED.replace(
        "SAME", "if (y != x) __builtin_unreachable();")}, "blade-cc a.c b.c -o out/"),
    third("assumed-null-in-another-unit", {"a.c": MARKER, "b.c": TABLE + MARKER_USED.replace(
        "SAME", "*(y == x ? &last : 0) = 7;")}, "blade-cc a.c b.c -o out/"),
    third("assumed-in-another-object", {"a.c": MARKER, "b.c": TABLE + MARKER_USED.replace(
        "SAME", "*(y == x ? &last : 0) = 7;")}, "blade-cc -c a.c && blade-cc -c b.c && blade-cc a.o b.o -o "
        "out/"),
    third("assumed-in-a-plain-object", {"a.c": HEAD + TABLE + MARKED + "__builtin_assume(y == x); "
                                        "return table[y & 255]; }\n", "b.c": MARKER},
          f"{PLAIN} {HEADERS} -fvisibility=default -c a.c -o a.o && blade-cc a.o b.c --export g -o out/"),
]

# What the compiler is told of a labelled function.
TOLD = [
    third("const-returned", {"a.c": HEAD + TABLE + "__attribute__((const)) " + LABELLED + SAME + LOOK},
          "blade-cc -O3 --public-callers=f a.c -o out/"),
    third("assume-aligned", {"a.c": HEAD + TABLE + "__attribute__((assume_aligned(4), returns_nonnull)) "
                             "const char *f(const char *k);\nBLADE_SECRET_PARAM(f, k);\n"
                             "const char *f(const char *k) { return k; }\n"
                             "unsigned g(unsigned i) { return table[((unsigned)f((char *)(i * 4)) >> 2) & "
                             "255]; }\n"}),
    third("pragma-always-inline", {"a.c": HEAD + TABLE + "#pragma clang attribute push(__attribute__(("
                                   "always_inline)), apply_to = function)\n" + LABELLED + "static inline "
                                   "" * 0 +
                                   SAME + "#pragma clang attribute pop\n" + LOOK}),
    third("pragma-optimize-off", {"a.c": HEAD + TABLE + LABELLED + SAME + "#pragma clang optimize off\n" +
                                  LOOK +
                                  "#pragma clang optimize on\n"}),
    third("pragma-weak-alias", {"a.c": HEAD + TABLE + LABELLED + SAME + "unsigned q(unsigned k);\n"
                                "#pragma weak q = f\n" + LOOK.replace("f(i)", "q(i)")}),
    third("pragma-visibility", {"a.c": HEAD + TABLE + "#pragma GCC visibility push(hidden)\n" + LABELLED +
                                SAME +
                                "#pragma GCC visibility pop\n" + LOOK},
          "blade-cc -fvisibility=hidden -Wl,--gc-sections --public-callers=f --export g a.c -o out/"),
    third("pragma-push-macro", {"a.c": HEAD + TABLE + "#define f(x) (x)\n#pragma push_macro(\"f\")\n#undef "
                                "f\n" +
                                LABELLED + SAME + LOOK + "#pragma pop_macro(\"f\")\n"}),
    third("force-attributes", {"a.c": HEAD + TABLE + LABELLED + SAME + LOOK},
          "blade-cc -O2 -mllvm -force-remove-attribute=f:noinline -mllvm -inline-threshold=99999 "
          "--public-callers=f a.c -o out/"),
    third("force-attribute-inline", {"a.c": HEAD + TABLE + "static " + LABELLED + "static " + SAME + LOOK},
          "blade-cc -O2 -mllvm -force-remove-attribute=noinline -mllvm -force-attribute=f:alwaysinline "
          "--public-callers=f a.c -o out/"),
    third("disable-passes", {"a.c": HEAD + TABLE + LABELLED + SAME + LOOK},
          "blade-cc -O2 -Xclang -disable-llvm-passes --public-callers=f a.c -o out/"),
    third("cc1-level", {"a.c": HEAD + TABLE + LABELLED + SAME + LOOK},
          "blade-cc -O0 -Xclang -O3 --public-callers=f a.c -o out/"),
    third("merged-by-option", {"a.c": HEAD + TABLE + LABELLED + "unsigned f(unsigned k) { return k * 5 + "
                               "1; }\n"
                               "unsigned q(unsigned k) { return k * 5 + 1; }\n"
                               "unsigned g(unsigned i) { return table[f(i) & 255] + q(i); }\n"},
          "blade-cc -O2 -Xclang -fmerge-functions --public-callers=f a.c -o out/"),
    third("outlined", {"a.c": HEAD + TABLE + LABELLED + "unsigned f(unsigned k) { return (k ^ k >> 3) * "
                       "77; }\n"
                       "unsigned g(unsigned i) { return table[f(i) & 255] + f(i + 1) + f(i + 2); }\n"},
          "blade-cc -Oz -mllvm -enable-machine-outliner -mllvm -hot-cold-split --public-callers=f a.c -o "
          "out/"),
    third("partial-inlining", {"a.c": HEAD + TABLE + "static " + LABELLED + "volatile unsigned v;\n"
                               "static unsigned f(unsigned k) { if (!k) return 0; v = 1; v = 2; return k; "
                               "}\n" +
                               LOOK}, "blade-cc -O3 -mllvm -enable-partial-inlining --public-callers=f a.c "
                               "-o out/"),
    third("sanitized", {"a.c": HEAD + TABLE + LABELLED + SAME + LOOK},
          "blade-cc -fsanitize=undefined -fsanitize-trap=undefined --public-callers=f a.c -o out/"),
    third("whole-program-vtables", {"a.cc": HEAD + TABLE + C_LABELLED + "struct b { virtual unsigned "
                                    "w(unsigned k); };\n"
                                    "unsigned f(unsigned k) { return k; }\n"
                                    "unsigned b::w(unsigned k) { return f(k); }\nstatic b one;\n"
                                    "extern \"C\" unsigned g(unsigned i) { b *p = &one; return "
                                    "table[p->w(i) & 255]; }\n"},
          "blade-cc -O3 -fno-rtti -flto -fvisibility=hidden -fwhole-program-vtables --public-callers=f "
          "--export g a.cc -o out/"),
    third("profile", {"a.c": HEAD + TABLE + LABELLED + SAME + LOOK, "p.txt": "f\n# hash\n24\n1\n900000\n\n"},
          "${PROFDATA:-llvm-profdata-14} merge p.txt -o p.prof && blade-cc -O2 -fprofile-use=p.prof -w "
          "--public-callers=f a.c -o out/"),
    third("overloadable", {"a.c": HEAD + TABLE + "#define OVER __attribute__((overloadable))\n"
                           "OVER unsigned f(unsigned k);\nBLADE_SECRET_PARAM(f, k);\n"
                           "OVER unsigned f(unsigned k) { return k; }\n"
                           "OVER unsigned f(unsigned long long k) { return (unsigned)k * 3; }\n"
                           "unsigned g(unsigned i) { return table[f(i) & 255] + f(7ull); }\n"}),
    third("local-declaration", {"a.c": HEAD + TABLE + LABELLED + SAME + "unsigned g(unsigned i) { extern "
                                "unsigned "
                                "f(unsigned) __attribute__((always_inline)); return table[f(i) & 255]; }\n"}),
    third("omp-variant", {"a.c": HEAD + TABLE + "unsigned fast(unsigned k) { return k; }\n"
                          "#pragma omp declare variant(fast) match(implementation={vendor(llvm)})\n" +
                          LABELLED +
                          "unsigned f(unsigned k) { return k * 1; }\n" + LOOK},
          "blade-cc -fopenmp-simd --public-callers=f a.c -o out/"),
    third("omp-begin-variant", {"a.c": HEAD + TABLE + LABELLED + "unsigned f(unsigned k) { return k; }\n"
                                "#pragma omp begin declare variant match(implementation={vendor(llvm)})\n"
                                "unsigned f(unsigned k) { return k + 0; }\n"
                                "#pragma omp end declare variant\n" + LOOK},
          "blade-cc -fopenmp -nogpulib --public-callers=f a.c -o out/"),
    third("enable-if", {"a.c": HEAD + TABLE + "__attribute__((overloadable)) unsigned f(unsigned k);\n"
                        "BLADE_SECRET_PARAM(f, k);\n__attribute__((overloadable)) unsigned f(unsigned k) { "
                        "return k; }\n"
                        "__attribute__((overloadable, always_inline)) static inline unsigned f(unsigned k) "
                        "__attribute__((enable_if(1, \"\")));\n__attribute__((overloadable)) static inline "
                        "unsigned "
                        "f(unsigned k) __attribute__((enable_if(1, \"\"))) { return k; }\n" + LOOK}),
    third("builtin-library-name", {"a.c": HEAD + TABLE + "unsigned long strnlen(const char *s, unsigned "
                                   "long k);\n"
                                   "BLADE_SECRET_PARAM(strnlen, k);\n"
                                   "unsigned long strnlen(const char *s, unsigned long k) { return k; }\n"
                                   "unsigned g(unsigned i) { return table[strnlen(\"x\", i & 255)]; }\n"},
          "blade-cc -O3 --public-callers=strnlen a.c -o out/"),
    third("reserved-builtin", {"a.c": HEAD + TABLE + "int __builtin_popcount(unsigned k);\n"
                               "BLADE_SECRET_PARAM(__builtin_popcount, k);\n"
                               "unsigned g(unsigned i) { return table[__builtin_popcount(i)]; }\n"},
          "blade-cc a.c -o out/", starts=("arg 3\n", "arg 7\n")),
]

# What a parameter or a result is in the module.
PASSED = [
    third("object-size-number", {"a.c": HEAD + TABLE + "unsigned f(void *const p "
                                 "__attribute__((pass_object_size(0))), "
                                 "unsigned k);\nBLADE_SECRET_PARAM(f, 1);\n"
                                 "unsigned f(void *const p __attribute__((pass_object_size(0))), unsigned k) "
                                 "{ return table[k & 255] + __builtin_object_size(p, 0); }\n"},
          "blade-cc -O2 a.c -o out/", export="f", starts=("arg 0\narg 1\narg 3\n", "arg 0\narg 1\narg 9\n")),
    third("object-size-name", {"a.c": HEAD + TABLE + "unsigned f(void *const p "
                               "__attribute__((pass_object_size(0))), "
                               "unsigned k);\nBLADE_SECRET_PARAM(f, k);\n"
                               "unsigned f(void *const p __attribute__((pass_object_size(0))), unsigned k) "
                               "{ return table[k & 255] + __builtin_object_size(p, 0); }\n"},
          "blade-cc -O2 a.c -o out/", export="f", starts=("arg 0\narg 1\narg 3\n", "arg 0\narg 1\narg 9\n")),
    third("complex-number", {"a.c": HEAD + TABLE + "unsigned f(_Complex unsigned z, unsigned k);\n"
                             "BLADE_SECRET_PARAM(f, 1);\nunsigned f(_Complex unsigned z, unsigned k) "
                             "{ return table[k & 255] + __real__ z; }\n"}, "blade-cc -w a.c -o out/",
                             export="f",
          starts=("arg 131072\narg 3\n", "arg 131072\narg 9\n")),
    third("complex-name", {"a.c": HEAD + TABLE + "unsigned f(_Complex unsigned k);\nBLADE_SECRET_PARAM(f, "
                           "k);\n"
                           "unsigned f(_Complex unsigned k) { return table[__imag__ k & 255]; }\n"},
          "blade-cc -w a.c -o out/", export="f", starts=IN_MEMORY),
    third("transparent-union", {"a.c": HEAD + TABLE + "typedef union { unsigned w; int s; } u __attribute__(("
                                "transparent_union));\nunsigned f(u k);\nBLADE_SECRET_PARAM(f, k);\n"
                                "unsigned f(u k) { return table[k.w & 255]; }\n"}, export="f"),
    third("struct-of-two", {"a.c": HEAD + TABLE + "struct s { unsigned a, b; };\nunsigned f(struct s k);\n"
                            "BLADE_SECRET_PARAM(f, k);\nunsigned f(struct s k) { return table[k.a & 255]; "
                            "}\n"},
          export="f", starts=IN_MEMORY),
    third("multivalue-abi", {"a.c": HEAD + TABLE + "struct s { unsigned a, b; };\n"
                             "unsigned f(struct s p, unsigned k);\nBLADE_SECRET_PARAM(f, 1);\n"
                             "unsigned f(struct s p, unsigned k) { return table[k & 255] + p.a; }\n"},
          "blade-cc -mmultivalue -Xclang -target-abi -Xclang experimental-mv a.c -o out/", export="f",
          starts=("arg 1\narg 1\narg 3\n", "arg 1\narg 1\narg 9\n")),
    third("variadic-number", {"a.c": HEAD + TABLE + "unsigned f(unsigned n, ...);\nBLADE_SECRET_PARAM(f, "
                              "1);\n"
                              "unsigned f(unsigned n, ...) { __builtin_va_list l; __builtin_va_start(l, n); "
                              "unsigned k = __builtin_va_arg(l, unsigned); __builtin_va_end(l); "
                              "return table[k & 255]; }\nunsigned g(unsigned i) { return f(1, i); }\n"}),
    third("label-of-main", {"a.c": HEAD + TABLE + "int main(int argc, char **argv);\n"
                            "BLADE_SECRET_PARAM(main, argc);\nint main(int argc, char **argv) "
                            "{ return table[argc & 255]; }\n"}, "blade-cc -Wl,--export-all a.c -o out/",
          export="main", starts=("arg 3\narg 0\n", "arg 9\narg 0\n")),
    third("array-parameter", {"a.c": HEAD + TABLE + "unsigned f(const unsigned k[static "
                              "4]);\nBLADE_SECRET_PARAM(f, k);\n"
                              "unsigned f(const unsigned k[static 4]) { return table[*k & 255]; }\n"},
          export="f", starts=IN_MEMORY),
    third("register-volatile-parameter", {"a.c": HEAD + TABLE + "unsigned f(register volatile unsigned k);\n"
                                          "BLADE_SECRET_PARAM(f, k);\nunsigned f(register volatile "
                                          "unsigned k) "
                                          "{ return table[k & 255]; }\n"}, export="f"),
    third("name-is-a-macro", {"a.c": HEAD + TABLE + "unsigned f(unsigned p, unsigned k);\n"
                              "unsigned q(unsigned p) { return p; }\n#define k 0\nBLADE_SECRET_PARAM(f, "
                              "k);\n#undef k\n"
                              "unsigned f(unsigned p, unsigned k) { return table[k & 255] + p; }\n"},
          export="f", starts=TWO_WORDS),
    third("unnamed-parameters", {"a.c": HEAD + TABLE + "unsigned f(unsigned, "
                                 "unsigned);\nBLADE_SECRET_PARAM(f, k);\n"
                                 "unsigned f(unsigned a, unsigned b) { return table[b & 255] + a; }\n"},
          export="f", starts=TWO_WORDS),
    third("method-number", {"a.cc": TABLE + "struct s { unsigned f(unsigned p, unsigned k); int m; };\n"
                            "unsigned s::f(unsigned p, unsigned k) { return table[k & 255] + p; }\n"},
          "blade-cc --label 'secret-param _ZN1s1fEjj 1' a.cc -o out/", export="_ZN1s1fEjj",
          starts=("arg 1\narg 1\narg 3\n", "arg 1\narg 1\narg 9\n")),
    third("static-method-number", {"a.cc": TABLE + "struct s { static unsigned f(unsigned p, unsigned k); "
                                   "};\n"
                                   "unsigned s::f(unsigned p, unsigned k) { return table[k & 255] + p; }\n"},
          "blade-cc --label 'secret-param _ZN1s1fEjj 1' a.cc -o out/", export="_ZN1s1fEjj", starts=TWO_WORDS),
    third("virtual-base-constructor", {"a.cc": TABLE + "struct b { int m; };\n"
                                       "struct s : virtual b { unsigned v; s(unsigned k); };\n"
                                       "s::s(unsigned k) : v(table[k & 255]) {}\n"
                                       "extern \"C\" unsigned g(unsigned i) { s x(i); return x.v; }\n"},
          "blade-cc -fno-rtti --label 'secret-param _ZN1sC1Ej 1' a.cc -o out/"),
    third("class-by-value", {"a.cc": HEAD + TABLE + "struct s { unsigned v; s(const s &o) : v(o.v) {} "
                             "s(unsigned w) : "
                             "v(w) {} ~s() {} };\nunsigned f(s k, unsigned n);\nBLADE_SECRET_PARAM(f, k);\n"
                             "unsigned f(s k, unsigned n) { return table[k.v & 255] + n; }\n"
                             "extern \"C\" unsigned g(unsigned i) { return f(s(i), 1); }\n"}, CXX),
    third("struct-returned", {"a.c": HEAD + "struct s { unsigned a, b; };\nstruct s f(unsigned k);\n"
                              "BLADE_SECRET_PARAM(f, k);\nBLADE_PUBLIC_RESULT(f);\n"
                              "struct s f(unsigned k) { struct s r = {1, k & 0}; return r; }\n" + OWN},
          "blade-cc a.c -o out/", starts=None, right=(Answer(5, "error: "),)),
    third("result-of-nothing", {"a.c": HEAD + "void f(unsigned k);\nBLADE_SECRET_PARAM(f, k);\n"
                                "BLADE_PUBLIC_RESULT(f);\nvoid f(unsigned k) { (void)k; }\n" + OWN},
          "blade-cc a.c -o out/", starts=None),
    third("result-of-an-inner-call", {"a.c": HEAD + "unsigned f(unsigned k);\nBLADE_SECRET_PARAM(f, k);\n"
                                      "BLADE_PUBLIC_RESULT(f);\n__attribute__((const)) unsigned f(unsigned "
                                      "k) "
                                      "{ return k; }\n" + ENTRY}, "blade-cc -O3 a.c -o out/", starts=None),
    third("result-through-alias", {"a.c": HEAD + LABELLED + "BLADE_PUBLIC_RESULT(q);\n" + SAME}, starts=None),
    third("result-of-128-bits", {"a.c": HEAD + "unsigned __int128 f(unsigned k);\nBLADE_PUBLIC_RESULT(f);\n"
                                 "BLADE_SECRET_PARAM(f, k);\nunsigned __int128 f(unsigned k) { return k; "
                                 "}\n"},
          "blade-cc a.c -o out/", starts=None),
]

# What C++ makes beside a function.
BESIDE = [
    third("variadic-thunk", {"a.cc": TABLE + "struct a { virtual unsigned z(); int m; };\n"
                             "struct b { virtual unsigned f(unsigned k, ...); int n; };\nunsigned a::z() { "
                             "return 1; }\n"
                             "unsigned b::f(unsigned, ...) { return 2; }\n"
                             "struct s : a, b { unsigned f(unsigned k, ...) override; };\n"
                             "unsigned s::f(unsigned k, ...) { return table[k & 255]; }\n"
                             "extern \"C\" unsigned g(unsigned i) { static s x; b *volatile p = &x; return "
                             "p->f(i, 2); }\n"},
          "blade-cc -fno-rtti --public-callers=_ZN1s1fEjz --label 'secret-param _ZN1s1fEjz k' a.cc -o out/"),
    third("lambda-invoker", {"a.cc": TABLE + "extern \"C\" unsigned g(unsigned i) { unsigned (*volatile "
                             "p)(unsigned) = "
                             "[](unsigned k) -> unsigned { return k; }; return table[p(i) & 255]; }\n"},
          "blade-cc --label 'secret-param _ZZ1gENK3$_0clEj k' a.cc -o out/"),
    third("template-extern", {"f.h": "template <class T> T f(T k) { return k; }\nextern template unsigned "
                              "f(unsigned);\n",
                              "a.cc": "#include \"f.h\"\n" + TABLE + C_LOOK,
                              "b.cc": "#include \"f.h\"\ntemplate unsigned f(unsigned);\n"},
          "blade-cc --label 'secret-param _Z1fIjET_S0_ k' --public-callers=_Z1fIjET_S0_ a.cc b.cc -o out/"),
    third("template-declared", {"a.cc": HEAD + TABLE + "template <class T> T f(T k) { return k; }\n"
                                "template <> unsigned f<unsigned>(unsigned k);\n"
                                "BLADE_SECRET_PARAM(f<unsigned>, k);\n"
                                "template <> unsigned f<unsigned>(unsigned k) { return k; }\n" + C_LOOK},
                                CXX),
    third("inline-namespace", {"a.cc": HEAD + TABLE + "inline namespace v1 { unsigned f(unsigned k); }\n"
                               "BLADE_SECRET_PARAM(v1::f, k);\n"
                               "unsigned v1::f(unsigned k) { return k; }\n" + C_LOOK}, CXX),
    third("inline-namespace-outside", {"a.cc": HEAD + TABLE + "inline namespace v1 { unsigned f(unsigned "
                                       "k); }\n"
                                       "BLADE_SECRET_PARAM(f, k);\nunsigned v1::f(unsigned k) { return k; }\n"
                                       "extern \"C\" unsigned g(unsigned i) { return table[v1::f(i) & "
                                       "255]; }\n"
                                       "extern \"C\" { " + OWN + "}\n"}, CXX),
    third("operator-call", {"a.cc": TABLE + "struct s { unsigned operator()(unsigned k) const; };\n"
                            "unsigned s::operator()(unsigned k) const { return k; }\n"
                            "extern \"C\" unsigned g(unsigned i) { return table[s()(i) & 255]; }\n"},
          "blade-cc --label 'secret-param _ZNK1sclEj k' --public-callers=_ZNK1sclEj a.cc -o out/"),
    third("static-constructor", {"a.cc": HEAD + TABLE + C_LABELLED + "unsigned f(unsigned k) { return k; }\n"
                                 "static volatile unsigned seed = 5;\nstruct s { unsigned v; s() : "
                                 "v(f(seed)) {} };\n"
                                 "static s one;\nextern \"C\" unsigned g(unsigned i) { return table[(one.v "
                                 "+ i) & 255]; }\n"},
          CXX, starts=None),
    third("conversion-operator", {"a.cc": TABLE + "struct s { unsigned v; explicit s(unsigned w) : v(w) {} "
                                  "operator unsigned() const; };\ns::operator unsigned() const { return v; "
                                  "}\n"
                                  "extern \"C\" unsigned g(unsigned i) { return table[unsigned(s(i)) & "
                                  "255]; }\n"},
          "blade-cc --label 'secret-param _ZNK1scvjEv this' --public-callers=_ZNK1scvjEv a.cc -o out/"),
    third("constexpr-function", {"a.cc": HEAD + TABLE + "constexpr unsigned f(unsigned "
                                 "k);\nBLADE_SECRET_PARAM(f, k);\n"
                                 "constexpr unsigned f(unsigned k) { return k; }\n" + C_LOOK}, CXX),
    third("friend-function", {"a.cc": HEAD + TABLE + "struct s { unsigned v; friend unsigned f(s x, "
                              "unsigned k) "
                              "{ return k ^ x.v ^ x.v; } };\nunsigned f(s x, unsigned "
                              "k);\nBLADE_SECRET_PARAM(f, k);\n"
                              "extern \"C\" unsigned g(unsigned i) { return table[f(s{4}, i) & 255]; "
                              "}\n"}, CXX),
    third("cxx-module", {"m.cppm": "module;\n" + HEAD + "export module m;\nexport extern \"C\" inline "
                         "unsigned f(unsigned k);\n"
                         "BLADE_SECRET_PARAM(f, k);\nexport extern \"C\" inline unsigned f(unsigned k) { "
                         "return k; }\n",
                         "a.cc": "import m;\n" + TABLE + C_LOOK},
          "blade-cc -std=c++20 --precompile m.cppm -o m.pcm && blade-cc -std=c++20 -fmodule-file=m=m.pcm "
          "-fprebuilt-module-path=. --label 'secret-param g i' --public-callers=f a.cc -o out/"),
]

# What macros and options change of the labels themselves.
CHANGED = [
    third("no-wasm-macro", {"a.c": HEAD + TABLE + LABELLED + SAME + LOOK, "b.c": HEAD + OWN},
          "blade-cc -U__wasm__ -c a.c && blade-cc -c b.c && blade-cc a.o b.o -o out/"),
    third("no-attributes", {"a.c": HEAD + TABLE + LABELLED + SAME + LOOK},
          "blade-cc '-D__attribute__(x)=' --public-callers=f a.c -o out/"),
    third("no-attributes-two-units", {"a.c": HEAD + TABLE + "static inline " + LABELLED + "static inline "
                                      "" + SAME + LOOK,
                                      "b.c": HEAD + OWN},
          "blade-cc '-D__attribute__(x)=' -c a.c && blade-cc -c b.c && blade-cc a.o b.o -o out/"),
    third("no-noinline", {"a.c": HEAD + TABLE + LABELLED + SAME + LOOK},
          "blade-cc -D__noinline__=unused --public-callers=f a.c -o out/"),
    third("no-annotate", {"a.c": HEAD + TABLE + "static " + LABELLED + "static " + SAME + LOOK},
          "blade-cc '-D__annotate__(x)=unused' --public-callers=f a.c -o out/"),
    third("no-volatile", {"a.c": HEAD + TABLE + "unsigned g(unsigned x) { return table[BLADE_SECRET(x) & "
                          "255]; }\n"},
          "blade-cc -O3 -Dvolatile= a.c -o out/"),
    third("asm-is-nothing", {"a.c": HEAD + TABLE + LABELLED + SAME + LOOK, "b.c": HEAD + OWN},
          "blade-cc '-D__asm__(x)=struct blade_asm' -c a.c && blade-cc -c b.c && blade-cc a.o b.o -o out/"),
    third("line-directives", {"a.c": HEAD + OWN + "#line 1 \"x.c\"\nstatic inline unsigned f(unsigned k);\n"
                              "BLADE_SECRET_PARAM(f, k);\nstatic inline unsigned f(unsigned k) { return k "
                              "* 3; }\n"
                              "unsigned h2(unsigned k);\nBLADE_SECRET_PARAM(h2, k);\n"
                              "unsigned h2(unsigned k) { return f(k); }\n",
                              "b.c": TABLE + "#line 1 \"x.c\"\nstatic inline unsigned f(unsigned k);\n\n"
                              "static inline unsigned f(unsigned k) { return k * 3; }\n" + LOOK},
          "blade-cc a.c b.c -o out/"),
    third("one-source-twice", {"a.c": HEAD + TABLE + "#ifdef SECRET\n" + LABELLED + "#endif\n" + SAME +
                               "unsigned NAME(unsigned i) { return table[f(i) & 255]; }\n"},
          "blade-cc -DSECRET '-DNAME(x)=h(x)' -Df=f1 --public-callers=f1 -c a.c -o a1.o; "
          "blade-cc '-DNAME(x)=g(x)' -c a.c -o a2.o; blade-cc --public-callers=f1 a1.o a2.o "
          "--label 'secret-param f k' -o out/"),
    third("one-source-twice-static", {"a.c": HEAD + TABLE + "static inline unsigned f(unsigned k);\n#ifdef "
                                      "SECRET\n"
                                      "BLADE_SECRET_PARAM(f, k);\n#endif\n"
                                      "static inline unsigned f(unsigned k) { return k * 5 + 1; }\n#ifdef "
                                      "SECRET\n"
                                      "unsigned h(unsigned k);\nBLADE_SECRET_PARAM(h, k);\n"
                                      "unsigned h(unsigned k) { return f(k); }\n#else\n" + LOOK + "#endif\n"},
          "blade-cc -DSECRET -c a.c -o a1.o && blade-cc -c a.c -o a2.o && blade-cc a1.o a2.o -o out/"),
    third("precompiled-header", {"f.h": HEAD + LABELLED, "a.c": TABLE + SAME + LOOK, "b.c": HEAD + OWN},
          "blade-cc -x c-header f.h -o f.pch && blade-cc -include-pch f.pch -c a.c && blade-cc -c b.c && "
          "blade-cc --public-callers=f a.o b.o -o out/"),
    third("standard-input", {"a.c": HEAD + TABLE + LABELLED + SAME + LOOK},
          "blade-cc --public-callers=f -xc - -o out/ < a.c"),
    third("c-as-cxx", {"a.c": HEAD + TABLE + LABELLED + SAME + LOOK},
          "blade-cc --public-callers=f -x c++ a.c -o out/", export="_Z1gj"),
    third("text-of-llvm", {"a.c": TABLE + SAME + LOOK, "b.c": HEAD + OWN},
          f"{PLAIN} -S -emit-llvm -fvisibility=default a.c -o a.ll && blade-cc a.ll b.c --export g "
          f"--export f "
          "--label 'secret-param f 0' -o out/"),
    third("bitcode-linked-in", {"f.c": SAME, "a.c": HEAD + LABELLED + TABLE + LOOK, "b.c": HEAD + OWN},
          f"{PLAIN} -emit-llvm -c f.c -o f.bc && blade-cc -Xclang -mlink-builtin-bitcode -Xclang f.bc "
          "--public-callers=f a.c b.c -o out/"),
    third("own-section", {"a.c": HEAD + TABLE + LABELLED + "unsigned f(unsigned k) { return table[k & "
                          "255]; }\n"
                          "__asm__(\".section .custom_section.blade.labels,\\\"\\\",@\\n.byte "
                          "0\\n.text\\n\");\n"},
          "blade-cc a.c -o out/", export="f"),
    third("own-section-of-secrets", {"a.c": HEAD + TABLE + LABELLED + "unsigned f(unsigned k) { return "
                                     "table[k & 255]; }\n"
                                     "__asm__(\".section .custom_section.blade.sum,\\\"\\\",@\\n.byte "
                                     "0\\n.text\\n\");\n"
                                     "__asm__(\".section .custom_section.blade.units,\\\"\\\",@\\n.byte "
                                     "0\\n.text\\n\");\n"},
          "blade-cc a.c -o out/", export="f"),
    third("set-in-assembler", {"a.c": HEAD + TABLE + LABELLED + SAME + "unsigned q(unsigned k);\n"
                               "__asm__(\".globl q\\n.type q,@function\\n.set q, f\\n\");\n" +
                               LOOK.replace("f(i)", "q(i)")}),
    third("assembler-function", {"a.c": HEAD + TABLE + LABELLED + "__asm__(\".text\\n.globl f\\n.type "
                                 "f,@function\\nf:\\n"
                                 ".functype f (i32) -> (i32)\\nlocal.get 0\\nend_function\\n\");\n" + LOOK}),
]

# What the linker does.
LINKED = [
    third("two-definitions", {"a.c": TABLE + "unsigned f(unsigned k) { return table[k & 255]; }\n",
                              "b.c": HEAD + LABELLED + "unsigned f(unsigned k) { return k; }\n" + OWN},
          "blade-cc -Wl,--allow-multiple-definition a.c b.c -o out/", export="f"),
    third("two-definitions-plain", {"a.c": TABLE + "unsigned f(unsigned k) { return table[k & 255]; }\n",
                                    "b.c": HEAD + LABELLED + "unsigned f(unsigned k) { return k; }\n" + OWN},
          f"{PLAIN} -fvisibility=default -c a.c -o a.o && blade-cc -Wl,-zmuldefs a.o b.c --export f -o out/",
          export="f"),
    third("two-archives", {"a.c": TABLE + "unsigned f(unsigned k) { return k; }\n",
                           "b.c": HEAD + LABELLED + SAME, "m.c": HEAD + "unsigned f(unsigned k);\n" +
                           OWN + TABLE + LOOK},
          "blade-cc -c a.c && blade-cc -c b.c && blade-cc -c m.c && llvm-ar rcs liba.a a.o && "
          "llvm-ar rcs libb.a b.o && blade-cc m.o -L. -la -lb -o out/"),
    third("imported-memory", {"a.c": HEAD + TABLE + "BLADE_SECRET_MEMORY;\n" + READ},
          "blade-cc -Wl,--import-memory a.c -o out/", starts=None),
    third("memory-lto", {"a.c": HEAD + "BLADE_SECRET_MEMORY;\n" + OWN, "b.c": TABLE + READ},
          "blade-cc -flto --export g --export h a.c b.c -o out/", starts=IN_MEMORY),
    third("memory-thin-lto", {"a.c": HEAD + "BLADE_SECRET_MEMORY;\n", "b.c": TABLE + READ, "c.c": HEAD + OWN},
          "blade-cc -flto=thin --export g --export h a.c b.c c.c -o out/", starts=IN_MEMORY),
    third("memory-gc", {"a.c": HEAD + "BLADE_SECRET_MEMORY;\nstatic int unused(void) { return 1; }\n",
                        "b.c": TABLE + READ, "c.c": HEAD + OWN},
          "blade-cc -w -ffunction-sections -fdata-sections -Wl,--gc-sections a.c b.c c.c -o out/",
          starts=IN_MEMORY),
    third("position-independent", {"a.c": HEAD + TABLE + LABELLED + SAME + LOOK},
          "blade-cc -fPIC -fvisibility=default --public-callers=f a.c -o out/"),
    third("shared-library", {"a.c": HEAD + TABLE + LABELLED + SAME + LOOK},
          "blade-cc -fPIC -Wl,--experimental-pic -Wl,-shared --public-callers=f a.c -o out/", starts=None),
    third("sections", {"a.c": HEAD + TABLE + "__attribute__((section(\"text.secret\"), used)) " +
                       LABELLED + SAME + LOOK},
          "blade-cc -ffunction-sections -Wl,--gc-sections --public-callers=f a.c -o out/"),
    third("export-name-of-another", {"a.c": HEAD + TABLE + "static " + LABELLED + "static " + SAME + LOOK +
                                     "__attribute__((export_name(\"f\"))) unsigned q(unsigned k) { return "
                                     "k * 3; }\n"},
          "blade-cc --public-callers=f a.c -o out/"),
    third("split-debug", {"a.c": HEAD + TABLE + "static unsigned f(unsigned p, unsigned "
                          "k);\nBLADE_SECRET_PARAM(f, k);\n"
                          "static unsigned f(unsigned p, unsigned k) { return k ^ p ^ p; }\n"
                          "unsigned g(unsigned i) { return table[f(1, i) & 255]; }\n"},
          "blade-cc -gsplit-dwarf --public-callers=f a.c -o out/"),
    third("simple-names", {"a.cc": TABLE + "template <class T> __attribute__((noinline)) unsigned "
                           "f(unsigned k) "
                           "{ return table[(k + sizeof(T)) & 255]; }\n"
                           "template unsigned f<char>(unsigned);\ntemplate unsigned f<long "
                           "long>(unsigned);\n"},
          "blade-cc -gsimple-template-names --label 'secret-param f k' a.cc -o out/", export="_Z1fIxEjj"),
    third("types-section", {"a.cc": HEAD + TABLE + "namespace n { struct s { unsigned v; }; unsigned f(s "
                            "p, unsigned k); }\n"
                            "namespace n { BLADE_SECRET_PARAM(f, k); }\n"
                            "unsigned n::f(s p, unsigned k) { return k ^ p.v ^ p.v; }\n"
                            "extern \"C\" unsigned g(unsigned i) { return table[n::f(n::s{1}, i) & 255]; "
                            "}\n"},
          "blade-cc -gdwarf-5 -fdebug-types-section --public-callers=f a.cc -o out/"),
]

# Other ways on which a value goes.
WAYS = [
    third("cleanup", {"a.c": HEAD + TABLE + "static void f(unsigned *k);\nBLADE_SECRET_PARAM(f, "
                      "k);\nvolatile unsigned v;\n"
                      "static void f(unsigned *k) { v = table[*k & 255]; }\n"
                      "unsigned g(unsigned i) { __attribute__((cleanup(f))) unsigned x = i; return x + 1; "
                      "}\n"}),
    third("array-of-length", {"a.c": HEAD + LABELLED + SAME + "unsigned g(unsigned i) { volatile char "
                              "a[(f(i) & 255) + 1]; "
                              "a[0] = 3; return a[0]; }\n"}),
    third("overflow-builtin", {"a.c": HEAD + LABELLED + SAME + "volatile unsigned v;\nunsigned g(unsigned "
                               "i) { unsigned r; "
                               "if (__builtin_add_overflow(f(i), 4294967290u, &r)) v = 1; return r; }\n"}),
    third("compound-literal", {"a.c": HEAD + TABLE + LABELLED + SAME + "static unsigned sum(const unsigned "
                               "*p) "
                               "{ return p[0] + p[1]; }\nunsigned g(unsigned i) { return "
                               "table[sum((unsigned[]){f(i), 1}) & 255]; }\n"},
          "blade-cc -O3 --public-callers=f a.c -o out/"),
    third("statement-expression", {"a.c": HEAD + TABLE + LABELLED + SAME + "#define max(a, b) ({ unsigned "
                                   "x_ = (a), y_ = (b); "
                                   "x_ > y_ ? x_ : y_; })\nunsigned g(unsigned i) { return table[max(f(i), "
                                   "2u) & 255]; }\n"}),
    third("divisor-64", {"a.c": HEAD + "unsigned long long f(unsigned long long k);\nBLADE_SECRET_PARAM(f, "
                         "k);\n"
                         "unsigned long long f(unsigned long long k) { return k; }\n"
                         "unsigned g(unsigned i) { return (unsigned)(1000 % (f(i) | 1)); }\n"},
                         starts=("arg 2\n", "arg 7\n")),
    third("ways-in-memory", {"a.c": HEAD + TABLE + LABELLED + SAME + "unsigned last;\n"
                             "unsigned g(unsigned i) { last = f(i); return table[last & 255]; }\n"}),
    third("resolver", {"a.c": HEAD + TABLE + LABELLED + SAME + "typedef unsigned way(unsigned);\n"
                       "static way *pick(void) { return f; }\nunsigned g(unsigned i) { return "
                       "table[pick()(i) & 255]; }\n"},
          "blade-cc -O3 --public-callers=f a.c -o out/"),
    third("several-labels", {"a.c": HEAD + TABLE + "BLADE_SECRET_MEMORY;\n" + KEY +
                             "BLADE_PUBLIC_RESULT(g);\n" + LABELLED +
                             SAME + "unsigned g(unsigned key, unsigned i) { return f(key) ^ i; }\n"},
          "blade-cc -O2 a.c -o out/", starts=None),
    third("public-beside-secret", {"a.c": HEAD + TABLE + KEY + LABELLED + SAME +
                                   "unsigned g(unsigned key, unsigned i) { unsigned t[2] = {key, i}; "
                                   "return f(t[0]) ^ table[f(t[1]) & 255]; }\n"}, "blade-cc -O2 a.c -o out/",
          starts=TWO_WORDS),
]
THIRD = [*ASSUMED, *TOLD, *PASSED, *BESIDE, *CHANGED, *LINKED, *WAYS]


def right(name: str, files: Dict[str, str], command: str = "blade-cc a.c -o out/") -> Case:
    return Case(name, YES, files, command, "g", None)


# Twins of these without a leak.
THIRD_RIGHT = [
    right("twin-strict-warnings", {"a.c": HEAD + LABELLED + WORK + ENTRY},
          "blade-cc -std=c11 -Wall -Wextra -Werror -Wno-gnu a.c -o out/"),
    right("twin-unreachable", {"a.c": HEAD + LABELLED + WORK + "unsigned g(unsigned k, unsigned n);\n"
                               "BLADE_SECRET_PARAM(g, k);\nunsigned g(unsigned k, unsigned n) { switch (n "
                               "& 3) { case 0: "
                               "return f(k); case 1: return f(k) + 1; case 2: return 5; case 3: return 7; } "
                               "__builtin_unreachable(); }\n"}),
    right("twin-marked-unreachable", {"a.c": HEAD + "unsigned g(unsigned x, unsigned n) { unsigned y = "
                                      "BLADE_SECRET(x); "
                                      "switch (n & 3) { case 0: return y; case 1: return y + 1; case 2: "
                                      "return y * 5; "
                                      "case 3: return 7 ^ y; } __builtin_unreachable(); }\n"}),
    right("twin-marked-assume", {"a.c": HEAD + "unsigned g(unsigned x, unsigned n) { __builtin_assume(n < "
                                 "9); unsigned "
                                 "r = BLADE_SECRET(x); for (unsigned i = 0; i < n; i++) r = r * 3 + 1; "
                                 "return r; }\n"},
          "blade-cc -O3 a.c -o out/"),
    right("twin-marked-null", {"a.c": HEAD + "unsigned g(unsigned x, const unsigned *p) { unsigned y = "
                               "BLADE_SECRET(x); "
                               "return p ? *p ^ y : y; }\n"}),
    right("twin-marked-two-units", {"a.c": MARKER, "b.c": "unsigned mark(unsigned x);\n"
                                    "unsigned g(unsigned x) { return mark(x) * 5; }\n"},
          "blade-cc --no-assumptions -c b.c && blade-cc a.c b.o -o out/"),
    right("twin-attributes", {"a.c": HEAD + "__attribute__((const, hot, used, visibility(\"default\"), "
                              "section(\"text.secret\"))) " + LABELLED + WORK + ENTRY},
          "blade-cc -O3 -w -ffunction-sections -Wl,--gc-sections a.c -o out/"),
    right("twin-pragmas", {"a.c": HEAD + "#pragma GCC visibility push(default)\n" + LABELLED + WORK + ENTRY +
                           "#pragma GCC visibility pop\n"}),
    right("twin-namespaces", {"a.cc": HEAD + "inline namespace v1 { unsigned f(unsigned k); "
                              "BLADE_SECRET_PARAM(f, k); }\n"
                              "unsigned v1::f(unsigned k) { return k * 3 + 1; }\nextern \"C\" { " +
                              ENTRY + "}\n"},
          "blade-cc a.cc -o out/"),
    right("twin-header-in-both", {"f.h": HEAD + LABELLED, "a.c": "#include \"f.h\"\n" + WORK,
                                  "b.c": "#include \"f.h\"\n" + ENTRY},
          "blade-cc -O3 -ffunction-sections a.c b.c -Wl,--gc-sections -o out/"),
    right("twin-precompiled", {"f.h": HEAD + LABELLED, "a.c": WORK + ENTRY},
          "blade-cc -include f.h a.c -o out/"),
    right("twin-old-definition", {"a.c": HEAD + "unsigned g();\nBLADE_SECRET_PARAM(g, k);\n"
                                  "unsigned g(n, k) unsigned short n; unsigned char k; { return k * 5u + "
                                  "n; }\n"},
          "blade-cc -std=gnu89 a.c -o out/"),
    right("twin-struct", {"a.c": HEAD + "struct s { unsigned k; };\nunsigned g(struct s "
                          "k);\nBLADE_SECRET_PARAM(g, k);\n"
                          "unsigned g(struct s k) { return k.k * 5; }\n"}),
    right("twin-register", {"a.c": HEAD + "unsigned g(const register unsigned k);\nBLADE_SECRET_PARAM(g, "
                            "k);\n"
                            "unsigned g(const register unsigned k) { return k * 5; }\n"}),
    right("twin-split-lines", {"a.c": "#include \\\n\"blade.h\"\nunsigned g(unsigned "
                               "k);\nBLADE_SECRET_PARAM(\n  g,\n"
                               "  k\n);\n#line 900 \"made.c\"\nunsigned g(unsigned k) { return k * 5; }\n"}),
]
