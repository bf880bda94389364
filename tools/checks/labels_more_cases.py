"""Further programs for tools/checks/labels, written by somebody who did not write the guards: other options
of the compiler and the linker, other names for one function, units of other compilers, C++, LLVM's bitcode,
archives, and marked values. MORE has those whose answer is no or an error, RIGHT has programs whose labels
are all right. Licence: public domain (CC0)."""
from typing import Dict, Optional, Tuple

from labels_cases import COPY, HEAD, LABELLED, LOOK, NO, SAME, TABLE, YES, Answer, Case

REFUSED = (Answer(1, "constant-time no"), Answer(5, "error: "))  # either keeps the label from getting lost
BUILD = (Answer(3, "error"),)  # clang or the linker refuses it
TWO_WORDS = ("arg 1\narg 3\n", "arg 1\narg 9\n")
H = "unsigned h(unsigned k);\nBLADE_SECRET_PARAM(h, k);\nunsigned h(unsigned k) { return f(k) + 1; }\n"
IN_MEMORY = ("arg 131072\nmemory 0 131072 03000000\n", "arg 131072\nmemory 0 131072 09000000\n")
WORDS = "--label 'secret-param f 0'"
PLAIN = "${CLANG:-clang} --target=wasm32 -mcpu=mvp -O2"  # a compiler that knows nothing of labels
HEADERS = "-isystem $COMPANIONS/include"


def more(name: str, files: Dict[str, str], command: str = "blade-cc a.c -o out/",
         right: Tuple[Answer, ...] = REFUSED, export: str = "g",
         starts: Optional[Tuple[str, str]] = ("arg 3\n", "arg 9\n")) -> Case:
    return Case(name, right, files, command, export, starts)


MORE = [
    # Other names for one function.
    more("words-export-name", {"a.c": TABLE + "__attribute__((export_name(\"lookup\"))) " + SAME + LOOK},
         "blade-cc --label 'secret-param lookup 0' --export g a.c -o out/"),
    more("words-alias",
         {"a.c": TABLE + SAME + "unsigned q(unsigned k) __attribute__((alias(\"f\")));\n" + LOOK},
         "blade-cc --label 'secret-param q 0' a.c -o out/"),
    more("words-alias-called", {"a.c": TABLE + SAME + "unsigned q(unsigned k) "
                                "__attribute__((alias(\"f\")));\n" + LOOK.replace("f(i)", "q(i)")},
         "blade-cc --label 'secret-param q 0' a.c -o out/"),
    more("words-demangled", {"a.cc": TABLE + "int f(int k) { return k; }\nextern \"C\" unsigned g(int i) "
                             "{ return table[f(i) & 255]; }\n"},
         "blade-cc --label 'secret-param f(int) 0' a.cc -o out/"),
    more("words-demangled-method",
         {"a.cc": TABLE + "struct s { int f(int k) const; int p; };\nint s::f(int k) const { return k; }\n"
          "extern \"C\" unsigned g(int i) { s x = {1}; return table[x.f(i) & 255]; }\n"},
         "blade-cc --label 'secret-param s::f(int)_const 1' a.cc -o out/; "
         "blade-cc --label 'secret-param _ZNK1s1fEi 0' a.cc -o out/"),
    more("words-namespace-demangled", {"a.cc": TABLE + "namespace n { int f(int k) { return k; } }\n"
                                       "extern \"C\" unsigned g(int i) { return table[n::f(i) & 255]; }\n"},
         "blade-cc --label 'secret-param n::f(int) 0' a.cc -o out/"),
    more("words-asm-name", {"a.c": TABLE + "unsigned f(unsigned k) __asm__(\"other\");\n" + SAME + LOOK},
         "blade-cc --label 'secret-param other k' a.c -o out/"),
    more("extname-pragma",
         {"a.c": HEAD + TABLE + "#pragma redefine_extname f other\n" + LABELLED + SAME + LOOK}),
    more("renamed-by-define", {"a.c": HEAD + TABLE + LABELLED + SAME + LOOK},
         "blade-cc -Df=my_f a.c -o out/"),
    more("alias-flatten", {"a.c": HEAD + TABLE + LABELLED + "unsigned f(unsigned k) { return k & 255; }\n"
                           "unsigned q(unsigned k) __attribute__((alias(\"f\")));\n"
                           "__attribute__((flatten)) unsigned g(unsigned i) { return table[q(i)]; }\n"}),
    more("pointer-flatten", {"a.c": HEAD + TABLE + LABELLED + "unsigned f(unsigned k) { return k & 255; }\n"
                             "static unsigned (*const way)(unsigned) = f;\n"
                             "__attribute__((flatten)) unsigned g(unsigned i) { return table[way(i)]; }\n"}),
    more("table-of-pointers",
         {"a.c": HEAD + TABLE + LABELLED + SAME + "static unsigned other(unsigned k) { return k + 1; }\n"
          "static unsigned (*const ways[2])(unsigned) = {f, other};\nunsigned g(unsigned i) "
          "{ return table[ways[0](i) & 255]; }\n"}),
    more("callback", {"a.c": HEAD + TABLE + LABELLED + SAME + "static unsigned twice(unsigned "
                      "(*way)(unsigned), unsigned x) { return way(way(x)); }\n"
                      "unsigned g(unsigned i) { return table[twice(f, i) & 255]; }\n"},
         "blade-cc -O3 a.c -o out/"),
    more("alias-macro", {"a.c": HEAD + TABLE + "unsigned q(unsigned k);\nBLADE_SECRET_PARAM(q, k);\n" + SAME +
                         "unsigned q(unsigned k) __attribute__((alias(\"f\")));\n"
                         + LOOK.replace("f(i)", "q(i)")}),
    # Functions that clang knows by name, in a unit that doesn't see the label.
    more("builtin-caller-unlabelled", {"a.c": HEAD + "int abs(int k);\nBLADE_SECRET_PARAM(abs, k);\n"
                                       "int abs(int k) { int m = k >> 31; return (k ^ m) - m; }\n",
                                       "b.c": TABLE + "int abs(int);\nunsigned g(int i) "
                                       "{ return table[abs(i) & 255]; }\n"}, "blade-cc a.c b.c -o out/"),
    more("builtin-words-one-unit", {"a.c": "int ffs(int k) { int n = 0; for (int b = 32; b-- > 0;) "
                                    "{ int s = -(k >> b & 1); n = ((b + 1) & s) | (n & ~s); } return n; }\n",
                                    "b.c": TABLE + "int ffs(int);\nunsigned g(int i) { return table[ffs(i) "
                                    "& 255]; }\n"},
         "blade-cc --label 'secret-param ffs k' -c a.c && blade-cc -c b.c && blade-cc a.o b.o --label "
         "'secret-param ffs k' -o out/", starts=("arg 3\n", "arg 8\n")),
    more("builtin-asm-name",
         {"a.c": HEAD + TABLE + "int size_of(int k) __asm__(\"abs\");\nBLADE_SECRET_PARAM(size_of, k);\n"
          "int size_of(int k) { int m = k >> 31; return (k ^ m) - m; }\nunsigned g(int i) "
          "{ return table[size_of(i) & 255]; }\n"}),
    # Units of other compilers.
    more("plain-object-words", {"a.c": TABLE + SAME + LOOK},
         f"{PLAIN} -c a.c -o a.o && blade-cc a.o --export f --export g {WORDS} -o out/"),
    more("plain-object-instructions",
         {"a.c": TABLE + "unsigned f(unsigned k) { return k * 5 + 1; }\n" + LOOK},
         f"{PLAIN} -c a.c -o a.o && blade-cc a.o --export f --export g {WORDS} -o out/"),
    more("plain-object-macro", {"a.c": HEAD + TABLE + LABELLED + SAME + LOOK},
         f"{PLAIN} -gdwarf-4 {HEADERS} -c a.c -o a.o && blade-cc a.o --export f --export g -o out/"),
    more("plain-object-visible-cxx", {"a.cc": HEAD + TABLE + LABELLED + SAME + "extern \"C\" " + LOOK},
         f"{PLAIN} -gdwarf-4 -fvisibility=default {HEADERS} -c a.cc -o a.o && blade-cc a.o -o out/"),
    more("plain-header-copy", {"f.h": HEAD + "static inline unsigned f(unsigned k);\nBLADE_SECRET_PARAM(f, "
                               "k);\nstatic inline unsigned f(unsigned k) { return k * 3; }\n",
                               "a.c": "#include \"f.h\"\nunsigned h(unsigned k);\nBLADE_SECRET_PARAM(h, k);\n"
                               "unsigned h(unsigned k) { return f(k) + 1; }\n",
                               "b.c": TABLE + "#include \"f.h\"\n" + LOOK},
         f"blade-cc -c a.c && {PLAIN} -gdwarf-4 -fvisibility=default {HEADERS} -c b.c -o b.o && blade-cc "
         "a.o b.o -o out/"),
    more("plain-cxx-inline-copy", {"f.h": HEAD + "inline unsigned f(unsigned k);\nBLADE_SECRET_PARAM(f, k);\n"
                                   "inline unsigned f(unsigned k) { return k; }\n",
                                   "a.cc": "#include \"f.h\"\nextern \"C\" { unsigned h(unsigned k);\n"
                                   "BLADE_SECRET_PARAM(h, k);\n"
                                   "unsigned h(unsigned k) { return f(k) + 1; } }\n",
                                   "b.cc": TABLE + "#include \"f.h\"\nextern \"C\" " + LOOK},
         f"blade-cc -c a.cc && {PLAIN} -gdwarf-4 -fvisibility=default {HEADERS} -c b.cc -o b.o && blade-cc "
         "a.o b.o -o out/"),
    more("plain-strong-over-weak", {"a.c": HEAD + LABELLED + "__attribute__((weak)) " + SAME,
                                    "b.c": TABLE + SAME + LOOK},
         f"blade-cc -c a.c && {PLAIN} -fvisibility=default -c b.c -o b.o && blade-cc a.o b.o -o out/"),
    more("plain-bitcode-words", {"a.c": TABLE + SAME + LOOK},
         f"{PLAIN} -flto -c a.c -o a.o && blade-cc a.o --export f --export g {WORDS} -o out/"),
    more("plain-bitcode-macro", {"a.c": HEAD + TABLE + LABELLED + SAME + LOOK},
         f"{PLAIN} -gdwarf-4 -flto {HEADERS} -c a.c -o a.o && blade-cc a.o --export f --export g -o out/"),
    more("bitcode-without-lto", {"f.h": HEAD + LABELLED, "a.c": "#include \"f.h\"\n" + SAME,
                                 "b.c": "#include \"f.h\"\n" + TABLE + LOOK},
         "blade-cc -emit-llvm -c a.c -o a.bc && blade-cc -emit-llvm -c b.c -o b.bc && blade-cc a.bc b.bc "
         "--export f --export g -o out/"),
    more("assembler-of-plain", {"a.c": TABLE + SAME + LOOK},
         f"{PLAIN} -fvisibility=default -S a.c -o a.s && blade-cc a.s {WORDS} -o out/"),
    more("assembler-object", {"a.c": TABLE + SAME + LOOK}, f"{PLAIN} -fvisibility=default -S a.c -o a.s "
         f"&& blade-cc -c a.s -o a.o && blade-cc a.o {WORDS} -o out/"),
    more("relocatable-mixed", {"a.c": HEAD + "unsigned h(unsigned k);\nBLADE_SECRET_PARAM(h, k);\n"
                               "unsigned h(unsigned k) { return k * 7; }\n", "b.c": TABLE + SAME + LOOK},
         f"blade-cc -c a.c && {PLAIN} -fvisibility=default -c b.c -o b.o && wasm-ld -r -o c.o a.o b.o && "
         f"blade-cc c.o {WORDS} -o out/"),
    more("relocatable-labels", {"a.c": HEAD + "unsigned first(unsigned x) { return x * 9; }\n" + LABELLED
                                + TABLE + "unsigned f(unsigned k) { return table[k & 255]; }\n",
                                "b.c": "unsigned zero(unsigned x) { return x * 11; }\n"},
         "blade-cc -c a.c && blade-cc -c b.c && wasm-ld -r -o c.o b.o a.o && blade-cc c.o -o out/",
         export="f"),
    more("plain-archive-member", {"a.c": HEAD + "unsigned h(unsigned k);\nBLADE_SECRET_PARAM(h, k);\n"
                                  "unsigned h(unsigned k) { return k * 7; }\n", "b.c": TABLE + SAME + LOOK},
         f"blade-cc -c a.c && {PLAIN} -c b.c -o b.o && llvm-ar rcsT libb.a b.o && blade-cc a.o -L. "
         f"-lb --export g --export h --export f {WORDS} -o out/"),
    # One function in several units.
    more("header-through-link", {"inc/f.h": "static inline unsigned f(unsigned k) { return k * 5 + 1; }\n",
                                 "a.c": HEAD + "static inline unsigned f(unsigned k);\nBLADE_SECRET_PARAM(f, "
                                 "k);\n#include \"inc/f.h\"\n" + H,
                                 "b.c": TABLE + "#include \"installed/f.h\"\n" + LOOK},
         "ln -s inc installed && blade-cc a.c b.c -o out/"),
    more("header-prefix-map", {"f.h": "static inline unsigned f(unsigned k) { return k * 5 + 1; }\n",
                               "a.c": HEAD + "static inline unsigned f(unsigned k);\nBLADE_SECRET_PARAM(f, "
                               "k);\n#include \"f.h\"\n" + H,
                               "b.c": TABLE + "#include \"f.h\"\n" + LOOK},
         "blade-cc -c a.c && blade-cc -fdebug-prefix-map=$PWD=/src -c b.c && blade-cc a.o b.o -o out/"),
    more("preprocessed-without-lines", {"f.h": "static inline unsigned f(unsigned k) { return k * 5 + 1; }\n",
                                        "a.c": HEAD + "static inline unsigned f(unsigned k);\n"
                                        "BLADE_SECRET_PARAM(f, k);\n#include \"f.h\"\n" + H,
                                        "b.c": TABLE + "#include \"f.h\"\n" + LOOK},
         "blade-cc -E -P b.c -o b.i && blade-cc a.c b.i -o out/"),
    more("namespaces-two-units",
         {"a.cc": HEAD + "namespace a { unsigned f(unsigned k);\nBLADE_SECRET_PARAM(f, k);\n}\n"
          "extern \"C\" unsigned h(unsigned x) { return x; }\n",
          "b.cc": TABLE + "namespace a { " + SAME + "}\nextern \"C\" unsigned g(unsigned i) "
          "{ return table[a::f(i) & 255]; }\n",
          "c.cc": HEAD + "extern \"C\" { " + LABELLED + SAME + "}\n"}, "blade-cc a.cc b.cc c.cc -o out/"),
    more("template-one-unit", {"f.h": "template <class T> unsigned f(T k) { return k * 5 + 1; }\n",
                               "a.cc": "#include \"f.h\"\nextern \"C\" unsigned h(unsigned x) { return f(x) "
                               "+ 1; }\n", "b.cc": TABLE + "#include \"f.h\"\nextern \"C\" " + LOOK},
         "blade-cc --label 'secret-param _Z1fIjEjT_ k' -c a.cc && blade-cc -c b.cc && blade-cc "
         "--public-callers=_Z1fIjEjT_ a.o b.o --label 'secret-param _Z1fIjEjT_ k' -o out/"),
    more("lto-two-statics", {"a.c": HEAD + TABLE + "static unsigned f(unsigned k);\nBLADE_SECRET_PARAM(f, "
                             "k);\nstatic unsigned f(unsigned k) { return k * 5 + 1; }\n"
                             "unsigned h(unsigned k);\nunsigned g(unsigned key, unsigned i);\n"
                             "BLADE_SECRET_PARAM(g, key);\n"
                             "unsigned g(unsigned key, unsigned i) { return h(key) ^ table[f(i) & 255]; }\n",
                             "b.c": "__attribute__((noinline)) static unsigned f(unsigned k) { return k * 3; "
                             "}\nunsigned h(unsigned i) { return f(i); }\n"},
         "blade-cc -flto --export g b.c a.c -o out/", starts=TWO_WORDS),
    # What the optimiser makes of a labelled function.
    more("specialised-beside", {"a.c": HEAD + TABLE + "static unsigned one(unsigned x) { return x + 1; }\n"
                                "unsigned f(unsigned (*how)(unsigned), unsigned k);\n"
                                "BLADE_SECRET_PARAM(f, k);\nunsigned f(unsigned (*how)(unsigned), "
                                "unsigned k) { unsigned r = 0; for (int n = 0; n < 9; n++) r += how(k + n); "
                                "return r; }\n"
                                "unsigned g(unsigned key, unsigned (*how)(unsigned), unsigned i);\n"
                                "BLADE_SECRET_PARAM(g, key);\n"
                                "unsigned g(unsigned key, unsigned (*how)(unsigned), unsigned i) "
                                "{ return f(how, key) ^ table[f(one, i) & 255]; }\n"},
         "blade-cc -O3 a.c -o out/", starts=("arg 1\narg 1\narg 3\n", "arg 1\narg 1\narg 9\n")),
    more("const-attribute", {"a.c": HEAD + TABLE + "__attribute__((const)) " + LABELLED + SAME + LOOK},
         "blade-cc -O3 -ffast-math -fmerge-all-constants a.c -o out/"),
    more("pure-hot-O3", {"a.c": HEAD + TABLE + "__attribute__((pure, hot)) static inline " + LABELLED
                         + "static inline " + SAME +
                         "unsigned g(unsigned i) { unsigned r = 0; for (unsigned n = 0; n < 4; n++) "
                         "r += table[f(i) & 255]; return r; }\n"}, "blade-cc -O3 a.c -o out/"),
    more("restrict-out", {"a.c": HEAD + TABLE + "static void f(unsigned *restrict to, unsigned k);\n"
                          "BLADE_SECRET_PARAM(f, k);\n"
                          "static void f(unsigned *restrict to, unsigned k) { *to = k; }\n"
                          "unsigned g(unsigned i) { unsigned x; f(&x, i); return table[x & 255]; }\n"},
         "blade-cc -O3 a.c -o out/"),
    more("struct-by-value", {"a.c": HEAD + TABLE + "struct s { unsigned k; };\nstatic struct s f(struct "
                             "s v);\nBLADE_SECRET_PARAM(f, v);\nstatic struct s f(struct s v) { return v; }\n"
                             "unsigned g(unsigned i) { struct s x = {i}; return table[f(x).k & 255]; }\n"}),
    more("bit-fields", {"a.c": HEAD + TABLE + "struct s { unsigned a : 8, b : 24; };\n"
                        "unsigned f(unsigned k);\nBLADE_SECRET_PARAM(f, k);\n"
                        "unsigned f(unsigned k) { struct s x = {k, 1}; return x.a; }\nunsigned g(unsigned i) "
                        "{ return table[f(i)]; }\n"}, "blade-cc -Oz a.c -o out/"),
    more("musttail", {"a.c": HEAD + TABLE + LABELLED + SAME + "unsigned g(unsigned i) "
                      "{ if (table[i & 1] > 5) return 1; __attribute__((musttail)) return f(i); }\n"},
         right=(*REFUSED, *BUILD)),
    more("old-style-definition", {"a.c": HEAD + TABLE + "unsigned f();\nBLADE_SECRET_PARAM(f, k);\n"
                                  "unsigned f(p, k) unsigned p; unsigned char k; { return p & 1 ? k : k; }\n"
                                  "unsigned g(unsigned i) { return table[f(1, i)]; }\n"},
         "blade-cc -std=gnu89 a.c -o out/"),
    more("generic-selection", {"a.c": HEAD + TABLE + LABELLED + SAME
                               + "static unsigned wide(unsigned long long k) { return (unsigned)k; }\n"
                               "#define any(x) _Generic((x), unsigned long long: wide, unsigned: f)(x)\n"
                               "unsigned g(unsigned i) { return table[any(i) & 255]; }\n"}),
    more("computed-goto",
         {"a.c": HEAD + LABELLED + SAME + "unsigned g(unsigned i) { static const void *const to[] = {&&one, "
          "&&two}; goto *to[f(i) & 1];\none: return 7;\ntwo: return 9; }\n"},
         starts=("arg 2\n", "arg 3\n")),
    more("switch-table",
         {"a.c": HEAD + LABELLED + SAME + "unsigned g(unsigned i) { switch (f(i)) { case 0: return 4; "
          "case 1: return 17; case 2: return 3; case 3: return 99; } return 5; }\n"}),
    more("divisor", {"a.c": HEAD + LABELLED + SAME + "unsigned g(unsigned i) { return 1000 / (f(i) "
                     "| 1); }\n"}, "blade-cc -Os -fno-plt -ffunction-sections -Wl,--gc-sections a.c -o out/"),
    more("lambda-words", {"a.cc": TABLE + "extern \"C\" unsigned g(unsigned i) { auto f = [](unsigned k) "
                          "{ return k; }; return table[f(i) & 255]; }\n"},
         "blade-cc --label 'secret-param operator() k' a.cc -o out/"),
    more("method-other-order",
         {"a.cc": TABLE + "struct s { unsigned f(unsigned key, unsigned other); unsigned p; };\n"
          "unsigned s::f(unsigned other, unsigned key) { return table[other & 255] ^ key; }\n"},
         "blade-cc --label 'secret-param _ZN1s1fEjj key' a.cc -o out/", export="_ZN1s1fEjj",
         starts=("arg 0\narg 3\narg 1\n", "arg 0\narg 9\narg 1\n")),
    more("letters-of-names",
         {"a.c": HEAD + TABLE + "unsigned f(unsigned key, unsigned a$);\nBLADE_SECRET_PARAM(f, key);\n"
          "unsigned f(unsigned a$, unsigned key) { return table[a$ & 255] ^ key; }\n"}, export="f",
         starts=("arg 3\narg 1\n", "arg 9\narg 1\n")),
    more("label-behind-definition", {"a.c": HEAD + TABLE + SAME + LABELLED + LOOK},
         "blade-cc -w -Wno-ignored-attributes a.c -o out/", right=(*REFUSED, *BUILD)),
    more("module-of-clang", {"inc/f.h": HEAD + LABELLED + SAME.replace(
        "unsigned f", "static inline unsigned f", 1).replace("static inline ", ""),
                             "inc/module.modulemap": "module F { header \"f.h\" export * }\n",
                             "a.c": "#include \"f.h\"\n" + TABLE + LOOK,
                             "b.c": HEAD + "unsigned h(unsigned k);\nBLADE_SECRET_PARAM(h, k);\n"
                             "unsigned h(unsigned k) { return k * 3; }\n"},
         "blade-cc -fmodules -fmodules-cache-path=cache -fmodule-map-file=inc/module.modulemap -Iinc a.c "
         "b.c -o out/", right=(*REFUSED, *BUILD)),
    # Marked values.
    more("marked-128-bits", {"a.c": HEAD + TABLE + "unsigned g(unsigned __int128 x) { unsigned __int128 "
                             "y = BLADE_SECRET(x); return table[(unsigned char)(y >> 64)]; }\n"},
         starts=TWO_WORDS, right=(*REFUSED, *BUILD)),
    more("marked-many-bits", {"a.c": HEAD + TABLE + "unsigned g(unsigned long long x) { unsigned _BitInt(96) "
                              "w = (unsigned _BitInt(96))x << 64; w = BLADE_SECRET(w);\n"
                              "return table[(unsigned char)(w >> 64)]; }\n"}, "blade-cc -std=c2x a.c -o out/",
         right=(*REFUSED, *BUILD)),
    more("marked-assumed", {"a.c": HEAD + TABLE + "unsigned g(unsigned x) { unsigned y = BLADE_SECRET(x); "
                            "if (y != x) __builtin_unreachable(); return table[y & 255]; }\n"}),
    more("marked-beside-stripped", {
        "a.c": HEAD + TABLE + "unsigned g(unsigned x) { return table[BLADE_SECRET(x) & 255]; }\n"
               "unsigned h(unsigned k) { return k * 3; }\n"},
         "blade-cc -Wl,--strip-all --label 'secret-param h 0' a.c -o out/"),
    more("marked-plain-stripped",
         {"a.c": HEAD + TABLE + "unsigned g(unsigned x) { return table[BLADE_SECRET(x) & 255]; }\n",
          "b.c": "unsigned h(unsigned k) { return k * 3; }\n"},
         f"{PLAIN} {HEADERS} -fvisibility=default -c a.c -o a.o && blade-cc -Wl,-s --label 'secret-param "
         "h 0' b.c a.o -o out/"),
    more("marked-bool", {"a.c": HEAD + TABLE + "unsigned g(unsigned x) { _Bool y = x & 1; y = "
                         "BLADE_SECRET(y); return table[y]; }\n"}, starts=("arg 0\n", "arg 1\n"), right=NO),
    # Memories and what is made of modules.
    more("ledger-of-secrets", {"a.c": "#include \"ledger.h\"\n" + HEAD + TABLE + "BLADE_SECRET_MEMORY;\n"
                               "unsigned g(unsigned *p) { return table[*p & 255]; }\n"},
         "blade-cc --ledger a.c -o out/", starts=None, right=NO),
    more("old-folder", {"a.c": HEAD + LABELLED + "unsigned f(unsigned k) { return k * 3; }\n", "b.c": HEAD
                        + TABLE + LABELLED + "unsigned f(unsigned k) { return table[k & 255]; }\n"},
         "blade-cc a.c -o out/ && cp b.c a.c && blade-cc a.c -o out/", export="f", right=NO),
    more("builtin-rules-of-make", {"a.c": HEAD + TABLE + LABELLED + "unsigned f(unsigned k) "
                                   "{ return k * 3; }\n" + LOOK}, "make -s CC=blade-cc CFLAGS=-O1 a",
         right=(Answer(2, "passes a public value"), Answer(2, "constant-time no"))),
    # A second wave.
    more("words-two-statics-one-compiled",
         {"a.c": "static unsigned f(unsigned k) { return k * 3; }\nunsigned h(unsigned k) { return f(k); }\n",
          "b.c": TABLE + "static unsigned f(unsigned k) { return k * 5 + 1; }\n" + LOOK},
         "blade-cc --label 'secret-param f k secret-param h k' -c a.c && blade-cc -c b.c && blade-cc a.o "
         "b.o --label 'secret-param f k secret-param h k' -o out/"),
    more("bitcode-beside-pointer", {"f.h": HEAD + LABELLED, "a.c": "#include \"f.h\"\n" + SAME,
                                    "b.c": "#include \"f.h\"\n" + TABLE
                                    + "unsigned (*volatile way)(unsigned) = f;\nunsigned g(unsigned key, "
                                    "unsigned i);\nBLADE_SECRET_PARAM(g, key);\n"
                                    "unsigned g(unsigned key, unsigned i) { return way(key) ^ table[f(i) "
                                    "& 255]; }\n"},
         "blade-cc -emit-llvm -c a.c -o a.bc && blade-cc -emit-llvm -c b.c -o b.bc && blade-cc a.bc b.bc "
         "--export f --export g -o out/", starts=TWO_WORDS),
    more("thin-lto-static", {"a.c": HEAD + TABLE + "static " + LABELLED + "static " + SAME + LOOK,
                             "b.c": "unsigned h(unsigned i) { return i * 3; }\n"},
         "blade-cc -flto=thin --export g --export h a.c b.c -o out/", right=(*REFUSED, *BUILD)),
    more("lto-caller-unlabelled", {"a.c": HEAD + LABELLED + SAME, "b.c": TABLE + "unsigned f(unsigned k);\n"
                                   + LOOK}, "blade-cc -flto --export g a.c b.c -o out/"),
    more("flatten-cxx-destructor",
         {"a.cc": HEAD + TABLE + "extern \"C\" { " + LABELLED + "unsigned f(unsigned k) { return k & 255; "
          "} }\nextern volatile int v;\nvolatile int v;\n"
          "struct s { ~s(); };\n__attribute__((noinline)) s::~s() { v = 1; }\n"
          "extern \"C\" __attribute__((flatten)) unsigned g(unsigned i) { s x; return table[f(i)]; }\n"},
         "blade-cc -fexceptions a.cc -o out/", right=(*REFUSED, *BUILD)),
    more("attributor-copies", {"a.cc": HEAD + TABLE + "extern \"C\" { inline unsigned f(unsigned k);\n"
                               "BLADE_SECRET_PARAM(f, k);\n}\ninline unsigned f(unsigned k) { return k; }\n"
                               "unsigned (*volatile way)(unsigned) = f;\nextern \"C\" { unsigned g(unsigned "
                               "key, unsigned i);\nBLADE_SECRET_PARAM(g, key);\n"
                               "unsigned g(unsigned key, unsigned i) { return way(key) ^ table[f(i) "
                               "& 255]; } }\n"},
         "blade-cc -O3 -mllvm -attributor-enable=all -mllvm -attributor-allow-deep-wrappers a.cc -o out/",
         starts=TWO_WORDS),
    more("specialised-beside-static", {"a.c": HEAD + TABLE + "static unsigned one(unsigned x) { return "
                                       "x + 1; }\nstatic unsigned f(unsigned (*how)(unsigned), unsigned k);\n"
                                       "BLADE_SECRET_PARAM(f, k);\nstatic unsigned f(unsigned "
                                       "(*how)(unsigned), unsigned k) { unsigned r = 0; for (int n = 0; "
                                       "n < 9; n++) r += how(k + n); return r; }\n"
                                       "unsigned g(unsigned key, unsigned (*how)(unsigned), unsigned i);\n"
                                       "BLADE_SECRET_PARAM(g, key);\n"
                                       "unsigned g(unsigned key, unsigned (*how)(unsigned), unsigned i) "
                                       "{ return f(how, key) ^ table[f(one, i) & 255]; }\n"},
         "blade-cc -O2 a.c -o out/", starts=("arg 1\narg 1\narg 3\n", "arg 1\narg 1\narg 9\n")),
    more("compressed-places", {"a.c": HEAD + TABLE + "unsigned o(unsigned x) { return x + table[x & 7]; }\n"
                               "unsigned p(unsigned x) { return x * 9; }\n" + LABELLED +
                               "unsigned f(unsigned k) { return table[k & 255]; }\n"},
         "blade-cc -Wl,--compress-relocations -Wl,--strip-debug a.c -o out/", export="f",
         right=(*REFUSED, *BUILD)),
    more("archive-two-members-one-name", {"one/mem.c": "int unused1(void) { return 1; }\n", "two/mem.c": HEAD
                                          + "BLADE_SECRET_MEMORY;\nint unused2(void) { return 1; }\n",
                                          "b.c": HEAD + "unsigned h(unsigned k);\nBLADE_SECRET_PARAM(h, k);\n"
                                          "unsigned h(unsigned k) { return k * 3; }\n" + TABLE +
                                          "unsigned g(unsigned *p) { return table[p[0] & 255]; }\n"},
         "blade-cc -c b.c && blade-cc -c one/mem.c -o one/mem.o && blade-cc -c two/mem.c -o two/mem.o && "
         "llvm-ar qcs libm.a one/mem.o two/mem.o && "
         "blade-cc b.o libm.a -o out/", starts=IN_MEMORY),
    more("archive-cxx-stripped", {"labels.cc": HEAD + LABELLED + "int unused(void) { return 1; }\n",
                                  "a.cc": TABLE + "unsigned f(unsigned k) { return table[k & 255]; }\n" +
                                  HEAD + "extern \"C\" { unsigned h(unsigned k);\nBLADE_SECRET_PARAM(h, k);\n"
                                  "unsigned h(unsigned k) { return k * 3; } }\n"},
         "blade-cc -c a.cc && blade-cc -c labels.cc && llvm-ar rcs libl.a labels.o && blade-cc -Wl,-s a.o "
         "libl.a -o out/", export="_Z1fj"),
    more("archive-words-unlinked", {"mem.c": "int unused(void) { return 1; }\n",
                                    "b.c": HEAD + "unsigned h(unsigned k);\nBLADE_SECRET_PARAM(h, k);\n"
                                    "unsigned h(unsigned k) { return k * 3; }\n" + TABLE
                                    + "unsigned g(unsigned *p) { return table[p[0] & 255]; }\n"},
         "blade-cc -c b.c && blade-cc --label 'secret-memory 0' -c mem.c && llvm-ar rcs libm.a mem.o && "
         "blade-cc b.o libm.a -o out/", starts=IN_MEMORY),
    more("words-at-compile-alone", {"a.c": TABLE + SAME + LOOK},
         "blade-cc --label 'secret-param f k' -c a.c && blade-cc a.o -o out/"),
    more("old-object", {"f.h": "unsigned f(unsigned k);\n", "a.c": "#include \"f.h\"\n" + TABLE + SAME + LOOK,
                        "b.c": "#include \"f.h\"\nunsigned h(unsigned x) { return f(x); }\n",
                        "new.h": HEAD + LABELLED},
         "blade-cc -c a.c && cp new.h f.h && blade-cc -c b.c && blade-cc a.o b.o -o out/", right=COPY),
    more("strip-after",
         {"a.c": HEAD + TABLE + LABELLED + "unsigned f(unsigned k) { return table[k & 255]; }\n"},
         "blade-cc --no-fail a.c -o out/ > /dev/null 2>&1; llvm-strip out/a.wasm -o x.wasm && $BLADE harden "
         "x.img x.json x.wasm", export="f", right=(Answer(0, "constant-time no"), Answer(3, "error"))),
    more("asm-call", {"a.c": HEAD + TABLE + LABELLED + SAME + "unsigned g(unsigned i) { unsigned r; __asm__ "
                      "volatile(\"local.get %1\\n\\tcall f\\n\\tlocal.set %0\" : \"=r\"(r) : \"r\"(i));\n"
                      "return table[r & 255]; }\n"}),
    more("varargs", {"a.c": HEAD + TABLE + "unsigned f(unsigned k, ...);\nBLADE_SECRET_PARAM(f, k);\n"
                     "unsigned f(unsigned k, ...) { return k; }\nunsigned g(unsigned i) { return table[f(i, "
                     "7) & 255]; }\n"}),
    more("recursion-public",
         {"a.c": HEAD + TABLE + "unsigned f(unsigned k, unsigned n);\nBLADE_SECRET_PARAM(f, k);\n"
          "unsigned f(unsigned k, unsigned n) { return n ? f(n, n - 1) ^ k : k; }\n"
          "unsigned g(unsigned i) { return table[f(i, 3) & 255]; }\n"}),
    more("constructor-words",
         {"a.cc": TABLE + "struct s { unsigned v; s(unsigned k); };\ns::s(unsigned k) : v(k) {}\n"
          "extern \"C\" unsigned g(unsigned i) { return table[s(i).v & 255]; }\n"},
         "blade-cc --label 'secret-param _ZN1sC2Ej k' a.cc -o out/"),
    more("operator-overload", {"a.cc": HEAD + TABLE + "struct w { unsigned v; };\nstatic unsigned "
                               "operator^(w a, unsigned k);\nBLADE_SECRET_PARAM(operator^, k);\n"
                               "static unsigned operator^(w a, unsigned k) { return (a.v ^ k) ^ a.v; }\n"
                               "extern \"C\" unsigned g(unsigned i) { return table[(w{5} ^ i) & 255]; }\n"},
         "blade-cc a.cc -o out/"),
    more("default-argument",
         {"a.cc": HEAD + TABLE + "unsigned f(unsigned p, unsigned k = 5);\nBLADE_SECRET_PARAM(f, k);\n"
          "unsigned f(unsigned p, unsigned k) { return k ^ p ^ p; }\n"
          "extern \"C\" unsigned g(unsigned i) { return table[f(i, i) & 255] + f(i); }\n"},
         "blade-cc a.cc -o out/"),
    more("virtual-method", {"a.cc": TABLE + "struct b { virtual unsigned f(unsigned k); unsigned p; };\n"
                            "unsigned b::f(unsigned k) { return k; }\n"
                            "extern \"C\" unsigned g(unsigned i) { b x; b *y = &x; "
                            "return table[y->f(i) & 255]; }\n"},
         "blade-cc -fno-rtti --label 'secret-param _ZN1b1fEj k' a.cc -o out/", right=(*REFUSED, *BUILD)),
    more("builtins-mixed", {"a.c": HEAD + TABLE + LABELLED + "unsigned f(unsigned k) "
                            "{ return __builtin_bitreverse32(__builtin_bitreverse32(k)); }\n"
                            "unsigned g(unsigned i) { return __builtin_expect(f(i) > 4, 1) ? table[f(i) "
                            "& 255] : 3; }\n"}),
    more("words-in-file", {"a.c": TABLE + SAME + LOOK, "words": "--label 'secret-param f k'\n-O3\n"},
         "blade-cc @words a.c -o out/"),
    more("vault-look-up", {"a.c": "#include \"vault.h\"\n" + TABLE + "unsigned g(unsigned i) { (void)i; "
                           "return 1; }\n" + HEAD + LABELLED + SAME + LOOK.replace("g(", "h(")},
         "blade-cc --vault a.c -o out/", export="h"),
    # A third wave.
    more("cxx-static-g0", {"f.h": "static inline unsigned f(unsigned k) { return k * 5 + 1; }\n",
                           "a.cc": HEAD + "static inline unsigned f(unsigned k);\nBLADE_SECRET_PARAM(f, k);\n"
                           "#include \"f.h\"\nextern \"C\" { " + H + "}\n",
                           "b.cc": TABLE + "#include \"f.h\"\nextern \"C\" " + LOOK},
         "blade-cc -c a.cc && blade-cc -g0 -c b.cc && blade-cc a.o b.o -o out/"),
    more("unique-names-g0", {"f.h": "static inline unsigned f(unsigned k) { return k * 5 + 1; }\n",
                             "a.c": HEAD + "static inline unsigned f(unsigned k);\nBLADE_SECRET_PARAM(f, "
                             "k);\n#include \"f.h\"\n" + H,
                             "b.c": TABLE + "#include \"f.h\"\n" + LOOK}, "blade-cc -c a.c && blade-cc "
         "-g0 -funique-internal-linkage-names -c b.c && blade-cc a.o b.o -o out/"),
    more("header-not-included", {"a.c": HEAD + "unsigned h(unsigned k);\nBLADE_SECRET_PARAM(h, k);\n"
                                 "unsigned h(unsigned k) { return k * 3; }\n",
                                 "b.c": "BLADE_SECRET_MEMORY;\n" + TABLE + "unsigned g(unsigned *p) "
                                 "{ return table[p[0] & 255]; }\n"},
         "blade-cc a.c b.c -o out/", starts=IN_MEMORY, right=(*REFUSED, *BUILD)),
    more("marked-lto-exported", {
        "a.c": HEAD + TABLE + "unsigned g(unsigned x) { return table[BLADE_SECRET(x) & 255]; }\n"},
        "blade-cc -flto --export g a.c -o out/", right=(*REFUSED, *BUILD)),
    more("marked-divisor", {"a.c": HEAD + "unsigned g(unsigned x) { unsigned short y = x; return 70000 "
                            "/ (BLADE_SECRET(y) | 1); }\n"}, "blade-cc -O3 a.c -o out/", right=NO),
    more("marked-reference", {"a.cc": HEAD + TABLE + "static unsigned look(const unsigned &x) "
                              "{ auto y = BLADE_SECRET(x); return table[y & 255]; }\n"
                              "extern \"C\" unsigned g(unsigned x) { return look(x); }\n"},
         "blade-cc a.cc -o out/", right=NO),
    more("relocatable-two-statics", {"a.c": HEAD + TABLE + "static " + LABELLED + "static unsigned "
                                     "f(unsigned k) { return k * 5 + 1; }\nunsigned h(unsigned k);\n"
                                     "unsigned g(unsigned key, unsigned i);\nBLADE_SECRET_PARAM(g, key);\n"
                                     "unsigned g(unsigned key, unsigned i) { return h(key) ^ table[f(i) "
                                     "& 255]; }\n",
                                     "b.c": "__attribute__((noinline)) static unsigned f(unsigned k) "
                                     "{ return k * 3; }\nunsigned h(unsigned i) { return f(i); }\n"},
         "blade-cc -c a.c && blade-cc -c b.c && wasm-ld -r -o c.o b.o a.o && blade-cc c.o -o out/",
         starts=TWO_WORDS),
    more("thin-lto-two-statics", {"a.c": HEAD + TABLE + "static " + LABELLED + "static unsigned f(unsigned "
                                  "k) { return k * 5 + 1; }\nunsigned h(unsigned k);\n"
                                  "unsigned g(unsigned key, unsigned i);\nBLADE_SECRET_PARAM(g, key);\n"
                                  "unsigned g(unsigned key, unsigned i) { return h(key) ^ table[f(i) "
                                  "& 255]; }\n",
                                  "b.c": "__attribute__((noinline)) static unsigned f(unsigned k) "
                                  "{ return k * 3; }\nunsigned h(unsigned i) { return f(i); }\n"},
         "blade-cc -flto=thin --export g b.c a.c -o out/", starts=TWO_WORDS, right=(*REFUSED, *BUILD)),
    more("assembler-of-own", {"a.c": HEAD + TABLE + LABELLED + SAME + LOOK},
         "blade-cc -S a.c -o a.s && blade-cc a.s -o out/", right=(*REFUSED, *BUILD)),
    more("gnu-inline", {"f.h": HEAD + LABELLED + "extern inline __attribute__((gnu_inline)) " + SAME,
                        "a.c": "#include \"f.h\"\n" + TABLE + LOOK, "b.c": SAME}, "blade-cc a.c b.c -o out/"),
    more("bitcode-cxx", {"f.h": HEAD + LABELLED, "a.cc": "#include \"f.h\"\n" + SAME,
                         "b.cc": "#include \"f.h\"\n" + TABLE + "extern \"C\" " + LOOK},
         "blade-cc -emit-llvm -c a.cc -o a.bc && blade-cc -emit-llvm -c b.cc -o b.bc && blade-cc a.bc b.bc "
         "--export _Z1fj --export g -o out/"),
    more("lto-unnamed-namespaces",
         {"a.cc": HEAD + TABLE + "namespace { unsigned f(unsigned k);\nBLADE_SECRET_PARAM(f, k);\n"
          "unsigned f(unsigned k) { return k * 5 + 1; } }\n"
          "extern \"C\" { unsigned h(unsigned k);\nunsigned g(unsigned key, unsigned i);\n"
          "BLADE_SECRET_PARAM(g, key);\n"
          "unsigned g(unsigned key, unsigned i) { return h(key) ^ table[f(i) & 255]; } }\n",
          "b.cc": "namespace { __attribute__((noinline)) unsigned f(unsigned k) { return k * 3; } }\n"
          "extern \"C\" unsigned h(unsigned i) { return f(i); }\n"},
         "blade-cc -flto --export g b.cc a.cc -o out/", starts=TWO_WORDS),
    more("union-parts",
         {"a.c": HEAD + TABLE + "union u { unsigned w; unsigned char b[4]; };\nstatic inline " + LABELLED +
          "static inline unsigned f(unsigned k) { union u x; x.w = k; return x.b[0]; }\n"
          "unsigned g(unsigned i) { return table[f(i)]; }\n"}, "blade-cc -O1 a.c -o out/"),
    more("words-method-one-unit",
         {"f.h": "struct s { unsigned p; unsigned f(unsigned k) const { return k * 5 + 1; } };\n",
          "a.cc": "#include \"f.h\"\nextern \"C\" unsigned h(unsigned k) { s x = {1}; return x.f(k); }\n",
          "b.cc": TABLE + "#include \"f.h\"\nextern \"C\" unsigned g(unsigned i) { s x = {2}; "
          "return table[x.f(i) & 255]; }\n"},
         "blade-cc --label 'secret-param f k secret-param h k' -c a.cc && blade-cc -c b.cc && blade-cc "
         "a.o b.o -o out/"),
    # A fourth wave.
    more("pack-by-number", {"a.cc": TABLE + "template <class... T> __attribute__((noinline)) unsigned f(T... "
                            "k) { unsigned a[] = {k...}; return table[a[1] & 255] ^ a[0]; }\n"
                            "template unsigned f(unsigned, unsigned);\n"}, "blade-cc -O3 --label "
         "'secret-param _Z1fIJjjEEjDpT_ 1' a.cc -o out/", export="_Z1fIJjjEEjDpT_", starts=TWO_WORDS),
    more("template-other-order",
         {"a.cc": TABLE + "template <class T> unsigned f(T key, T other);\n"
          "template <class T> unsigned f(T other, T key) { return table[other & 255] ^ key; }\n"
          "template unsigned f(unsigned, unsigned);\n"},
         "blade-cc --label 'secret-param _Z1fIjEjT_S0_ key' a.cc -o out/", export="_Z1fIjEjT_S0_",
         starts=("arg 3\narg 1\n", "arg 9\narg 1\n")),
    more("other-order-in-colour",
         {"a.c": HEAD + TABLE + "unsigned f(unsigned key, unsigned other);\nBLADE_SECRET_PARAM(f, key);\n"
          "unsigned f(unsigned other, unsigned key) { return table[other & 255] ^ key; }\n"},
         "blade-cc -fcolor-diagnostics a.c -o out/", export="f", starts=("arg 3\narg 1\n", "arg 9\narg 1\n")),
    more("cxx-static-nodebug",
         {"f.h": "__attribute__((nodebug)) static inline unsigned f(unsigned k) { return k * 5 + 1; }\n",
          "a.cc": HEAD + "static inline unsigned f(unsigned k);\nBLADE_SECRET_PARAM(f, k);\n"
          "#include \"f.h\"\nextern \"C\" { " + H + "}\n",
          "b.cc": TABLE + "#include \"f.h\"\nextern \"C\" " + LOOK}, "blade-cc a.cc b.cc -o out/"),
    more("other-order-folder-with-blank", {"my inc/f.h": "unsigned f(unsigned key, unsigned other);\n",
                                           "a.c": "#include \"my inc/f.h\"\n" + HEAD + TABLE +
                                           "BLADE_SECRET_PARAM(f, key);\nunsigned f(unsigned other, unsigned "
                                           "key) { return table[other & 255] ^ key; }\n"}, export="f",
         starts=("arg 3\narg 1\n", "arg 9\narg 1\n")),
    more("other-order-by-macro", {"d.h": "#define DECLARE(name) unsigned name(unsigned key, "
                                  "unsigned other);\n", "a.c": "#include \"d.h\"\n" + HEAD + TABLE +
                                  "DECLARE(f)\nBLADE_SECRET_PARAM(f, key);\nunsigned f(unsigned other, "
                                  "unsigned key) { return table[other & 255] ^ key; }\n"}, export="f",
         starts=("arg 3\narg 1\n", "arg 9\narg 1\n")),
    more("marked-allow-undefined",
         {"a.c": HEAD + TABLE + "unsigned g(unsigned x) { return table[BLADE_SECRET(x) & 255]; }\n",
          "b.c": HEAD + "unsigned h(unsigned k);\nBLADE_SECRET_PARAM(h, k);\nunsigned h(unsigned k) "
          "{ return k * 3; }\n"},
         "blade-cc -Wl,--allow-undefined a.c b.c -o out/", right=(*REFUSED, *BUILD)),
]
WORK = "unsigned f(unsigned k) { return (k << 3 | k >> 29) * 5 + 1; }\n"
ENTRY = "unsigned g(unsigned k);\nBLADE_SECRET_PARAM(g, k);\nunsigned g(unsigned k) { return f(k ^ 7); }\n"


def right(name: str, files: Dict[str, str], command: str = "blade-cc a.c -o out/") -> Case:
    return Case(name, YES, files, command, "g", None)


RIGHT = [
    right("right-c89", {"a.c": HEAD + LABELLED + WORK + ENTRY}, "blade-cc -std=c89 a.c -o out/"),
    right("right-words-of-kernels", {"a.c": "#define noinline __attribute__((__noinline__))\n" + HEAD
                                     + LABELLED + "noinline " + WORK + ENTRY}),
    right("right-call-in-dead-code", {"a.c": HEAD + "static const int debug = 0;\n" + LABELLED + WORK
                                      + ENTRY.replace("return f", "if (debug) f(1);\n    return 3 + f") +
                                      "unsigned h(unsigned i) { if (debug) return f(i); return i * 3; }\n"}),
    right("right-recursion",
          {"a.c": HEAD + "unsigned f(unsigned k, unsigned n);\nBLADE_SECRET_PARAM(f, k);\n"
           "unsigned f(unsigned k, unsigned n) { return n ? f(k >> 1, n - 1) ^ k : k; }\n"}),
    right("right-operator", {"a.cc": HEAD + "struct w { unsigned v; };\nunsigned operator^(w a, "
                             "unsigned k);\nBLADE_SECRET_PARAM(operator^, k);\n"
                             "unsigned operator^(w a, unsigned k) { return a.v * 3 ^ k; }\n"},
          "blade-cc a.cc -o out/"),
    right("right-units-lto",
          {"f.h": HEAD + LABELLED, "a.c": "#include \"f.h\"\n" + WORK, "b.c": "#include \"f.h\"\n" + ENTRY},
          "blade-cc -flto --export g a.c b.c -o out/"),
    right("right-pointers", {"a.c": HEAD + LABELLED + WORK + "static unsigned (*const ways[2])(unsigned) "
                             "= {f, f};\n" + ENTRY.replace("f(k", "ways[k * 0](k")}),
    right("right-memory",
          {"a.c": HEAD + "BLADE_SECRET_MEMORY;\n" + LABELLED + WORK + "unsigned g(const unsigned *p, "
           "unsigned n) { unsigned r = 0; for (unsigned i = 0; i < n; i++) r ^= f(p[i]);\n"
           "return r; }\n"}),
    right("right-marker",
          {"a.c": HEAD + LABELLED + WORK + "unsigned g(unsigned i) { return f(BLADE_SECRET(i)) ^ i; }\n"}),
    right("right-plain-beside", {"a.c": HEAD + LABELLED + WORK + ENTRY, "b.c": "unsigned sum(const unsigned "
                                 "*p, unsigned n) { unsigned r = 0; while (n--) r += *p++; return r; }\n"},
          f"{PLAIN} -c b.c -o b.o && blade-cc a.c b.o --export g --export f --export sum -o out/"),
    right("right-archive", {"f.h": HEAD + LABELLED, "a.c": "#include \"f.h\"\n" + WORK,
                            "b.c": "#include \"f.h\"\n" + ENTRY},
          "blade-cc -c a.c && blade-cc -c b.c && llvm-ar rcs liba.a a.o && blade-cc b.o -L. -la -o out/"),
    right("right-self-test", {"a.c": HEAD + LABELLED + WORK + ENTRY + "unsigned test(void) { return f(1) "
                              "== 13; }\n"}, "blade-cc --public-callers=f a.c -o out/"),
    right("right-two-statics", {"a.c": HEAD + "static " + LABELLED + "static " + WORK + ENTRY,
                                "b.c": TABLE + "static unsigned f(unsigned k) { return table[k & 255]; }\n"
                                "unsigned h(unsigned i) { return f(i); }\n"}, "blade-cc a.c b.c -o out/"),
    right("right-loop",
          {"a.c": HEAD + LABELLED + WORK + "unsigned g(unsigned k, unsigned n);\nBLADE_SECRET_PARAM(g, k);\n"
           "unsigned g(unsigned k, unsigned n) { unsigned a = k; while (n--) a = f(a) + n; return a; }\n"},
          "blade-cc -O3 a.c -o out/"),
]
