"""What tools/checks/cc compiles: for each case its words, the status of blade-cc, what it has to say, and the
source. Licence: public domain (CC0)."""
from typing import List, NamedTuple


class Case(NamedTuple):
    name: str
    words: List[str]
    status: int
    told: List[str]
    source: str


HEAD = '#include "blade.h"\n'
TABLE = "static const unsigned char table[16] = {3, 14, 9, 0, 7, 12, 5, 10, 1, 15, 6, 11, 2, 13, 8, 4};\n"
MEMORY = ["--label", "secret-memory 0"]
BIG = HEAD + "typedef struct { int w[4]; } big;\n"


def wide_switch() -> str:
    """A switch of 300 cases that clang makes no table of."""
    callees = "".join(f"__attribute__((noinline)) void g{i}(int x) {{ s {o} x; }}\n" for i,
                      o in enumerate(("+=", "^=", "-=")))
    cases = "".join(f"    case {i}: g{i % 3}(y + {i * i % 97}); g{(i + 1) % 3}({i}); break;\n"
                    for i in range(300))
    return (HEAD + "BLADE_SECRET_MEMORY;\nint s;\n" + callees + "void f(int x, int y) {\n    switch (x) {\n"
            + cases + "    }\n}\n")


LEAKS = [
    Case("lookup", [], 1,
         ["lookup.c:5:42: error: a secret is part of the address of a load", "[blade-load]",
                           "lookup.c:4: note: parameter index of lookup is declared secret"],
         HEAD + TABLE + "unsigned lookup(unsigned index);\nBLADE_SECRET_PARAM(lookup, index);\nunsigned "
         "lookup(unsigned index) { return table[index & 15]; }\n"),
    Case("going", ["--no-fail"], 0,
         ["going.c:5:27: warning: a secret", "[blade-load]", "constant-time no"],
         HEAD + TABLE + "int going(int x);\nBLADE_SECRET_PARAM(going, x);\nint going(int x) { "
         "return table[x & 15]; }\n"),
    Case("branch", [], 1, ["branch.c:5:", "[blade-branch]"],
         HEAD + "void branch(unsigned x);\nBLADE_SECRET_PARAM(branch, x);\n__attribute__((noinline)) void "
         "side(unsigned x) { *(volatile unsigned *)1024 = x; }\n"
         "void branch(unsigned x) { if (x > 3) side(1); }\n"),
    Case("division", [], 1, ["division.c:4:", "[blade-division]"],
         HEAD + "int division(int x);\nBLADE_SECRET_PARAM(division, x);\nint division(int x) { "
         "return 1000 / (x | 1); }\n"),
    Case("result", [], 1, ["[blade-public-demand]"],
         HEAD + "int result(int x);\nBLADE_SECRET_PARAM(result, x);\nBLADE_PUBLIC_RESULT(result);\nint "
         "result(int x) { return x * 3; }\n"),
    Case("stored", [], 1, ["stored.c:4:", "[blade-public-memory]"],
         HEAD + "void stored(int *p, int x);\nBLADE_SECRET_PARAM(stored, x);\nvoid stored(int *p, int x) "
         "{ *p = x; }\n"),
    # A label by words keeps the function from being inlined into its unit, where what it is given would be
    # public.
    Case("hole", ["--label", "secret-param scrambled 0", "--public-callers=scrambled"], 1,
         ["hole.c:3:", "[blade-load]"],
         TABLE + "unsigned scrambled(unsigned key) { return key * 5 + 1; }\nunsigned chosen(unsigned x) "
         "{ return table[scrambled(x) & 15]; }\n"),
    Case("kept", ["--public-callers", "kept"], 1, ["kept.c:5:", "[blade-load]"],
         HEAD + TABLE + "unsigned kept(unsigned key);\nBLADE_SECRET_PARAM(kept, key); "
         "unsigned kept(unsigned key) { return key * 5 + 1; }\n"
         "unsigned chosen(unsigned x) { return table[kept(x) & 15]; }\n"),
]
YES = [
    Case("fine", [], 0, ["fine: constant-time yes"],
         HEAD + "BLADE_SECRET_MEMORY;\nvoid fine(unsigned *p, unsigned n) { for (unsigned i = 0; i < "
         "n; i++) p[i] ^= 7; }\n"),
    Case("fill", [], 0, ["fill: constant-time yes"],
         HEAD + "#include <string.h>\nBLADE_SECRET_MEMORY;\nvoid fill(char *p, unsigned n) { "
         "memset(p, 0, n); }\n"),
    Case("both", ["--label", "secret-memory 0 secret-param both 0"], 0, ["1 parameter, 1 memory"],
         HEAD + "int both(int x);\nBLADE_SECRET_PARAM(both, x);\nint both(int x) { return x + 1; }\n"),
    Case("by_name", ["--label", "secret-param by_name key"], 0, ["1 parameter"],
         "int by_name(int mode, int key) { return mode + key; }\n"),
    Case("twice", [], 0, ["secret: 1 parameter\n"],
         HEAD + "int f(int x);\nBLADE_SECRET_PARAM(f, x); BLADE_SECRET_PARAM(f, x);\nBLADE_SECRET_PARAM(f, "
         "0);\nint f(int x) { return x; }\n"),
    Case("meant", ["--unlabelled"], 0, ["constant-time yes"], "unsigned meant(unsigned x) { return x; }\n"),
    Case("returned", MEMORY, 0, ["1 parameter, 1 memory"],
         BIG + "big f(int n);\nBLADE_SECRET_PARAM(f, n);\nbig f(int n) { big b = {{n}}; return b; }\n"),
    Case("second", ["-O0", *MEMORY], 0, ["1 parameter, 1 memory"],
         BIG + "big f(int m, int n);\nBLADE_SECRET_PARAM(f, n);\nbig f(int m, int n) { big b = {{m, n}}; "
         "return b; }\n"),
    Case("within", ["--public-callers=g"], 0, ["1 parameter"],
         HEAD + "static int g(int x);\nBLADE_SECRET_PARAM(g, x);\nstatic int g(int x) { return x + 1; }\n"
         "int h(int y) { return g(y) * 2; }\n"),
    Case("unoptimised", ["-O0", *MEMORY], 0, ["1 parameter, 1 memory"],
         HEAD + "int f(int x);\nBLADE_SECRET_PARAM(f, x);\nint f(int x) { return x * 2; }\n"),
    Case("renamed", [], 0, ["1 parameter"], "#define f library_f\n" + HEAD
         + "int f(int x);\nBLADE_SECRET_PARAM(f, x);\nint f(int x) { return x; }\n"),
    Case("chosen", ["--export", "f"], 0, ["1 parameter"],
         HEAD + "int f(int x);\nBLADE_SECRET_PARAM(f, x);\nint f(int x) { return x; }\nint unused(int "
         "x) { return 2 / x; }\n"),
    Case("much", ["--label", "secret-memory 0"], 0, ["constant-time yes"],
         "unsigned char room[400000] = {1};\nvoid much(unsigned i) { room[i] = 2; }\n"),
]
# Labels that are wrong: an error at their line, and never a secret that is public in silence.
LABELS = [
    Case("none", [], 5, ["nothing is declared secret", "[blade-unlabelled]"],
         "unsigned none(unsigned x) { return x; }\n"),
    Case("misspelt", [], 3, ["misspelt.c:3:", "undeclared identifier 'mispelt'"],
         HEAD + "int misspelt(int x);\nBLADE_SECRET_PARAM(mispelt, x);\nint misspelt(int x) { return x; }\n"),
    Case("late", [], 3, ["late.c:3:", "attribute declaration must precede definition"],
         HEAD + "int late(int x) { return x; }\nBLADE_SECRET_PARAM(late, x);\n"),
    Case("inside", [], 3, ["inside.c:3:", "function definition is not allowed here"],
         HEAD + "int inside(int x);\nint other(int x) { BLADE_SECRET_PARAM(inside, x); return x; }\n"),
    Case("variable", [], 3, ["variable.c:3:", "attribute only applies to functions"],
         HEAD + "extern int key;\nBLADE_SECRET_PARAM(key, 0);\nint key = 3;\n"),
    Case("misnamed", [], 5, ["misnamed.c:3: error: misnamed has no parameter keyy: do you mean key?"],
         HEAD + "int misnamed(int key);\nBLADE_SECRET_PARAM(misnamed, keyy);\nint misnamed(int "
         "key) { return key; }\n"),
    Case("pointer", [], 5, ["pointer.c:4: error: p of f is a pointer"],
         HEAD + "typedef const char *text;\nint f(text p);\nBLADE_SECRET_PARAM(f, p);\nint f(text "
         "p) { return p[0]; }\n"),
    Case("struct", [], 5, ["struct.c:4: error: k of f is a struct by value"],
         HEAD + "struct key { int w[4]; };\nint f(struct key k);\nBLADE_SECRET_PARAM(f, k);\nint f(struct "
         "key k) { return k.w[1]; }\n"),
    Case("dropped", ["-Wno-unused"], 5, ["dropped.c:3: error: there is no function g"],
         HEAD + "static int g(int x);\nBLADE_SECRET_PARAM(g, x);\nstatic int g(int x) { return x + 1; }\n"
         "int h(int y) { return y; }\n"),
    Case("unlined", ["-g0"], 5, ["unlined.c:3: error: parameter 0 of f can't be told: compile with -g"],
         HEAD + "int f(int x);\nBLADE_SECRET_PARAM(f, 0);\nint f(int x) { return x * 2; }\n"),
    Case("given", [], 5, ["given.c:5:23: error: h passes a public value as the secret parameter x of g "
                          "(given.c:3)", "[blade-caller]"],
         HEAD + "static int g(int x);\nBLADE_SECRET_PARAM(g, x);\nstatic int g(int x) { return x + 1; }\n"
         "int h(int y) { return g(y) * 2; }\n"),
    Case("nothing", ["--label", "secret-param nothing kye"], 5,
         ["nothing has no parameter kye: do you mean key?"], "int nothing(int key) { return key; }\n"),
    Case("far", ["--label", "secret-param far 7"], 5,
         ["error: secret-param far 7: far has 3 parameters in C (counted from 0) [blade-label]"],
         "int far(int x, int y, int z) { return x + y + z; }\n"),
    Case("far_by_macro", [], 5,
         ["far_by_macro.c:3: error: secret-param f 1: f has 1 parameter in C (counted from 0) [blade-label]"],
         HEAD + "int f(int x);\nBLADE_SECRET_PARAM(f, 1);\nint f(int x) { return x; }\n"),
    Case("kind", ["--label", "secret-parm kind 0"], 5,
         ["secret-parm is no kind of label: the kinds are secret-param F I, secret-global G, "
          "secret-memory M, public-result F I and public-global G"], "int kind(int x) { return x; }\n"),
    Case("nobody", ["--label", "secret-param nobdy 0"], 5, ["no function is called nobdy"],
         "int nobody(int x) { return x; }\n"),
]
REFUSALS = [
    Case("float", [], 3, ["float.c:4:", "an instruction of floats", "[blade-float]", "in scaled"],
         HEAD + "BLADE_SECRET_MEMORY;\nint scaled(int a) {\n    double x = a;\n    return "
         "(int)(x * 1.5);\n}\n"),
    Case("switch", [], 3, ["switch.c:", "300 cases", "[blade-nesting]"], wide_switch()),
    Case("bulk", [], 3, ["bulk.c:3:", "an operation on whole memories", "[blade-instruction]"],
         HEAD + 'BLADE_SECRET_MEMORY;\n__attribute__((target("bulk-memory"))) void f(char *p, const char *q, '
         'unsigned long n) { __builtin_memcpy(p, q, n); }\n'),
    Case("import", MEMORY, 3,
         ["the function ask is imported from env (called by f), which no module gives", "[blade-import]"],
         '__attribute__((import_module("env"), import_name("ask"))) int ask(void);\nint '
         'f(void) { return ask(); }\n'),
    Case("unledgered", MEMORY, 3, ["compile and link with --ledger", "[blade-import]"],
         '__attribute__((import_module("ledger"), import_name("ld32"))) unsigned ld32(unsigned);\nunsigned '
         'f(unsigned *p) { return ld32((unsigned)p); }\n'),
    Case("pages", [*MEMORY, "--memory", "1"], 3, ["memory too small", "--memory PAGES"],
         "unsigned char room[70000] = {1};\nvoid pages(unsigned i) { room[i] = 2; }\n"),
    Case("heap", [], 3,
         ["error: no file that was given defines malloc (called by f) [blade-undefined]",
          "note: malloc: of the C library: apt-get install wasi-libc has them"],
         HEAD + "void *malloc(unsigned long);\nvoid *f(unsigned n) { return malloc(n); }\n"),
    Case("undefined", [], 3,
         ["error: no file that was given defines free (called by f, g), malloc (called by g), mine (called "
          "by f, g, h and 1 more) [blade-undefined]\nblade-cc: note: free, malloc: of the C library: apt-get",
          "; mine: name the files or libraries that define them\n"],
         HEAD + "BLADE_SECRET_MEMORY;\nvoid *malloc(unsigned long);\nvoid free(void *);\nvoid mine(void *);\n"
         "void f(void *p) { mine(p); free(p); }\nvoid g(int n) { void *p = malloc(n); mine(p); free(p); }\n"
         "void h(void) { mine(0); }\nvoid i(void) { mine(0); }\n"),
    Case("header", [], 3,
         ["'stdio.h' file not found", "note: stdio.h is a standard header: apt-get install wasi-libc has it "
          "(or --sysroot FOLDER, or the variable WASI_SYSROOT,"], "#include <stdio.h>\n"),
    Case("unix_header", [], 3, ["note: pthread.h is a header of Unix, which wasi-libc hasn't"],
         "#include <pthread.h>\n"),
    Case("configured", [], 3,
         ["note: config.h is generated: run configure (or cmake) first and name its folder by -I, or say "
          "--config-h, which makes an empty one and shows where [blade-header]"], '#include "config.h"\n'),
    Case("config_h", [*MEMORY, "--config-h"], 0,
         ["note: config.h: config_h/build/config/config.h, which is empty, counts if no folder of -I has",
          "config_h: constant-time yes"],
         '#include "config.h"\n#ifdef HAVE_FAST\n#error\n#endif\nint config_h(int x) { return x; }\n'),
    Case("config_out", [*MEMORY, "--config-h=../x.h"], 2, ["the name of a header as code includes it is due"],
         "int f(int x) { return x; }\n"),
    Case("other_header", [], 3,
         ["note: other.h is a header of the project or of another library: -I FOLDER names where it is"],
         '#include "other.h"\n'),
    Case("sysroot", ["--sysroot", "nowhere"], 2, ["--sysroot nowhere: there is no include/wasm32-wasi in it"],
         "int f(int x) { return x; }\n"),
    Case("machine", ["-msimd128"], 2, ["without vectors"], HEAD),
    Case("wrong", [], 3, ["wrong.c:1:8: error:"], "int f( {\n"),
]
# What a tool can't know without a run: elements of arrays hold public numbers, pointers and secrets alike.
ROUNDS = "unknown whether it is secret, since it is an element of an array: one run decides (--start FILE)"
GUESSES = [
    Case("element_rounds", MEMORY, 1,
         [f"element_rounds.c:4:5: note: {ROUNDS}", "if it is public, give it as a parameter",
          "if it is secret this is a leak: compute without a branch"],
         "#define NR 60\nvoid element_rounds(const unsigned *rk, unsigned *out) {\n    unsigned n = rk[NR];\n"
         "    for (unsigned i = 0; i < n; i++) out[i & 3] ^= rk[i & 3];\n}\n"),
    Case("vector", MEMORY, 1, [f"vector.c:2:41: note: {ROUNDS}", f"vector.c:2:81: note: {ROUNDS}"],
         "__attribute__((noinline)) static void add(unsigned *to, const unsigned *p, unsigned n) {\n"
         "                                        for (unsigned i = 0; i < n; i++) *to += p[i];\n}\n"
         "void vector(unsigned *to, unsigned count, const unsigned **addr, const unsigned *len) {\n"
         "    for (unsigned i = 0; i < count; i++)\n        add(to, addr[i], len[i]);\n}\n"),
    Case("order", MEMORY, 1, [ROUNDS, "read all entries, and keep one by a mask"],
         "unsigned char M[16];\nunsigned order(const unsigned *x) {\n    unsigned s = 0;\n"
         "    for (int i = 0; i < 16; i++) s += x[M[i]];\n    return s;\n}\n"),
    Case("walked", MEMORY, 1,
         ["unknown whether it is secret, since a loop walks over where it is loaded from: one run decides"],
         "unsigned walked(const unsigned *p, const unsigned *end, const unsigned *x) {\n    unsigned s = 0;\n"
         "    while (p != end) s += x[*p++];\n    return s;\n}\n"),
    Case("mixed", MEMORY, 1, ["likely a look-up or a branch by a secret, since it is mixed by xor"],
         TABLE + "unsigned mixed(const unsigned *s, const unsigned *k, unsigned n) {\n    unsigned x = 0;\n"
         "    for (unsigned i = 0; i < n; i++) x += table[(s[i] ^ k[i]) & 15];\n    return x;\n}\n"),
    Case("cut", MEMORY, 1,
         ["likely a look-up or a branch by a secret, since bits are cut out of it for addresses"],
         "struct context { unsigned word; };\nstatic const unsigned T[256] = {1, 2, 3};\n"
         "unsigned cut(struct context *c) { return T[c->word >> 8 & 255] + T[c->word >> 16 & 255]; }\n"),
    Case("counter", MEMORY, 1, [ROUNDS],
         "struct context { unsigned count[2]; unsigned char buffer[64]; };\n"
         "void counter(struct context *c, unsigned char byte) {\n"
         "    c->buffer[(c->count[0] >> 3) & 63] = byte;\n    c->count[0] += 8;\n}\n"),
    Case("field", MEMORY, 1, ["likely a public number in a secret memory"],
         "struct context { unsigned state[4], rounds; };\nvoid field(struct context *c) {\n"
         "    for (unsigned i = 0; i < c->rounds; i++) c->state[i & 3] += i;\n}\n"),
]
CASES = [*LEAKS, *YES, *LABELS, *REFUSALS, *GUESSES]
