// Runs the templates that crates/x64_cases prints on this processor, and compares each result with WebAssembly's. tools/checks/machine_code builds and
// runs it. Cases come on standard input, a line each; crates/x64_cases/src describes them. The expected values are computed here, separately from the
// crates. The last line counts cases and wrong ones, and the status is 1 if a case is wrong. Licence: public domain (CC0).
#include <stdint.h>
#include <stdio.h>
#include <stdlib.h>
#include <string.h>
#include <sys/mman.h>

typedef uint64_t u64;
typedef int64_t i64;
typedef uint32_t u32;
typedef int32_t i32;

#define SPACE 262144
#define CELLS 64
#define LONGEST 2048  // digits of the bytes of a case

static struct {
    u64 rax, rcx, rdx, rbx, rsp, rbp, rsi, rdi, r8, r9, r10, r11, r12, r13, r14, r15;
} regs;
static u64 slots[CELLS], context[CELLS];
static unsigned char space[SPACE], want[SPACE];
static unsigned char *page;
u64 saved_rsp, saved_rax;
void enter(void *code, void *state);
void leave(void);

// `enter` loads all registers from the state and jumps to the code. The code ends with a jump to `leave`, which stores all registers.
__asm__(
    ".text\n.globl enter, leave\n"
    "enter:\n"
    " push %rbx\n push %rbp\n push %r12\n push %r13\n push %r14\n push %r15\n push %rsi\n"
    " mov %rsp, saved_rsp(%rip)\n mov %rdi, %rax\n mov %rax, saved_rax(%rip)\n mov %rsi, %rax\n"
    " mov 8(%rax),%rcx\n mov 16(%rax),%rdx\n mov 24(%rax),%rbx\n mov 32(%rax),%rsp\n mov 40(%rax),%rbp\n"
    " mov 48(%rax),%rsi\n mov 56(%rax),%rdi\n mov 64(%rax),%r8\n mov 72(%rax),%r9\n mov 80(%rax),%r10\n"
    " mov 88(%rax),%r11\n mov 96(%rax),%r12\n mov 104(%rax),%r13\n mov 112(%rax),%r14\n mov 120(%rax),%r15\n"
    " mov 0(%rax),%rax\n jmp *saved_rax(%rip)\n"
    "leave:\n"
    " mov %rax, saved_rax(%rip)\n mov saved_rsp(%rip), %rax\n mov (%rax), %rax\n"
    " mov %rcx,8(%rax)\n mov %rdx,16(%rax)\n mov %rbx,24(%rax)\n mov %rsp,32(%rax)\n mov %rbp,40(%rax)\n"
    " mov %rsi,48(%rax)\n mov %rdi,56(%rax)\n mov %r8,64(%rax)\n mov %r9,72(%rax)\n mov %r10,80(%rax)\n"
    " mov %r11,88(%rax)\n mov %r12,96(%rax)\n mov %r13,104(%rax)\n mov %r14,112(%rax)\n mov %r15,120(%rax)\n"
    " mov saved_rax(%rip),%rcx\n mov %rcx,0(%rax)\n mov saved_rsp(%rip), %rsp\n"
    " pop %rsi\n pop %r15\n pop %r14\n pop %r13\n pop %r12\n pop %rbp\n pop %rbx\n cld\n ret\n");

static int popcount(u64 x) { int n = 0; for (; x; x &= x - 1) n++; return n; }
static u64 clz(u64 x, int n) { int k = 0; while (k < n && !((x >> (n - 1 - k)) & 1)) k++; return k; }
static u64 ctz(u64 x, int n) { int k = 0; while (k < n && !((x >> k) & 1)) k++; return k; }

// The number in the lowest `from` bits, extended by its sign to `to` bits.
static u64 fill(u64 x, int from, int to) {
    u64 y = (x >> (from - 1)) & 1 ? x | (~0ull << from) : x & ~(~0ull << from);
    return to == 32 ? (u32)y : y;
}

static u64 meaning_32(int code, u32 x, u32 y) {
    i32 sx = x, sy = y;
    switch (code) {
    case 0x45: return x == 0;
    case 0x46: return x == y;
    case 0x47: return x != y;
    case 0x48: return sx < sy;
    case 0x49: return x < y;
    case 0x4A: return sx > sy;
    case 0x4B: return x > y;
    case 0x4C: return sx <= sy;
    case 0x4D: return x <= y;
    case 0x4E: return sx >= sy;
    case 0x4F: return x >= y;
    case 0x67: return clz(x, 32);
    case 0x68: return ctz(x, 32);
    case 0x69: return popcount(x);
    case 0x6A: return (u32)(x + y);
    case 0x6B: return (u32)(x - y);
    case 0x6C: return (u32)(x * y);
    case 0x6D: return y == 0 ? 0 : x == 0x80000000u && sy == -1 ? x : (u32)(sx / sy);
    case 0x6E: return y == 0 ? 0 : x / y;
    case 0x6F: return y == 0 || sy == -1 ? 0 : (u32)(sx % sy);
    case 0x70: return y == 0 ? 0 : x % y;
    case 0x71: return x & y;
    case 0x72: return x | y;
    case 0x73: return x ^ y;
    case 0x74: return (u32)(x << (y & 31));
    case 0x75: return (u32)(sx >> (y & 31));
    case 0x76: return x >> (y & 31);
    case 0x77: y &= 31; return y ? (u32)(x << y | x >> (32 - y)) : x;
    case 0x78: y &= 31; return y ? (u32)(x >> y | x << (32 - y)) : x;
    }
    abort();
}

static u64 meaning_64(int code, u64 a, u64 b) {
    i64 qa = a, qb = b;
    switch (code) {
    case 0x50: return a == 0;
    case 0x51: return a == b;
    case 0x52: return a != b;
    case 0x53: return qa < qb;
    case 0x54: return a < b;
    case 0x55: return qa > qb;
    case 0x56: return a > b;
    case 0x57: return qa <= qb;
    case 0x58: return a <= b;
    case 0x59: return qa >= qb;
    case 0x5A: return a >= b;
    case 0x79: return clz(a, 64);
    case 0x7A: return ctz(a, 64);
    case 0x7B: return popcount(a);
    case 0x7C: return a + b;
    case 0x7D: return a - b;
    case 0x7E: return a * b;
    case 0x7F: return b == 0 ? 0 : a == 1ull << 63 && qb == -1 ? a : (u64)(qa / qb);
    case 0x80: return b == 0 ? 0 : a / b;
    case 0x81: return b == 0 || qb == -1 ? 0 : (u64)(qa % qb);
    case 0x82: return b == 0 ? 0 : a % b;
    case 0x83: return a & b;
    case 0x84: return a | b;
    case 0x85: return a ^ b;
    case 0x86: return a << (b & 63);
    case 0x87: return qa >> (b & 63);
    case 0x88: return a >> (b & 63);
    case 0x89: b &= 63; return b ? a << b | a >> (64 - b) : a;
    case 0x8A: b &= 63; return b ? a >> b | a << (64 - b) : a;
    }
    abort();
}

// The value of an operator by WebAssembly 1.0, section 4.3.2. A quotient by zero is 0 here, and one that overflows wraps around. The codes 0, 1 and 1B
// are Blade's own: a move, the bounds test and a choice.
static u64 meaning(int code, u64 a, u64 b, u64 c) {
    switch (code) {
    case 0x00: return a;
    case 0x01: return (u64)(u32)b * 65536 < (u64)(u32)a + (c & 0x3ffffffffull);
    case 0x1B: return (u32)c ? a : b;
    case 0xA7: return (u32)a;
    case 0xAC: return fill(a, 32, 64);
    case 0xAD: return (u32)a;
    case 0xC0: return fill(a, 8, 32);
    case 0xC1: return fill(a, 16, 32);
    case 0xC2: return fill(a, 8, 64);
    case 0xC3: return fill(a, 16, 64);
    case 0xC4: return fill(a, 32, 64);
    }
    int is_64 = (code >= 0x50 && code <= 0x5A) || (code >= 0x79 && code <= 0x8A);
    return is_64 ? meaning_64(code, a, b) : meaning_32(code, (u32)a, (u32)b);
}

// The kinds of accesses: the code, the width in bytes, whether the value is extended by its sign, and the bits of its type.
static const struct kind { int code, width, sign, bits; } kinds[] = {
    {0x28, 4, 0, 32}, {0x29, 8, 0, 64}, {0x2C, 1, 1, 32}, {0x2D, 1, 0, 32}, {0x2E, 2, 1, 32}, {0x2F, 2, 0, 32}, {0x30, 1, 1, 64},
    {0x31, 1, 0, 64}, {0x32, 2, 1, 64}, {0x33, 2, 0, 64}, {0x34, 4, 1, 64}, {0x35, 4, 0, 64}, {0x36, 4, 0, 32}, {0x37, 8, 0, 64},
    {0x3A, 1, 0, 32}, {0x3B, 2, 0, 32}, {0x3C, 1, 0, 64}, {0x3D, 2, 0, 64}, {0x3E, 4, 0, 64}};

static struct kind kind_of(int code) {
    for (size_t k = 0; k < sizeof kinds / sizeof *kinds; k++)
        if (kinds[k].code == code) return kinds[k];
    abort();
}

static u64 before[16], slots_before[CELLS], context_before[CELLS];

// Sets all registers, slots and bytes to known values.
static void begin(void) {
    for (int k = 0; k < 16; k++) before[k] = 0x1111111111111111ull * (k + 1);
    before[4] = (u64)slots;
    before[14] = (u64)space;
    before[15] = (u64)context;
    for (int k = 0; k < CELLS; k++) slots[k] = 0xAAAA000000000000ull + k, context[k] = 0xCCCC000000000000ull + k;
    for (int k = 0; k < SPACE; k++) want[k] = space[k] = (unsigned char)(k * 37 + k / 251 + 11);
}

// The cell of a location after a run: a letter and two hexadecimal digits.
static u64 *cell(const char *l) {
    long k = strtol(l + 1, 0, 16);
    if (*l == 'r') return (u64 *)&regs + k;
    if (*l == 's') return (u64 *)((char *)slots + k);
    if (*l == 'c') return (u64 *)((char *)context + k);
    return 0;
}

// Writes an operand to its location before a run; a number is in the instructions.
static void put(const char *l, u64 v) {
    if (*l == 'r') before[strtol(l + 1, 0, 16)] = v;
    else if (*l != 'n') *cell(l) = v;
}

// Runs the bytes, which are given as digits; their number.
static int run(const char *digits) {
    size_t n = strlen(digits) / 2;
    for (size_t k = 0; k < n; k++) {
        unsigned x;
        sscanf(digits + 2 * k, "%2x", &x);
        page[k] = (unsigned char)x;
    }
    memcpy(page + n, "\xff\x25\0\0\0\0", 6);  // jmp [rip+0], to `leave`
    u64 back = (u64)leave;
    memcpy(page + n + 6, &back, 8);
    memcpy(slots_before, slots, sizeof slots);
    memcpy(context_before, context, sizeof context);
    memcpy(&regs, before, sizeof regs);
    enter(page, &regs);
    return (int)n;
}

// Whether nothing has changed except RAX, RCX, RDX, the result's location and the bytes of memory that were to change.
static int kept(const char *to) {
    u64 *here = to ? cell(to) : 0, *all = (u64 *)&regs;
    int bad = 0;
    for (int k = 3; k < 16; k++) bad |= all[k] != before[k] && all + k != here;
    for (int k = 0; k < CELLS; k++) {
        bad |= slots[k] != slots_before[k] && slots + k != here;
        bad |= context[k] != context_before[k] && context + k != here;
    }
    return !bad && !memcmp(space, want, SPACE);
}

static long bytes_run;
static char l[8], p[8], q[8], r[8], digits[LONGEST + 1];

// Each of these tries a line. The answer is -1 if the line is of another kind, else whether it is right.
static int try_set(const char *line) {
    unsigned code;
    u64 a, b, c, own;
    if (sscanf(line, "set %x %7s %7s %7s %7s %lx %lx %lx %lx %2048s", &code, l, p, q, r, &a, &b, &c, &own, digits) != 10) return -1;
    put(r, c), put(q, b), put(p, a);
    bytes_run += run(digits);
    u64 v = meaning((int)code, a, b, c);
    return *cell(l) == v && own == v && kept(l);
}

static int try_access(const char *line) {
    unsigned code;
    u64 a, b, offset, v = 0;
    if (sscanf(line, "access %x %7s %7s %7s %lx %lx %lx %2048s", &code, l, p, q, &a, &b, &offset, digits) != 8) return -1;
    struct kind it = kind_of((int)code);
    u64 at = (u32)a + offset;
    if (at + it.width > SPACE) abort();
    put(q, b), put(p, a);
    for (int k = it.width - 1; k >= 0; k--) v = v << 8 | want[at + k];
    if (it.sign) v = fill(v, 8 * it.width, it.bits);
    int stores = code >= 0x36;
    for (int k = 0; stores && k < it.width; k++) want[at + k] = (unsigned char)(b >> (8 * k));
    bytes_run += run(digits);
    return stores ? kept(0) : *cell(l) == v && kept(l);
}

static int try_test(const char *line) {
    u64 a;
    if (sscanf(line, "test %7s %lx %2048s", p, &a, digits) != 3) return -1;
    put(p, a);
    bytes_run += run(digits);
    return regs.rbx == ((u32)a ? 1 : 2) && kept("r03");
}

// The loop over the numbers below `turns` adds their squares in the slot at 16, and stores each sum in memory.
static int try_loop(const char *line) {
    u64 turns, sum = 0;
    if (sscanf(line, "loop %lx %2048s", &turns, digits) != 2) return -1;
    put("r06", turns);
    bytes_run += run(digits);
    for (u64 k = 0; k < turns; k++) sum += k * k, memcpy(want + 64 + 8 * k, &sum, 8);
    int square = turns == 0 || context[5] == (turns - 1) * (turns - 1);
    return slots[2] == sum && regs.rbx == turns && regs.r13 == 0 && square && !memcmp(space, want, SPACE);
}

static int try_line(const char *line) {
    int found = try_set(line);
    if (found < 0) found = try_access(line);
    if (found < 0) found = try_test(line);
    if (found < 0) found = try_loop(line);
    return found > 0;
}

int main(void) {
    static char line[4096];
    long cases = 0, wrong = 0;
    if (!__builtin_cpu_supports("lzcnt") || !__builtin_cpu_supports("bmi") || !__builtin_cpu_supports("popcnt")) {
        puts("skipped: this processor lacks LZCNT, BMI1 or POPCNT");
        return 77;
    }
    page = mmap(0, 65536, PROT_READ | PROT_WRITE | PROT_EXEC, MAP_PRIVATE | MAP_ANONYMOUS, -1, 0);
    if (page == MAP_FAILED) {
        puts("skipped: this system maps no page that can be written and executed");
        return 77;
    }
    while (fgets(line, sizeof line, stdin)) {
        begin();
        cases++;
        if (!try_line(line) && wrong++ < 10) printf("wrong: %s", line);
    }
    printf("%ld cases, %ld bytes of code, %ld wrong\n", cases, bytes_run, wrong);
    return wrong != 0;
}
