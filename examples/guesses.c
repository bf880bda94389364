// Functions that tell nothing in the order of the program, and a secret under a wrong guess: each test may be guessed wrong, and behind it a byte of
// another memory is read as if it were of the table. Linked in front of a module with a secret memory.
// Licence: public domain (CC0).

unsigned char table[16] = {1, 2, 3, 4, 5, 6, 7, 8, 9, 10, 11, 12, 13, 14, 15, 16};
unsigned char lines[65536];
static volatile unsigned seen;

#define EXPORT(name) __attribute__((export_name(#name)))

EXPORT(address) unsigned address(unsigned at, unsigned size) { return at < size ? lines[table[at] * 256] : 0; }

EXPORT(branch) unsigned branch(unsigned at, unsigned size) {
    if (at < size) {
        if (table[at] & 1)
            return lines[0];
        return lines[4096];
    }
    return 0;
}

EXPORT(divide) unsigned divide(unsigned at, unsigned size) { return at < size ? 1000u / (table[at] | 1u) : 0; }

static __attribute__((noinline)) unsigned looked_up(unsigned at) { return lines[table[at] * 256]; }
EXPORT(call) unsigned call(unsigned at, unsigned size) { return at < size ? looked_up(at) + 1 : 0; }

EXPORT(scaled) unsigned scaled(unsigned at, unsigned size) { return at < size ? lines[((const unsigned *)table)[at] & 0xffff] : 0; }

EXPORT(two) unsigned two(unsigned at, unsigned size, unsigned on) {
    if (on) {
        if (at < size)
            return lines[table[at] * 256];
    }
    return 0;
}

// One turn too far.
EXPORT(loop) unsigned loop(const unsigned char *from, unsigned size) {
    unsigned sum = 0;
    for (unsigned i = 0; i < size; i++)
        sum += lines[from[i] * 256];
    return sum;
}

// A store stands before the load: it is executed where stores are forwarded, and waits elsewhere.
EXPORT(store) unsigned store(unsigned at, unsigned size) {
    if (at < size) {
        seen = at;
        return lines[table[at] * 256];
    }
    return 0;
}

// What is refused where key is declared secret: no protect helps, since protects don't know of secrets.
EXPORT(debug) unsigned debug(unsigned key, unsigned on) { return on ? lines[(key & 15) * 256] : 0; }
