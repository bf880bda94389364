// ChaCha20's quarter round of four words in memory.
// Licence: public domain (CC0).
#include "blade.h"

BLADE_SECRET_MEMORY;

static unsigned rotate(unsigned x, unsigned by) {
    return x << by | x >> (32 - by);
}

void quarter(unsigned *words) {
    unsigned a = words[0], b = words[1], c = words[2], d = words[3];
    a += b; d = rotate(d ^ a, 16);
    c += d; b = rotate(b ^ c, 12);
    a += b; d = rotate(d ^ a, 8);
    c += d; b = rotate(b ^ c, 7);
    words[0] = a; words[1] = b; words[2] = c; words[3] = d;
}
