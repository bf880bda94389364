// The same lookup in constant time: every entry is read, and a mask keeps the one that is asked for.
// Licence: public domain (CC0).
#include "blade.h"

static const unsigned char table[16] = {3, 14, 9, 0, 7, 12, 5, 10, 1, 15, 6, 11, 2, 13, 8, 4};

unsigned masked(unsigned index);
BLADE_SECRET_PARAM(masked, index);

unsigned masked(unsigned index) {
    unsigned found = 0;
#pragma clang loop unroll(disable)
    for (unsigned i = 0; i < 16; i++) {
        // All ones where i is the index, else 0, without a branch.
        unsigned mask = ((i ^ (index & 15)) - 1) >> 31;
        found |= table[i] & -mask;
    }
    return found;
}
