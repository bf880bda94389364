// A table lookup by a secret index, which leaks: the address that is read tells the index.
// Licence: public domain (CC0).
#include "blade.h"

static const unsigned char table[16] = {3, 14, 9, 0, 7, 12, 5, 10, 1, 15, 6, 11, 2, 13, 8, 4};

unsigned lookup(unsigned index);
BLADE_SECRET_PARAM(lookup, index);

unsigned lookup(unsigned index) {
    return table[index & 15];
}
