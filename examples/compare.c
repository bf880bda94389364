// Whether two tags of 16 bytes are equal, in constant time: all bytes are read, whatever they are.
// Licence: public domain (CC0).
#include "blade.h"

BLADE_SECRET_MEMORY;

unsigned compare(const unsigned char *one, const unsigned char *other) {
    unsigned differing = 0;
#pragma clang loop unroll(disable)
    for (unsigned i = 0; i < 16; i++)
        differing |= one[i] ^ other[i];
    return differing == 0;
}
