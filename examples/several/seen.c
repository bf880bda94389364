/* The library: see seen.h. Licence: public domain (CC0). */
#define SEEN_LIBRARY
#include "seen.h"

static unsigned seen[32];

unsigned seen_take(unsigned number) {
    unsigned *part = &seen[number >> 5 & 31], bit = 1u << (number & 31), old = *part;
    *part = old | bit;
    return !(old & bit);
}
