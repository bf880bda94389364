/* The library: see mac.h. Licence: public domain (CC0). */
#define MAC_LIBRARY
#include "mac.h"

static unsigned v0, v1, v2, v3;

#define TURN(x, by) ((x) << (by) | (x) >> (32 - (by)))

static void round(void) {
    v0 += v1, v1 = TURN(v1, 5) ^ v0, v0 = TURN(v0, 16);
    v2 += v3, v3 = TURN(v3, 8) ^ v2;
    v0 += v3, v3 = TURN(v3, 7) ^ v0;
    v2 += v1, v1 = TURN(v1, 13) ^ v2, v2 = TURN(v2, 16);
}

void mac_begin(unsigned low, unsigned high) {
    v0 = low, v1 = high, v2 = 0x6C796765 ^ low, v3 = 0x74656462 ^ high;
}

void mac_word(unsigned word) {
    v3 ^= word;
    round(), round();
    v0 ^= word;
}

unsigned mac_end(unsigned last) {
    mac_word(last);
    v2 ^= 0xFF;
    round(), round(), round(), round();
    return v1 ^ v3;
}
