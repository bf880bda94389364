/* A library over a library: see frame.h. Licence: public domain (CC0). */
#define FRAME_LIBRARY
#include "frame.h"
#include "../apart/mac.h"

static unsigned count;

void frame_begin(unsigned low, unsigned high, unsigned number) {
    mac_begin(low, high);
    mac_word(number);
    count = 1;
}

void frame_word(unsigned word) {
    mac_word(word);
    count++;
}

unsigned frame_end(void) {
    return mac_end(count << 26);
}
