/* The tag of up to 63 words that stand in a row. Licence: public domain (CC0). */
#include "mac.h"

__attribute__((export_name("tag"))) unsigned tag(unsigned low, unsigned high, const unsigned *words, unsigned count) {
    count &= 63;
    mac_begin(low, high);
    for (unsigned i = 0; i < count; i++) mac_word(words[i]);
    return mac_end(count << 26);
}
