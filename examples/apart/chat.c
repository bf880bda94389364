/* The tag of up to 63 words, each with the place of the next one. Licence: public domain (CC0). */
#include "mac.h"

struct item {
    unsigned word;
    struct item *next;
};

__attribute__((export_name("tag"))) unsigned tag(unsigned low, unsigned high, const struct item *first) {
    unsigned count = 0;
    mac_begin(low, high);
    for (const struct item *at = first; at; at = at->next) mac_word(at->word), count++;
    return mac_end(count << 26);
}
