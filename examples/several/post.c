/* A client of two libraries: the tag of a number and of up to 62 words, each with the place of the next one; 0 for a number that comes again.
 * Licence: public domain (CC0). */
#include "frame.h"
#include "seen.h"

struct item {
    unsigned word;
    struct item *next;
};

__attribute__((export_name("tag"), noinline)) unsigned tag(unsigned low, unsigned high, unsigned number, const struct item *first) {
    if (!seen_take(number)) return 0;
    frame_begin(low, high, number);
    for (const struct item *at = first; at; at = at->next) frame_word(at->word);
    return frame_end();
}

/* The second tag of two of one number. */
__attribute__((export_name("again"))) unsigned again(unsigned low, unsigned high, unsigned number, const struct item *first) {
    tag(low, high, number, first);
    return tag(low, high, number, first);
}
