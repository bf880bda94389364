#include "tag.h"

#ifdef LEAK
static const unsigned char permuted[256] = {7, 3, 5};
#endif

unsigned word(const unsigned char *tag, unsigned at) {
#ifdef LEAK
    return permuted[tag[at]];
#else
    return tag[at];
#endif
}
