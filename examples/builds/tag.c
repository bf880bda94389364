// Two tags of 16 bytes, compared and derived: their bytes are secret. Licence: public domain (CC0).
#include "tag.h"
#include "blade.h"

BLADE_SECRET_MEMORY;

unsigned tag_equal(const unsigned char *one, const unsigned char *other) {
    unsigned differing = 0;
    for (unsigned i = 0; i < TAG_SIZE; i++)
        differing |= word(one, i) ^ word(other, i);
    return differing == 0;
}
