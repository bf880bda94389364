// A context that counts the bytes it has: the count is public, the bytes are secret.
// Licence: public domain (CC0).
#include "vault.h"

struct piece {
    p32 used; // was: unsigned used
    unsigned char bytes[64];
};

EXPORT(add) void add(struct piece *p, const unsigned char *data, unsigned size) {
    unsigned used = pub32(&p->used); // was: p->used
    for (unsigned i = 0; i < size && used < 64; i++)
        p->bytes[used++] ^= data[i];
    setpub32(&p->used, used); // was: p->used = used
}
