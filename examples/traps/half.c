/* -DLEDGER: a number that is half moved. It is written to C's memory, and read from the ledger: no bytes are mixed, and yet nothing leaks. As a p32 of
   vault.h the line that was missed doesn't compile. */
#include "ledger.h"
#ifdef TYPED
#include "vault.h"
typedef p32 count;
#else
typedef unsigned count;
#endif
typedef struct { count used; unsigned char bytes[16]; } piece;
__attribute__((export_name("f"))) unsigned f(piece *p, const unsigned char *data, unsigned size) {
    unsigned mixed = 0;
    p->used = size;
    for (unsigned i = 0; i < PUB(p->used); i++) mixed ^= data[i];
    return mixed;
}
