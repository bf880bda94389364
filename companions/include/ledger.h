/* The ledger: for C code that keeps public numbers among secrets. C's memory is declared secret; the public numbers stand at the same
   addresses of the memory of the module `ledger` (accessors.wat), which is public. PUB(x) reads one, SETPUB(x, v) writes one; x is an lvalue
   of 1, 2, 4 or 8 bytes (a number or a pointer), whose own room stays unused: memcpy, memset and = copy and clear that room alone.
   Without -DLEDGER both are plain C. Licence: public domain (CC0). */
#ifndef LEDGER_H
#define LEDGER_H
#include <stdint.h>
#ifdef LEDGER
#define LEDGER_(name) __attribute__((import_module("ledger"), import_name(name)))
LEDGER_("ld8") uint32_t ledger_ld8(uint32_t at);
LEDGER_("ld16") uint32_t ledger_ld16(uint32_t at);
LEDGER_("ld32") uint32_t ledger_ld32(uint32_t at);
LEDGER_("ld64") uint64_t ledger_ld64(uint32_t at);
LEDGER_("st8") void ledger_st8(uint32_t at, uint32_t value);
LEDGER_("st16") void ledger_st16(uint32_t at, uint32_t value);
LEDGER_("st32") void ledger_st32(uint32_t at, uint32_t value);
LEDGER_("st64") void ledger_st64(uint32_t at, uint64_t value);
#define LEDGER_AT_(x) ((uint32_t)&(x))
#define PUB(x) ((__typeof__(x))(sizeof(x) == 8 ? ledger_ld64(LEDGER_AT_(x)) : sizeof(x) == 4 ? ledger_ld32(LEDGER_AT_(x)) \
    : sizeof(x) == 2 ? ledger_ld16(LEDGER_AT_(x)) : ledger_ld8(LEDGER_AT_(x))))
#define SETPUB(x, v) (sizeof(x) == 8 ? ledger_st64(LEDGER_AT_(x), (uint64_t)(v)) : sizeof(x) == 4 ? ledger_st32(LEDGER_AT_(x), (uint32_t)(v)) \
    : sizeof(x) == 2 ? ledger_st16(LEDGER_AT_(x), (uint32_t)(v)) : ledger_st8(LEDGER_AT_(x), (uint32_t)(v)))
#else
#define PUB(x) (x)
#define SETPUB(x, v) ((x) = (v))
#endif
#endif
