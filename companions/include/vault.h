/* The vault: secret and public bytes in two memories, with types that make mixing them an error. Licence: public domain (CC0).
   s8, s32, s64 are room for secret bytes, p32, p64 for public numbers. They are declared like any C object, in frames, structs and arrays, but
   never read by C: `x[0] = x[1]`, `x[0] + 1`, `x[0].room`, `s8 x[4] = {..}`, `*context1 = *context2`, an s8 * where a char * or p32 * is due: each is an
   error (the last one with -Werror=incompatible-pointer-types). memcpy and memset through void * aren't: they'd move the room, not the bytes.
   The object's ADDRESS counts: the bytes stand at the same address of the memory that has the right label.
     -DVAULT   C's memory is public, the module `vault` has the secret bytes
     -DLEDGER  C's memory is secret, the module `ledger` has the public numbers (the modules are accessors.wat, under either name)
     neither   all in C's one memory */
#ifndef VAULT_H
#define VAULT_H
#include <stdint.h>
#define ROOM_(type, name, how) typedef struct { const type room __attribute__((unavailable(how))); } name;
ROOM_(uint8_t, s8, "secret: get8, put8")
ROOM_(uint32_t, s32, "secret: get32, put32")
ROOM_(uint64_t, s64, "secret: get64, put64")
ROOM_(uint32_t, p32, "public: pub32, setpub32")
ROOM_(uint64_t, p64, "public: pub64, setpub64")
#define AT(p) ((uint32_t)(p))
#define FAR_(type, name, parameters, module) __attribute__((import_module(module), import_name(#name))) type name##_far parameters;
#define FAR_ALL_(module) \
    FAR_(uint32_t, ld8, (uint32_t), module) FAR_(uint32_t, ld32, (uint32_t), module) FAR_(uint64_t, ld64, (uint32_t), module) \
    FAR_(void, st8, (uint32_t, uint32_t), module) FAR_(void, st32, (uint32_t, uint32_t), module) FAR_(void, st64, (uint32_t, uint64_t), module) \
    FAR_(void, copy, (uint32_t, uint32_t, uint32_t), module) FAR_(void, zero, (uint32_t, uint32_t), module) FAR_(void, mix, (uint32_t, uint32_t, uint32_t), module)
#if defined(VAULT)
FAR_ALL_("vault")
#elif defined(LEDGER)
FAR_ALL_("ledger")
#endif
#define NEAR_ static inline __attribute__((always_inline))
typedef uint32_t u32u_ __attribute__((aligned(1), may_alias));
typedef uint64_t u64u_ __attribute__((aligned(1), may_alias));
typedef uint8_t u8_ __attribute__((may_alias));
NEAR_ uint32_t ld8_near(uint32_t a) { return *(const u8_ *)a; }
NEAR_ uint32_t ld32_near(uint32_t a) { return *(const u32u_ *)a; }
NEAR_ uint64_t ld64_near(uint32_t a) { return *(const u64u_ *)a; }
NEAR_ void st8_near(uint32_t a, uint32_t v) { *(u8_ *)a = (uint8_t)v; }
NEAR_ void st32_near(uint32_t a, uint32_t v) { *(u32u_ *)a = v; }
NEAR_ void st64_near(uint32_t a, uint64_t v) { *(u64u_ *)a = v; }
static inline void copy_near(uint32_t t, uint32_t f, uint32_t n) { for (; n; n--) st8_near(t++, ld8_near(f++)); }
static inline void zero_near(uint32_t t, uint32_t n) { for (; n; n--) st8_near(t++, 0); }
static inline void mix_near(uint32_t t, uint32_t f, uint32_t n) { for (; n; n--, t++) st8_near(t, ld8_near(t) ^ ld8_near(f++)); }
#ifdef VAULT
#define SECRET_(name) name##_far
#else
#define SECRET_(name) name##_near
#endif
#ifdef LEDGER
#define PUBLIC_(name) name##_far
#else
#define PUBLIC_(name) name##_near
#endif
/* secrets */
NEAR_ uint32_t get8(const s8 *p) { return SECRET_(ld8)(AT(p)); }
NEAR_ uint32_t get32(const s32 *p) { return SECRET_(ld32)(AT(p)); }
NEAR_ uint64_t get64(const s64 *p) { return SECRET_(ld64)(AT(p)); }
NEAR_ uint32_t get32le(const s8 *p) { return SECRET_(ld32)(AT(p)); }
NEAR_ uint64_t get64le(const s8 *p) { return SECRET_(ld64)(AT(p)); }
NEAR_ void put8(s8 *p, uint32_t v) { SECRET_(st8)(AT(p), v); }
NEAR_ void put32(s32 *p, uint32_t v) { SECRET_(st32)(AT(p), v); }
NEAR_ void put64(s64 *p, uint64_t v) { SECRET_(st64)(AT(p), v); }
NEAR_ void put32le(s8 *p, uint32_t v) { SECRET_(st32)(AT(p), v); }
NEAR_ void put64le(s8 *p, uint64_t v) { SECRET_(st64)(AT(p), v); }
NEAR_ uint32_t get32be(const s8 *p) { return __builtin_bswap32(get32le(p)); }
NEAR_ void put32be(s8 *p, uint32_t v) { put32le(p, __builtin_bswap32(v)); }
NEAR_ void copy_secret(s8 *to, const s8 *from, uint32_t size) { SECRET_(copy)(AT(to), AT(from), size); }
NEAR_ void zero_secret(s8 *to, uint32_t size) { SECRET_(zero)(AT(to), size); }
NEAR_ void mix_secret(s8 *to, const s8 *from, uint32_t size) { SECRET_(mix)(AT(to), AT(from), size); }
/* public numbers */
NEAR_ uint32_t pub32(const p32 *p) { return PUBLIC_(ld32)(AT(p)); }
NEAR_ uint64_t pub64(const p64 *p) { return PUBLIC_(ld64)(AT(p)); }
NEAR_ void setpub32(p32 *p, uint32_t v) { PUBLIC_(st32)(AT(p), v); }
NEAR_ void setpub64(p64 *p, uint64_t v) { PUBLIC_(st64)(AT(p), v); }
#define EXPORT(name) __attribute__((export_name(#name)))
#define UNROLL _Pragma("clang loop unroll(full)")
#endif
