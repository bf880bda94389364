/* What strongSwan's ChaCha20-Poly1305 needs of <library.h>: types, byte order, and the macros of methods and objects, as its utils/ has them.
 * Licence: public domain (CC0). */
#ifndef LIBRARY_H_
#define LIBRARY_H_
#include <stdbool.h>
#include <stdint.h>
#include <stdlib.h>
#include <string.h>

typedef unsigned char u_char;
typedef unsigned u_int;
typedef unsigned long u_long;
#define TRUE true
#define FALSE false
#define le32toh(x) (x)

static inline uint32_t uletoh32(void *from) {
    uint32_t value;
    memcpy(&value, from, sizeof value);
    return value;
}
static inline void htoule32(void *to, uint32_t value) { memcpy(to, &value, sizeof value); }
static inline void memwipe(void *at, size_t size) { memset(at, 0, size); }

#define INIT(this, ...) ((this) = malloc(sizeof *(this)), *(this) = (__typeof__(*(this))){__VA_ARGS__}, (this))
#define METHOD(iface, name, ret, this, ...) \
    static ret name(union { iface *_public; this; } __attribute__((transparent_union)), ##__VA_ARGS__); \
    static __typeof__(name) *_##name = (__typeof__(name) *)name; \
    static ret name(this, ##__VA_ARGS__)
#endif
