/* ChaCha20-Poly1305 of strongSwan. Its object has a table of methods, and callers go through the table. With -DDIRECT they call the methods by their
 * names. Licence: public domain (CC0). */
#include "blade.h"

BLADE_SECRET_MEMORY;

#include "chapoly_drv_portable.c"

#ifdef DIRECT
#define CALL(driver, method, ...) method(driver, ##__VA_ARGS__)
#else
#define CALL(driver, method, ...) (driver)->method(driver, ##__VA_ARGS__)
#endif

static void absorb(chapoly_drv_t *driver, u_char *data, u_int size) {
    u_char last[16] = {0};
    CALL(driver, poly, data, size / 16);
    if (size % 16) {
        memcpy(last, data + size / 16 * 16, size % 16);
        CALL(driver, poly, last, 1);
    }
}

/* Encrypts in place, and gives the tag, as chapoly_aead.c does. */
bool seal(u_char *data, u_int size, u_char *associated, u_int associated_size, u_char *key, u_char *salt, u_char *iv, u_char *tag) {
    chapoly_drv_t *driver = chapoly_drv_portable_create();
    u_char stream[64], *rest = data + size / 64 * 64;
    struct {
        uint64_t associated, data;
    } sizes = {associated_size, size};
    if (!driver)
        return FALSE;
    CALL(driver, set_key, (u_char *)"expand 32-byte k", key, salt);
    CALL(driver, init, iv);
    absorb(driver, associated, associated_size);
    CALL(driver, encrypt, data, size / 64);
    CALL(driver, chacha, stream);
    for (u_int i = 0; i < size % 64; i++)
        rest[i] ^= stream[i];
    absorb(driver, rest, size % 64);
    CALL(driver, poly, (u_char *)&sizes, 1);
    CALL(driver, finish, tag);
    CALL(driver, destroy);
    return TRUE;
}
