/* PBKDF2 with HMAC-SHA-1 of wpa_supplicant. With -DLEDGER, and the changes that ../port makes, the counters, the lengths and the pointers are in the
 * ledger, and the caller gives the length of the passphrase. Licence: public domain (CC0). */
#include "wpa.h"
#ifdef LEDGER
#include "ledger.h"
static unsigned passphrase_size;
#define os_strlen(text) PUB(passphrase_size)
#else
#define os_strlen strlen
size_t strlen(const char *text) {
    size_t size = 0;
    while (text[size]) size++;
    return size;
}
#endif

#include "sha1-internal.c"

#ifdef LEDGER
/* In place of sha1_vector and hmac_sha1_vector of one part, which would be given the addresses of parameters. */
static int sha1_of(const u8 *data, size_t size, u8 *mac) {
    const u8 *addr[1];
    size_t len[1];
    SETPUB(addr[0], data);
    SETPUB(len[0], size);
    return sha1_vector(1, addr, len, mac);
}
static int hmac_of(const u8 *key, size_t key_size, const u8 *data, size_t size, u8 *mac) {
    const u8 *addr[1];
    size_t len[1];
    SETPUB(addr[0], data);
    SETPUB(len[0], size);
    return hmac_sha1_vector(key, key_size, 1, addr, len, mac);
}
#endif

#include "sha1.c"
#include "sha1-pbkdf2.c"

int derive(const char *passphrase, unsigned size, const u8 *ssid, size_t ssid_len, int iterations, u8 *buf, size_t buflen) {
#ifdef LEDGER
    SETPUB(passphrase_size, size);
#endif
    return pbkdf2_sha1(passphrase, ssid, ssid_len, iterations, buf, buflen);
}
