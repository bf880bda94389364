// Calls of routines of GNU nettle and of mbed TLS, each over buffers: what `measure` compiles beside their own sources.
// Licence: public domain (CC0).
#include <stddef.h>
#include <stdint.h>

#ifdef AES
#include "aes.h"
void aes(const uint8_t *key, const uint8_t *in, uint8_t *out) {
    static struct aes128_ctx context;
    aes128_set_encrypt_key(&context, key);
    aes128_encrypt(&context, 16, out, in);
}
#endif
#ifdef SHA3
#include "sha3.h"
// In two parts, so that the context keeps a count between them.
void sha3(const uint8_t *data, size_t first, size_t second, uint8_t *out) {
    static struct sha3_256_ctx context;
    sha3_256_init(&context);
    sha3_256_update(&context, first, data);
    sha3_256_update(&context, second, data + first);
    sha3_256_digest(&context, 32, out);
}
#endif
#ifdef CHACHA
#include "chacha.h"
void chacha(const uint8_t *key, const uint8_t *nonce, size_t size, const uint8_t *in, uint8_t *out) {
    static struct chacha_ctx context;
    chacha_set_key(&context, key);
    chacha_set_nonce(&context, nonce);
    chacha_crypt(&context, size, out, in);
}
#endif
#ifdef MODEXP
#include "mbedtls/bignum.h"
// A heap that is never given back.
static unsigned char heap[32768] __attribute__((aligned(16)));
static size_t used;
void *heap_calloc(size_t count, size_t size) {
    unsigned char *given = heap + used;
    used += (count * size + 15) & ~(size_t)15;
    for (unsigned char *at = given; at < heap + used; at++)
        *at = 0;
    return given;
}
void heap_free(void *given) {
    (void)given;
}
// The base to the power of the exponent modulo n, numbers of 32 bytes.
int modexp(const uint8_t *base, const uint8_t *exponent, const uint8_t *n, uint8_t *out) {
    mbedtls_mpi b, e, m, x;
    mbedtls_mpi_init(&b);
    mbedtls_mpi_init(&e);
    mbedtls_mpi_init(&m);
    mbedtls_mpi_init(&x);
    mbedtls_mpi_read_binary(&b, base, 32);
    mbedtls_mpi_read_binary(&e, exponent, 32);
    mbedtls_mpi_read_binary(&m, n, 32);
    int failed = mbedtls_mpi_exp_mod(&x, &b, &e, &m, NULL);
    mbedtls_mpi_write_binary(&x, out, 32);
    return failed;
}
#endif
