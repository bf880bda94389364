// HMAC-SHA-256, hardened by Blade, in a C program: prints the tag of RFC 4231, case 2. Licence: public domain (CC0).
#include "hmac.h"
#include <stdio.h>

// Places for the key, the text and the tag in the memory of hmac.wasm: hmac.h says which bytes are free.
enum { KEY = 131072, TEXT = KEY + 64, TAG = KEY + 512, KEY_SIZE = 4, TEXT_SIZE = 28, TAG_SIZE = 32 };

int main(void)
{
    uint8_t tag[TAG_SIZE];
    hmac *m = hmac_new();
    if (!m || !hmac_write(m, HMAC_MEMORY_HMAC, KEY, "Jefe", KEY_SIZE)
           || !hmac_write(m, HMAC_MEMORY_HMAC, TEXT, "what do ya want for nothing?", TEXT_SIZE)) return 1;
    // The last argument says how many bytes of the text are the first part: the example hashes the text in two parts.
    hmac_end end = hmac_hmac(m, TAG, KEY, KEY_SIZE, TEXT, TEXT_SIZE, TEXT_SIZE);
    if (end != HMAC_OK || !hmac_read(m, HMAC_MEMORY_HMAC, TAG, tag, TAG_SIZE)) {
        fprintf(stderr, "hmac: %s\n", hmac_end_text(end));
        return 1;
    }
    for (int i = 0; i < TAG_SIZE; i++) printf("%02x", tag[i]);
    putchar('\n');
    hmac_free(m);
    return 0;
}
