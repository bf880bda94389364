/* AES key unwrap of wpa_supplicant, which keeps its round keys in a block of malloc. Licence: public domain (CC0). */
#include "wpa.h"

#include "aes-internal.c"
#include "aes-internal-dec.c"
#include "aes-unwrap.c"
