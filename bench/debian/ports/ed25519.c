/* Ed25519 of tinyssh. Its build compiles each of these files by itself, and generates the header hasasmvolatilememory.h: an empty one means that the
 * compiler has no such statement. Licence: public domain (CC0). */
#include "blade.h"

BLADE_SECRET_MEMORY;

#include "crypto_sign_ed25519.c"
#include "crypto_hash_sha512.c"
#include "sc25519.c"
#include "ge25519.c"
#include "fe25519.c"
#include "fe.c"
#include "uint32_pack.c"
#include "uint32_unpack.c"
#include "crypto_verify_32.c"
#include "verify.c"
#include "cleanup.c"
