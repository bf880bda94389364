/* X25519 of dropbear. The headers that curve25519.c includes ask for a whole system and a generated config.h. Their guards keep them out, and this unit
 * says what they would say. Licence: public domain (CC0). */
#include <string.h>
#include "blade.h"

#define DROPBEAR_INCLUDES_H_
#define DROPBEAR_RANDOM_H_
#define DROPBEAR_CURVE25519 1
#define DROPBEAR_ED25519 0

BLADE_SECRET_MEMORY;

#include "curve25519.c"
