/* What some files of wpa_supplicant's src/crypto need of their headers includes.h and common.h. Licence: public domain (CC0). */
#include <stdbool.h>
#include <stdint.h>
#include <stdlib.h>
#include <string.h>
#include "blade.h"

#define INCLUDES_H
#define COMMON_H
typedef uint8_t u8;
typedef uint16_t u16;
typedef uint32_t u32;
typedef uint64_t u64;
#define __must_check
#define STRUCT_PACKED
#define BIT(x) (1U << (x))
#define TEST_FAIL() 0
#define CONFIG_CRYPTO_INTERNAL
#define os_memcpy memcpy
#define os_memset memset
#define os_malloc malloc
#define os_free free
static inline void forced_memzero(void *at, size_t size) { memset(at, 0, size); }

BLADE_SECRET_MEMORY;
