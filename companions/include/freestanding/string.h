/* The C library's <string.h>: wasi-libc's where it is installed, else what libc.c has. Licence: public domain (CC0). */
#if __has_include_next(<string.h>)
#include_next <string.h>
#elif !defined(BLADE_STRING_H)
#define BLADE_STRING_H
#include <stddef.h>
#ifdef __cplusplus
extern "C" {
#endif
void *memcpy(void *, const void *, size_t);
void *memmove(void *, const void *, size_t);
void *memset(void *, int, size_t);
int memcmp(const void *, const void *, size_t);
#ifdef __cplusplus
}
#endif
#endif
