/* The C library's <stdlib.h>: wasi-libc's where it is installed, else abort, which ends the run,
   and what blade-cc --allocator links. Licence: public domain (CC0). */
#if __has_include_next(<stdlib.h>)
#include_next <stdlib.h>
#elif !defined(BLADE_STDLIB_H)
#define BLADE_STDLIB_H
#include <stddef.h>
__attribute__((noreturn)) static inline void abort(void) { __builtin_trap(); }
void *malloc(size_t size);
void *calloc(size_t count, size_t size);
void *realloc(void *block, size_t size);
void *aligned_alloc(size_t alignment, size_t size);
void free(void *block);
#endif
