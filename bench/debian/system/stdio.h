#pragma once
#include <stddef.h>
typedef struct no_file FILE;
int snprintf(char *, size_t, const char *, ...);
int printf(const char *, ...);
