// What whole libraries call beside companions/include/libc.c, so that a module imports nothing. They are only
// compiled and hardened, never run: allocation takes from a fixed block, and snprintf writes nothing.
// Licence: public domain (CC0).
typedef __SIZE_TYPE__ size;
typedef unsigned long long u64;

int errno;
static unsigned char heap[65536];
static size used;

// The product of two numbers of 128 bits, as clang calls it.
void __multi3(u64 *to, u64 a, u64 a_high, u64 b, u64 b_high) {
    u64 al = a & 0xFFFFFFFF, ah = a >> 32, bl = b & 0xFFFFFFFF, bh = b >> 32;
    u64 ll = al * bl, lh = al * bh, hl = ah * bl, hh = ah * bh;
    u64 mid = (ll >> 32) + (lh & 0xFFFFFFFF) + (hl & 0xFFFFFFFF);
    to[0] = (ll & 0xFFFFFFFF) | (mid << 32);
    to[1] = hh + (lh >> 32) + (hl >> 32) + (mid >> 32) + a * b_high + a_high * b;
}

size strlen(const char *s) {
    size n = 0;
    while (s[n]) n++;
    return n;
}

int strncmp(const char *a, const char *b, size n) {
    for (; n; n--, a++, b++) {
        if (*a != *b) return *(unsigned char *)a - *(unsigned char *)b;
        if (!*a) break;
    }
    return 0;
}

int strcmp(const char *a, const char *b) { return strncmp(a, b, (size)-1); }

char *strncpy(char *t, const char *f, size n) {
    char *r = t;
    while (n && (*t = *f)) t++, f++, n--;
    while (n--) *t++ = 0;
    return r;
}

char *strcpy(char *t, const char *f) {
    char *r = t;
    while ((*t++ = *f++)) {}
    return r;
}

char *strchr(const char *s, int c) {
    for (;; s++) {
        if (*s == (char)c) return (char *)s;
        if (!*s) return 0;
    }
}

char *strrchr(const char *s, int c) {
    const char *found = 0;
    for (;; s++) {
        if (*s == (char)c) found = s;
        if (!*s) return (char *)found;
    }
}

char *strstr(const char *a, const char *b) {
    for (;; a++) {
        size i = 0;
        while (b[i] && a[i] == b[i]) i++;
        if (!b[i]) return (char *)a;
        if (!*a) return 0;
    }
}

void *memchr(const void *s, int c, size n) {
    const unsigned char *p = s;
    for (; n; n--, p++)
        if (*p == (unsigned char)c) return (void *)p;
    return 0;
}

void *malloc(size n) {
    n = (n + 15) & ~(size)15;
    if (n > sizeof heap - used) return 0;
    used += n;
    return heap + used - n;
}

void *calloc(size a, size b) {
    unsigned char *p = malloc(a * b);
    for (size i = 0; p && i < a * b; i++) p[i] = 0;
    return p;
}

void *realloc(void *old, size n) {
    unsigned char *p = malloc(n), *o = old;
    for (size i = 0; p && o && i < n; i++) p[i] = o[i];
    return p;
}

void free(void *p) { (void)p; }

long time(long *t) {
    if (t) *t = 0;
    return 0;
}

int snprintf(char *to, size n, const char *form, ...) {
    if (n) *to = 0;
    (void)form;
    return 0;
}
