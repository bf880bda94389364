// The functions that clang calls by itself and a library without operations on whole memories has to give: for -nostdlib. In each the size
// and the addresses have to be public; the bytes may be secret, and memcmp tells the difference without a branch that depends on one.
// Compile with -fno-builtin, so that clang makes no call of the function out of its own loop. Licence: public domain (CC0).
typedef __SIZE_TYPE__ size;

void *memcpy(void *restrict to, const void *restrict from, size count) {
    unsigned char *t = to;
    const unsigned char *f = from;
    for (size i = 0; i < count; i++)
        t[i] = f[i];
    return to;
}

void *memmove(void *to, const void *from, size count) {
    unsigned char *t = to;
    const unsigned char *f = from;
    // Addresses are public; so is the way to go.
    if ((size)t - (size)f >= count) {
        for (size i = 0; i < count; i++)
            t[i] = f[i];
    } else {
        for (size i = count; i > 0; i--)
            t[i - 1] = f[i - 1];
    }
    return to;
}

void *memset(void *to, int byte, size count) {
    unsigned char *t = to;
    for (size i = 0; i < count; i++)
        t[i] = (unsigned char)byte;
    return to;
}

// The first difference is kept by a mask; all bytes are read.
int memcmp(const void *one, const void *other, size count) {
    const unsigned char *a = one, *b = other;
    unsigned found = 0;
    int told = 0;
    for (size i = 0; i < count; i++) {
        int by = a[i] - b[i];
        unsigned differ = (unsigned)(by | -by) >> 31;
        told |= by & -(int)(differ & ~found);
        found |= differ;
    }
    return told;
}
