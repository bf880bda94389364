// malloc and free for verification: blade-cc --allocator links them in place of the C library's. C's memory may be declared secret as a whole, so nothing
// of their state is there: it is in globals of the module, which are public, and no block has a header. So an address depends on sizes and on the order of
// calls, never on what memory holds, and code that calls them gets no violation from them if sizes and pointers are public.
//
// Blocks lie one behind the other in BLADE_HEAP bytes. The room of a freed block is used again once all blocks behind it are freed, as far as it is one of
// the last eight. If the room is used up, malloc gives 0. Licence: public domain (CC0).
typedef __SIZE_TYPE__ size;

#ifndef BLADE_HEAP
#define BLADE_HEAP 262144
#endif
#define UNIT 16u
#define THERE 2u // a block; its offset is a multiple of UNIT
#define FREED 1u
#define GLOBAL static unsigned __attribute__((address_space(1)))

static unsigned char heap[BLADE_HEAP] __attribute__((aligned(UNIT)));
GLOBAL used; // bytes of the heap up to the end of the last block
GLOBAL block_0, block_1, block_2, block_3, block_4, block_5, block_6, block_7; // the last blocks, the newest one first

static void keep(unsigned offset) {
    block_7 = block_6, block_6 = block_5, block_5 = block_4, block_4 = block_3, block_3 = block_2, block_2 = block_1, block_1 = block_0;
    block_0 = offset | THERE;
}

static void drop(void) {
    block_0 = block_1, block_1 = block_2, block_2 = block_3, block_3 = block_4, block_4 = block_5, block_5 = block_6, block_6 = block_7;
    block_7 = 0;
}

// Whether a block of these bytes from an offset on fits.
static int fits(unsigned offset, size bytes) { return offset <= BLADE_HEAP && bytes <= BLADE_HEAP - offset; }

// The offset behind such a block.
static unsigned behind(unsigned offset, size bytes) { return offset + (((unsigned)bytes + !bytes + UNIT - 1) & -UNIT); }

static void *placed(size alignment, size bytes) {
    unsigned base = (unsigned)heap, offset = ((base + used + alignment - 1) & -alignment) - base;
    if (!fits(offset, bytes) || behind(offset, bytes) > BLADE_HEAP)
        return 0;
    used = behind(offset, bytes);
    keep(offset);
    return heap + offset;
}

void *malloc(size bytes) { return placed(UNIT, bytes); }
void *__libc_malloc(size bytes) { return malloc(bytes); } // wasi-libc calls it by this name

void free(void *block) {
    unsigned offset = (unsigned)block - (unsigned)heap, it = offset | THERE;
    if (!block)
        return;
#define MARK(number) \
    if (block_##number == it) \
    block_##number = it | FREED
    MARK(0);
    MARK(1);
    MARK(2);
    MARK(3);
    MARK(4);
    MARK(5);
    MARK(6);
    MARK(7);
    while (block_0 & FREED) {
        used = block_0 & -UNIT;
        drop();
    }
}

void *calloc(size count, size each) {
    unsigned long long bytes = (unsigned long long)count * each;
    unsigned char *made = bytes <= BLADE_HEAP ? malloc((size)bytes) : 0;
    for (size i = 0; made && i < (size)bytes; i++)
        made[i] = 0;
    return made;
}

void *__libc_calloc(size count, size each) { return calloc(count, each); }

// The size of the old block isn't known. The new block is behind it, so as many bytes as the new one has can be read from the old one on; what is
// copied from behind the old block is what C leaves open.
void *realloc(void *block, size bytes) {
    unsigned offset = (unsigned)block - (unsigned)heap;
    const unsigned char *from = block;
    if (block && block_0 == (offset | THERE)) {
        if (!fits(offset, bytes) || behind(offset, bytes) > BLADE_HEAP)
            return 0;
        used = behind(offset, bytes);
        return block;
    }
    unsigned char *made = malloc(bytes);
    for (size i = 0; made && from && i < bytes; i++)
        made[i] = from[i];
    free(made ? block : 0);
    return made;
}

void *aligned_alloc(size alignment, size bytes) {
    return alignment && !(alignment & (alignment - 1)) && alignment <= BLADE_HEAP ? placed(alignment < UNIT ? UNIT : alignment, bytes) : 0;
}

int posix_memalign(void **to, size alignment, size bytes) {
    void *made = alignment >= sizeof(void *) ? aligned_alloc(alignment, bytes) : 0;
    if (!made)
        return alignment >= sizeof(void *) && !(alignment & (alignment - 1)) ? 12 : 22; // ENOMEM, EINVAL
    *to = made;
    return 0;
}
