// The sum of a list in memory, whose every address but the first is loaded from the memory.
// Licence: public domain (CC0).

struct item {
    unsigned value;
    const struct item *next;
};

unsigned list(const struct item *at) {
    unsigned sum = 0;
    for (; at; at = at->next)
        sum += at->value;
    return sum;
}
