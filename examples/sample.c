// The sum of numbers, of which every sixteenth is looked up in a table of 256.
// Licence: public domain (CC0).

unsigned sample(const unsigned *numbers, unsigned count, const unsigned *table) {
    unsigned sum = 0;
#pragma clang loop unroll(disable)
    for (unsigned i = 0; i < count; i++) {
        unsigned number = numbers[i];
        sum += number;
        if ((i & 15) == 0)
            sum += table[number & 255];
    }
    return sum;
}
