/* HalfSipHash-2-4 with a tag of 32 bits, a word at a time. The state is in the library's own memory.
 * Licence: public domain (CC0). */
#ifndef MAC_H
#define MAC_H

#ifdef MAC_LIBRARY
#define MAC(name) __attribute__((export_name(name)))
#else
#define MAC(name) __attribute__((import_module("mac"), import_name(name)))
#endif

/* Begins with a key of two words. */
MAC("begin") void mac_begin(unsigned low, unsigned high);
/* Takes the next four bytes, the first one lowest. */
MAC("word") void mac_word(unsigned word);
/* The tag. The last word has the bytes that are left, and in its highest byte how many there are of all. */
MAC("end") unsigned mac_end(unsigned last);

#endif
