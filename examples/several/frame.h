/* A tag by mac of a number and of words behind it. How many there were is in the library's own memory. Licence: public domain (CC0). */
#ifndef FRAME_H
#define FRAME_H

#ifdef FRAME_LIBRARY
#define FRAME(name) __attribute__((export_name(name)))
#else
#define FRAME(name) __attribute__((import_module("frame"), import_name(name)))
#endif

/* Begins with a key of two words and the number. */
FRAME("begin") void frame_begin(unsigned low, unsigned high, unsigned number);
/* Takes the next word, of at most 62. */
FRAME("word") void frame_word(unsigned word);
/* The tag. */
FRAME("end") unsigned frame_end(void);

#endif
