/* Whether a number below 1,024 comes for the first time. Licence: public domain (CC0). */
#ifndef SEEN_H
#define SEEN_H

#ifdef SEEN_LIBRARY
#define SEEN(name) __attribute__((export_name(name)))
#else
#define SEEN(name) __attribute__((import_module("seen"), import_name(name)))
#endif

SEEN("take") unsigned seen_take(unsigned number);

#endif
