#ifndef TAG_H
#define TAG_H
#define TAG_SIZE 16
unsigned tag_equal(const unsigned char *one, const unsigned char *other);
unsigned word(const unsigned char *tag, unsigned at);
#endif
