/* Words and numbers into a buffer that grows. */
#ifndef TEXT_H
#define TEXT_H

#include <stddef.h>
#include <stdint.h>

struct text {
    char *bytes;
    size_t length, room;
};

void text_bytes(struct text *, const void *, size_t);
void text_word(struct text *, const char *);
void text_number(struct text *, uint64_t);
void text_signed(struct text *, int64_t);

/* FNV-1a, 64 bits, over everything written. */
uint64_t text_digest(const struct text *);

/* Writes all of it to standard output and empties it. */
void text_flush(struct text *);

/* Says what is wrong and ends the program. */
_Noreturn void fail(const char *);

#endif
