#include "text.h"

#include <stdio.h>
#include <stdlib.h>
#include <string.h>

void fail(const char *what)
{
    fprintf(stderr, "%s\n", what);
    exit(2);
}

void text_bytes(struct text *out, const void *bytes, size_t count)
{
    if (out->room - out->length < count) {
        out->room = 2 * (out->length + count);
        out->bytes = realloc(out->bytes, out->room);
        if (!out->bytes)
            fail("no memory");
    }
    memcpy(out->bytes + out->length, bytes, count);
    out->length += count;
}

void text_word(struct text *out, const char *word)
{
    text_bytes(out, word, strlen(word));
}

void text_number(struct text *out, uint64_t n)
{
    char digits[20];
    size_t at = sizeof digits;
    do {
        digits[--at] = '0' + n % 10;
        n /= 10;
    } while (n);
    text_bytes(out, digits + at, sizeof digits - at);
}

void text_signed(struct text *out, int64_t n)
{
    if (n < 0)
        text_word(out, "-");
    text_number(out, n < 0 ? -(uint64_t)n : (uint64_t)n);
}

uint64_t text_digest(const struct text *out)
{
    uint64_t hash = 0xcbf29ce484222325;
    for (size_t i = 0; i < out->length; i++)
        hash = (hash ^ (uint8_t)out->bytes[i]) * 0x100000001b3;
    return hash;
}

void text_flush(struct text *out)
{
    if (fwrite(out->bytes, 1, out->length, stdout) != out->length)
        fail("standard output takes no more");
    out->length = 0;
}
