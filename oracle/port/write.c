/* write <CALLS: the writer of the static library on stored calls, in the form of crates/writer_vectors/stdin.
 *
 * Every call is made on a buffer with marked content, of which the first bytes are lent. The refusal, the bytes written and
 * the whole buffer after the call must be those stored. Prints how many calls there were and how many differ, the first of these on
 * standard error, and ends with status 1 if any does, 2 if the input is cut short. */
#include "scheduler.h"
#include "text.h"

#include <stdio.h>
#include <string.h>

enum { ROOM = 12, MARK = 0xa0 };

struct call {
    uint64_t byte;
    struct fields fields;
    uint8_t wide, length, refusal, bytes, after[ROOM];
};

static void show_bytes(const uint8_t *bytes)
{
    for (size_t i = 0; i < ROOM; i++)
        fprintf(stderr, " %02x", bytes[i]);
}

static void show(const struct call *call, struct written written, const uint8_t *buffer)
{
    fprintf(stderr, "command %#llx, fields %llu %llu %llu %llu, %s, buffer of %u bytes\nanswered: refused %llu, %zu bytes,",
            (unsigned long long)call->byte, (unsigned long long)call->fields.first, (unsigned long long)call->fields.second,
            (unsigned long long)call->fields.third, (unsigned long long)call->fields.fourth, call->wide ? "wide" : "narrow",
            call->length, (unsigned long long)written.refusal, written.bytes);
    show_bytes(buffer);
    fprintf(stderr, "\nstored:   refused %u, %u bytes,", call->refusal, call->bytes);
    show_bytes(call->after);
    fprintf(stderr, "\n");
}

static bool agrees(const struct call *call, struct written written, const uint8_t *buffer)
{
    return written.refusal == call->refusal && written.bytes == call->bytes && !memcmp(buffer, call->after, ROOM);
}

int main(void)
{
    _Static_assert(sizeof(struct call) == 56, "a call in its bytes");
    struct call call;
    uint64_t calls = 0, differ = 0;
    size_t got;
    while ((got = fread(&call, 1, sizeof call, stdin)) == sizeof call) {
        uint8_t buffer[ROOM];
        for (size_t i = 0; i < ROOM; i++)
            buffer[i] = MARK + i;
        if (call.length > ROOM)
            fail("write: a stored buffer that is too long");
        struct written written = scheduler_write(call.byte, call.fields, call.wide, buffer, call.length);
        calls++;
        if (!agrees(&call, written, buffer) && differ++ == 0)
            show(&call, written, buffer);
    }
    if (got || ferror(stdin))
        fail("write: the input is cut short");
    printf("%llu cases, %llu differ\n", (unsigned long long)calls, (unsigned long long)differ);
    return differ > 0;
}
