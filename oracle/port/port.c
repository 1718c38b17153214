/* port [--dump | --digest]: the port, from its static library, as document 01's replay program.
 *
 * Reads a stream from standard input. Without an option `scheduler_feed` prints it, block by block. `--dump` calls
 * `scheduler_command` and `scheduler_render` for each command and prints the whole state after every line from the obeyed
 * seal on; `--digest` a line `d HASH` instead, over the bytes that `--dump` would print there. */
#include "dump.h"

#include <stdio.h>
#include <string.h>

enum show { LINES, DUMP, DIGEST };

static struct thread threads[THREADS];
static cpu cpus[CPUS];
static node nodes[NODES];

static struct state start(void)
{
    struct begun begun = scheduler_start(threads, THREADS, cpus, CPUS, nodes, NODES);
    if (!begun.ready)
        fail("the start finds no room");
    return begun.state;
}

/* Blocks of an odd size, so that commands are cut at their ends, and an output that fills before they are used up. */
static void by_blocks(void)
{
    static uint8_t input[4093], output[6000];
    struct text out = {0};
    struct fed fed = scheduler_begin(start());
    size_t left = 0;
    do {
        size_t n = left + fread(input + left, 1, sizeof input - left, stdin);
        bool last = n == left && feof(stdin);
        fed = scheduler_feed(threads, THREADS, cpus, CPUS, nodes, NODES, input, sizeof input, output, sizeof output, n, last, fed);
        text_bytes(&out, output, fed.done);
        text_flush(&out);
        left = n - fed.at;
        memmove(input, input + fed.at, left);
    } while (fed.phase != ENDED);
}

static void show_state(struct text *out, uint64_t shortest, enum show show)
{
    if (show == DUMP) {
        dump(out, shortest, threads, cpus);
        return;
    }
    static struct text state;
    char line[32];
    state.length = 0;
    dump(&state, shortest, threads, cpus);
    snprintf(line, sizeof line, "d %016llx\n", (unsigned long long)text_digest(&state));
    text_word(out, line);
}

static void by_commands(enum show show)
{
    struct text stream = {0}, out = {0};
    uint8_t block[1 << 16], line[LINE];
    for (size_t n; (n = fread(block, 1, sizeof block, stdin));)
        text_bytes(&stream, block, n);
    struct state state = start();
    uint64_t number = 0, refused = 0;
    text_word(&out, "sched 1\n");
    for (size_t at = 0; at < stream.length;) {
        const uint8_t *bytes = (const uint8_t *)stream.bytes + at;
        struct step step = scheduler_command(threads, THREADS, cpus, CPUS, nodes, NODES, bytes, stream.length - at, state);
        struct written written = scheduler_render(line, sizeof line, number, step.row);
        if (written.refusal)
            fail("no room for a line");
        text_bytes(&out, line, written.bytes);
        state = step.state;
        at += step.used;
        refused += step.row.refusal != 0;
        if (state.sealed)
            show_state(&out, state.shortest, show);
        if (out.length > 1 << 15)
            text_flush(&out);
        number++;
        if (step.row.refusal == 1 || step.row.refusal == 2 || number == 4294967295)
            break;
    }
    text_word(&out, "end ");
    text_number(&out, number);
    text_word(&out, " ");
    text_number(&out, refused);
    text_word(&out, "\n");
    text_flush(&out);
}

int main(int argc, char **argv)
{
    if (argc == 1)
        by_blocks();
    else if (argc == 2 && !strcmp(argv[1], "--dump"))
        by_commands(DUMP);
    else if (argc == 2 && !strcmp(argv[1], "--digest"))
        by_commands(DIGEST);
    else
        fail("usage: port [--dump | --digest] <STREAM");
    return 0;
}
