/* stack <STREAM: how deep the stack grows in a call of the static library.
 *
 * Every call runs on a stack of its own, painted before; the deepest byte that lost its paint tells. Prints the most for
 * each command byte that was obeyed, for refusals, for `scheduler_render`, `scheduler_start` and `scheduler_feed`. */
#include "scheduler.h"
#include "text.h"

#include <stdio.h>
#include <string.h>
#include <ucontext.h>

enum { STACK = 1 << 18, PAINT = 0xa5, OTHERS = 4 };
enum { REFUSAL, RENDER, START, FEED };

static struct thread threads[THREADS];
static cpu cpus[CPUS];
static node nodes[NODES];

static _Alignas(64) uint8_t stack[STACK];
static ucontext_t here, there;
static size_t deepest[256], others[OTHERS];

static struct text stream;
static size_t at, most;
static struct state state;
static struct step step;
static struct fed fed;
static uint8_t line[LINE], output[1 << 16];

static void nothing(void)
{
}

static void start(void)
{
    state = scheduler_start(threads, THREADS, cpus, CPUS, nodes, NODES).state;
}

static void command(void)
{
    step = scheduler_command(threads, THREADS, cpus, CPUS, nodes, NODES, (uint8_t *)stream.bytes + at, stream.length - at, state);
}

static void render(void)
{
    scheduler_render(line, sizeof line, 4294967294, step.row);
}

static void feed(void)
{
    size_t n = stream.length - at < 4096 ? stream.length - at : 4096;
    fed = scheduler_feed(threads, THREADS, cpus, CPUS, nodes, NODES, (uint8_t *)stream.bytes + at, n, output, sizeof output, n,
                         n == stream.length - at, fed);
}

/* Runs it on the painted stack; answers how many of its bytes were used. `most` of them are painted again. */
static size_t depth(void (*call)(void))
{
    if (getcontext(&there))
        fail("no context");
    there.uc_stack.ss_sp = stack;
    there.uc_stack.ss_size = STACK;
    there.uc_link = &here;
    memset(stack + STACK - most, PAINT, most);
    makecontext(&there, call, 0);
    if (swapcontext(&here, &there))
        fail("no context");
    size_t i = 0;
    while (i < STACK && stack[i] == PAINT)
        i++;
    size_t used = STACK - i;
    most = used > most ? used : most;
    return used;
}

static void note(size_t *most_of, size_t used)
{
    *most_of = used > *most_of ? used : *most_of;
}

int main(void)
{
    uint8_t block[1 << 12];
    for (size_t n; (n = fread(block, 1, sizeof block, stdin));)
        text_bytes(&stream, block, n);
    memset(stack, PAINT, STACK);
    size_t bare = depth(nothing);
    note(&others[START], depth(start) - bare);
    while (at < stream.length) {
        size_t used = depth(command) - bare;
        note(step.row.refusal ? &others[REFUSAL] : &deepest[(uint8_t)stream.bytes[at]], used);
        note(&others[RENDER], depth(render) - bare);
        if (step.row.refusal == 1 || step.row.refusal == 2)
            break;
        at += step.used;
        state = step.state;
    }
    at = 0;
    start();
    fed = scheduler_begin(state);
    while (fed.phase != ENDED) {
        note(&others[FEED], depth(feed) - bare);
        at += fed.at;
    }
    for (int byte = 0; byte < 256; byte++)
        if (deepest[byte])
            printf("%02X %zu\n", byte, deepest[byte]);
    printf("refused %zu\nrender %zu\nstart %zu\nfeed %zu\n", others[REFUSAL], others[RENDER], others[START], others[FEED]);
    return 0;
}
