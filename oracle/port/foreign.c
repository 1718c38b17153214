/* foreign COUNT [SEED]: calls of the static library on records, words and states that nobody made. "On other records or states
 * a call still gives an answer": every call comes back, a refused one changes nothing, the same call twice answers the same,
 * and no byte outside the lent slices changes. A seal is answered as question 9's sentence has it, the shortest timeslice as the
 * sixth has its range, and no other command changes that figure. */
#include "scheduler.h"
#include "text.h"

#include <stdio.h>
#include <stdlib.h>
#include <string.h>

/* The lent memory, with bytes of nobody's between the slices. */
enum { FENCE = 4096 };

struct world {
    uint8_t fence0[FENCE];
    struct thread threads[THREADS];
    uint8_t fence1[FENCE];
    cpu cpus[CPUS];
    uint8_t fence2[FENCE];
    node nodes[NODES];
    uint8_t fence3[FENCE];
    uint8_t output[1024];
    uint8_t fence4[FENCE];
};

static struct world before, world, again;
static uint64_t seed;

static uint64_t draw(void)
{
    seed ^= seed << 13;
    seed ^= seed >> 7;
    seed ^= seed << 17;
    return seed;
}

static uint64_t below(uint64_t n)
{
    return draw() % n;
}

/* Numbers near those that mean something, and some of any size. */
static uint64_t number(void)
{
    switch (below(8)) {
    case 0:
        return NONE;
    case 1:
        return draw();
    case 2:
        return NONE - below(3);
    case 3:
        return 4294967293 + below(5);
    case 4:
        return below(4) << 16 | below(200);
    case 5:
        return below(130);
    case 6:
        return below(1030);
    default:
        return below(4);
    }
}

/* The bytes between the fields of a record are nobody's number. */
static void clear_padding(struct world *w)
{
    size_t from = offsetof(struct thread, current_processor_queue) + sizeof w->threads->current_processor_queue;
    for (size_t i = 0; i < THREADS; i++)
        memset((uint8_t *)&w->threads[i] + from, 0, offsetof(struct thread, deadline) - from);
}

static void fill(void)
{
    memset(&before, 0x5a, sizeof before);
    for (size_t i = 0; i < THREADS; i++)
        before.threads[i] = (struct thread){
            number(), number(), number(), number(), number(), below(5), below(16),
            number() % 70 - 2, number() % 70 - 2, number() % 70 - 2, number(), number()};
    clear_padding(&before);
    for (size_t i = 0; i < sizeof before.cpus / 8; i++)
        (&before.cpus[0][0])[i] = number();
    for (size_t c = 0; c < CPUS; c++)
        before.cpus[c][DECLARED] = below(8) ? 1 : number();
    for (size_t i = 0; i < sizeof before.nodes / 8; i++)
        (&before.nodes[0][0])[i] = number();
}

static struct state any_state(void)
{
    return (struct state){number(), number(), number(), below(8) == 0, number(), below(8) != 0, below(4294967296), number()};
}

/* Mostly the bytes of a command. */
static size_t any_bytes(uint8_t *bytes)
{
    static const uint8_t kinds[] = {0x01, 0x02, 0x03, 0x04, 0x05, 0x10, 0x11, 0x12, 0x13, 0x14, 0x15, 0x16, 0x17, 0x18, 0x19, 0x1a};
    for (size_t i = 0; i < 16; i++)
        bytes[i] = below(4) ? below(5) : draw();
    bytes[0] = below(50) ? kinds[below(sizeof kinds)] : draw();
    return below(20) ? 16 : below(16);
}

static uint64_t row_digest(struct row r)
{
    return r.refusal + 3 * r.cpu.shown + 5 * r.cpu.number + 7 * r.running.shown + 11 * r.running.idle + 13 * r.running.thread +
           17 * r.load.shown + 19 * r.load.number + 23 * r.wakeups.shown + 29 * r.wakeups.number;
}

static void fences(const struct world *w)
{
    const uint8_t *all[] = {w->fence0, w->fence1, w->fence2, w->fence3, w->fence4};
    for (size_t k = 0; k < 5; k++)
        for (size_t i = 0; i < FENCE; i++)
            if (all[k][i] != 0x5a)
                fail("foreign: a byte outside the lent slices changed");
}

static uint64_t one_command(struct world *w, const size_t *lengths, const uint8_t *bytes, size_t count, struct state state)
{
    *w = before;
    struct step step = scheduler_command(w->threads, lengths[0], w->cpus, lengths[1], w->nodes, lengths[2], bytes, count, state);
    fences(w);
    if (step.row.refusal > 10)
        fail("foreign: a refusal past 10");
    if (step.row.refusal && memcmp(w, &before, sizeof before))
        fail("foreign: a refused call changed the lent memory");
    if (step.state.shortest != (bytes[0] == 0x05 && !step.row.refusal ? bytes[1] : state.shortest))
        fail("foreign: another shortest timeslice");
    return row_digest(step.row) + 31 * step.used + 37 * step.state.accepted + 41 * step.state.tick + 43 * step.state.shortest;
}

/* "is CPU 0 declared and every declared CPU placed?", of the CPUs below the limit and within the rows lent */
static bool may_seal(size_t rows, uint64_t limit)
{
    size_t c = limit < rows ? limit : rows;
    bool zero = false;
    while (c--) {
        if (before.cpus[c][DECLARED] && before.cpus[c][PLACED] == NONE)
            return false;
        zero = before.cpus[c][DECLARED];
    }
    return zero;
}

/* A seal on an open state: the questions 9 and 10. */
static bool one_seal(const size_t *lengths)
{
    struct state state = any_state();
    state.sealed = false;
    bool yes = may_seal(lengths[1], state.cpus);
    uint64_t refusal = !yes ? 9 : state.accepted >= 4294967295 ? 10 : 0;
    world = before;
    struct step step = scheduler_command(world.threads, lengths[0], world.cpus, lengths[1], world.nodes, lengths[2],
                                         (const uint8_t[]){0x04}, 1, state);
    fences(&world);
    if (step.row.refusal != refusal)
        fail("foreign: question 9 is answered otherwise");
    return yes;
}

static bool same_memory(struct world *a, struct world *b)
{
    clear_padding(a);
    clear_padding(b);
    return memcmp(a, b, sizeof *a) == 0;
}

/* 05 on an open state: the questions 6 and 10. */
static bool one_figure(const size_t *lengths)
{
    struct state state = any_state();
    uint8_t bytes[] = {0x05, below(4) ? below(40) : draw()};
    state.sealed = false;
    bool fits = bytes[1] >= 2 && bytes[1] <= 32;
    uint64_t refusal = !fits ? 6 : state.accepted >= 4294967295 ? 10 : 0;
    world = before;
    struct step step = scheduler_command(world.threads, lengths[0], world.cpus, lengths[1], world.nodes, lengths[2], bytes,
                                         sizeof bytes, state);
    fences(&world);
    if (step.row.refusal != refusal)
        fail("foreign: the range of the shortest timeslice is asked otherwise");
    if (step.state.shortest != (refusal ? state.shortest : bytes[1]) || step.state.sealed || !same_memory(&world, &before))
        fail("foreign: 05 changes something else");
    return fits;
}

static void one_feed(const size_t *lengths, const uint8_t *bytes, size_t count, struct state state)
{
    struct fed fed = {number(), number(), number(), number(), below(5), state};
    world = before;
    fed = scheduler_feed(world.threads, lengths[0], world.cpus, lengths[1], world.nodes, lengths[2], bytes, count, world.output,
                         lengths[3], number() % 40, below(2), fed);
    fences(&world);
}

static size_t length(size_t most)
{
    return below(4) ? most : below(most + 1);
}

int main(int argc, char **argv)
{
    uint64_t count = argc > 1 ? strtoull(argv[1], NULL, 10) : 0, obeyed = 0, sealed = 0, set = 0;
    seed = 88172645463325252 + (argc > 2 ? strtoull(argv[2], NULL, 10) : 0);
    if (!count)
        fail("usage: foreign COUNT [SEED]");
    for (uint64_t i = 0; i < count; i++) {
        uint8_t bytes[16];
        size_t lengths[] = {length(THREADS), length(CPUS), length(NODES), length(sizeof world.output)};
        fill();
        for (int k = 0; k < 20; k++) {
            struct state state = any_state();
            size_t n = any_bytes(bytes);
            uint64_t first = one_command(&world, lengths, bytes, n, state);
            if (first != one_command(&again, lengths, bytes, n, state) || !same_memory(&world, &again))
                fail("foreign: the same call answers otherwise");
            obeyed += !same_memory(&world, &before);
            one_feed(lengths, bytes, n, state);
            sealed += one_seal(lengths);
            set += one_figure(lengths);
        }
    }
    printf("foreign: %llu calls, %llu changed the lent memory, all came back; %llu asked question 9, %llu yes, and as many the "
           "shortest timeslice's range, %llu yes, each as documents 01 and 02 have it\n",
           (unsigned long long)(100 * count), (unsigned long long)obeyed, (unsigned long long)(20 * count),
           (unsigned long long)sealed, (unsigned long long)set);
    return 0;
}
