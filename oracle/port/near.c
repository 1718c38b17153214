/* near: calls of the static library from states set near the limits, which no stream of a sensible length reaches. The
 * numbers expected are document 01's; the sentence stands beside each test. Fails on the first that differs. */
#include "scheduler.h"
#include "text.h"

#include <stdio.h>
#include <string.h>

/* Everything that is lent. */
struct world {
    struct thread threads[THREADS];
    cpu cpus[CPUS];
    node nodes[NODES];
};

static struct world world;
static struct state state;
static unsigned checks;
/* how many rows of CPUs are lent */
static size_t lent_cpus = CPUS;

static void same(const char *what, uint64_t found, uint64_t expected)
{
    checks++;
    if (found != expected) {
        printf("%s: %llu and not %llu\n", what, (unsigned long long)found, (unsigned long long)expected);
        fail("near: a difference");
    }
}

/* The command's refusal; its state is the next call's. */
static uint64_t command(const uint8_t *bytes, size_t count)
{
    struct step step =
        scheduler_command(world.threads, THREADS, world.cpus, lent_cpus, world.nodes, NODES, bytes, count, state);
    state = step.state;
    return step.row.refusal;
}

#define COMMAND(...) command((const uint8_t[]){__VA_ARGS__}, sizeof(uint8_t[]){__VA_ARGS__})
#define OBEYED(...) same("obeyed", COMMAND(__VA_ARGS__), 0)

/* Padding is not compared. */
static bool same_state(struct state a, struct state b)
{
    return a.cpus == b.cpus && a.nodes == b.nodes && a.shortest == b.shortest && a.wide == b.wide && a.tick == b.tick &&
           a.sealed == b.sealed && a.accepted == b.accepted && a.node_count == b.node_count;
}

/* "A no gives the number, changes nothing". */
static void refused(const uint8_t *bytes, size_t count, uint64_t number)
{
    static struct world before;
    struct state then = state;
    memcpy(&before, &world, sizeof world);
    same("refusal", command(bytes, count), number);
    same("lent memory is kept", memcmp(&before, &world, sizeof world), 0);
    same("the state is kept", same_state(then, state), true);
}

#define REFUSED(number, ...) refused((const uint8_t[]){__VA_ARGS__}, sizeof(uint8_t[]){__VA_ARGS__}, number)

static void start(void)
{
    struct begun begun = scheduler_start(world.threads, THREADS, world.cpus, CPUS, world.nodes, NODES);
    same("ready", begun.ready, true);
    state = begun.state;
}

/* CPUs 0 and 1 on the root. */
static void placed(void)
{
    start();
    OBEYED(0x01, 0);
    OBEYED(0x01, 1);
    OBEYED(0x03, 0, 0);
    OBEYED(0x03, 0, 1);
}

/* Sealed, threads 7 (User 64) and 8 (Realtime 3) declared, the second one waiting. */
static void running(void)
{
    placed();
    OBEYED(0x04);
    OBEYED(0x10, 7, 0, 2, 64, 0xff);
    OBEYED(0x10, 8, 0, 3, 3, 0xff);
    OBEYED(0x12, 0, 8, 0);
}

/* Each command, and whether it comes before the seal. All are obeyed where `placed` or `running` leads. */
static const struct {
    bool before;
    size_t count;
    uint8_t bytes[9];
} COMMANDS_OBEYED[] = {
    {true, 2, {0x01, 63}},
    {true, 3, {0x02, 0, 0}},
    {true, 3, {0x03, 0, 2}},
    {true, 1, {0x04}},
    {true, 2, {0x05, 32}},
    {false, 6, {0x10, 0xff, 3, 3, 127, 1}},
    {false, 9, {0x11, 0, 0, 0, 0, 0, 0, 0, 0x40}},
    {false, 4, {0x12, 1, 7, 0}},
    {false, 3, {0x13, 0, 7}},
    {false, 2, {0x14, 0}},
    {false, 6, {0x15, 0, 0xff, 0xff, 0xff, 0xff}},
    {false, 2, {0x16, 1}},
    {false, 2, {0x17, 1}},
    {false, 6, {0x18, 0, 7, 0, 3, 127}},
    {false, 3, {0x19, 7, 0}},
    {false, 4, {0x1a, 7, 0, 1}},
};

enum { COMMANDS_COUNT = sizeof COMMANDS_OBEYED / sizeof *COMMANDS_OBEYED };

static void before_command(size_t i)
{
    if (!COMMANDS_OBEYED[i].before) {
        running();
        return;
    }
    if (COMMANDS_OBEYED[i].bytes[0] == 0x02) {
        start();
        return;
    }
    placed();
    if (COMMANDS_OBEYED[i].bytes[0] == 0x03)
        OBEYED(0x01, 2);
}

/* "Have fewer than 4,294,967,295 commands been accepted? 10" */
static void accepted(void)
{
    for (size_t i = 0; i < COMMANDS_COUNT; i++) {
        before_command(i);
        state.accepted = 4294967294;
        same("the last that is accepted", command(COMMANDS_OBEYED[i].bytes, COMMANDS_OBEYED[i].count), 0);
        same("accepted", state.accepted, 4294967295);
        before_command(i);
        state.accepted = 4294967295;
        refused(COMMANDS_OBEYED[i].bytes, COMMANDS_OBEYED[i].count, 10);
    }
}

/* "Questions put to each command, in order": 10 is the last, so every other no comes first. */
static void order(void)
{
    running();
    state.accepted = 4294967295;
    REFUSED(1, 0x00);
    REFUSED(1, 0x08);
    REFUSED(1, 0x1b);
    refused(NULL, 0, 1);
    REFUSED(2, 0x12, 0, 7);
    REFUSED(2, 0x05);
    REFUSED(3, 0x01, 2);
    REFUSED(3, 0x05, 2);
    REFUSED(3, 0x05, 33);
    REFUSED(4, 0x14, 2);
    REFUSED(4, 0x10, 9, 0, 2, 64, 2);
    REFUSED(5, 0x12, 0, 9, 0);
    REFUSED(5, 0x10, 0, 4, 2, 64, 0xff);
    REFUSED(5, 0x10, 7, 0, 2, 64, 0xff);
    REFUSED(6, 0x10, 9, 0, 4, 64, 0xff);
    REFUSED(6, 0x10, 9, 0, 2, 128, 0xff);
    REFUSED(6, 0x13, 0, 8);
    REFUSED(6, 0x1a, 7, 0, 2);
    REFUSED(7, 0x12, 0, 8, 0);
    REFUSED(8, 0x11, 1, 0, 0, 0, 0, 0, 0, 0x40);
    start();
    OBEYED(0x01, 0);
    state.accepted = 4294967295;
    REFUSED(9, 0x04);
    REFUSED(2, 0x05);
    REFUSED(6, 0x05, 1);
    REFUSED(6, 0x05, 33);
}

static uint8_t output[4096];

/* These bytes as the last block of a run that has come to this number, with so many refused earlier, give this text. */
static struct fed fed_from(uint64_t number, uint64_t earlier, const uint8_t *bytes, size_t count, const char *text)
{
    struct fed fed = scheduler_begin(state);
    fed.phase = COMMANDS;
    fed.number = number;
    fed.refused = earlier;
    fed = scheduler_feed(world.threads, THREADS, world.cpus, CPUS, world.nodes, NODES, bytes, count, output, sizeof output,
                         count, true, fed);
    same("bytes of output", fed.done, strlen(text));
    same("the output", memcmp(output, text, strlen(text)), 0);
    same("ended", fed.phase, ENDED);
    return fed;
}

/* "Refusals 1 and 2 end the run, as does command number 4,294,967,294." "`end`, commands read (refused ones and the one
 * that ends the run included), refused." */
static void last_number(void)
{
    static const uint8_t ticks[] = {0x11, 1, 0, 0, 0, 0, 0, 0, 0, 0x11, 2, 0, 0, 0, 0, 0, 0, 0, 0x11, 3, 0, 0, 0, 0, 0, 0, 0};
    running();
    struct fed fed = fed_from(4294967293, 5, ticks, sizeof ticks,
                              "4294967293 0 - - - -\n4294967294 0 - - - -\nend 4294967295 5\n");
    same("the third is not obeyed", fed.state.tick, 2);
    running();
    fed = fed_from(4294967292, 5, ticks, 2 * 9, "4294967292 0 - - - -\n4294967293 0 - - - -\nend 4294967294 5\n");
    same("the second is obeyed", fed.state.tick, 2);
    static const uint8_t refusals[] = {0x01, 0, 0x14, 0};
    running();
    fed_from(4294967294, 5, refusals, sizeof refusals, "4294967294 3 - - - -\nend 4294967295 6\n");
    static const uint8_t unknown[] = {0xee, 0x14, 0};
    running();
    fed_from(4294967290, 0, unknown, sizeof unknown, "4294967290 1 - - - -\nend 4294967291 1\n");
    running();
    fed_from(4294967290, 0, ticks, 8, "4294967290 2 - - - -\nend 4294967291 1\n");
}

/* "For 11: is the tick not below the last and at most 2^62? 8" */
static void ticks(void)
{
    running();
    REFUSED(8, 0x11, 1, 0, 0, 0, 0, 0, 0, 0x40);
    REFUSED(8, 0x11, 0xff, 0xff, 0xff, 0xff, 0xff, 0xff, 0xff, 0xff);
    OBEYED(0x11, 0, 0, 0, 0, 0, 0, 0, 0x40);
    same("2^62", state.tick, 4611686018427387904);
    OBEYED(0x11, 0, 0, 0, 0, 0, 0, 0, 0x40);
    REFUSED(8, 0x11, 0xff, 0xff, 0xff, 0xff, 0xff, 0xff, 0xff, 0x3f);
}

/* "a state of 0 is replaced by the CPU number. The state is multiplied by 69069 and 5 is added, both modulo 2^32". The state
 * 3,264,396,519 is followed by 0: 69069 * 3,264,396,519 + 5 = 52,496 * 2^32. A thread that never ran, woken while both CPUs
 * idle, draws once for each. */
static void draws(void)
{
    static const uint64_t after[] = {5, 69074};
    for (uint8_t c = 0; c < 2; c++) {
        placed();
        OBEYED(0x04);
        OBEYED(0x10, 7, 0, 2, 64, 0xff);
        world.cpus[c][RAND_STATE] = 3264396519;
        OBEYED(0x12, c, 7, 0);
        same("the draw after 0", world.cpus[c][RAND_STATE], after[c]);
    }
}

/* "For 04: is CPU 0 declared and every declared CPU placed? 9", of the CPUs below the limit and within the rows lent. A word
 * may be any number. */
static void seals(void)
{
    enum { MOST = 2 };
    static const struct {
        uint64_t limit;
        size_t rows;
        struct {
            uint64_t cpu, declared, placed;
        } words[MOST];
        uint64_t refusal;
    } cases[] = {
        {64, CPUS, {{0}}, 9},                                 /* no CPU at all */
        {64, CPUS, {{0, 1, 0}}, 0},                           /* CPU 0 alone, placed */
        {64, CPUS, {{0, 1, NONE}}, 9},                        /* CPU 0 alone, unplaced */
        {64, CPUS, {{1, 1, 0}}, 9},                           /* CPU 1 without CPU 0 */
        {64, CPUS, {{0, 1, 0}, {63, 1, NONE}}, 9},            /* CPU 63 unplaced */
        {64, CPUS, {{0, 1, 0}, {63, 1, 0}}, 0},               /* CPU 63 placed, those between are not declared */
        {64, CPUS, {{0, 1, 0}, {32, 1, NONE}}, 9},            /* CPU 32 unplaced */
        {64, CPUS, {{0, 1, NONE}, {63, 1, 0}}, 9},            /* CPU 0 unplaced, a later one placed */
        {64, CPUS, {{63, 1, 0}}, 9},                          /* CPU 63 without CPU 0 */
        {64, CPUS, {{0, UINT64_MAX, NONE - 1}}, 0},           /* any number but 0 is declared, any but NONE is placed */
        {0, CPUS, {{0, 1, 0}}, 9},                            /* no CPU is below the limit */
        {1, CPUS, {{0, 1, 0}, {1, 1, NONE}}, 0},              /* CPU 1 is not */
        {2, CPUS, {{0, 1, 0}, {1, 1, NONE}}, 9},              /* CPU 1 is */
        {63, CPUS, {{0, 1, 0}, {63, 1, NONE}}, 0},            /* CPU 63 is not */
        {1024, CPUS, {{0, 1, 0}, {63, 1, 0}}, 0},             /* past the rows no CPU is declared */
        {1024, CPUS, {{0, 1, 0}, {63, 1, NONE}}, 9},          /* CPU 63 is within the rows */
        {1024, CPUS - 1, {{0, 1, 0}, {63, 1, NONE}}, 0},      /* CPU 63 is past the rows */
        {UINT64_MAX, CPUS, {{0, 1, 0}, {63, 1, 0}}, 0},       /* and the walk ends */
        {UINT64_MAX, 1, {{0, 1, 0}, {1, 1, NONE}}, 0},        /* one row */
        {UINT64_MAX, 0, {{0, 1, 0}}, 9},                      /* no row, no CPU 0 */
    };
    for (size_t i = 0; i < sizeof cases / sizeof *cases; i++) {
        start();
        for (size_t k = 0; k < MOST; k++) {
            if (!cases[i].words[k].declared)
                continue;
            world.cpus[cases[i].words[k].cpu][DECLARED] = cases[i].words[k].declared;
            world.cpus[cases[i].words[k].cpu][PLACED] = cases[i].words[k].placed;
        }
        state.cpus = cases[i].limit;
        lent_cpus = cases[i].rows;
        if (cases[i].refusal)
            REFUSED(cases[i].refusal, 0x04);
        else
            OBEYED(0x04);
        same("sealed", state.sealed, cases[i].refusal == 0);
        lent_cpus = CPUS;
    }
}

/* "New command hex 05 before the seal, operand 1 byte, sets the shortest User timeslice to 2 to 32; unset it is 2, the last one
 * given holds." "The range is part of the sixth question." Nothing else of the state changes, and nothing that is lent. */
static void figures(void)
{
    static struct world before;
    start();
    same("unset", state.shortest, 2);
    for (unsigned figure = 0; figure < 256; figure++) {
        struct state then = state;
        if (figure < 2 || figure > 32) {
            REFUSED(6, 0x05, figure);
            continue;
        }
        memcpy(&before, &world, sizeof world);
        OBEYED(0x05, figure);
        then.shortest = figure;
        then.accepted++;
        same("set, and nothing else", same_state(then, state), true);
        same("lent memory is kept", memcmp(&before, &world, sizeof world), 0);
    }
    REFUSED(2, 0x05);
    same("the last one given holds", state.shortest, 32);
    OBEYED(0x05, 2);
    same("also where it is less", state.shortest, 2);
    running();
    for (unsigned figure = 0; figure < 256; figure++)
        REFUSED(3, 0x05, figure);
    REFUSED(2, 0x05);
}

/* "User timeslice: 100 at timeshare load 0, else 32 / load rounded down, at least" the shortest one. */
static uint64_t timeslice(uint64_t shortest, uint64_t load)
{
    if (!load)
        return 100;
    return 32 / load < shortest ? shortest : 32 / load;
}

/* CPU 0 runs thread 0, which has paid one tick, and a hard tick comes after so many more. */
static void pays(uint64_t ticks, uint64_t paid, uint64_t expired)
{
    world.cpus[0][LAST_TICK] = 0;
    world.cpus[0][PREEMPT] = 0;
    world.threads[0].timeslice = 1;
    state.tick = ticks;
    OBEYED(0x14, 0);
    same("paid", world.threads[0].timeslice, paid);
    same("expired", world.cpus[0][PREEMPT], expired);
}

/* "Deadlines and hard ticks use the new figure", the first and last ones, some between, and those of states that nobody made:
 * sums and products are taken modulo 2^64, and what is paid modulo 2^32. The thread that runs is critical, so that a hard tick
 * marks nothing unless the timeslice expires. */
static void timeslices(void)
{
    static const uint64_t shortest[] = {2, 3, 8, 10, 31, 32, 0, 1, 33, 100, 101, 4294967295, 4294967296, 1ull << 63, UINT64_MAX};
    enum { WAITING_MOST = 42 };
    for (size_t i = 0; i < sizeof shortest / sizeof *shortest; i++) {
        start();
        OBEYED(0x01, 0);
        OBEYED(0x03, 0, 0);
        OBEYED(0x04);
        state.shortest = shortest[i];
        OBEYED(0x10, 0, 0, 2, 64, 0xff);
        OBEYED(0x12, 0, 0, 0);
        OBEYED(0x13, 0, 0);
        OBEYED(0x1a, 0, 0, 1);
        same("runs", world.cpus[0][RUNS], 0);
        for (uint8_t thread = 1; thread <= WAITING_MOST; thread++) {
            uint64_t load = world.cpus[0][LOAD], slice = timeslice(shortest[i], world.cpus[0][TIMESHARE_LOAD]);
            state.tick = 5;
            OBEYED(0x10, thread, 0, 2, 64, 0xff);
            OBEYED(0x12, 0, thread, 0);
            same("deadline", world.threads[thread].deadline, 5 + slice * load);
            uint64_t allowed = timeslice(shortest[i], world.cpus[0][TIMESHARE_LOAD]);
            if (allowed >= 2)
                pays(allowed - 2, (uint32_t)(allowed - 1), 0);
            if (allowed >= 1)
                pays(allowed - 1, 0, 1);
            if (allowed < UINT64_MAX)
                pays(allowed, 0, 1);
        }
        same("kept", state.shortest, shortest[i]);
    }
}

/* "has the lent buffer at least 48 bytes? 11 (Bytes past a rendered line keep their content.)" */
static void lines(void)
{
    struct row row = {.cpu = {true, 63}, .running = {true, true, 0}, .load = {true, 1024}, .wakeups = {true, 2}};
    static const char text[] = "4294967294 0 63 idle 1024 2\n";
    uint8_t buffer[64];
    memset(buffer, 0xaa, sizeof buffer);
    struct written written = scheduler_render(buffer, 47, 4294967294, row);
    same("refusal", written.refusal, 11);
    same("no bytes", written.bytes, 0);
    for (size_t i = 0; i < sizeof buffer; i++)
        same("kept", buffer[i], 0xaa);
    written = scheduler_render(buffer, 48, 4294967294, row);
    same("refusal", written.refusal, 0);
    same("bytes", written.bytes, strlen(text));
    same("the line", memcmp(buffer, text, strlen(text)), 0);
    for (size_t i = strlen(text); i < sizeof buffer; i++)
        same("kept", buffer[i], 0xaa);
    row = (struct row){.refusal = 10};
    written = scheduler_render(buffer, 48, 0, row);
    same("a refusal's line", memcmp(buffer, "0 10 - - - -\n", written.bytes), 0);
    same("its bytes", written.bytes, 13);
}

/* The start with a slice that is too short changes nothing. */
static void no_room(void)
{
    static struct world before;
    memset(&world, 0x55, sizeof world);
    before = world;
    for (int i = 0; i < 3; i++) {
        struct begun begun =
            scheduler_start(world.threads, THREADS - (i == 0), world.cpus, CPUS - (i == 1), world.nodes, NODES - (i == 2));
        same("no room", begun.ready, false);
        same("lent memory is kept", memcmp(&before, &world, sizeof world), 0);
    }
}

int main(void)
{
    no_room();
    accepted();
    order();
    last_number();
    ticks();
    draws();
    seals();
    figures();
    timeslices();
    lines();
    printf("near: %u checks, no difference\n", checks);
    return 0;
}
