#include "dump.h"

static void pair(struct text *out, const char *name, uint64_t number)
{
    text_word(out, name);
    text_number(out, number);
}

/* The threads of one bucket, front to back by their links. Answers how many. */
static uint64_t bucket(struct text *out, const struct thread *threads, uint64_t first, uint64_t last)
{
    uint64_t count = 0, before = NONE;
    for (uint64_t x = first; x != NONE; x = threads[x].next) {
        if (x >= THREADS)
            fail("a link leads to no record");
        if (count++ == THREADS)
            fail("the links of a bucket go round");
        if (before != NONE)
            text_word(out, ",");
        text_number(out, x);
        before = x;
    }
    if (before != NONE && before != last)
        fail("the last of a bucket is not where its links end");
    return count;
}

/* The eight buckets of a part, which hold as many threads as its counter says. */
static void part(struct text *out, const char *name, const struct thread *threads, const uint64_t *words, uint64_t says)
{
    uint64_t count = 0;
    text_word(out, name);
    for (int i = 0; i < 8; i++) {
        if (i)
            text_word(out, ";");
        count += bucket(out, threads, words[i], words[8 + i]);
    }
    text_word(out, "]");
    if (count != says)
        fail("the counter of a part is not the number of its threads");
}

/* The words of a CPU that are shown as they are, in their order. */
static const struct {
    const char *name;
    size_t word;
} columns[] = {
    {" load ", LOAD},        {" ts ", TIMESHARE_LOAD},    {" mov ", MOVABLE},    {" pri ", CURRENT_PRIORITY}, {" cpri ", OWN_PRIORITY},
    {" idle ", IS_IDLE},     {" reb ", MUST_REBALANCE},   {" pre ", PREEMPT},    {" seed ", RAND_STATE},      {" bal ", CUR_REBALANCE_TIME},
    {" last ", LAST_TICK},   {" ins ", INSERT_IDX},       {" take ", TAKE_IDX},
};

static void dump_cpu(struct text *out, uint64_t number, const struct thread *threads, const uint64_t *words)
{
    pair(out, "c ", number);
    text_word(out, " run ");
    if (words[RUNS] == NONE)
        text_word(out, "idle");
    else
        text_number(out, words[RUNS]);
    for (size_t i = 0; i < sizeof columns / sizeof *columns; i++)
        pair(out, columns[i].name, words[columns[i].word]);
    part(out, " rt [", threads, words + REALTIME, words[REALTIME_COUNT]);
    part(out, " tsq [", threads, words + TIMESHARE, words[TIMESHARE_COUNT]);
    part(out, " il [", threads, words + IDLE, words[IDLE_COUNT]);
    for (int i = 0; i < 8; i++)
        pair(out, i ? "," : " pr [", words[PRIORITIES + i]);
    pair(out, "] isl ", words[IDLE_TIMESLICE]);
    text_word(out, "\n");
}

static void dump_thread(struct text *out, uint64_t number, const struct thread *thread)
{
    static const char *const places[] = {[BLOCKED] = "blocked", [RUNNING] = "running", [WAITING] = "queued"};
    pair(out, "t ", number);
    text_word(out, " st ");
    text_word(out, places[thread->place]);
    pair(out, " own ", thread->priority);
    if (((thread->flags & HAS_DONATED_PRIORITY) == 0) != (thread->donated_priority == NO_DONATION))
        fail("the flag of a donation does not tell whether there is one");
    if (thread->donated_priority == NO_DONATION)
        text_word(out, " don -");
    else
        pair(out, " don ", thread->donated_priority);
    pair(out, " stab ", thread->stable_priority);
    pair(out, " crit ", thread->critical);
    text_word(out, " pin ");
    text_signed(out, thread->pinned_cpu);
    text_word(out, " lastcpu ");
    text_signed(out, thread->last_cpu);
    text_word(out, " qcpu ");
    text_signed(out, thread->current_processor_queue);
    pair(out, " dl ", thread->deadline);
    pair(out, " slice ", thread->timeslice);
    text_word(out, "\n");
}

void dump(struct text *out, uint64_t shortest, const struct thread *threads, const cpu *cpus)
{
    pair(out, "s shortest ", shortest);
    text_word(out, "\n");
    for (uint64_t c = 0; c < CPUS; c++)
        if (cpus[c][DECLARED] == 1)
            dump_cpu(out, c, threads, cpus[c]);
    for (uint64_t x = 0; x < THREADS; x++)
        if (threads[x].place >= BLOCKED && threads[x].place <= WAITING)
            dump_thread(out, x, &threads[x]);
}
