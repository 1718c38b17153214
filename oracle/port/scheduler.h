/* The static library libscheduler.a: crates/scheduler_c, the functions of crate `scheduler` for C. Nothing compares these declarations with
 * the Rattle source but the tests that link both. */
#ifndef SCHEDULER_H
#define SCHEDULER_H

#include <stdbool.h>
#include <stddef.h>
#include <stdint.h>

enum { THREADS = 1024, CPUS = 64, NODES = 128, CPU_WORDS = 96, NODE_WORDS = 32, LINE = 48 };

/* A link number that leads nowhere, and a CPU that runs its idle thread. */
#define NONE UINT64_MAX

/* The donated priority where there is none, and the flag that there is one. */
#define NO_DONATION UINT32_MAX
#define HAS_DONATED_PRIORITY 2

/* crates/thread: the record of one thread. */
enum place { UNDECLARED, BLOCKED, RUNNING, WAITING };

struct thread {
    uint64_t priority, donated_priority, stable_priority, flags, critical, place, next;
    int32_t last_cpu, pinned_cpu, current_processor_queue;
    uint64_t deadline, timeslice;
};

typedef uint64_t cpu[CPU_WORDS];
typedef uint64_t node[NODE_WORDS];

/* crates/processor: the words of a CPU. The eight first and eight last threads of the buckets of each part, the eight
 * timeshare counts, then single numbers. */
enum word {
    REALTIME = 0,
    PRIORITIES = 16,
    TIMESHARE = 24,
    IDLE = 40,
    REALTIME_COUNT = 56,
    TIMESHARE_COUNT,
    INSERT_IDX,
    TAKE_IDX,
    IDLE_COUNT,
    CURRENT_PRIORITY,
    LOAD,
    TIMESHARE_LOAD,
    MOVABLE,
    LAST_TICK,
    DECLARED = 72,
    PLACED,
    RUNS,
    OWN_PRIORITY,
    IS_IDLE,
    MUST_REBALANCE,
    PREEMPT,
    RAND_STATE,
    CUR_REBALANCE_TIME,
    IDLE_TIMESLICE
};

/* crates/questions: the state between calls. `shortest` is the shortest User timeslice, at the start 2; command hex 05 sets it. */
struct state {
    uint64_t cpus, nodes, shortest;
    bool wide;
    uint64_t tick;
    bool sealed;
    uint64_t accepted, node_count;
};

/* crates/scheduler: what a line shows behind its number. */
struct column {
    bool shown;
    uint64_t number;
};

struct runs {
    bool shown, idle;
    uint64_t thread;
};

struct row {
    uint64_t refusal;
    struct column cpu;
    struct runs running;
    struct column load, wakeups;
};

struct step {
    struct row row;
    size_t used;
    struct state state;
};

struct begun {
    bool ready;
    struct state state;
};

struct written {
    uint64_t refusal;
    size_t bytes;
};

/* crates/request: the operands of a command in the order of document 01's table, then 0. */
struct fields {
    uint64_t first, second, third, fourth;
};

/* crates/stream: how far a run is. */
enum phase { HEADER, COMMANDS, END, ENDED };

struct fed {
    size_t at, done;
    uint64_t number, refused, phase;
    struct state state;
};

/* Each slice is a pointer and a length. */
struct begun scheduler_start(struct thread *, size_t, cpu *, size_t, node *, size_t);
struct step scheduler_command(struct thread *, size_t, cpu *, size_t, node *, size_t, const uint8_t *, size_t, struct state);
struct written scheduler_render(uint8_t *, size_t, uint64_t number, struct row);
struct written scheduler_write(uint64_t byte, struct fields, bool wide, uint8_t *, size_t);
struct fed scheduler_begin(struct state);
struct fed scheduler_feed(struct thread *, size_t, cpu *, size_t, node *, size_t, const uint8_t *input, size_t,
                          uint8_t *output, size_t, size_t n, bool last, struct fed);

#endif
