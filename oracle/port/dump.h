/* The shortest timeslice, and the state of all declared CPUs and threads, read off the lent memory, in the form of
 * oracle/README.md. */
#ifndef DUMP_H
#define DUMP_H

#include "scheduler.h"
#include "text.h"

void dump(struct text *, uint64_t shortest, const struct thread *, const cpu *);

#endif
