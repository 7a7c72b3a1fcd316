/* Runs of a program on threads of this machine, one for each processor. */
#ifndef CAPTURE_RUNS_H
#define CAPTURE_RUNS_H

#include "code.h"
#include "outcomes.h"

enum { MAX_CPUS = 1024 };

struct settings {
    uint64_t iterations; /* of each program */
    uint64_t jitter;     /* a thread begins up to so many ticks of the time stamp late */
    uint64_t seed;       /* of the lateness */
    size_t stride;       /* bytes from one location to the next */
    enum variant variant;
    bool by_table;       /* a loop over a table in place of machine code */
    int cpus[MAX_CPUS];  /* where processors run, in turn */
    int cpu_count;
    double deadline;     /* of the monotonic clock, in seconds */
};

/* Seconds of the monotonic clock. */
double seconds_now(void);

/* Runs the program until all iterations are done or the deadline has come, and adds what was read each time. `number` makes
   the lateness of one program another than that of the next. NULL, or why it could not be run. */
const char *run_program(const struct program *program, const struct settings *settings, uint64_t number, struct outcomes *outcomes);

#endif
