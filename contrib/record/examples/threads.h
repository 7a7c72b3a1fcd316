/* What the examples share: threads that begin together, and a number from the command line. */
#ifndef EXAMPLES_THREADS_H
#define EXAMPLES_THREADS_H

#include "../record.h"

#include <pthread.h>
#include <sched.h>
#include <stdint.h>
#include <stdio.h>
#include <stdlib.h>

enum { MOST_THREADS = 16 };

static pthread_barrier_t together;
static void (*thread_work)(long thread);

/* A pause of a loop that waits: sometimes it lets another thread run, where threads are more than processors. */
static inline void rest(void) {
    static __thread unsigned rests;
    if (++rests % 64 == 0) sched_yield();
}

static void *begin_together(void *thread) {
    pthread_barrier_wait(&together);
    thread_work((long)(intptr_t)thread);
    return NULL;
}

/* How often the work is done: the first argument, or this. */
static long times_of(int count, char **words, long without) {
    long times = count > 1 ? strtol(words[1], NULL, 10) : without;
    if (times > 0) return times;
    fprintf(stderr, "usage: %s [TIMES]\n", words[0]);
    exit(2);
}

/* Records so many threads that do this. */
static void record_threads(long threads, void (*work)(long thread)) {
    pthread_t ids[MOST_THREADS];
    thread_work = work;
    if (pthread_barrier_init(&together, NULL, (unsigned)threads) != 0) exit(4);
    record_begin();
    for (long thread = 0; thread < threads; thread++)
        if (pthread_create(&ids[thread], NULL, begin_together, (void *)(intptr_t)thread) != 0) exit(4);
    for (long thread = 0; thread < threads; thread++) pthread_join(ids[thread], NULL);
}

#endif
