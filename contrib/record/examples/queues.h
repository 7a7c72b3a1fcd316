/* What the examples in C++ do: two threads put numbers into a queue, and two take them out. */
#ifndef EXAMPLES_QUEUES_H
#define EXAMPLES_QUEUES_H

#include "threads.h"

#include <atomic>

static long queue_times;
/* Each thread's own, as nothing but the queue shall be on record. */
static long queue_sums[MOST_THREADS], queue_taken[MOST_THREADS];

/* Runs threads of which the first half puts and the others take, and says whether everything came out. */
template <class Put, class Take> static int try_queue(int count, char **words, long threads, Put put, Take take) {
    static Put put_one = put;
    static Take take_one = take;
    static long half = threads / 2;
    queue_times = times_of(count, words, 1000);
    record_threads(threads, [](long thread) {
        for (long i = 1; i <= queue_times; i++) {
            if (thread < half) {
                while (!put_one(thread * queue_times + i)) rest();
            } else {
                long value;
                while (!take_one(value)) rest();
                queue_sums[thread] += value;
                queue_taken[thread]++;
            }
        }
    });
    long taken = 0, sum = 0, all = half * queue_times;
    for (long thread = 0; thread < threads; thread++) taken += queue_taken[thread], sum += queue_sums[thread];
    printf("taken %ld sum missing %ld\n", taken, all * (all + 1) / 2 - sum);
    return 0;
}

#endif
