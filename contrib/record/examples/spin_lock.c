/* A spin lock guards two counters, which are equal whenever it is free: by test-and-set, or with -DTEST_FIRST by
   test-and-test-and-set. */
#include "threads.h"

#include <stdatomic.h>

enum { THREADS = 4 };

static atomic_int lock;
static atomic_long first, second;
static long times, unequal[THREADS];

static void take(void) {
    for (;;) {
#ifdef TEST_FIRST
        while (atomic_load_explicit(&lock, memory_order_relaxed)) rest();
#endif
        if (!atomic_exchange_explicit(&lock, 1, memory_order_acquire)) return;
        rest();
    }
}

static void give_back(void) { atomic_store_explicit(&lock, 0, memory_order_release); }

static void work(long thread) {
    for (long i = 0; i < times; i++) {
        take();
        long value = atomic_load_explicit(&first, memory_order_relaxed);
        unequal[thread] += value != atomic_load_explicit(&second, memory_order_relaxed);
        atomic_store_explicit(&first, value + 1, memory_order_relaxed);
        atomic_store_explicit(&second, value + 1, memory_order_relaxed);
        give_back();
    }
}

int main(int count, char **words) {
    times = times_of(count, words, 1000);
    record_threads(THREADS, work);
    printf("missing %ld unequal %ld\n", THREADS * times - atomic_load(&first), unequal[0] + unequal[1] + unequal[2] + unequal[3]);
    return 0;
}
