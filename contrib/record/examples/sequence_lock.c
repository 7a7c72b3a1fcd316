/* A sequence lock: a writer makes the sequence odd while it changes two words, and readers take them only where the sequence was
   even and has not changed. */
#include "threads.h"

#include <stdatomic.h>

enum { THREADS = 4 };

static atomic_uint sequence;
static atomic_long first, second;
static long times, torn[THREADS], taken[THREADS];

static void write_both(long value) {
    unsigned now = atomic_load_explicit(&sequence, memory_order_relaxed);
    atomic_store_explicit(&sequence, now + 1, memory_order_relaxed);
    atomic_thread_fence(memory_order_release);
    atomic_store_explicit(&first, value, memory_order_relaxed);
    atomic_store_explicit(&second, value, memory_order_relaxed);
    atomic_store_explicit(&sequence, now + 2, memory_order_release);
}

static void read_both(long reader) {
    unsigned before = atomic_load_explicit(&sequence, memory_order_acquire);
    long one = atomic_load_explicit(&first, memory_order_relaxed), other = atomic_load_explicit(&second, memory_order_relaxed);
    atomic_thread_fence(memory_order_acquire);
    if (before % 2 || atomic_load_explicit(&sequence, memory_order_relaxed) != before) return;
    taken[reader]++;
    torn[reader] += one != other;
}

static void work(long thread) {
    for (long i = 1; i <= times; i++) {
        if (thread == 0) write_both(i);
        else read_both(thread);
        rest();
    }
}

int main(int count, char **words) {
    times = times_of(count, words, 4000);
    record_threads(THREADS, work);
    printf("taken %ld torn %ld\n", taken[1] + taken[2] + taken[3], torn[1] + torn[2] + torn[3]);
    return 0;
}
