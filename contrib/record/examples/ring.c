/* Two rings hand numbers from one thread to another and back. */
#include "threads.h"

#include <stdatomic.h>

enum { SLOTS = 8 };

struct ring {
    _Alignas(64) atomic_uint put;
    _Alignas(64) atomic_uint taken;
    _Alignas(64) atomic_long slots[SLOTS];
};

static struct ring there, back;
static long times, wrong;

static void put(struct ring *ring, long value) {
    unsigned at = atomic_load_explicit(&ring->put, memory_order_relaxed);
    while (at - atomic_load_explicit(&ring->taken, memory_order_acquire) == SLOTS) rest();
    atomic_store_explicit(&ring->slots[at % SLOTS], value, memory_order_relaxed);
    atomic_store_explicit(&ring->put, at + 1, memory_order_release);
}

static long take(struct ring *ring) {
    unsigned at = atomic_load_explicit(&ring->taken, memory_order_relaxed);
    while (atomic_load_explicit(&ring->put, memory_order_acquire) == at) rest();
    long value = atomic_load_explicit(&ring->slots[at % SLOTS], memory_order_relaxed);
    atomic_store_explicit(&ring->taken, at + 1, memory_order_release);
    return value;
}

static void work(long thread) {
    for (long i = 1; i <= times; i++) {
        if (thread == 0) {
            put(&there, i);
            if (i > SLOTS) wrong += take(&back) != i - SLOTS;
        } else {
            put(&back, take(&there));
        }
    }
}

int main(int count, char **words) {
    times = times_of(count, words, 3000);
    record_threads(2, work);
    printf("wrong %ld\n", wrong);
    return 0;
}
